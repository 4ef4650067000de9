/* Clerks that put subscribers, each one behind another, on a connection of its own.
 *
 *     clerks_clients PORT CLERKS MILLISECONDS FIRST
 *
 * prints how many PUTs were answered 200, and how many microseconds of processor the clerks took for each. One process has all clerks, so that the office is
 * never without one that waits, and its disk never without a change. The clerk N begins with the subscriber FIRST + N * 100,000. */
#include <arpa/inet.h>
#include <fcntl.h>
#include <netinet/in.h>
#include <stdio.h>
#include <stdlib.h>
#include <string.h>
#include <sys/epoll.h>
#include <sys/socket.h>
#include <time.h>
#include <unistd.h>

enum { MOST_CLERKS = 256, SUBSCRIBERS = 100000 };

struct clerk {
    int socket;
    long next;
    int is_done;
};

static struct sockaddr_in office;

static double seconds(clockid_t clock) {
    struct timespec now;
    clock_gettime(clock, &now);
    return now.tv_sec + now.tv_nsec / 1e9;
}

/* Begins a PUT: the connection stands at once over loopback, and takes a request whole. */
static int ask(int set, struct clerk *clerk, long first) {
    char body[64], text[256];
    int socket_of = socket(AF_INET, SOCK_STREAM, 0);
    if (socket_of < 0 || connect(socket_of, (const struct sockaddr *)&office, sizeof office) != 0) return -1;
    int size = snprintf(body, sizeof body, "{\"active\":true,\"cpes\":2,\"name\":\"Ann %ld\"}", clerk->next);
    int count = snprintf(text, sizeof text, "PUT /subscribers/%ld HTTP/1.1\r\nHost: office\r\nContent-Length: %d\r\n\r\n%s", first + clerk->next % SUBSCRIBERS, size, body);
    if (send(socket_of, text, count, 0) != count) return -1;
    struct epoll_event wanted = {.events = EPOLLIN, .data.ptr = clerk};
    clerk->socket = socket_of;
    clerk->is_done = 0;
    clerk->next++;
    return epoll_ctl(set, EPOLL_CTL_ADD, socket_of, &wanted);
}

int main(int argc, char **argv) {
    if (argc != 5) return 2;
    office = (struct sockaddr_in){.sin_family = AF_INET, .sin_port = htons(atoi(argv[1])), .sin_addr.s_addr = htonl(INADDR_LOOPBACK)};
    static struct clerk clerks[MOST_CLERKS];
    int count = atoi(argv[2]), set = epoll_create1(0);
    long first = atol(argv[4]), done = 0;
    if (count < 1 || count > MOST_CLERKS) return 2;
    double until = seconds(CLOCK_MONOTONIC) + atoi(argv[3]) / 1e3;
    for (int i = 0; i < count; i++)
        if (ask(set, &clerks[i], first + (long)i * SUBSCRIBERS) != 0) return 1;
    while (seconds(CLOCK_MONOTONIC) < until) {
        struct epoll_event ready[MOST_CLERKS];
        int some = epoll_wait(set, ready, MOST_CLERKS, 1000);
        for (int i = 0; i < some; i++) {
            struct clerk *clerk = ready[i].data.ptr;
            char answer[1024];
            long got = recv(clerk->socket, answer, sizeof answer, 0);
            if (got > 12 && memcmp(answer + 8, " 200 ", 5) == 0) clerk->is_done = 1;
            if (got > 0) continue;
            if (!clerk->is_done) return 1;
            close(clerk->socket);
            done++;
            if (ask(set, clerk, first + (clerk - clerks) * (long)SUBSCRIBERS) != 0) return 1;
        }
        if (some <= 0) return 1;
    }
    printf("%ld %.1f\n", done, seconds(CLOCK_PROCESS_CPUTIME_ID) / (done ? done : 1) * 1e6);
    return 0;
}
