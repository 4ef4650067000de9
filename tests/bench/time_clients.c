/* Clients that ask for the time by UDP (RFC 868), each again as soon as it has its answer.
 *
 *     time_clients ADDRESS PORT CLIENTS MILLISECONDS
 *
 * prints how many answers of four bytes came. The clients are shared out among three processes at most, so that the server is the slowest part. */
#include <arpa/inet.h>
#include <poll.h>
#include <stdio.h>
#include <stdlib.h>
#include <sys/epoll.h>
#include <sys/socket.h>
#include <sys/wait.h>
#include <time.h>
#include <unistd.h>

/* Four bytes, so that an echo's answer is as long as the time's. */
static const char QUESTION[4] = "time";

static double seconds(void) {
    struct timespec now;
    clock_gettime(CLOCK_MONOTONIC, &now);
    return now.tv_sec + now.tv_nsec / 1e9;
}

static long ask(const struct sockaddr_in *server, int clients, double until) {
    int set = epoll_create1(0);
    int sockets[1024];
    long answers = 0;
    char answer[64];
    for (int i = 0; i < clients; i++) {
        struct epoll_event wanted = {.events = EPOLLIN, .data.fd = sockets[i] = socket(AF_INET, SOCK_DGRAM, 0)};
        connect(sockets[i], (const struct sockaddr *)server, sizeof *server);
        epoll_ctl(set, EPOLL_CTL_ADD, sockets[i], &wanted);
        send(sockets[i], QUESTION, sizeof QUESTION, 0);
    }
    while (seconds() < until) {
        struct epoll_event ready[64];
        int count = clients == 1 ? 1 : epoll_wait(set, ready, 64, 200);
        if (clients == 1) {
            struct timeval patience = {0, 200000};
            setsockopt(sockets[0], SOL_SOCKET, SO_RCVTIMEO, &patience, sizeof patience);
            for (int i = 0; i < 64; i++) {
                if (recv(sockets[0], answer, sizeof answer, 0) == 4) answers++;
                send(sockets[0], QUESTION, sizeof QUESTION, 0);
            }
            continue;
        }
        for (int i = 0; i < count; i++) {
            if (recv(ready[i].data.fd, answer, sizeof answer, MSG_DONTWAIT) == 4) answers++;
            send(ready[i].data.fd, QUESTION, sizeof QUESTION, 0);
        }
        if (count == 0)
            for (int i = 0; i < clients; i++) send(sockets[i], QUESTION, sizeof QUESTION, 0);
    }
    return answers;
}

int main(int argc, char **argv) {
    if (argc != 5) return 2;
    struct sockaddr_in server = {.sin_family = AF_INET, .sin_port = htons(atoi(argv[2]))};
    inet_pton(AF_INET, argv[1], &server.sin_addr);
    int clients = atoi(argv[3]), parts = clients < 3 ? clients : 3;
    double until = seconds() + atoi(argv[4]) / 1e3;
    int ends[2];
    if (pipe(ends) != 0) return 2;
    for (int part = 0; part < parts; part++)
        if (fork() == 0) {
            long answers = ask(&server, clients / parts + (part < clients % parts), until);
            return write(ends[1], &answers, sizeof answers) != sizeof answers;
        }
    long sum = 0, answers;
    for (int part = 0; part < parts; part++)
        if (read(ends[0], &answers, sizeof answers) == sizeof answers) sum += answers;
    while (wait(NULL) > 0) {
    }
    printf("%ld\n", sum);
    return 0;
}
