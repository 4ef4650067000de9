/* Modems that read their files over TFTP from loopback, each again as soon as it has its file; and what is measured beside them.
 *
 *     transfers_clients read NAMES FIRST COUNT OUTSTANDING SERVER SIZE LENGTH MS      files that modems FIRST .. read, so many at a time
 *         prints: files, seconds, packets sent again, wrong files, and the median and the 99th percentile of a file's milliseconds
 *     transfers_clients bare SERVER SIZE LENGTH                                       a server that keeps nothing: an OACK for a request, a block for a number
 *
 * NAMES has a line for each modem: its address, and the name of its file. SERVER is an address; its port is 69. Blocks have SIZE bytes (RFC 2348), and a file
 * has LENGTH. The modems are shared out among three processes at most, so that the server is the slowest part. */
#define _GNU_SOURCE
#include <arpa/inet.h>
#include <stdio.h>
#include <stdlib.h>
#include <string.h>
#include <sys/epoll.h>
#include <sys/mman.h>
#include <sys/socket.h>
#include <sys/wait.h>
#include <time.h>
#include <unistd.h>

enum { READ = 1, DATA = 3, ACKNOWLEDGEMENT = 4, OACK = 6, TFTP_PORT = 69, MOST_MODEMS = 1024, MOST_FILES = 1 << 18, LARGEST = 8192 };
static const double PATIENCE = 1;

struct plan {
    int outstanding, size, first, count;
    long length;
    double seconds;
    struct sockaddr_in server;
};

/* A modem. While it reads, `got` counts bytes, `number` is the last block's, and `last` is what it sent last, to where. */
struct modem {
    char address[16], name[64];
    int socket, is_reading, number, length;
    long got;
    double began, sent;
    struct sockaddr_in to;
    unsigned char last[128];
};

/* What a process did; `times` are a file's milliseconds. */
struct told {
    long done, again, wrong;
    double end;
    double times[MOST_FILES];
};

static struct modem modems[MOST_MODEMS];

static double seconds(void) {
    struct timespec now;
    clock_gettime(CLOCK_MONOTONIC, &now);
    return now.tv_sec + now.tv_nsec / 1e9;
}

static struct sockaddr_in at(const char *address, int port) {
    struct sockaddr_in made = {.sin_family = AF_INET, .sin_port = htons(port)};
    if (inet_pton(AF_INET, address, &made.sin_addr) != 1) exit(2);
    return made;
}

static void say(struct modem *m) {
    m->sent = seconds();
    sendto(m->socket, m->last, m->length, 0, (struct sockaddr *)&m->to, sizeof m->to);
}

static void acknowledge(struct modem *m, int number) {
    unsigned char packet[4] = {0, ACKNOWLEDGEMENT, number >> 8, number};
    memcpy(m->last, packet, m->length = 4);
    say(m);
}

/* Asks for the file, in blocks of a size. */
static void begin(const struct plan *plan, struct modem *m) {
    size_t length = strlen(m->name) + 1;
    m->last[0] = 0, m->last[1] = READ;
    memcpy(m->last + 2, m->name, length);
    m->length = 2 + length + sprintf((char *)m->last + 2 + length, "octet%cblksize%c%d", 0, 0, plan->size) + 1;
    m->is_reading = 1, m->number = 0, m->got = 0, m->to = plan->server;
    m->began = seconds();
    say(m);
}

static void end(struct told *told, struct modem *m, int is_right) {
    m->is_reading = 0;
    if (told->done < MOST_FILES) told->times[told->done] = (seconds() - m->began) * 1e3;
    if (is_right) told->done++;
    else told->wrong++;
}

/* What follows from a packet. A server may answer from another port than the one that was asked. */
static void hear(const struct plan *plan, struct told *told, struct modem *m, const unsigned char *packet, long length, struct sockaddr_in from) {
    if (!m->is_reading || length < 4 || from.sin_addr.s_addr != plan->server.sin_addr.s_addr) return;
    int number = packet[2] << 8 | packet[3];
    if (packet[1] == OACK && m->number == 0 && m->got == 0) {
        m->to = from;
        acknowledge(m, 0);
    } else if (packet[1] == DATA && number == m->number + 1 && from.sin_port == m->to.sin_port) {
        m->number = number, m->got += length - 4;
        acknowledge(m, number);
        if (length - 4 < plan->size) end(told, m, m->got == plan->length);
    } else if (packet[1] != DATA && packet[1] != OACK) {
        end(told, m, 0);
    }
}

static void open_socket(struct modem *m) {
    struct sockaddr_in own = at(m->address, 0);
    m->socket = socket(AF_INET, SOCK_DGRAM | SOCK_NONBLOCK, 0);
    if (bind(m->socket, (struct sockaddr *)&own, sizeof own) != 0) {
        perror("a modem's socket");
        exit(2);
    }
}

static int by_size(const void *a, const void *b) {
    double left = *(const double *)a, right = *(const double *)b;
    return (left > right) - (left < right);
}

/* Has the next modem that doesn't read begin. */
static int begin_next(const struct plan *plan, int part, int parts, int turn) {
    int count = (plan->count - part + parts - 1) / parts;
    for (int tried = 0; tried < count; tried++) {
        struct modem *m = &modems[plan->first + part + parts * ((turn + tried) % count)];
        if (m->is_reading) continue;
        begin(plan, m);
        return turn + tried + 1;
    }
    return turn;
}

static void ask_again(const struct plan *plan, struct told *told) {
    for (int i = plan->first; i < plan->first + plan->count; i++)
        if (modems[i].is_reading && modems[i].sent < seconds() - PATIENCE) {
            told->again++;
            say(&modems[i]);
        }
}

static int is_reading(const struct plan *plan) {
    for (int i = plan->first; i < plan->first + plan->count; i++)
        if (modems[i].is_reading) return 1;
    return 0;
}

/* Takes what a modem's socket has, and begins another file where one has ended, unless the turn is none. */
static int take(const struct plan *plan, struct told *told, struct modem *m, int part, int parts, int turn) {
    unsigned char packet[2048];
    struct sockaddr_in from;
    for (;;) {
        socklen_t size = sizeof from;
        long length = recvfrom(m->socket, packet, sizeof packet, 0, (struct sockaddr *)&from, &size);
        if (length < 0) return turn;
        int was_reading = m->is_reading;
        hear(plan, told, m, packet, length, from);
        if (was_reading && !m->is_reading && turn >= 0) turn = begin_next(plan, part, parts, turn);
    }
}

static void run_part(const struct plan *plan, int part, int parts, struct told *told, int started) {
    int set = epoll_create1(0), turn = 0, slots = plan->outstanding / parts + (part < plan->outstanding % parts);
    struct epoll_event ready[64];
    for (int i = part; i < plan->count; i += parts) {
        struct epoll_event wanted = {.events = EPOLLIN, .data.ptr = &modems[plan->first + i]};
        open_socket(&modems[plan->first + i]);
        epoll_ctl(set, EPOLL_CTL_ADD, modems[plan->first + i].socket, &wanted);
    }
    char byte;
    if (read(started, &byte, 1) != 1) exit(2);
    double until = seconds() + plan->seconds, looked = seconds();
    for (int slot = 0; slot < slots; slot++) turn = begin_next(plan, part, parts, turn);
    /* What was begun is read to its end, so that no server is left with files that nobody goes on with. */
    while (seconds() < until || (is_reading(plan) && seconds() < until + 5)) {
        int count = epoll_wait(set, ready, 64, 50);
        for (int i = 0; i < count; i++) turn = take(plan, told, ready[i].data.ptr, part, parts, seconds() < until ? turn : -1);
        if (seconds() > looked + PATIENCE / 4) ask_again(plan, told), looked = seconds();
    }
    told->end = seconds();
    exit(0);
}

static int read_files(const struct plan *plan) {
    int started[2], parts = plan->outstanding < 3 ? 1 : 3;
    struct told *told = mmap(NULL, parts * sizeof *told, PROT_READ | PROT_WRITE, MAP_SHARED | MAP_ANONYMOUS, -1, 0);
    if (told == MAP_FAILED || pipe(started) != 0) return 2;
    for (int part = 0; part < parts; part++)
        if (fork() == 0) run_part(plan, part, parts, &told[part], started[0]);
    usleep(50000);
    double start = seconds(), last = start;
    if (write(started[1], "...", parts) != parts) return 2;
    while (wait(NULL) > 0) {
    }
    long done = 0, again = 0, wrong = 0;
    for (int part = 0; part < parts; part++) {
        memmove(told[0].times + done, told[part].times, (size_t)told[part].done * sizeof(double));
        done += told[part].done, again += told[part].again, wrong += told[part].wrong;
        if (told[part].end > last) last = told[part].end;
    }
    qsort(told[0].times, done, sizeof(double), by_size);
    if (done == 0) return 3;
    printf("%ld %.6f %ld %ld %.4f %.4f\n", done, last - start, again, wrong, told[0].times[done / 2], told[0].times[done * 99 / 100]);
    return 0;
}

/* Answers from what a packet says alone. */
static int bare(const char *address, int size, long length) {
    static unsigned char packet[LARGEST];
    struct sockaddr_in own = at(address, TFTP_PORT), from;
    int each = socket(AF_INET, SOCK_DGRAM, 0), room = 1 << 22;
    setsockopt(each, SOL_SOCKET, SO_RCVBUF, &room, sizeof room);
    if (bind(each, (struct sockaddr *)&own, sizeof own) != 0) return 2;
    for (;;) {
        socklen_t came = sizeof from;
        if (recvfrom(each, packet, sizeof packet, 0, (struct sockaddr *)&from, &came) < 4) continue;
        long number = packet[2] << 8 | packet[3], whole = length / size + 1, count = 0;
        if (packet[1] == READ) {
            packet[1] = OACK;
            count = 2 + sprintf((char *)packet + 2, "blksize%c%d", 0, size) + 1;
        } else if (packet[1] == ACKNOWLEDGEMENT && number < whole) {
            number++;
            packet[1] = DATA, packet[2] = number >> 8, packet[3] = number;
            count = 4 + (number < whole ? size : length % size);
        }
        if (count > 0) sendto(each, packet, count, 0, (struct sockaddr *)&from, sizeof from);
    }
}

static void read_names(const char *path) {
    FILE *names = fopen(path, "r");
    int count = 0;
    if (names == NULL) exit(2);
    while (count < MOST_MODEMS && fscanf(names, "%15s %63s", modems[count].address, modems[count].name) == 2) count++;
    fclose(names);
}

int main(int argc, char **argv) {
    if (argc == 5 && strcmp(argv[1], "bare") == 0) return bare(argv[2], atoi(argv[3]), atol(argv[4]));
    if (argc != 10 || strcmp(argv[1], "read") != 0) return 2;
    read_names(argv[2]);
    struct plan plan = {.first = atoi(argv[3]), .count = atoi(argv[4]), .outstanding = atoi(argv[5]), .server = at(argv[6], TFTP_PORT), .size = atoi(argv[7]),
                        .length = atol(argv[8]), .seconds = atoi(argv[9]) / 1e3};
    if (plan.count < 2 * plan.outstanding || plan.first + plan.count > MOST_MODEMS || plan.size < 8) return 2;
    return read_files(&plan);
}
