/* How long a program with one thread is in calls of the system: a library that is loaded before the C library's own.
 *
 *     cc -O2 -shared -fPIC -o waits waits.c; WAITS=FILE LD_PRELOAD=./waits PROGRAM ..
 *
 * FILE, as long as `kinds` before the program starts, has for each kind four numbers of 64 bits: calls, nanoseconds by the clock, of syncs alone those of the
 * processor, and the bytes that came or went. The kinds are, in this order: syncs of files, writes at a place, reads at one, other writes, datagrams taken, datagrams sent, waits for sockets. */
#define _GNU_SOURCE
#include <dlfcn.h>
#include <fcntl.h>
#include <stdlib.h>
#include <sys/epoll.h>
#include <sys/mman.h>
#include <sys/socket.h>
#include <time.h>
#include <unistd.h>

enum { SYNC, PUT, TAKE, WRITE, RECEIVE, SEND, WAIT, KINDS };
struct kind {
    long calls, clock, processor, bytes;
};
static struct kind none[KINDS], *kinds = none;

__attribute__((constructor)) static void open_it(void) {
    const char *path = getenv("WAITS");
    int file = path == NULL ? -1 : open(path, O_RDWR);
    if (file < 0) return;
    void *shared = mmap(NULL, sizeof none, PROT_READ | PROT_WRITE, MAP_SHARED, file, 0);
    if (shared != MAP_FAILED) kinds = shared;
    close(file);
}

static long now(clockid_t clock) {
    struct timespec time;
    clock_gettime(clock, &time);
    return time.tv_sec * 1000000000L + time.tv_nsec;
}

/* A call by its name in the C library, timed. */
#define TIMED(kind, result, name, parameters, ...)                                                   \
    result name parameters {                                                                         \
        static result(*real) parameters;                                                             \
        if (real == NULL) real = (result(*) parameters)dlsym(RTLD_NEXT, #name);                       \
        long processor = (kind) == SYNC ? now(CLOCK_THREAD_CPUTIME_ID) : 0, clock = now(CLOCK_MONOTONIC); \
        result told = real(__VA_ARGS__);                                                             \
        kinds[kind].clock += now(CLOCK_MONOTONIC) - clock;                                           \
        if ((kind) == SYNC) kinds[kind].processor += now(CLOCK_THREAD_CPUTIME_ID) - processor;       \
        kinds[kind].calls++;                                                                         \
        kinds[kind].bytes += (kind) != WAIT && told > 0 ? told : 0;                                  \
        return told;                                                                                 \
    }

TIMED(SYNC, int, fdatasync, (int file), file)
TIMED(SYNC, int, fsync, (int file), file)
TIMED(PUT, ssize_t, pwrite, (int file, const void *text, size_t length, off_t at), file, text, length, at)
TIMED(TAKE, ssize_t, pread, (int file, void *text, size_t length, off_t at), file, text, length, at)
TIMED(PUT, ssize_t, pwrite64, (int file, const void *text, size_t length, off64_t at), file, text, length, at)
TIMED(TAKE, ssize_t, pread64, (int file, void *text, size_t length, off64_t at), file, text, length, at)
TIMED(WRITE, ssize_t, write, (int file, const void *text, size_t length), file, text, length)
TIMED(RECEIVE, ssize_t, recvfrom, (int file, void *restrict text, size_t length, int flags, struct sockaddr *restrict from, socklen_t *restrict size), file, text, length, flags, from, size)
TIMED(SEND, ssize_t, sendto, (int file, const void *text, size_t length, int flags, const struct sockaddr *to, socklen_t size), file, text, length, flags, to, size)
TIMED(WAIT, int, epoll_wait, (int set, struct epoll_event *ready, int most, int patience), set, ready, most, patience)
