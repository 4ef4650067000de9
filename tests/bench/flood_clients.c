/* Floods a UDP port with one datagram, from one socket.
 *
 *     flood_clients SOURCE SOURCE-PORT ADDRESS PORT RATE MILLISECONDS < DATAGRAM
 *
 * sends so many a second, or as many as it can where RATE is 0, and prints how many the system took. What is answered is read by nobody. With a further word
 * the last four bytes of a DHCP client's hardware address count up from datagram to datagram. */
#include <arpa/inet.h>
#include <stdio.h>
#include <stdlib.h>
#include <sys/socket.h>
#include <time.h>
#include <unistd.h>

static double seconds(void) {
    struct timespec now;
    clock_gettime(CLOCK_MONOTONIC, &now);
    return now.tv_sec + now.tv_nsec / 1e9;
}

int main(int argc, char **argv) {
    unsigned char data[2048];
    if (argc < 7) return 2;
    ssize_t size = read(0, data, sizeof data);
    struct sockaddr_in from = {.sin_family = AF_INET, .sin_port = htons(atoi(argv[2]))}, to = {.sin_family = AF_INET, .sin_port = htons(atoi(argv[4]))};
    inet_pton(AF_INET, argv[1], &from.sin_addr);
    inet_pton(AF_INET, argv[3], &to.sin_addr);
    int each = socket(AF_INET, SOCK_DGRAM, 0), counts = argc > 7;
    if (bind(each, (struct sockaddr *)&from, sizeof from) != 0 || connect(each, (struct sockaddr *)&to, sizeof to) != 0) return 2;
    double rate = atof(argv[5]), begun = seconds(), until = begun + atoi(argv[6]) / 1e3, now;
    long sent = 0, tried = 0;
    while ((now = seconds()) < until) {
        long due = rate == 0 ? tried + 64 : (long)((now - begun) * rate);
        for (; tried < due; tried++) {
            if (counts && size > 34) { /* the last four bytes of a client's hardware address */
                data[30] = tried >> 24, data[31] = tried >> 16, data[32] = tried >> 8, data[33] = tried;
            }
            if (send(each, data, size, MSG_DONTWAIT) == size) sent++;
        }
        if (rate != 0) usleep(200);
    }
    printf("%ld\n", sent);
    return 0;
}
