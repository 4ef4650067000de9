/* Relays' modems that ask for leases over loopback, each again as soon as it has its answer; and what is measured beside them.
 *
 *     dora_clients boot FIRST COUNT RELAYS OUTSTANDING           each modem once: DISCOVER, OFFER, REQUEST, ACK
 *     dora_clients release FIRST COUNT RELAYS OUTSTANDING        each modem once: DISCOVER, OFFER, RELEASE
 *     dora_clients renew FIRST COUNT RELAYS OUTSTANDING MS       boots that go on, in a mixed order, for so many milliseconds
 *     dora_clients echoed FIRST COUNT RELAYS OUTSTANDING MS      the same datagrams to the echo, as often
 *     dora_clients query FIRST COUNT RELAYS OUTSTANDING MS       relays ask which address a modem has (RFC 4388), as long
 *     dora_clients query-echoed FIRST COUNT RELAYS OUTSTANDING MS        the same datagrams to the echo
 *     dora_clients device-boot FIRST COUNT RELAYS OUTSTANDING            each device once, which is offered any address
 *     dora_clients device-release FIRST COUNT RELAYS OUTSTANDING         each device once: DISCOVER, OFFER, RELEASE
 *     dora_clients device-asks FIRST COUNT RELAYS OUTSTANDING            each device once, which asks for an address of its own
 *     dora_clients device-renew FIRST COUNT RELAYS OUTSTANDING MS        boots of devices that go on, in a mixed order
 *     dora_clients device-discover FIRST COUNT RELAYS OUTSTANDING MS     their DISCOVERs alone
 *     dora_clients device-request FIRST COUNT RELAYS OUTSTANDING MS      their REQUESTs alone, each for the device's own address
 *         prints: exchanges, seconds, datagrams sent again, wrong answers, bytes of an answer
 *     .. MS BEFORE PID                                           any of those for so many milliseconds, without counting what is exchanged in as many BEFORE these
 *         prints besides: the seconds of the processor that the process PID, a server with one thread, had while it was counted
 *     dora_clients flood FIRST COUNT RELAYS RATE MS              DISCOVERs and REQUESTs of modems with leases, so many a second
 *     dora_clients padded FIRST COUNT RELAYS RATE MS             the same with 1,100 pads before the options
 *     dora_clients full FIRST COUNT RELAYS RATE MS               DISCOVERs of modems for which there may be no address
 *         prints: an empty line when it begins; datagrams sent, seconds, answers
 *     dora_clients times MS                                      one question for the time behind the other
 *         prints: answers, lost, and the median, the 99th percentile and the greatest delay in milliseconds
 *     dora_clients echo LENGTH                                   a server that sends each datagram back, in so many bytes
 *
 * Modem N stands behind relay N mod RELAYS. Device N asks by relay N mod RELAYS, is behind modem N / 2, and its own address is that of place N / RELAYS among the
 * 4,096 that the relay's pool for devices has. Modems and devices are shared out among three processes at most, or four, so that the server is the slowest part.
 *
 * A mixed order: of its share each process takes each 7,919th, or the next number without a divisor in common with how many they are, from a place that the clock
 * gives. So it's neither by chance nor as they got their leases; neighbours come far apart, and none comes again before all of the share came. */
#define _GNU_SOURCE
#include <arpa/inet.h>
#include <stdio.h>
#include <stdlib.h>
#include <string.h>
#include <sys/epoll.h>
#include <sys/socket.h>
#include <sys/wait.h>
#include <time.h>
#include <unistd.h>

enum { DISCOVER = 1, OFFER = 2, REQUEST = 3, ACK = 5, RELEASE = 7, QUERY = 10, ACTIVE = 13 };
enum { DHCP_PORT = 67, TIME_PORT = 37, ECHO_PORT = 7, MOST_RELAYS = 64, MOST_SLOTS = 256, PADS = 1100, DEVICES_EACH = 2, MOST_IN_POOL = 4096 };
static const unsigned SERVER = 0x0a000002, RELAYS_AT = 0x0a400001, RELAYS_APART = 8192, DEVICES_AT = 0x0a500000;
static const double PATIENCE = 1;

struct plan {
    const char *mode;
    int first, count, relays, outstanding, port, server;
    double seconds, before;
};

/* What a process did. */
struct told {
    long done, again, wrong, length;
    double start, end;
};

/* A modem that waits for an answer. */
struct slot {
    int modem, kind, length;
    unsigned number;
    double sent;
    unsigned char text[1500];
};

struct share {
    const struct plan *plan;
    int part, parts, modems, set, sockets[MOST_RELAYS], begun, step, start;
    unsigned number;
    double counted;
    struct slot slots[MOST_SLOTS];
    struct told told;
};

static double seconds(void) {
    struct timespec now;
    clock_gettime(CLOCK_MONOTONIC, &now);
    return now.tv_sec + now.tv_nsec / 1e9;
}

static struct sockaddr_in at(unsigned address, int port) {
    return (struct sockaddr_in){.sin_family = AF_INET, .sin_port = htons(port), .sin_addr.s_addr = htonl(address)};
}

static int is(const struct plan *plan, const char *mode) {
    return strcmp(plan->mode, mode) == 0;
}

static void put4(unsigned char *text, unsigned number) {
    number = htonl(number);
    memcpy(text, &number, 4);
}

static unsigned char *option(unsigned char *end, int code, int length, const void *value) {
    *end++ = code;
    *end++ = length;
    memcpy(end, value, length);
    return end + length;
}

static int is_of_devices(const struct plan *plan) {
    return strncmp(plan->mode, "device-", 7) == 0;
}

/* Whether each asks for an address of its own. */
static int has_own(const struct plan *plan) {
    return is_of_devices(plan) && !is(plan, "device-boot") && !is(plan, "device-release");
}

/* The kind of what is asked first, and of an answer to a kind. */
static int first_of(const struct plan *plan) {
    return is(plan, "query") || is(plan, "query-echoed") ? QUERY : is(plan, "device-request") ? REQUEST : DISCOVER;
}

static int answer_to(int kind) {
    return kind == DISCOVER ? OFFER : kind == QUERY ? ACTIVE : ACK;
}

static unsigned relay_of(int modem, int relays) {
    return RELAYS_AT + RELAYS_APART * (modem % relays);
}

/* What a relay says of the way to a modem: a circuit, and the modem's address (RFC 3046). What a modem says of itself: its type and its serial number. */
static unsigned char *ways(unsigned char *end, int modem, const unsigned char *mac) {
    unsigned char cable[64] = {2, 3, 'E', 'C', 'M', 4, 8}, way[14] = {1, 4, 0x80, 0, 0, 1, 2, 6};
    snprintf((char *)cable + 7, sizeof cable - 7, "SN%06d", modem);
    memcpy(way + 8, mac, 6);
    return option(option(option(end, 60, 10, "docsis3.1:"), 43, 15, cable), 82, 14, way);
}

/* The fixed part of a message (RFC 2131), and its kind. */
static unsigned char *head(unsigned char *text, int kind, const unsigned char *mac, unsigned relay, unsigned number) {
    unsigned char one = kind;
    memset(text, 0, 240);
    memcpy(text, "\1\1\6", 3);
    put4(text + 4, number);
    put4(text + 24, relay);
    memcpy(text + 28, mac, 6);
    memcpy(text + 236, "\x63\x82\x53\x63", 4);
    return option(text + 240, 53, 1, &one);
}

/* A modem's message (RFC 2131 with the options of RFC 2132), or its relay's query for its lease, and its length. A REQUEST asks for an address, and a RELEASE
 * gives it back. */
static int message(unsigned char *text, int kind, int modem, int relays, unsigned number, const unsigned char *address) {
    unsigned char mac[6] = {2, 0}, server[4], *end;
    put4(mac + 2, modem);
    put4(server, SERVER);
    end = head(text, kind, mac, relay_of(modem, relays), number);
    if (kind == RELEASE) memcpy(text + 12, address, 4);
    if (kind == REQUEST) end = option(end, 50, 4, address);
    if (kind != DISCOVER && kind != QUERY) end = option(end, 54, 4, server);
    if (kind != RELEASE && kind != QUERY) end = ways(end, modem, mac);
    *end++ = 255;
    return end - text;
}

/* A device's message and its length. Its relay names the modem that it is behind (RFC 3046); a DISCOVER without an address asks for none. */
static int device_message(unsigned char *text, int kind, int device, int relays, unsigned number, const unsigned char *address) {
    unsigned char mac[6] = {6, 0}, way[14] = {1, 4, 0x80, 0, 0, 1, 2, 6, 2, 0}, server[4], *end;
    put4(mac + 2, device);
    put4(way + 10, device / DEVICES_EACH);
    put4(server, SERVER);
    end = head(text, kind, mac, relay_of(device, relays), number);
    if (kind == RELEASE) memcpy(text + 12, address, 4);
    else if (address != NULL) end = option(end, 50, 4, address);
    if (kind != DISCOVER) end = option(end, 54, 4, server);
    end = option(option(end, 60, 12, "udhcp 1.36.1"), 82, 14, way);
    *end++ = 255;
    return end - text;
}

static int relay_socket(unsigned address, int port) {
    int each = socket(AF_INET, SOCK_DGRAM, 0), room = 1 << 22;
    struct sockaddr_in own = at(address, DHCP_PORT), server = at(SERVER, port);
    setsockopt(each, SOL_SOCKET, SO_RCVBUF, &room, sizeof room);
    if (bind(each, (struct sockaddr *)&own, sizeof own) != 0 || connect(each, (struct sockaddr *)&server, sizeof server) != 0) {
        perror("a relay's socket");
        exit(2);
    }
    return each;
}

/* The sockets of the relays of a part; an answer to an earlier run has another number. */
static void open_relays(struct share *s) {
    s->set = epoll_create1(0);
    s->number = (unsigned)(long)(seconds() * 1e6);
    for (int relay = s->part; relay < s->plan->relays; relay += s->parts) {
        struct epoll_event wanted = {.events = EPOLLIN, .data.fd = s->sockets[relay] = relay_socket(relay_of(relay, s->plan->relays), s->plan->port)};
        epoll_ctl(s->set, EPOLL_CTL_ADD, s->sockets[relay], &wanted);
    }
}

/* Puts pads before a message's options. */
static void pad(struct slot *slot) {
    memmove(slot->text + 240 + PADS, slot->text + 240, slot->length - 240);
    memset(slot->text + 240, 0, PADS);
    slot->length += PADS;
}

static void say(struct share *s, int place) {
    struct slot *slot = &s->slots[place];
    slot->sent = seconds();
    send(s->sockets[slot->modem % s->plan->relays], slot->text, slot->length, 0);
}

/* The next message of a slot; its number tells the slot. */
static void ask(struct share *s, int place, int kind, const unsigned char *address) {
    struct slot *slot = &s->slots[place];
    slot->kind = kind;
    slot->number = (unsigned)s->part << 30 | (s->number++ & 0x3fffff) << 8 | (unsigned)place;
    slot->length = (is_of_devices(s->plan) ? device_message : message)(slot->text, kind, slot->modem, s->plan->relays, slot->number, address);
    if (is(s->plan, "padded")) pad(slot);
    say(s, place);
}

/* Begins with the next modem, in a mixed order; where all had their turn, the slot rests. */
static void begin(struct share *s, int place) {
    if (s->plan->seconds == 0 && s->begun >= s->modems) {
        s->slots[place].kind = 0;
        return;
    }
    int turn = (int)(((long)s->begun * s->step + s->start) % s->modems), who = s->plan->first + s->part + s->parts * turn, relays = s->plan->relays;
    unsigned char own[4];
    put4(own, DEVICES_AT + MOST_IN_POOL * (who % relays) + who / relays);
    s->begun++;
    s->slots[place].modem = who;
    ask(s, place, first_of(s->plan), has_own(s->plan) ? own : NULL);
}

/* Whether an answer has a question's number. */
static int tells(const unsigned char *answer, unsigned number) {
    unsigned char text[4];
    put4(text, number);
    return memcmp(answer + 4, text, 4) == 0;
}

/* What follows from an answer. */
static void hear(struct share *s, const unsigned char *answer, long length) {
    int place = answer[7];
    struct slot *slot = &s->slots[place];
    if (length < 244 || slot->kind == 0 || !tells(answer, slot->number)) return;
    int kind = s->plan->port == ECHO_PORT ? answer_to(slot->kind) : answer[242];
    if (answer[0] != 2 || kind != answer_to(slot->kind)) {
        s->told.wrong++;
        begin(s, place);
        return;
    }
    s->told.length = length;
    if (slot->kind == REQUEST || slot->kind == QUERY || is(s->plan, "device-discover")) {
        s->told.done++;
        begin(s, place);
    } else if (is(s->plan, "release") || is(s->plan, "device-release")) {
        ask(s, place, RELEASE, answer + 16);
        s->told.done++;
        begin(s, place);
    } else {
        ask(s, place, REQUEST, answer + 16);
    }
}

static void ask_again(struct share *s, int slots) {
    double before = seconds() - PATIENCE;
    for (int place = 0; place < slots; place++)
        if (s->slots[place].kind != 0 && s->slots[place].sent < before) {
            s->told.again++;
            say(s, place);
        }
}

static int rest(const struct share *s, int slots) {
    for (int place = 0; place < slots; place++)
        if (s->slots[place].kind != 0) return 0;
    return 1;
}

/* Begins to count where it's time to. */
static double time_of(struct share *s) {
    double now = seconds();
    if (s->told.start == 0 && now >= s->counted) {
        s->told.start = now;
        s->told.done = 0;
    }
    return now;
}

/* One modem at a time: no need to ask which socket has something. */
static void converse_alone(struct share *s, double until) {
    unsigned char answer[2048];
    struct timeval patience = {PATIENCE, 0};
    for (int relay = 0; relay < s->plan->relays; relay++) setsockopt(s->sockets[relay], SOL_SOCKET, SO_RCVTIMEO, &patience, sizeof patience);
    begin(s, 0);
    while (s->slots[0].kind != 0 && (until == 0 || time_of(s) < until)) {
        long length = recv(s->sockets[s->slots[0].modem % s->plan->relays], answer, sizeof answer, 0);
        if (length < 0) {
            ask_again(s, 1);
            if (until != 0 && time_of(s) > until) return;
        } else {
            hear(s, answer, length);
        }
    }
}

static void converse(struct share *s, int slots, double until) {
    unsigned char answer[2048];
    struct epoll_event ready[MOST_RELAYS];
    double looked = seconds();
    for (int place = 0; place < slots; place++) begin(s, place);
    for (;;) {
        int count = epoll_wait(s->set, ready, MOST_RELAYS, 50);
        for (int i = 0; i < count; i++)
            for (int taken = 0; taken < 16; taken++) {
                long length = recv(ready[i].data.fd, answer, sizeof answer, MSG_DONTWAIT);
                if (length < 0) break;
                hear(s, answer, length);
                if (s->plan->relays / s->parts > 1) break;
            }
        double now = time_of(s);
        if (until == 0 ? rest(s, slots) : now > until) return;
        if (now > looked + PATIENCE / 4) {
            looked = now;
            ask_again(s, slots);
        }
    }
}

static int common_divisor(int a, int b) {
    return b == 0 ? a : common_divisor(b, a % b);
}

static void prepare(struct share *s) {
    const struct plan *plan = s->plan;
    s->modems = plan->count / s->parts + (s->part < plan->count % s->parts);
    for (s->step = 7919; common_divisor(s->step, s->modems) != 1;) s->step++;
    s->start = plan->seconds == 0 ? 0 : (int)((long)(seconds() * 1e6) % s->modems);
    open_relays(s);
}

static void run_part(const struct plan *plan, int part, int parts, int started, int told) {
    static struct share s;
    int slots = plan->outstanding / parts + (part < plan->outstanding % parts);
    char byte = 0;
    s = (struct share){.plan = plan, .part = part, .parts = parts};
    prepare(&s);
    if (write(told, &s.told, sizeof s.told) < 0 || read(started, &byte, 1) < 0) exit(2);
    s.counted = seconds() + plan->before;
    if (plan->before == 0) s.told.start = s.counted;
    double until = plan->seconds == 0 ? 0 : s.counted + plan->seconds;
    if (slots == 1 && parts == 1) converse_alone(&s, until);
    else converse(&s, slots < s.modems ? slots : s.modems, until);
    s.told.end = seconds();
    if (write(told, &s.told, sizeof s.told) < 0) exit(2);
    exit(0);
}

/* Seconds of the processor that a process with one thread had so far. The system adds them up when it rests or the clock ticks, some milliseconds too late then. */
static double processor_of(int process) {
    char path[64];
    double nanoseconds = 0;
    snprintf(path, sizeof path, "/proc/%d/schedstat", process);
    FILE *file = fopen(path, "r");
    if (file == NULL || fscanf(file, "%lf", &nanoseconds) != 1) {
        perror(path);
        exit(2);
    }
    fclose(file);
    return nanoseconds / 1e9;
}

static void sleep_until(double when) {
    double left = when - seconds();
    struct timespec span = {(time_t)left, (long)((left - (time_t)left) * 1e9)};
    if (left > 0) nanosleep(&span, NULL);
}

/* The part of a processor that the server has while it's counted. */
static double share_of(const struct plan *plan, double start) {
    sleep_until(start + plan->before);
    double from = seconds(), before = processor_of(plan->server);
    sleep_until(start + plan->before + plan->seconds - 0.002);
    double to = seconds();
    return (processor_of(plan->server) - before) / (to - from);
}

/* Has the parts begin together, and adds up what they did. Where some of it isn't counted each part has a rate of its own. */
static int exchange(const struct plan *plan) {
    double rate = 0, used = 0, time;
    int started[2], told[2], most = plan->relays % 3 == 0 ? 3 : 4, parts = plan->outstanding < most || plan->count < most ? 1 : most;
    struct told sum = {0}, each;
    if (pipe(started) != 0 || pipe(told) != 0) return 2;
    for (int part = 0; part < parts; part++)
        if (fork() == 0) run_part(plan, part, parts, started[0], told[1]);
    close(told[1]);
    for (int part = 0; part < parts; part++)
        if (read(told[0], &each, sizeof each) != sizeof each) return 2;
    double start = seconds();
    if (write(started[1], "....", parts) != parts) return 2;
    if (plan->server != 0) used = share_of(plan, start);
    while (read(told[0], &each, sizeof each) == sizeof each) {
        sum.done += each.done, sum.again += each.again, sum.wrong += each.wrong;
        if (each.start != 0 && each.end > each.start) rate += each.done / (each.end - each.start);
        if (each.end > sum.end) sum.end = each.end;
        if (each.length > sum.length) sum.length = each.length;
    }
    while (wait(NULL) > 0) {
    }
    time = plan->server != 0 && rate > 0 ? sum.done / rate : sum.end - start;
    printf("%ld %.6f %ld %ld %ld", sum.done, time, sum.again, sum.wrong, sum.length);
    printf(plan->server != 0 ? " %.6f\n" : "\n", used * time);
    return 0;
}

/* Boots a modem as far as its OFFER, and keeps the address. */
static void learn(struct share *s, int modem, unsigned char *address) {
    unsigned char answer[2048] = {0};
    struct timeval patience = {2, 0};
    int each = s->sockets[modem % s->plan->relays];
    setsockopt(each, SOL_SOCKET, SO_RCVTIMEO, &patience, sizeof patience);
    s->slots[0].modem = modem;
    ask(s, 0, DISCOVER, NULL);
    do
        if (recv(each, answer, sizeof answer, 0) < 244) exit(2);
    while (!tells(answer, s->slots[0].number) || answer[242] != OFFER);
    memcpy(address, answer + 16, 4);
}

/* Sends so many datagrams a second, whether they are answered or not. An empty line tells that it begins. */
static int flood(const struct plan *plan) {
    static struct share s;
    static unsigned char addresses[4096][4];
    unsigned char answer[2048];
    long sent = 0, answers = 0;
    int modems = plan->count < 4096 ? plan->count : 4096, is_full = is(plan, "full");
    s = (struct share){.plan = plan, .parts = 1};
    open_relays(&s);
    for (int modem = 0; modem < modems && !is_full; modem++) learn(&s, plan->first + modem, addresses[modem]);
    printf("\n");
    fflush(stdout);
    double began = seconds();
    while (seconds() < began + plan->seconds) {
        for (long due = (seconds() - began) * plan->outstanding; sent < due; sent++) {
            int modem = sent / (is_full ? 1 : 2) % modems;
            s.slots[0].modem = plan->first + modem;
            ask(&s, 0, is_full || sent % 2 == 0 ? DISCOVER : REQUEST, addresses[modem]);
        }
        for (int relay = 0; relay < plan->relays; relay++)
            while (recv(s.sockets[relay], answer, sizeof answer, MSG_DONTWAIT) >= 0) answers++;
        usleep(200);
    }
    printf("%ld %.6f %ld\n", sent, seconds() - began, answers);
    return 0;
}

static int by_size(const void *a, const void *b) {
    double left = *(const double *)a, right = *(const double *)b;
    return (left > right) - (left < right);
}

static int ask_times(double for_seconds) {
    static double delays[1 << 20];
    struct sockaddr_in server = at(SERVER, TIME_PORT);
    struct timeval patience = {1, 0};
    int each = socket(AF_INET, SOCK_DGRAM, 0), count = 0, lost = 0;
    char answer[64];
    connect(each, (struct sockaddr *)&server, sizeof server);
    setsockopt(each, SOL_SOCKET, SO_RCVTIMEO, &patience, sizeof patience);
    for (double began = seconds(); seconds() < began + for_seconds && count < 1 << 20; usleep(500)) {
        double asked = seconds();
        send(each, "", 0, 0);
        if (recv(each, answer, sizeof answer, 0) == 4) delays[count++] = (seconds() - asked) * 1e3;
        else lost++;
    }
    qsort(delays, count, sizeof *delays, by_size);
    if (count == 0) return 2;
    printf("%d %d %.3f %.3f %.3f\n", count, lost, delays[count / 2], delays[(long)count * 99 / 100], delays[count - 1]);
    return 0;
}

static int echo(int length) {
    unsigned char text[2048] = {0};
    struct sockaddr_in own = at(SERVER, ECHO_PORT), from;
    int each = socket(AF_INET, SOCK_DGRAM, 0), room = 1 << 22;
    setsockopt(each, SOL_SOCKET, SO_RCVBUF, &room, sizeof room);
    if (length > 2048 || bind(each, (struct sockaddr *)&own, sizeof own) != 0) return 2;
    for (;;) {
        socklen_t size = sizeof from;
        if (recvfrom(each, text, sizeof text, 0, (struct sockaddr *)&from, &size) < 0) return 2;
        text[0] = 2;
        sendto(each, text, length, 0, (struct sockaddr *)&from, size);
    }
}

int main(int argc, char **argv) {
    if (argc == 3 && strcmp(argv[1], "echo") == 0) return echo(atoi(argv[2]));
    if (argc == 3 && strcmp(argv[1], "times") == 0) return ask_times(atoi(argv[2]) / 1e3);
    if (argc != 6 && argc != 7 && argc != 9) return 2;
    struct plan plan = {argv[1], atoi(argv[2]), atoi(argv[3]), atoi(argv[4]), atoi(argv[5]), DHCP_PORT, 0, argc > 6 ? atoi(argv[6]) / 1e3 : 0, 0};
    if (argc == 9) plan.before = atoi(argv[7]) / 1e3, plan.server = atoi(argv[8]);
    if (plan.relays < 1 || plan.relays > MOST_RELAYS || (plan.relays % 3 != 0 && plan.relays % 4 != 0) || plan.count < 1) return 2;
    if (is(&plan, "flood") || is(&plan, "padded") || is(&plan, "full")) return flood(&plan);
    if (is(&plan, "echoed") || is(&plan, "query-echoed")) plan.port = ECHO_PORT;
    if (plan.outstanding < 1 || plan.outstanding > MOST_SLOTS) return 2;
    return exchange(&plan);
}
