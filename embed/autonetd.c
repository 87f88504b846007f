/* One switch in a process of its own, over real links.
 *
 *   autonetd [--loss PERCENT] [--again PERCENT] [--epoch N] NAME UID BOOTFILE TICK_MS LINK ..
 *
 * NAME has 1 to 16 letters, digits and `_`. UID is hexadecimal, below 2^48. BOOTFILE keeps the number of the
 * last boot, and an epoch that the switch has not passed: both are on stable storage before the switch
 * starts, and a greater epoch before a frame leaves in one above that. The next life starts with the epoch
 * that is kept, or with that of --epoch if this is greater, so it joins no epoch that an earlier life of the
 * switch joined. TICK_MS is the tick in milliseconds, 1 to 60000. A LINK is one of
 *   PORT=udp:LOCAL:REMOTE[:FILE]  datagrams on 127.0.0.1 between these two UDP ports; while FILE exists the
 *                                 cable is cut: the port shows no link, and what comes or goes is lost
 *   PORT=if:NAME                  an Ethernet interface: frames of type 0x88b5, with their length in two
 *                                 bytes in front, for short frames come padded
 * --loss drops that share of the frames that come in, and --again hands that share in twice. If a word is
 * wrong, a line on standard error says which, and the status is 2; it is 1 if the switch cannot go on.
 *
 * What the switch does is a line each on standard output, with the time and NAME in front:
 *   start LIFE | port P WORD [LIFE port Q] | epoch E | out of use | finished E members N |
 *   load E number N LIFE=NUMBER .. | rows TO:EXIT/EXIT .. | load failed STATUS | over STATUS |
 *   end ticks N works N carried N came N left N dropped N
 * A line is one write, so that processes may share a file that each opens to append. What a line says is so
 * before a later frame leaves: a table is out of use before any frame of a call that changes the epoch. */
#define _GNU_SOURCE
#include "autonet.h"
#include <arpa/inet.h>
#include <ctype.h>
#include <errno.h>
#include <fcntl.h>
#include <inttypes.h>
#include <libgen.h>
#include <linux/if_packet.h>
#include <net/ethernet.h>
#include <net/if.h>
#include <poll.h>
#include <signal.h>
#include <stdarg.h>
#include <stdio.h>
#include <stdlib.h>
#include <string.h>
#include <sys/ioctl.h>
#include <sys/socket.h>
#include <time.h>
#include <unistd.h>

#define ETHER_TYPE 0x88b5
#define ETHER_FRONT 16 /* two addresses, the type, and the length of what follows */
#define IN_NAMES "0123456789_ABCDEFGHIJKLMNOPQRSTUVWXYZabcdefghijklmnopqrstuvwxyz"
#define SPARE 1000     /* how many epochs ahead one is kept, so that it is seldom written */
#define WORD 40        /* a member or a row in a line has fewer letters */
#define LIST (AUTONET_MOST_NUMBER * WORD)

struct cable {
    int fd; /* 0: there is none */
    int index;
    char interface[IFNAMSIZ]; /* empty: UDP */
    const char *cut;          /* the file that cuts it, or NULL */
};

static const char *const states[] = {"dead", "checking", "host", "who", "loop", "good"};
static const char *name;
static const char *boot_file;
static uint64_t uid;
static uint32_t boot;       /* of this life */
static uint64_t kept_epoch; /* the one in the file */
static int loss, again;
static struct cable cables[AUTONET_PORTS + 1];

static autonet_switch sw;
static autonet_shown shown;                             /* after the last call */
static autonet_port_shown ports[AUTONET_PORTS + 1];     /* after the last call */
static int in_use;                                      /* whether a table is */
static uint8_t had = 1;                                 /* the number that it wishes for */
static volatile sig_atomic_t stop;
static unsigned long came, left, dropped; /* frames: taken, sent, and those of --loss */

static void on_signal(int signal) { (void)signal, stop = 1; }

static void say(const char *format, ...) {
    static char line[100 + LIST]; /* the time, NAME, some words and numbers, and a list */
    struct timespec now;
    clock_gettime(CLOCK_REALTIME, &now);
    int at = snprintf(line, sizeof line, "%lld.%06ld %s ", (long long)now.tv_sec, now.tv_nsec / 1000, name);
    va_list words;
    va_start(words, format);
    at += vsnprintf(line + at, sizeof line - at - 1, format, words);
    va_end(words);
    if ((size_t)at > sizeof line - 2) at = sizeof line - 2;
    line[at++] = '\n';
    if (write(STDOUT_FILENO, line, at) != at) _exit(1);
}

static _Noreturn void fail(int status, const char *what, const char *why) {
    fprintf(stderr, "autonetd: %s: %s\n", what, why);
    exit(status);
}

static _Noreturn void die(const char *what) { fail(1, what, strerror(errno)); }

static void sync_of(const char *path, int flags) {
    int fd = open(path, flags);
    if (fd < 0 || fsync(fd) || close(fd)) die(path);
}

/* Reads what the file keeps, if there is one. (A file with a boot alone keeps epoch 0.) */
static void read_kept(void) {
    char last[11], epoch[21] = "0"; /* as many digits as numbers of 32 and of 64 bits have */
    FILE *file = fopen(boot_file, "r");
    if (!file && errno == ENOENT) return;
    if (!file) die(boot_file);
    if (fscanf(file, "%10[0-9] %20[0-9]", last, epoch) < 1) fail(1, boot_file, "no boot");
    fclose(file);
    if (strtoull(last, NULL, 10) >= UINT32_MAX) fail(1, boot_file, "no boot is left");
    boot = (uint32_t)strtoull(last, NULL, 10);
    kept_epoch = strtoull(epoch, NULL, 10);
}

/* Keeps the boot and this epoch, which are on stable storage when this returns. */
static void keep(uint64_t epoch) {
    char next[4096], folder[4096];
    if (snprintf(next, sizeof next, "%s.next", boot_file) >= (int)sizeof next) fail(1, boot_file, "too long");
    snprintf(folder, sizeof folder, "%s", boot_file);
    FILE *file = fopen(next, "w");
    if (!file || fprintf(file, "%" PRIu32 " %" PRIu64 "\n", boot, epoch) < 0 || fclose(file)) die(next);
    sync_of(next, O_WRONLY);
    if (rename(next, boot_file)) die(boot_file);
    sync_of(dirname(folder), O_RDONLY | O_DIRECTORY);
    kept_epoch = epoch;
}

static uint64_t ahead_of(uint64_t epoch) { return epoch < UINT64_MAX - SPARE ? epoch + SPARE : UINT64_MAX; }

/* Starts the next life, with at least this epoch. */
static void start(uint64_t least) {
    read_kept();
    uint64_t epoch = kept_epoch < least ? least : kept_epoch;
    boot++;
    keep(ahead_of(epoch));
    uint32_t status = autonet_start(&sw, uid, boot, epoch, had, false);
    if (status != AUTONET_DONE) {
        say("over %u", status);
        exit(1);
    }
    memset(&shown, 0, sizeof shown);
    memset(ports, 0, sizeof ports);
    shown.epoch = epoch;
    in_use = 0;
    say("start %012llx.%u", (unsigned long long)uid, boot);
}

static int is_up(const struct cable *cable) {
    if (!cable->fd) return 0;
    if (!cable->interface[0]) return !cable->cut || access(cable->cut, F_OK) != 0;
    struct ifreq ask;
    memset(&ask, 0, sizeof ask);
    memcpy(ask.ifr_name, cable->interface, IFNAMSIZ);
    if (ioctl(cable->fd, SIOCGIFFLAGS, &ask)) return 0;
    return (ask.ifr_flags & IFF_UP) && (ask.ifr_flags & IFF_RUNNING);
}

/* A frame that cannot be sent at once is a lost one. */
static void transmit(uint8_t port, const uint8_t *bytes, size_t length) {
    static uint8_t packet[ETHER_FRONT + AUTONET_MOST_FRAME];
    const struct cable *cable = &cables[port];
    if (!is_up(cable)) return;
    if (!cable->interface[0]) {
        left += send(cable->fd, bytes, length, MSG_DONTWAIT) >= 0;
        return;
    }
    memset(packet, 0xff, 6);
    memset(packet + 6, 0, 6);
    packet[6] = 2;
    packet[12] = ETHER_TYPE >> 8, packet[13] = ETHER_TYPE & 255;
    packet[14] = (uint8_t)(length >> 8), packet[15] = (uint8_t)length;
    memcpy(packet + ETHER_FRONT, bytes, length);
    struct sockaddr_ll to = {.sll_family = AF_PACKET, .sll_ifindex = cable->index, .sll_halen = 6};
    size_t all = ETHER_FRONT + length;
    left += sendto(cable->fd, packet, all, MSG_DONTWAIT, (struct sockaddr *)&to, sizeof to) >= 0;
}

/* How many bytes came, or -1 if none did or they are not for the switch. */
static ssize_t receive(const struct cable *cable, uint8_t *bytes, size_t room) {
    static uint8_t packet[65536];
    struct sockaddr_ll from;
    socklen_t size = sizeof from;
    if (!cable->interface[0]) {
        ssize_t length = recv(cable->fd, bytes, room, MSG_DONTWAIT | MSG_TRUNC);
        return length < 0 || (size_t)length > room || !is_up(cable) ? -1 : length;
    }
    ssize_t all = recvfrom(cable->fd, packet, sizeof packet, MSG_DONTWAIT, (struct sockaddr *)&from, &size);
    if (all < ETHER_FRONT || from.sll_pkttype == PACKET_OUTGOING) return -1;
    size_t length = (size_t)packet[14] << 8 | packet[15];
    if (length > (size_t)all - ETHER_FRONT || length > room) return -1;
    memcpy(bytes, packet + ETHER_FRONT, length);
    return (ssize_t)length;
}

static void say_ports(void) {
    for (uint8_t port = 1; port <= AUTONET_PORTS; port++) {
        autonet_port_shown now;
        autonet_port(&sw, port, &now);
        if (now.state != ports[port].state || now.uid != ports[port].uid || now.boot != ports[port].boot) {
            if (now.state == AUTONET_GOOD)
                say("port %u good %012llx.%u port %u", port, (unsigned long long)now.uid, now.boot, now.port);
            else
                say("port %u %s", port, states[now.state]);
        }
        ports[port] = now;
    }
}

/* The members with their numbers. */
static void members_into(char text[LIST]) {
    autonet_member_shown of;
    size_t at = 0;
    text[0] = 0;
    for (size_t place = 0; at < LIST - WORD && autonet_member(&sw, place, &of) == AUTONET_DONE; place++)
        at += snprintf(text + at, WORD, " %012llx.%u=%u", (unsigned long long)of.uid, of.boot, of.number);
}

/* The rows of the packets of the switch itself. Each of these rows has an exit. */
static void rows_into(char text[LIST]) {
    autonet_row_shown row;
    size_t at = 0;
    text[0] = 0;
    for (size_t place = 0; at < LIST - WORD && autonet_row(&sw, place, &row) == AUTONET_DONE; place++) {
        if (row.entry != 0) return;
        char mark = ':';
        at += snprintf(text + at, WORD, " %u", row.to);
        for (int port = 1; port <= AUTONET_PORTS; port++)
            if (row.exits >> port & 1) at += snprintf(text + at, WORD, "%c%d", mark, port), mark = '/';
    }
}

static void load(void) {
    static char text[LIST];
    uint32_t status = autonet_load(&sw);
    if (status != AUTONET_DONE) {
        say("load failed %u", status); /* it is still due */
        return;
    }
    autonet_show(&sw, &shown);
    had = shown.number;
    in_use = 1; /* here the rows would go to the hardware */
    members_into(text);
    say("load %llu number %u%s", (unsigned long long)shown.table_epoch, shown.number, text);
    rows_into(text);
    say("rows%s", text);
}

/* What follows a clock or a frame, in this order: a table of another epoch goes out of use, an epoch is kept
 * that this one has not passed, the frames go out, a table that is due is loaded. If the life is over no
 * frame goes out, and the switch goes on with the next boot. */
static void after(uint32_t status) {
    static uint8_t bytes[AUTONET_MOST_FRAME];
    autonet_frame_shown frame;
    autonet_shown now;
    if (status == AUTONET_OUT_OF_MEMORY || status == AUTONET_SPENT || status == AUTONET_OVER) {
        if (in_use) say("out of use");
        say("over %u", status);
        autonet_end(&sw);
        start(0);
        return;
    }
    autonet_show(&sw, &now);
    if (now.epoch != shown.epoch) {
        if (in_use) say("out of use");
        in_use = 0;
        say("epoch %llu", (unsigned long long)now.epoch);
    }
    if (now.epoch > kept_epoch) keep(ahead_of(now.epoch));
    int finished = now.members && (now.epoch != shown.epoch || !shown.members);
    shown = now;
    while (autonet_next(&sw, &frame, bytes, sizeof bytes) == AUTONET_DONE)
        transmit(frame.port, bytes, frame.length);
    say_ports();
    if (finished) say("finished %llu members %u", (unsigned long long)now.epoch, now.members);
    if (now.load_due) load();
}

static int roll(int percent) { return percent && (int)(random() % 100) < percent; }

static void take(uint8_t port) {
    static uint8_t bytes[AUTONET_MOST_FRAME];
    ssize_t length = receive(&cables[port], bytes, sizeof bytes);
    if (length < 0) return;
    if (roll(loss)) {
        dropped++;
        return;
    }
    came++;
    after(autonet_frame(&sw, port, bytes, (size_t)length));
    if (roll(again)) after(autonet_frame(&sw, port, bytes, (size_t)length));
}

static void tick(uint64_t now) {
    uint16_t up = 0;
    for (int port = 1; port <= AUTONET_PORTS; port++)
        if (is_up(&cables[port])) up |= (uint16_t)(1u << port);
    after(autonet_clock(&sw, now, up, 0));
}

static long long now_ms(void) {
    struct timespec now;
    clock_gettime(CLOCK_MONOTONIC, &now);
    return now.tv_sec * 1000LL + now.tv_nsec / 1000000;
}

/* Takes what comes until this moment. */
static void wait_until(long long due) {
    struct pollfd polled[AUTONET_PORTS];
    uint8_t which[AUTONET_PORTS];
    nfds_t count = 0;
    for (uint8_t port = 1; port <= AUTONET_PORTS; port++)
        if (cables[port].fd) {
            polled[count] = (struct pollfd){cables[port].fd, POLLIN, 0};
            which[count++] = port;
        }
    for (long long rest; !stop && (rest = due - now_ms()) > 0;) {
        if (poll(polled, count, (int)rest) <= 0) continue;
        for (nfds_t at = 0; at < count && !stop; at++)
            if (polled[at].revents) take(which[at]);
    }
}

static void open_udp(struct cable *cable, int local, int remote, const char *text) {
    struct sockaddr_in at = {.sin_family = AF_INET, .sin_port = htons((uint16_t)local)};
    at.sin_addr.s_addr = htonl(INADDR_LOOPBACK);
    cable->fd = socket(AF_INET, SOCK_DGRAM, 0);
    if (cable->fd < 0 || bind(cable->fd, (struct sockaddr *)&at, sizeof at)) die(text);
    at.sin_port = htons((uint16_t)remote);
    if (connect(cable->fd, (struct sockaddr *)&at, sizeof at)) die(text);
}

static void open_interface(struct cable *cable, const char *interface, const char *text) {
    snprintf(cable->interface, sizeof cable->interface, "%s", interface);
    cable->index = (int)if_nametoindex(interface);
    cable->fd = socket(AF_PACKET, SOCK_RAW, 0); /* it hears nothing before it is bound to the interface */
    struct sockaddr_ll at = {.sll_family = AF_PACKET, .sll_protocol = htons(ETHER_TYPE)};
    at.sll_ifindex = cable->index;
    if (!cable->index || cable->fd < 0 || bind(cable->fd, (struct sockaddr *)&at, sizeof at)) die(text);
}

static int is_udp(int port) { return 1 <= port && port <= UINT16_MAX; }

/* Opens the cable that a LINK tells. */
static void open_cable(const char *text) {
    int port, local, remote, at = 0, end = 0;
    if (sscanf(text, "%2d=%n", &port, &at) != 1 || !at || port < 1 || port > AUTONET_PORTS || cables[port].fd)
        fail(2, "no LINK", text);
    const char *way = text + at;
    if (!strncmp(way, "if:", 3)) {
        open_interface(&cables[port], way + 3, text);
        return;
    }
    if (sscanf(way, "udp:%5d:%5d%n", &local, &remote, &end) != 2 || !is_udp(local) || !is_udp(remote) ||
        (way[end] && (way[end] != ':' || !way[end + 1])))
        fail(2, "no LINK", text);
    cables[port].cut = way[end] ? way + end + 1 : NULL;
    open_udp(&cables[port], local, remote, text);
}

/* The number that a word is. If it is none of these, `no` says what is missing. */
static uint64_t number(const char *no, const char *word, int base, uint64_t least, uint64_t most) {
    char *end;
    errno = 0;
    uint64_t found = strtoull(word, &end, base);
    if (!isalnum((unsigned char)word[0]) || *end || errno || found < least || found > most) fail(2, no, word);
    return found;
}

int main(int count, char **words) {
    uint64_t epoch = 0;
    int at = 1;
    for (; at + 1 < count && !strncmp(words[at], "--", 2); at += 2) {
        const char *option = words[at], *value = words[at + 1];
        if (!strcmp(option, "--loss")) loss = (int)number("no PERCENT", value, 10, 0, 100);
        else if (!strcmp(option, "--again")) again = (int)number("no PERCENT", value, 10, 0, 100);
        else if (!strcmp(option, "--epoch")) epoch = number("no epoch", value, 10, 0, UINT64_MAX);
        else fail(2, "no option", option);
    }
    if (count - at < 5)
        fail(2, "usage",
             "autonetd [--loss PERCENT] [--again PERCENT] [--epoch N] NAME UID BOOTFILE TICK_MS LINK ..");
    name = words[at], boot_file = words[at + 2];
    if (!name[0] || strlen(name) > 16 || name[strspn(name, IN_NAMES)]) fail(2, "no NAME", name);
    uid = number("no UID", words[at + 1], 16, 0, (UINT64_C(1) << 48) - 1);
    int tick_ms = (int)number("no TICK_MS", words[at + 3], 10, 1, 60000);
    for (int fd = 0; fd <= STDERR_FILENO; fd++) /* one that is closed would become a cable */
        if (fcntl(fd, F_GETFD) < 0 && open("/dev/null", O_RDWR) != fd) die("/dev/null");
    for (int link = at + 4; link < count; link++) open_cable(words[link]);
    srandom((unsigned)(uid * 2654435761u + (unsigned)getpid()));
    signal(SIGTERM, on_signal);
    signal(SIGINT, on_signal);
    start(epoch);
    uint64_t ticks = 0;
    for (; !stop; ticks++) {
        tick(ticks);
        wait_until(now_ms() + tick_ms); /* a whole tick, also after a late one: time to answer its probes */
    }
    say("end ticks %llu works %llu carried %u came %lu left %lu dropped %lu", (unsigned long long)ticks,
        (unsigned long long)shown.works, shown.carried, came, left, dropped);
    autonet_end(&sw);
    return 0;
}
