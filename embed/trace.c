/* Reads on standard input what happens to a switch, and prints what the switch of the library answers, in
 * the lines of crates/tests_switch. A line that says nothing of the kind ends the program with 1. */
#include "autonet.h"
#include <ctype.h>
#include <stdio.h>
#include <stdlib.h>
#include <string.h>

static const char *const states[] = {"dead", "checking", "host", "who", "loop", "good"};
static autonet_switch s;
static uint8_t bytes[AUTONET_MOST_FRAME];

static _Noreturn void fail(const char *why) {
    fprintf(stderr, "trace: %s\n", why);
    exit(1);
}

/* The frames that go out. The room is first too little, to see that the frame stays the next one. */
static void frames(void) {
    autonet_frame_shown frame;
    uint8_t little[1];
    uint32_t status;
    while ((status = autonet_next(&s, &frame, little, 0)) != AUTONET_NO_MORE) {
        size_t length = frame.length;
        if (status != AUTONET_ROOM) fail("next");
        status = autonet_next(&s, &frame, bytes, sizeof bytes);
        if (status != AUTONET_DONE || frame.length != length) fail("next");
        printf("out %u ", frame.port);
        for (size_t i = 0; i < length; i++) printf("%02x", bytes[i]);
        printf("\n");
    }
}

static autonet_shown shown(void) {
    autonet_shown shown;
    if (autonet_show(&s, &shown) != AUTONET_DONE) fail("show");
    return shown;
}

static void note(void) {
    autonet_shown now = shown();
    printf("note %llu", (unsigned long long)now.epoch);
    for (uint8_t port = 1; port <= AUTONET_PORTS; port++) {
        autonet_port_shown far;
        if (autonet_port(&s, port, &far) != AUTONET_DONE) fail("port");
        if (far.state == AUTONET_DEAD) continue;
        printf(" %u:%s", port, states[far.state]);
        if (far.boot) printf("=%llu.%u:%u", (unsigned long long)far.uid, far.boot, far.port);
    }
    if (now.load_due) printf(" due");
    if (now.unacked) printf(" unacked");
    if (now.members) printf(" finished %u", now.members);
    printf("\n");
}

static void start(const char *line) {
    unsigned long long uid, epoch;
    unsigned boot, had;
    char routes[8];
    if (sscanf(line, "start %llu %u %llu %u %7s", &uid, &boot, &epoch, &had, routes) != 5) fail(line);
    autonet_end(&s);
    bool any = strcmp(routes, "any") == 0;
    if (autonet_start(&s, uid, boot, epoch, (uint8_t)had, any) != AUTONET_DONE) fail(line);
    note();
}

static void tick(const char *line) {
    unsigned long long now;
    char samples[AUTONET_PORTS + 1];
    uint16_t up = 0, hosts = 0;
    if (sscanf(line, "clock %llu %12s", &now, samples) != 2 || strlen(samples) != AUTONET_PORTS) fail(line);
    for (int port = 1; port <= AUTONET_PORTS; port++) {
        if (samples[port - 1] != 'd') up |= (uint16_t)(1u << port);
        if (samples[port - 1] == 'h') hosts |= (uint16_t)(1u << port);
    }
    uint32_t status = autonet_clock(&s, now, up, hosts);
    if (status == AUTONET_SPENT) printf("spent\n");
    else if (status != AUTONET_DONE) fail(line);
    frames();
    note();
}

static int is_digit(char letter) { return isxdigit((unsigned char)letter); }

static void comes(const char *line) {
    unsigned port;
    int at = 0;
    size_t length = 0;
    if (sscanf(line, "frame %u %n", &port, &at) != 1 || !at) fail(line);
    const char *text = line + at + (line[at] == '-'); /* which stands for no bytes */
    for (; text[0] != '\n' && text[0]; text += 2) {
        unsigned byte;
        if (length == sizeof bytes || !is_digit(text[0]) || !is_digit(text[1])) fail(line);
        sscanf(text, "%2x", &byte);
        bytes[length++] = (uint8_t)byte;
    }
    if (autonet_frame(&s, (uint8_t)port, bytes, length) != AUTONET_DONE) fail(line);
    frames();
    if (shown().noframe) printf("noframe\n");
    note();
}

static void rows(void) {
    autonet_row_shown row;
    int entry = -1;
    for (size_t place = 0; autonet_row(&s, place, &row) == AUTONET_DONE; place++) {
        if (row.entry != entry) {
            printf("%srow %u", entry < 0 ? "" : "\n", row.entry);
            entry = row.entry;
        }
        printf(" %u", row.to);
        char mark = ':';
        for (int port = 1; port <= AUTONET_PORTS; port++)
            if (row.exits >> port & 1) printf("%c%d", mark, port), mark = '/';
        if (mark == ':') printf(":-");
    }
    if (entry >= 0) printf("\n");
}

static void load(const char *line) {
    autonet_member_shown member;
    if (autonet_load(&s) != AUTONET_DONE) fail(line);
    autonet_shown now = shown();
    printf("loaded %llu %u\n", (unsigned long long)now.table_epoch, now.number);
    rows();
    printf("members");
    for (size_t place = 0; autonet_member(&s, place, &member) == AUTONET_DONE; place++)
        printf(" %llu.%u=%u", (unsigned long long)member.uid, member.boot, member.number);
    printf("\n");
    note();
}

int main(void) {
    static char line[2 * AUTONET_MOST_FRAME + 100];
    while (fgets(line, sizeof line, stdin)) {
        if (!strncmp(line, "start ", 6)) start(line);
        else if (!strncmp(line, "clock ", 6)) tick(line);
        else if (!strncmp(line, "frame ", 6)) comes(line);
        else if (!strncmp(line, "load", 4)) load(line);
        else fail(line);
    }
    autonet_end(&s);
    return 0;
}
