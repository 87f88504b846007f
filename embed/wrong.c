/* What a caller in C can do wrong, and what it is answered; each allocation failing in turn; and that all
 * memory is given back. Prints a line for each answer that is another than it should be, and then 'N passed,
 * M failed'. It is linked with --wrap=malloc,--wrap=realloc,--wrap=free. */
#include "autonet.h"
#include <stdio.h>
#include <string.h>

void *__real_malloc(size_t size);
void *__real_realloc(void *at, size_t size);
void __real_free(void *at);
static long until = -1; /* how many allocations go well before one fails; -1: all */
static uint32_t blocks; /* how many the library holds */

static int fails(void) { return until >= 0 && until-- == 0; }

void *__wrap_malloc(size_t size) {
    void *at = fails() ? NULL : __real_malloc(size);
    blocks += at != NULL;
    return at;
}

void *__wrap_realloc(void *at, size_t size) { return fails() ? NULL : __real_realloc(at, size); }

void __wrap_free(void *at) {
    blocks -= at != NULL;
    __real_free(at);
}

static int passed, failed;

static void want(const char *what, uint32_t status, uint32_t wanted) {
    if (status == wanted) {
        passed++;
        return;
    }
    failed++;
    printf("failed: %s: %u in place of %u\n", what, status, wanted);
}

static uint8_t bytes[2 * AUTONET_MOST_FRAME];
static autonet_shown shown;
static autonet_port_shown port;
static autonet_row_shown row;
static autonet_member_shown member;
static autonet_frame_shown frame;

/* Each call but a start, at a handle that holds no switch. Nothing is written into what is passed. */
static void none_is_held(const char *when, autonet_switch *s) {
    static struct {
        autonet_frame_shown frame;
        uint8_t bytes[AUTONET_MOST_FRAME];
        autonet_shown shown;
        autonet_port_shown port;
        autonet_row_shown row;
        autonet_member_shown member;
    } passed;
    const uint8_t *byte = (const uint8_t *)&passed;
    autonet_switch before = *s;
    uint32_t written = 0;
    printf("%s\n", when);
    want("blocks held", blocks, 0);
    memset(&passed, 0xa5, sizeof passed);
    want("clock", autonet_clock(s, 0, 2, 0), AUTONET_NOT_STARTED);
    want("frame", autonet_frame(s, 1, bytes, 0), AUTONET_NOT_STARTED);
    want("next", autonet_next(s, &passed.frame, passed.bytes, sizeof passed.bytes), AUTONET_NOT_STARTED);
    want("load", autonet_load(s), AUTONET_NOT_STARTED);
    want("show", autonet_show(s, &passed.shown), AUTONET_NOT_STARTED);
    want("port", autonet_port(s, 1, &passed.port), AUTONET_NOT_STARTED);
    want("row", autonet_row(s, 0, &passed.row), AUTONET_NOT_STARTED);
    want("member", autonet_member(s, 0, &passed.member), AUTONET_NOT_STARTED);
    want("end", autonet_end(s), AUTONET_NOT_STARTED);
    want("the mark", s->held, before.held);
    for (size_t at = 0; at < sizeof passed; at++) written += byte[at] != 0xa5;
    want("bytes written", written, 0);
}

static void ranges(autonet_switch *s) {
    want("port 13 without a switch", autonet_frame(s, 13, bytes, 0), AUTONET_NOT_STARTED);
    want("an identifier of 49 bits", autonet_start(s, 1ull << 48, 1, 0, 1, false), AUTONET_ARGUMENT);
    want("boot 0", autonet_start(s, 1, 0, 0, 1, false), AUTONET_ARGUMENT);
    want("number 0", autonet_start(s, 1, 1, 0, 0, false), AUTONET_ARGUMENT);
    want("number 127", autonet_start(s, 1, 1, 0, 127, false), AUTONET_ARGUMENT);
    want("the mark", s->held, 0);
    want("the greatest numbers", autonet_start(s, (1ull << 48) - 1, 0xffffffff, 0, 126, true), AUTONET_DONE);
    want("a second start", autonet_start(s, 1, 1, 0, 1, false), AUTONET_STARTED);
    want("a second start out of range", autonet_start(s, 1, 0, 0, 1, false), AUTONET_STARTED);
    want("port 0", autonet_frame(s, 0, bytes, 0), AUTONET_ARGUMENT);
    want("port 13", autonet_frame(s, 13, bytes, 0), AUTONET_ARGUMENT);
    want("port 0", autonet_port(s, 0, &port), AUTONET_ARGUMENT);
    want("port 13", autonet_port(s, 13, &port), AUTONET_ARGUMENT);
    want("show", autonet_show(s, &shown), AUTONET_DONE);
    want("no work was counted", shown.works, 0);
    want("no body was counted", shown.carried, 0);
}

static void nothing_there(autonet_switch *s) {
    want("no frame", autonet_next(s, &frame, bytes, sizeof bytes), AUTONET_NO_MORE);
    want("no table", autonet_load(s), AUTONET_NOT_DUE);
    want("no row", autonet_row(s, 0, &row), AUTONET_NO_MORE);
    want("no row at the last place", autonet_row(s, (size_t)-1, &row), AUTONET_NO_MORE);
    want("no member", autonet_member(s, 0, &member), AUTONET_NO_MORE);
    want("ports that are none", autonet_clock(s, 0, 0xe001, 0xe001), AUTONET_DONE);
    for (uint8_t at = 1; at <= AUTONET_PORTS; at++) {
        want("port", autonet_port(s, at, &port), AUTONET_DONE);
        want("a dead port", port.state, AUTONET_DEAD);
    }
    want("a member", autonet_member(s, 0, &member), AUTONET_DONE);
    want("its number", member.number, 126);
    want("no second member", autonet_member(s, 1, &member), AUTONET_NO_MORE);
    want("a table", autonet_load(s), AUTONET_DONE);
    want("no second table", autonet_load(s), AUTONET_NOT_DUE);
    static const uint64_t ticks[] = {0, 0, UINT64_MAX, 7, UINT64_MAX - 1, 1};
    for (size_t at = 0; at < sizeof ticks / sizeof ticks[0]; at++)
        want("a clock at any tick", autonet_clock(s, ticks[at], 6, 4), AUTONET_DONE);
}

/* A frame that no link carries, and frames of any bytes. */
static void no_frames(autonet_switch *s) {
    memset(bytes, 0xff, sizeof bytes);
    static const size_t lengths[] = {AUTONET_MOST_FRAME, AUTONET_MOST_FRAME + 1, sizeof bytes};
    for (size_t at = 0; at < sizeof lengths / sizeof lengths[0]; at++) {
        want("show", autonet_show(s, &shown), AUTONET_DONE);
        uint64_t works = shown.works;
        want("many bytes", autonet_frame(s, 12, bytes, lengths[at]), AUTONET_DONE);
        want("show", autonet_show(s, &shown), AUTONET_DONE);
        want("no frame", shown.noframe, 1);
        want("one work more", shown.works == works + 1, true);
    }
    for (int first = 0; first < 256; first++) {
        bytes[0] = (uint8_t)first;
        want("any bytes", autonet_frame(s, 1, bytes, 31), AUTONET_DONE);
        want("no frame goes out", autonet_next(s, &frame, bytes + 1, 0), AUTONET_NO_MORE);
    }
}

/* In the last epoch a change spends the life. */
static void spent(autonet_switch *s) {
    want("start", autonet_start(s, 2, 1, UINT64_MAX, 1, false), AUTONET_DONE);
    want("the last epoch", autonet_clock(s, 0, 2, 0), AUTONET_SPENT);
    want("no frame goes out", autonet_next(s, &frame, bytes, sizeof bytes), AUTONET_NO_MORE);
    want("a clock", autonet_clock(s, 1, 2, 0), AUTONET_OVER);
    want("a frame", autonet_frame(s, 1, bytes, 0), AUTONET_OVER);
    want("a port that is none", autonet_frame(s, 0, bytes, 0), AUTONET_ARGUMENT);
    want("show", autonet_show(s, &shown), AUTONET_DONE);
    want("spent", shown.spent, 1);
    want("end", autonet_end(s), AUTONET_DONE);
}

/* Two clocks and a load, of which the allocation after `well` others fails. Says whether one did. */
static int without(autonet_switch *s, long well) {
    until = well;
    uint32_t status = autonet_start(s, 3, 1, 8, 1, false);
    if (status != AUTONET_DONE) {
        want("a start without memory", status, AUTONET_OUT_OF_MEMORY);
        want("the mark", s->held, 0);
        until = -1;
        return 1;
    }
    for (uint64_t now = 0; now < 3 && status == AUTONET_DONE; now++) status = autonet_clock(s, now, 6, 4);
    if (status != AUTONET_DONE) {
        want("a clock without memory", status, AUTONET_OUT_OF_MEMORY);
        want("no frame goes out", autonet_next(s, &frame, bytes, sizeof bytes), AUTONET_NO_MORE);
        want("a clock after it", autonet_clock(s, 9, 6, 4), AUTONET_OVER);
        want("show", autonet_show(s, &shown), AUTONET_DONE);
        want("lost", shown.lost, 1);
        want("the epoch of the start", shown.epoch == 8, true);
    } else {
        status = autonet_load(s);
        if (status != AUTONET_DONE) {
            want("a load without memory", status, AUTONET_OUT_OF_MEMORY);
            until = -1;
            want("the load after it", autonet_load(s), AUTONET_DONE);
        }
    }
    int did_fail = until < 0;
    until = -1;
    want("end", autonet_end(s), AUTONET_DONE);
    return did_fail;
}

int main(void) {
    autonet_switch s = {0};
    none_is_held("before a start", &s);
    ranges(&s);
    nothing_there(&s);
    no_frames(&s);
    want("end", autonet_end(&s), AUTONET_DONE);
    none_is_held("after an end", &s);
    spent(&s);
    long well = 0;
    while (without(&s, well)) well++;
    none_is_held("after all", &s);
    printf("%ld allocations failed in turn\n", well);
    printf("%d passed, %d failed\n", passed, failed);
    return failed != 0;
}
