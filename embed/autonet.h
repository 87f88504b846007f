/* autonet.h: one proved switch in a C program.
 *
 * Link libswitch_c.a and the toolchain's liblibc_c.a (docs/library/library.md). From C the library needs only
 * malloc, realloc, free, memcpy, memmove and memset. It has no global state: each autonet_switch refers to
 * all that its switch is, so a program can hold any number of switches.
 *
 * A program calls autonet_clock at each tick and autonet_frame for everything that arrives at a port. After
 * each of these calls it does, in this order:
 *   1. autonet_show; if `epoch` differs from `table_epoch`, it takes its table out of use;
 *   2. autonet_next until AUTONET_NO_MORE, and sends each frame through its port;
 *   3. if `load_due` is 1, autonet_load, and if that succeeds, it puts the rows of autonet_row into use.
 *
 * What a program must ensure, because no call can check it:
 *   - an autonet_switch is zero before the first call with it, and only these calls write it; after a call with
 *     one copy of it, no other copy is used any more;
 *   - calls for one switch come one after the other, from one thread, and neither from a signal handler nor from
 *     the child of a fork; calls for different switches can run concurrently if malloc can;
 *   - pointers are not NULL, even if a count is 0, and point to what the call says; what a call writes
 *     overlaps neither the switch nor any other argument;
 *   - each switch of a network has an identifier of its own, and each start of a switch a boot of its own,
 *     even after a power failure: the next boot is on stable storage before autonet_start. After a call
 *     that says that the life is over (AUTONET_OUT_OF_MEMORY of a clock or a frame, AUTONET_SPENT,
 *     AUTONET_OVER) the switch continues with autonet_end and a start with the next boot;
 *   - a network has at most 126 switches. If it can have more than 126 lives in all, each is started with an
 *     epoch that no earlier life of its switch has exceeded: `epoch` or a higher one is on stable storage
 *     before step 2;
 *   - bytes passed to autonet_frame that form a frame were sent by a switch of this network. Other
 *     bytes can arrive, and frames can be lost, late, repeated, out of order, or arrive at another port;
 *   - step 1 comes before step 2. */
#ifndef AUTONET_H
#define AUTONET_H

#include <stdbool.h>
#include <stddef.h>
#include <stdint.h>

#ifdef __cplusplus
extern "C" {
#endif

/* The ports are 1 to 12. A set of ports is a number: bit p says that it has port p. */
#define AUTONET_PORTS 12

/* The highest number of a switch in a topology, and the most members of one. */
#define AUTONET_MOST_NUMBER 126

/* No frame has more bytes. A link must carry as many. */
#define AUTONET_MOST_FRAME 22591

/* The most clocks and frames of one life, 2^60, and the most frames with a body of one epoch, 2^28. After
 * that many the life is over. */
#define AUTONET_MOST_WORKS UINT64_C(1152921504606846976)
#define AUTONET_MOST_CARRIED 268435456

/* The codes that a call returns. Unless its comment says otherwise, a call that returns another code than
 * AUTONET_DONE changed and wrote nothing. Each call but autonet_start and autonet_fields returns
 * AUTONET_NOT_STARTED if its autonet_switch holds no switch, whatever its other arguments. */
enum {
    AUTONET_DONE = 0,          /* it was done */
    AUTONET_ARGUMENT = 1,      /* a number is out of its range */
    AUTONET_OUT_OF_MEMORY = 2, /* an allocation failed; see the call */
    AUTONET_SPENT = 3,         /* the clock was taken, and no epoch is left: this life is over */
    AUTONET_OVER = 4,          /* this life is over: it takes no clock and no frame */
    AUTONET_NOT_DUE = 5,       /* there is no table to load */
    AUTONET_NOT_STARTED = 6,   /* this autonet_switch holds no switch */
    AUTONET_STARTED = 7,       /* it holds one already */
    AUTONET_NO_MORE = 8,       /* there is no such frame, row or member, or no more of them */
    AUTONET_ROOM = 9           /* the frame is longer than the buffer; its length was written */
};

/* What a switch takes the other end of a port to be. */
enum {
    AUTONET_DEAD = 0,     /* there is no link, or it is held back because there was none */
    AUTONET_CHECKING = 1, /* the link came up; the next clock says whether a host is there */
    AUTONET_HOST = 2,     /* a host */
    AUTONET_WHO = 3,      /* no host; probes ask who it is */
    AUTONET_LOOP = 4,     /* this switch itself */
    AUTONET_GOOD = 5      /* another switch, which is known */
};

/* A switch. Zero holds none: autonet_switch s = {0}; */
typedef struct {
    void *at;
    uint32_t held;
} autonet_switch;

/* What a switch shows of itself. */
typedef struct {
    uint64_t epoch;       /* the epoch that it is in */
    uint64_t table_epoch; /* the epoch of the table that it loaded last, 0 if number is 0 */
    uint64_t works;       /* how many clocks and frames it took in this life, also bytes that form no frame */
    uint32_t carried;     /* how many frames with a body it took in its epoch */
    uint32_t members;     /* how many members it has finished with in its epoch, 0: not finished */
    uint8_t number;       /* its number in the table that it loaded last, 0: none was loaded */
    uint8_t load_due;     /* 1: there is a table to load, else 0 */
    uint8_t unacked;      /* 1: something that it sent is not acknowledged, else 0 */
    uint8_t spent;        /* 1: a clock returned AUTONET_SPENT, else 0 */
    uint8_t noframe;      /* 1: the last bytes that it took form no frame, else 0 */
    uint8_t lost;         /* 1: it ran out of memory in a clock or a frame, else 0 */
} autonet_shown;

/* What it takes the other end of a port to be. */
typedef struct {
    uint64_t uid;  /* the identifier of the switch there, 0 if boot is 0 */
    uint32_t boot; /* its boot, 0: not known */
    uint8_t port;  /* its port, 0 if boot is 0 */
    uint8_t state; /* AUTONET_DEAD to AUTONET_GOOD */
} autonet_port_shown;

/* A row of a table: packets that arrive at `entry` for switch `to` may leave through any of `exits`. */
typedef struct {
    uint16_t exits; /* a set of ports; empty: drop the packets */
    uint8_t entry;  /* the ingress port, 0: packets of this switch itself */
    uint8_t to;     /* the number of a switch, 1 to 126 */
} autonet_row_shown;

/* A member of a topology. */
typedef struct {
    uint64_t uid;   /* its identifier */
    uint32_t boot;  /* its boot */
    uint8_t number; /* its number in the topology, 1 to 126 */
} autonet_member_shown;

/* A frame that goes out. */
typedef struct {
    size_t length; /* how many bytes it has */
    uint8_t port;  /* the port through which it leaves, 1 to 12 */
} autonet_frame_shown;

/* Starts a switch: identifier `uid` below 2^48, `boot` from 1, an `epoch` (0 at first, then one that no
 * earlier life of this switch has exceeded; docs/library/proved.md says why), the number `had` that it asks
 * for, 1 to 126 (the `number` that it had, else 1), and whether its tables have all legal routes (`any`) or
 * only the shortest. It allocates memory, which autonet_end frees. AUTONET_STARTED, AUTONET_ARGUMENT,
 * AUTONET_OUT_OF_MEMORY: nothing was started. */
uint32_t autonet_start(autonet_switch *s, uint64_t uid, uint32_t boot, uint64_t epoch, uint8_t had, bool any);

/* A clock at tick `now`, with the set `up` of the ports that have a link, and the set `hosts` of those of
 * them that have a host at the other end. Other bits are ignored. `now` is one more than at the clock before:
 * what is not acknowledged is sent again when `now` has risen by four since it was last sent. If `now` stays
 * the same, jumps or falls, that happens early or late, and nothing else changes. A tick must be longer than
 * a frame takes to the other end and back with its handling: two consecutive unanswered probes end a link.
 * AUTONET_SPENT: the clock was taken, the ports have changed, nothing is joined, and no frame goes out.
 * AUTONET_OUT_OF_MEMORY: the life is over, no frame goes out, and what is shown is as it was at the start,
 * except `works`, `lost` and the table that was loaded last. AUTONET_OVER: nothing was done. */
uint32_t autonet_clock(autonet_switch *s, uint64_t now, uint16_t up, uint16_t hosts);

/* `length` bytes arrived at `port`, 1 to 12. Bytes that form no frame change nothing but `works` and `noframe`;
 * more than AUTONET_MOST_FRAME form none. AUTONET_ARGUMENT: there is no such port, even if the life is over.
 * AUTONET_OUT_OF_MEMORY and AUTONET_OVER: as of a clock. */
uint32_t autonet_frame(autonet_switch *s, uint8_t port, const uint8_t *bytes, size_t length);

/* The next frame that goes out since the last clock or frame, in order: its port and length, and its
 * bytes at the start of `bytes`, which has space for `room`. A frame that the program does not fetch before
 * the next clock or the next bytes are taken is lost. AUTONET_NO_MORE: all were delivered.
 * AUTONET_ROOM: `room` is too small; only `length` was written, and the frame is still the next one.
 * AUTONET_MOST_FRAME is always enough. */
uint32_t autonet_next(autonet_switch *s, autonet_frame_shown *frame, uint8_t *bytes, size_t room);

/* Loads the table that is due. autonet_row gives its rows until the next load. AUTONET_NOT_DUE: none
 * is due. AUTONET_OUT_OF_MEMORY: it is still due, and the life goes on. */
uint32_t autonet_load(autonet_switch *s);

/* What the switch shows of itself. */
uint32_t autonet_show(autonet_switch *s, autonet_shown *shown);

/* What it takes the other end of `port` to be. AUTONET_ARGUMENT: the port is not 1 to 12. */
uint32_t autonet_port(autonet_switch *s, uint8_t port, autonet_port_shown *shown);

/* The row at index `place`, from 0, of the table that was loaded last, ascending by entry, then by number.
 * AUTONET_NO_MORE: there is none at this index. */
uint32_t autonet_row(autonet_switch *s, size_t place, autonet_row_shown *row);

/* The member at index `place`, from 0, of the topology with which the switch has finished in its present epoch,
 * ascending by identifier, then by boot. AUTONET_NO_MORE: there is none at this index, or it has not finished. */
uint32_t autonet_member(autonet_switch *s, size_t place, autonet_member_shown *member);

/* Ends the life of the switch and frees its memory. `s` then holds no switch. AUTONET_NOT_STARTED: it held
 * none before. */
uint32_t autonet_end(autonet_switch *s);

/* Fills each byte of each field with the index of the field in its struct, from 1. So a program can check
 * that this header and the library agree, as embed/fields.c does. */
void autonet_fields(autonet_shown *shown, autonet_port_shown *port, autonet_row_shown *row,
                    autonet_member_shown *member, autonet_frame_shown *frame);

#ifdef __cplusplus
}
#endif
#endif
