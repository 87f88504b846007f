/* A model of all that waits, rouses, sleeps and wakes in a run: src/shift.rt, src/rousing.rt and the loops of
 * src/running.rt.  `tests/autonet/by-hand/wakeup-model` walks through all its states with spin, and through those of the same with a bug in it
 * (BUG_..), each of which it wants to find.  Behind each line stands what it is a model of.
 *
 * There are PARTIES parties of EACH workers, the first with the driver.  What a party does behind the door is one step,
 * with what it does by itself before: all that it changes there is looked at only behind the door.  The book is a count
 * of what waits for each worker.  A tick gives each worker one more; a worker that handled one may send one to any
 * worker, SENDS times in all.  Once TICKS ticks are over and nothing waits any more the driver is told the end.  Memory
 * is wanting once, or never, to the driver or to a worker.  A shift may lack threads: then its parties go one after the
 * other, in either order.
 *
 * Not here: how often one looks before it gives up, gives way or sleeps (it may give up at once), and what the kit's
 * mutex does while one waits for it.  The kit's condition variable is here, with each of its steps. */

#ifndef PARTIES
#define PARTIES 2
#endif
#ifndef EACH
#define EACH 1
#endif
#ifndef TICKS
#define TICKS 1
#endif
#ifndef SENDS
#define SENDS 1
#endif
#define WORKERS (PARTIES * EACH)
#define FIRST 0                       /* shift.rt, FIRST */
#define ALL ((1 << EACH) - 1)         /* rousing.rt, all_of */
#define BIT(w) (1 << ((w) % EACH))    /* rousing.rt, bit */
#define NOBODY 9                      /* no worker */

mtype = { Turn, Drive, End, Ask, Later, Do }     /* shift.rt, Then; desk.rt, Next */

/* The book and the workers, which stay from one shift to the next. */
byte waits[WORKERS]                   /* what the book has for each worker */
bool holds[WORKERS]                   /* what a worker took, and has not put yet */
mtype next[WORKERS] = Ask             /* worker.rt, Worker.next */
bool putting[WORKERS]                 /* desk.rt, Pending::Put */
bool lacks[WORKERS]                   /* worker.rt, Worker::failed */
byte ticks, sent
bool told, driver_lacks               /* driver.rt, Driver.end and Driver::failed */
bool wanting                          /* memory was wanting once */

/* shift.rt, Hall */
byte roused[PARTIES]                  /* rousing.rt, Rousing.roused */
byte begun, resting
bool over

/* shift.rt, Shift.bell: the kit's Condvar, and who is asleep in the kernel */
byte sleepers
bool changed[PARTIES]                 /* the word is another than the one that a party saw */
bool parked[PARTIES]

byte ended                            /* how many parties have left the shift */

/* Hall::all_rest, is_to_go_on */
#define IS_ROUSED(p) ((p) < PARTIES && roused[(p) % PARTIES] != 0)
#define ALL_REST (resting == PARTIES && !IS_ROUSED(0) && !IS_ROUSED(1) && !IS_ROUSED(2))
#define GOES_ON(p) (roused[p] != 0 || over || (p == FIRST && ALL_REST))

/* Condvar::notify_all of the kit */
inline change() { d_step { for (k : 0 .. PARTIES - 1) { changed[k] = true }; k = 0 } }

inline notify_all() {
#ifdef BUG_FT4                        /* the sleepers are looked at before the word changes */
    slept = sleepers;
    change();
#else
#ifndef BUG_ST6                       /* the word on which one sleeps does not change */
    change();
#endif
    slept = sleepers;
#endif
    if
    :: slept != 0 -> d_step { slept = 0; for (k : 0 .. PARTIES - 1) { parked[k] = false }; k = 0 }    /* wake_all */
    :: else
    fi
}

/* Shift::leave, first half, behind the door: are some to go on?  (Whom it names is only looked at in `look`.) */
inline look_whom_to_call() {
    calls = false;
#ifndef BUG_ST7                       /* who sleeps is not called when it is roused */
    calls = IS_ROUSED(0) || IS_ROUSED(1) || IS_ROUSED(2);
#endif
#ifndef BUG_ST8                       /* who sleeps is not called at the end */
    calls = calls || over;
#endif
#ifndef BUG_ST10                      /* the driver that sleeps is not told that all rest */
    calls = calls || ALL_REST
#endif
}

/* Shift::leave, second half, in front of it */
inline call() {
    if
    :: calls -> calls = false; notify_all()
    :: else
    fi
}

/* Shift::begin */
inline begin() {
    begun++;
#ifndef BUG_ST11                      /* who lacks others waits for them all the same */
    if
    :: atomic { begun == PARTIES || over -> skip }                                 /* a look that is not in vain */
#ifndef BESIDE                        /* each has a thread, and begins soon */
    :: atomic {                                                                    /* after looks in vain */
           if
           :: begun < PARTIES ->
#ifdef BUG_ST12                       /* who gives up does not say so, and goes alone */
              then = End
#else
              over = true
#endif
           :: else
           fi;
           look_whom_to_call()
       };
       call()
#endif
    fi
#endif
}

/* Worker::prepare */
inline prepare(w) {
    if
    :: lacks[w]
    :: !lacks[w] && next[w] == Later && !(mine & BIT(w))                           /* Next::is_due */
    :: !lacks[w] && (next[w] != Later || (mine & BIT(w))) ->
       if
       :: !wanting -> wanting = true; lacks[w] = true                              /* Desk::ready, no memory */
       :: putting[w] = (next[w] == Do || putting[w]);                              /* Desk::work */
          next[w] = Ask;                                                           /* Next::once_roused */
          asks = asks | BIT(w)                                                     /* Worker.is_asking */
       fi
    fi
}

/* Worker::turn: one call of the turnstile */
inline turn(w) {
    if
    :: (asks & BIT(w)) && putting[w] ->                                            /* Desk::put */
       putting[w] = false;
       holds[w] = false;
       if
       :: sent < SENDS ->
          sent++;
          select(to : 0 .. WORKERS - 1);
          waits[to]++;
#ifndef BUG_ST21                      /* else below */
          roused[to / EACH] = roused[to / EACH] | BIT(to);                         /* Rousing::rouse */
          to = NOBODY
#endif
       :: true
       fi
    :: (asks & BIT(w)) && !putting[w] && waits[w] > 0 ->                           /* Desk::take */
       waits[w]--;
       holds[w] = true;
       next[w] = Do
    :: (asks & BIT(w)) && !putting[w] && waits[w] == 0 -> next[w] = Later
    :: else
    fi
}

/* running.rt, turn: prepare, ask_or_rest and finish */
inline make_turns() {
    atomic {
        asks = 0;
        for (w : me * EACH .. me * EACH + EACH - 1) { prepare(w) };
        mine = 0;
        if
        :: asks != 0 ->                                                            /* are_asking */
           for (w : me * EACH .. me * EACH + EACH - 1) { turn(w) };                /* ask */
#ifndef BUG_ST22                      /* else below */
           mine = roused[me];                                                      /* Shift::take_roused, Rousing::take */
           roused[me] = 0;
#endif
        :: else ->
#if !defined BUG_ST16 && !defined BUG_ST33   /* want of memory of a worker does not end the shift, or is not seen */
           for (w : me * EACH .. me * EACH + EACH - 1) { over = over || lacks[w] };    /* have_failed */
#endif
           resting++                                                               /* Shift::rest */
        fi;
        w = 0;
        look_whom_to_call()
    };
#ifdef BUG_ST21                       /* one of two that are roused at the same time is lost */
    if
    :: to != NOBODY -> mask = roused[to / EACH]; roused[to / EACH] = mask | BIT(to); to = NOBODY; calls = true
    :: else
    fi;
#endif
#ifdef BUG_ST22                       /* who is roused while a party takes what it has is lost */
    if
    :: asks != 0 -> mine = roused[me]; roused[me] = 0
    :: else
    fi;
#endif
    call();
    if
    :: asks == 0 -> rest()
    :: else -> asks = 0
    fi
}

/* Shift::rest, once the party rests and has looked for a while: Condvar::wait_while, Hall::then */
inline rest() {
#ifdef BUG_ST3                        /* sleeps without a second look */
    changed[me] = false;
    sleep();
#endif
    do
    :: atomic {
           GOES_ON(me) ->
           resting--;
           mine = roused[me];
           roused[me] = 0;
           if
           :: mine != 0 -> then = Turn
           :: mine == 0 && over -> then = End
           :: else ->
              then = Drive;
              for (w : 0 .. WORKERS - 1) { assert(waits[w] == 0) };                /* no round ends too soon */
              w = 0
           fi;
           look_whom_to_call()
       };
       call();
       break
    :: atomic { !GOES_ON(me) -> changed[me] = false };                             /* Condvar::wait, to the unlock */
       sleep()
    od
}

/* Condvar::wait of the kit, from the unlock to the lock */
inline sleep() {
    sleepers++;
    if                                                                             /* park */
    :: atomic { !changed[me] -> parked[me] = true }; !parked[me]
    :: atomic { changed[me] -> skip }
    fi;
    atomic { sleepers--; changed[me] = true }
}

/* running.rt, drive: Driver::steps and Shift::rouse_all */
inline drive() {
    atomic {
        idle = true;
        for (w : 0 .. WORKERS - 1) { idle = idle && waits[w] == 0 && !holds[w] };
        if
        :: told || driver_lacks                                                    /* asked once more, in vain */
        :: !told && !driver_lacks && !wanting -> wanting = true; driver_lacks = true
        :: !told && !driver_lacks && idle && ticks < TICKS ->                      /* Drive::Did */
           ticks++;
           for (w : 0 .. WORKERS - 1) { waits[w]++ }
        :: !told && !driver_lacks && idle && ticks == TICKS -> told = true         /* Drive::Ended */
        :: !told && !driver_lacks && !idle                                         /* Drive::Waits */
        fi;
        idle = false;
        over = over || told;                                                       /* Driver::has_ended */
#ifndef BUG_ST17                      /* want of memory of the driver does not end the shift */
        over = over || driver_lacks;
#endif
        for (w : 0 .. PARTIES - 1) { roused[w] = ALL };                            /* Rousing::rouse_all */
        w = 0;
        mine = roused[me];                                                         /* Shift::take_roused */
        roused[me] = 0;
        then = Turn;
        look_whom_to_call()
    };
    call()
}

/* running.rt, lead where the party is the first, else stay; both by work */
proctype party(byte me) {
    mtype then;
    byte mine, mask, slept, k, w, asks;
    byte to = NOBODY;
    bool calls, idle;
    if
    :: me == FIRST -> then = Drive
    :: else -> then = Turn
    fi;
    begin();
    do
    :: then == Turn ->
       make_turns()
#ifdef BUG_ST38                       /* a party leaves the shift after its turns */
       ; if
       :: me != FIRST -> then = End
       :: else
       fi
#endif
    :: then == Drive -> assert(me == FIRST); drive()
    :: then == End -> break
    od;
    ended++
}

/* running.rt, shifts: the shifts of a run, until the driver was told the end or memory was wanting */
init {
    byte p;
    bool lacking;
    do
    :: atomic {                                                                    /* Shift::new */
           for (p : 0 .. PARTIES - 1) { roused[p] = ALL; changed[p] = true };
           begun = 0; resting = 0; over = false; ended = 0
       };
       if
       :: atomic { for (p : 0 .. PARTIES - 1) { run party(p) } }                   /* each has a thread */
#ifndef BESIDE
       :: for (p : 0 .. PARTIES - 1) { run party(p); ended == p + 1 }              /* one after the other */
       :: for (p : 0 .. PARTIES - 1) { run party(PARTIES - 1 - p); ended == p + 1 }
#endif
       fi;
       p = 0;
       ended == PARTIES && _nr_pr == 1;
       assert(sleepers == 0 && resting == 0);
       atomic {
           lacking = driver_lacks;
           for (p : 0 .. WORKERS - 1) { lacking = lacking || lacks[p] };
           p = 0
       };
       if
       :: lacking || told -> break
       :: else
       fi
    od
}
