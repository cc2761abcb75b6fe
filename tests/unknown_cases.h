/*
 * Cases of unknown bits, at least one for each reading of the request. Rows, words and lists were worked out by hand from
 * the rules; above a case stands why. A sample is written as its wires, from the highest number down to 0, x where one is
 * unknown, and the samples of a word cycle by cycle.
 */
#ifndef UNKNOWN_CASES_H
#define UNKNOWN_CASES_H

#include "frame.h"
#include "selvedgeon.h"

#define MOST 6 /* cycles */
#define STOP SELVEDGEON_STOPPED

/* the open words of kind 6, and of kind 8 with a reference */
#define NEXT(state) ((UINT64_C(1) << 32) + (state))
#define HOLDS(left, reference) ((UINT64_C(1) << 48) + ((uint64_t)(reference) << 16) + (left))

/* the checkers: P [n-1:0]; start and test on wire 0; three buses [1:0]; P [1:0] and the trigger on wire 0, 2 expected */
#define SEQUENCE(kind, n) {kind, n, {n - 1, 0}, {0, 0}, {0, 0}, 0, 0, 0}
#define TIME(kind, n) {kind, n, {0, 0}, {0, 0}, {0, 0}, 0, 0, 0}
#define TRANSITION {6, 0, {1, 0}, {1, 0}, {1, 0}, 0, 0, 0}
#define VALUE(min, max) {7, max, {1, 0}, {0, 0}, {0, 0}, min, 2, 0}
#define STABILITY(min, max) {8, max, {1, 0}, {0, 0}, {0, 0}, min, 0, 0}

/* 30 and 31 wires that are 0 */
#define ZEROS_30 "000000000000000000000000000000"
#define ZEROS_31 "0" ZEROS_30

/* a checker, its trace, and what is due. Without samples reset_n and enable are 1, and a port is 0 */
struct example {
    const char *name;
    struct selvedgeon_config config;
    const char *wires[4];
    uint32_t rows[MOST];
    uint64_t words[MOST];
    int entries;
    uint32_t list[3 * MOST];
};

static const struct example sequences[] = {
    /* an attempt from cycle 0 would fail in cycle 1; that of cycle 1 passes */
    {"kind 1, unknown start", SEQUENCE(1, 3), .wires[P] = "x11 100 010 001", .rows = {0, 4, 0, 0}, .words = {0, 1, 2, 0}},
    /* the attempt is over in cycle 1: going on it would fail in cycle 2 */
    {"kind 1, unknown second event", SEQUENCE(1, 3), .wires[P] = "100 0x0 000", .rows = {4, 32, 0}, .words = {1, 0, 0}},
    {"kind 1, unknown last event", SEQUENCE(1, 3), .wires[P] = "100 010 00x", .rows = {4, 0, 32}, .words = {1, 2, 0}},
    /* in cycle 1 the second event is known, and the others are not asked */
    {"kind 1, unknown events not asked", SEQUENCE(1, 3), .wires[P] = "1xx x1x xx1", .rows = {4, 0, 0}, .words = {1, 2, 0}},
    /* cycle 2: the last event of the attempt from 0 is unknown, the second of that from 1 is 0; then the other way round */
    {"kind 1, older unknown, newer fails", SEQUENCE(1, 3), .wires[P] = "100 110 00x", .rows = {4, 4, 33},
     .words = {1, 3, 0}, .entries = 1, .list = {2, 1, 1}},
    {"kind 1, older fails, newer unknown", SEQUENCE(1, 3), .wires[P] = "100 110 0x0", .rows = {4, 4, 33},
     .words = {1, 3, 0}, .entries = 1, .list = {2, 1, 0}},
    /* both attempts end in cycle 2, for an unknown event each: one mark 32. A known start beside them is accepted */
    {"kind 1, two reasons", SEQUENCE(1, 3), .wires[P] = "100 110 1xx 010", .rows = {4, 4, 36, 0}, .words = {1, 3, 1, 2}},
    /* wire 0 is the first event, wire 2 the last */
    {"kind 1, ascending", {1, 3, {0, 2}, {0, 0}, {0, 0}, 0, 0, 0}, .wires[P] = "001 010 x00", .rows = {4, 0, 32},
     .words = {1, 2, 0}},
    /* wire 30 is the first event, wire 31 the last */
    {"kind 1, highest wires", {1, 2, {30, 31}, {0, 0}, {0, 0}, 0, 0, 0}, .wires[P] = "01" ZEROS_30 " x0" ZEROS_30,
     .rows = {4, 32}, .words = {1, 0}},
    /* the events are wires 2 and 1: the unknown wires lie outside, in unused ports, and in the reset word above reset_n */
    {"kind 1, unknown outside", {1, 2, {2, 1}, {0, 0}, {0, 0}, 0, 0, 0}, .wires[RESET] = "xx1 xx1 xx1",
     .wires[P] = "x10x x11x x00x", .wires[Q] = "x x x", .wires[R] = "xx xx xx", .rows = {4, 4, 1}, .words = {1, 1, 0},
     .entries = 1, .list = {2, 1, 1}},
    /* accepted in cycle 0, it would keep that of cycle 1 out */
    {"kind 2, unknown start", SEQUENCE(2, 3), .wires[P] = "x11 100 010 001", .rows = {0, 4, 0, 0}, .words = {0, 1, 2, 0}},
    /* the start of cycle 1 is ignored, as the attempt is tested there; that of cycle 2 is accepted */
    {"kind 2, start where the attempt ends", SEQUENCE(2, 3), .wires[P] = "100 1x0 100", .rows = {4, 32, 4},
     .words = {1, 0, 1}},
    {"kind 2, start at an unknown last event", SEQUENCE(2, 3), .wires[P] = "100 010 10x 100", .rows = {4, 0, 32, 4},
     .words = {1, 2, 0, 1}},
    {"kind 0, unknown start", SEQUENCE(0, 3), .wires[P] = "x11 010 000", .rows = {0, 0, 0}, .words = {0, 0, 0}},
    /* read as 0, the second event ends the attempt: no mark 4, and no failure in cycle 2 */
    {"kind 0, unknown before the last event", SEQUENCE(0, 3), .wires[P] = "100 0x0 000", .rows = {0, 0, 0},
     .words = {1, 0, 0}},
    {"kind 0, unknown last event", SEQUENCE(0, 3), .wires[P] = "100 010 00x", .rows = {0, 4, 32}, .words = {1, 2, 0}},
    /* cycle 2: the attempt from 0 fails at its last event; that from 1 ends without a mark */
    {"kind 0, older fails, newer unknown", SEQUENCE(0, 3), .wires[P] = "100 110 0x0", .rows = {0, 4, 1},
     .words = {1, 3, 0}, .entries = 1, .list = {2, 1, 0}},
    /* cycle 2: the last event of the attempt from 0 is unknown; that from 1 is alive, and its last event is unknown too */
    {"kind 0, unknown last events in a row", SEQUENCE(0, 3), .wires[P] = "100 110 01x 00x", .rows = {0, 4, 36, 32},
     .words = {1, 3, 2, 0}},
    /* of two events the second is the last: mark 4 at the start, 32 at the second */
    {"kind 0, two events", SEQUENCE(0, 2), .wires[P] = "x0 10 0x", .rows = {0, 4, 32}, .words = {0, 1, 0}},
};

static const struct example times[] = {
    /* opened in cycle 0, the window would fail in cycle 1; a test is asked for in no cycle before 2 */
    {"kind 3, unknown start", TIME(3, 3), .wires[P] = "x 1 0 0 0", .wires[Q] = "x 0 1 1 1", .rows = {0, 4, 0, 0, 8},
     .words = {0, 3, 2, 1, 0}},
    /* cycle 1 cannot be judged, cycle 2 fails */
    {"kind 3, unknown test", TIME(3, 3), .wires[P] = "1 0 0 0", .wires[Q] = "0 x 0 1", .rows = {4, 32, 1, 8},
     .words = {3, 2, 1, 0}, .entries = 1, .list = {2, 1, 0}},
    {"kind 3, unknown test in the last cycle", TIME(3, 2), .wires[P] = "1 0 0", .wires[Q] = "0 1 x", .rows = {4, 0, 40},
     .words = {2, 1, 0}},
    /* the test is not sampled where the window opens; cycle 1 is its first and last */
    {"kind 3, one cycle", TIME(3, 1), .wires[P] = "1 x", .wires[Q] = "x x", .rows = {4, 40}, .words = {1, 0}},
    /* start and test are wires 1 and 2; all others are unknown, R too */
    {"kind 3, unknown outside", {3, 1, {1, 1}, {2, 2}, {0, 0}, 0, 0, 0}, .wires[RESET] = "x1 x1", .wires[P] = "x1x x0x",
     .wires[Q] = "x0xx x0xx", .wires[R] = "x x", .rows = {4, 9}, .words = {1, 0}, .entries = 1, .list = {1, 1, 0}},
    /* no restart in cycle 1, so the test is taken there, and fails */
    {"kind 4, unknown start in the window", TIME(4, 2), .wires[P] = "1 x 0", .wires[Q] = "1 0 1", .rows = {4, 1, 8},
     .words = {2, 1, 0}, .entries = 1, .list = {1, 1, 0}},
    {"kind 4, unknown start and test", TIME(4, 2), .wires[P] = "1 x 0", .wires[Q] = "1 x 1", .rows = {4, 32, 8},
     .words = {2, 1, 0}},
    /* cycle 1 restarts the window, and takes no test */
    {"kind 4, unknown test at a restart", TIME(4, 2), .wires[P] = "1 1 0 0", .wires[Q] = "0 x 1 1", .rows = {4, 20, 0, 8},
     .words = {2, 2, 1, 0}},
    {"kind 5, unknown start in the window", TIME(5, 2), .wires[P] = "1 x 0", .wires[Q] = "0 1 1", .rows = {4, 0, 8},
     .words = {2, 1, 0}},
    /* an illegal start, and tested as usual; in the last cycle with mark 8 */
    {"kind 5, illegal start and unknown test", TIME(5, 2), .wires[P] = "1 1 1", .wires[Q] = "0 x x", .rows = {4, 34, 42},
     .words = {2, 1, 0}, .entries = 2, .list = {1, 2, 0, 2, 2, 0}},
};

static const struct example transitions[] = {
    /* whatever the unknown wire is read as, test and start state are equal in cycle 0 or in cycle 1 */
    {"kind 6, unknown test", TRANSITION, .wires[P] = "1x 1x 00", .wires[Q] = "10 11 11", .rows = {0, 0, 0},
     .words = {0, 0, 0}},
    {"kind 6, unknown start state", TRANSITION, .wires[P] = "10 11 00", .wires[Q] = "1x 1x 11", .rows = {0, 0, 0},
     .words = {0, 0, 0}},
    /* unknown alike is not equal */
    {"kind 6, unknown test and start state", TRANSITION, .wires[P] = "1x xx 00", .wires[Q] = "1x xx 11", .rows = {0, 0, 0},
     .words = {0, 0, 0}},
    /* 2 is stored in cycles 0 and 2. The known wire differs in cycle 1 and agrees in 3. Nothing is pending in cycle 4 */
    {"kind 6, unknown test after a start", TRANSITION, .wires[P] = "01 0x 01 1x 01", .wires[Q] = "01 01 01 01 01",
     .wires[R] = "10 10 10 10 10", .rows = {4, 32, 4, 32, 4}, .words = {NEXT(2), 0, NEXT(2), 0, NEXT(2)}},
    /* nothing is stored, so cycle 1 cannot fail */
    {"kind 6, unknown next state", TRANSITION, .wires[P] = "01 11", .wires[Q] = "01 01", .wires[R] = "x0 10",
     .rows = {36, 0}, .words = {0, 0}},
    /* cycle 1: 1 is not the stored 2, and starts again, with an unknown next state */
    {"kind 6, fails and starts so", TRANSITION, .wires[P] = "01 01 00", .wires[Q] = "01 01 01", .wires[R] = "10 1x 10",
     .rows = {4, 37, 0}, .words = {NEXT(2), 0, 0}, .entries = 1, .list = {1, 1, 0}},
    /* the check of cycle 1 passes, beside a start state that is unknown; in cycle 2 nothing starts and R is not asked */
    {"kind 6, unknown where nothing is asked", TRANSITION, .wires[P] = "01 10 11", .wires[Q] = "01 xx 00",
     .wires[R] = "10 xx xx", .rows = {4, 0, 0}, .words = {NEXT(2), 0, 0}},
    /* the buses are wires 2 and 1 */
    {"kind 6, unknown outside", {6, 0, {2, 1}, {1, 2}, {2, 1}, 0, 0, 0}, .wires[RESET] = "x1 x1 x1",
     .wires[P] = "x01x x10x x00x", .wires[Q] = "x10x x10x x11x", .wires[R] = "x10x x11x xx0x", .rows = {4, 0, 0},
     .words = {NEXT(2), 0, 0}},
};

static const struct example windows[] = {
    /* a trigger in cycle 0 would keep that of cycle 1 out */
    {"kind 7, unknown trigger", VALUE(1, 2), .wires[P] = "00 00 10 10", .wires[Q] = "x 1 0 0", .rows = {0, 4, 0, 8},
     .words = {0, 2, 1, 0}},
    /* cycle 0 is not tested; in cycle 1 the known wire is wrong, and still nobody can tell; cycle 2 fails */
    {"kind 7, unknown value", VALUE(1, 3), .wires[P] = "xx 0x 00 x0", .wires[Q] = "1 0 0 0", .rows = {4, 32, 1, 40},
     .words = {3, 2, 1, 0}, .entries = 1, .list = {2, 1, 0}},
    /* with min 0 the trigger's cycle is tested */
    {"kind 7, unknown value at the trigger", VALUE(0, 1), .wires[P] = "x0 10", .wires[Q] = "1 0", .rows = {36, 8},
     .words = {1, 0}},
    /* no trigger is seen in cycle 0, and cycle 2 is not tested */
    {"kind 7, unknown enable", VALUE(0, 2), .wires[RESET] = "x1 11 x1 11", .wires[P] = "10 10 0x 10",
     .wires[Q] = "1 1 0 0", .rows = {0, 4, 0, 8}, .words = {0, 2, 1, 0}},
    /* P is wires 2 and 1, the trigger wire 1 */
    {"kind 7, unknown outside", {7, 1, {2, 1}, {1, 1}, {0, 0}, 1, 2, 0}, .wires[RESET] = "xx11 xx11",
     .wires[P] = "x00x x10x", .wires[Q] = "x1x x0x", .wires[R] = "x x", .rows = {4, 8}, .words = {1, 0}},
    {"kind 8, unknown trigger", STABILITY(0, 1), .wires[P] = "00 10 10", .wires[Q] = "x 1 0", .rows = {0, 4, 8},
     .words = {0, HOLDS(1, 2), 0}},
    /* cycle 0 gives no reference; cycle 1 gives 2, which cycle 3 is not */
    {"kind 8, unknown at the trigger", STABILITY(0, 3), .wires[P] = "1x 10 10 11", .wires[Q] = "1 0 0 0",
     .rows = {36, 0, 0, 9}, .words = {3, HOLDS(2, 2), HOLDS(1, 2), 0}, .entries = 1, .list = {3, 1, 0}},
    /* no cycle of these windows gives a reference; one before s+min is not tested */
    {"kind 8, never a reference", STABILITY(0, 2), .wires[P] = "x0 0x xx", .wires[Q] = "1 0 0", .rows = {36, 32, 40},
     .words = {2, 1, 0}},
    {"kind 8, never a reference, min 1", STABILITY(1, 2), .wires[P] = "xx x0 0x", .wires[Q] = "1 0 0", .rows = {4, 32, 40},
     .words = {2, 1, 0}},
    {"kind 8, never a reference, min 2", STABILITY(2, 2), .wires[P] = "00 xx x0", .wires[Q] = "1 0 0", .rows = {4, 0, 40},
     .words = {2, 1, 0}},
    {"kind 8, trigger's cycle alone", STABILITY(0, 0), .wires[P] = "0x 00", .wires[Q] = "1 0", .rows = {44, 0},
     .words = {0, 0}},
    /* cycle 1 is not compared, and 2 stays the reference: cycle 2 is that, cycle 3 is not */
    {"kind 8, unknown after the reference", STABILITY(0, 3), .wires[P] = "10 0x 10 01", .wires[Q] = "1 0 0 0",
     .rows = {4, 32, 0, 9}, .words = {HOLDS(3, 2), HOLDS(2, 2), HOLDS(1, 2), 0}, .entries = 1, .list = {3, 1, 0}},
    /* cycle 1 is not enabled, so its unknown wires are not asked; cycle 2 gives the reference */
    {"kind 8, unknown enable", STABILITY(1, 3), .wires[RESET] = "11 x1 11 11", .wires[P] = "00 xx 10 01",
     .wires[Q] = "1 0 0 0", .rows = {4, 0, 0, 9}, .words = {3, 2, HOLDS(1, 2), 0}, .entries = 1, .list = {3, 1, 0}},
    /* wire 31 is 1, unknown, and 0 */
    {"kind 8, 32 wires", {8, 2, {31, 0}, {0, 0}, {0, 0}, 0, 0, 0}, .wires[P] = "1" ZEROS_31 " x" ZEROS_31 " 0" ZEROS_31,
     .wires[Q] = "1 0 0", .rows = {4, 32, 9}, .words = {HOLDS(2, 0x80000000), HOLDS(1, 0x80000000), 0}, .entries = 1,
     .list = {2, 1, 0}},
};

/* in cycle 1 reset_n is unknown: out of reset it would start again, fail or have mark 32 there, and go on in cycle 2 */
static const struct example resets[] = {
    {"kind 1, unknown reset", SEQUENCE(1, 3), .wires[RESET] = "1 x 1", .wires[P] = "100 1x0 000", .rows = {4, 0, 0},
     .words = {1, 0, 0}},
    {"kind 3, unknown reset", TIME(3, 2), .wires[RESET] = "1 x 1", .wires[P] = "1 1 0", .wires[Q] = "0 x 0",
     .rows = {4, 0, 0}, .words = {2, 0, 0}},
    {"kind 6, unknown reset", TRANSITION, .wires[RESET] = "1 x 1", .wires[P] = "01 01 00", .wires[Q] = "01 01 01",
     .wires[R] = "10 1x 10", .rows = {4, 0, 0}, .words = {NEXT(2), 0, 0}},
    {"kind 8, unknown reset", STABILITY(0, 2), .wires[RESET] = "11 1x 11", .wires[P] = "00 x1 11", .wires[Q] = "1 1 0",
     .rows = {4, 0, 0}, .words = {HOLDS(2, 0), 0, 0}},
};

static const struct example fatals[] = {
    /* cycle 1 does not stop it, the failure of cycle 3 does */
    {"kind 1, fatal", {1, 3, {2, 0}, {0, 0}, {0, 0}, 0, 0, 1}, .wires[P] = "100 0x0 100 000 100", .rows = {4, 32, 4, 1, 0},
     .words = {1, 0, 1, STOP, STOP}, .entries = 1, .list = {3, 1, 2}},
    /* cycle 2 has all its marks; behind it no unknown bit is marked, and an unknown reset does not revive it */
    {"kind 1, fatal, fails beside unknown", {1, 3, {2, 0}, {0, 0}, {0, 0}, 0, 0, 1}, .wires[RESET] = "1 1 1 x 1 1",
     .wires[P] = "100 110 00x 1xx 100 0x0", .rows = {4, 4, 33, 0, 0, 0}, .words = {1, 3, STOP, STOP, STOP, STOP},
     .entries = 1, .list = {2, 1, 1}},
    /* an unknown start is not illegal; the known one of cycle 2 is */
    {"kind 5, fatal", {5, 3, {0, 0}, {0, 0}, {0, 0}, 0, 0, 1}, .wires[P] = "1 x 1 0", .wires[Q] = "0 x x 1",
     .rows = {4, 32, 34, 0}, .words = {3, 2, STOP, STOP}, .entries = 1, .list = {2, 2, 0}},
    {"kind 6, fatal", {6, 0, {1, 0}, {1, 0}, {1, 0}, 0, 0, 1}, .wires[P] = "01 01 0x 01", .wires[Q] = "01 01 01 01",
     .wires[R] = "x0 01 10 10", .rows = {36, 4, 32, 4}, .words = {0, NEXT(1), 0, NEXT(2)}},
    {"kind 8, fatal", {8, 2, {1, 0}, {0, 0}, {0, 0}, 0, 0, 1}, .wires[P] = "x0 01 10 00", .wires[Q] = "1 0 0 1",
     .rows = {36, 0, 9, 0}, .words = {2, HOLDS(1, 1), STOP, STOP}, .entries = 1, .list = {2, 1, 0}},
};

#endif
