/*
 * Rechecks: the two examples below the whiteboard table and one of windows that are reset, records that are false or spoiled,
 * and changes at both ends of their range; and the limits of n and N. What is due is in examples.expected.
 */
#include <inttypes.h>
#include <stdio.h>
#include <string.h>

#include "six.h"

#define MOST 65536
#define EVERY_MARK 63

static void edits(void)
{
    printf("case A, cycle 2 made 2\n");
    edit(checker(1, 4, 3), case_a, 2, 2);
    printf("kind 3, n 2, start 0 in cycle 0\n"); /* the recheck runs to the end */
    edit(checker(3, 2, 0), ones, 0, 0);
    printf("kind 4, n 2, start 0 in cycle 2\n"); /* a window reset goes, and with it a window opened */
    edit(checker(4, 2, 0), ones, 2, 0);
}

/* a record that is not case A's own: the recheck goes on from the kept word 0 and stops where the kept word is its own */
static void false_record(void)
{
    struct record r = {{7, 7, 7, 7, 7, 7}, {6, 0, 0, 2, 5, 6}};
    printf("case A, false record\n");
    recheck_record(checker(1, 4, 3), case_a, &r, 2, 3);
    printf("word that is not possible\n");
    r.words[1] = 8;
    recheck_record(checker(1, 4, 3), case_a, &r, 2, 3);
}

/* words that case A's checker never leaves: three checks can be open, so those from 8 on, but for 2^63 where it is fatal */
static const struct spoiled {
    const char *name;
    uint64_t words[CYCLES];
    uint64_t a, b;
    enum selvedgeon_severity severity;
} spoiled[] = {
    {"8 in cycle 0", {8, 2, 5, 2, 4, 0}, 2, 3, SELVEDGEON_GOES_ON},
    {"8 in cycle 2, the edited part", {1, 2, 8, 2, 4, 0}, 2, 3, SELVEDGEON_GOES_ON},
    {"8 in cycle 5, the last", {1, 2, 5, 2, 4, 8}, 2, 3, SELVEDGEON_GOES_ON},
    {"9 in cycle 1 and 8 in cycle 4", {1, 9, 5, 2, 8, 0}, 3, 4, SELVEDGEON_GOES_ON},
    {"8 in cycle 3, cycle 0 edited", {1, 2, 5, 8, 4, 0}, 0, 1, SELVEDGEON_GOES_ON},
    {"8 in cycle 3, a above b", {1, 2, 5, 8, 4, 0}, 4, 3, SELVEDGEON_GOES_ON}, /* the range is tested before the words */
    {"2^63 in cycle 5", {1, 2, 5, 2, 4, SELVEDGEON_STOPPED}, 2, 3, SELVEDGEON_GOES_ON},
    {"2^63 in cycle 5, fatal", {1, 2, 5, 2, 4, SELVEDGEON_STOPPED}, 2, 3, SELVEDGEON_FATAL}, /* not refused */
};

/* rechecks of case A as it is, so that one which is not refused changes nothing */
static void spoiled_records(void)
{
    struct selvedgeon_config c = checker(1, 4, 3), other = checker(3, 20, 0);
    struct record r = check(other, case_a);
    printf("case A, spoiled record: that of another checker\n"); /* a window of 20 cycles opens in cycle 3 */
    recheck_record(c, case_a, &r, 1, 2);
    for (size_t i = 0; i < sizeof spoiled / sizeof *spoiled; i++) {
        const struct spoiled *s = &spoiled[i];
        struct record kept = {.rows = {4, 0, 4, 0, 0, 0}};
        memcpy(kept.words, s->words, sizeof kept.words);
        c.severity = s->severity;
        printf("case A, spoiled record: %s\n", s->name);
        recheck_record(c, case_a, &kept, s->a, s->b);
    }
}

/* the refusals of configurations, with a trace of no cycles */
static void limits_of_n(void)
{
    static const struct {
        uint8_t kind;
        uint32_t n;
        uint8_t high; /* of a sequence's P, which has n wires */
    } limits[] = {{1, 2, 1}, {1, 32, 31}, {1, 1, 0}, {1, 33, 32}, {3, 1, 0}, {3, 65535, 0}, {3, 0, 0}, {3, 65536, 0}};
    for (size_t i = 0; i < sizeof limits / sizeof *limits; i++) {
        struct selvedgeon_config c = checker(limits[i].kind, limits[i].n, limits[i].high);
        printf("kind %d, n %" PRIu32 ": %" PRIu32 "\n", c.kind, c.n,
               selvedgeon_check(NUMBERS(c), NULL, 0, NULL, 0, NULL, 0));
    }
}

/* the longest trace and one cycle more; kind 6 over one wire, the test, the start state and the next state being wire 0 */
static uint32_t trace[FRAME_WORDS * (MOST + 1)], rows[MOST + 1];
static uint64_t words[MOST + 1];
static const struct selvedgeon_config transition = {.kind = 6};

/* reset, P, Q and R all alike and known, each row alike, and nothing open */
static void fill(uint32_t sample, uint32_t row)
{
    for (size_t t = 0; t < sizeof rows / sizeof *rows; t++) {
        put_frame(trace, t, sample, sample, sample, sample);
        rows[t] = row;
        words[t] = 0;
    }
}

static void limits_of_cycles(void)
{
    printf("a = b = N = 0\n");
    recheck(checker(3, 1, 0), NULL, 0, NULL, NULL, 0, 0);
    fill(0, 0);
    for (size_t n = MOST; n <= MOST + 1; n++)
        printf("N %zu: %" PRIu32 "\n", n, selvedgeon_check(NUMBERS(transition), trace, FRAME_WORDS * n, rows, n, words, n));
    uint32_t counts[MARKS];
    printf("totals of 65537 rows: %" PRIu32 "\n", selvedgeon_totals(rows, MOST + 1, counts, MARKS));
}

/*
 * Every row claims every mark, and all go; then no row claims one, and the start state is seen in each cycle. Last, the next
 * state is unknown at each of these starts, which has mark 32 too.
 */
static void most_changes(void)
{
    uint32_t counts[MARKS] = {0};
    printf("65536 rows of 63, trace in reset\n");
    fill(0, EVERY_MARK);
    recheck(transition, trace, MOST, rows, words, 0, MOST);
    printf("65536 rows of 0, a start in every cycle\n");
    fill(1, 0);
    recheck(transition, trace, MOST, rows, words, 0, MOST);
    selvedgeon_totals(rows, MOST, counts, MARKS);
    printf("rows with mark 4: %" PRIu32 "\n", counts[2]);
    printf("65536 rows of 0, a start with an unknown next state in every cycle\n");
    fill(1, 0);
    for (size_t t = 0; t < MOST; t++)
        trace[at(t, R_X)] = 1;
    recheck(transition, trace, MOST, rows, words, 0, MOST);
    selvedgeon_totals(rows, MOST, counts, MARKS);
    printf("rows with mark 32: %" PRIu32 "\n", counts[5]);
}

int main(void)
{
    edits();
    false_record();
    spoiled_records();
    limits_of_n();
    limits_of_cycles();
    most_changes();
    return 0;
}
