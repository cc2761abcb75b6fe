/*
 * Long windows. One of 50,000 cycles; then the longest, of 65,535 cycles, in the longest traces, of 65,536: a start in cycle 0
 * opens a window whose last cycle is that of the trace. What is due follows from the rules by hand: mark 4 in cycle 0, mark 8
 * in the last cycle, mark 1 where the tested wire is wrong, and in the open word the cycles that are left.
 */
#include <inttypes.h>
#include <stdio.h>

#include "frame.h"
#include "selvedgeon.h"

#define CYCLES 65536
#define TRACE_WORDS (FRAME_WORDS * CYCLES)
#define LONGEST 65535
#define LAST 65535
#define KINDS 5
#define ENTRIES 65535
#define GUARD 0xa5a5a5a5u

/* P [5:5], Q [9:9]: kinds 3 to 5 start by P and test Q; kinds 7 and 8 are triggered by Q and test P, from the trigger on */
static const struct selvedgeon_config kinds[KINDS] = {
    {3, LONGEST, {5, 5}, {9, 9}, {0, 0}, 0, 0, 0}, {4, LONGEST, {5, 5}, {9, 9}, {0, 0}, 0, 0, 0},
    {5, LONGEST, {5, 5}, {9, 9}, {0, 0}, 0, 0, 0}, {7, LONGEST, {5, 5}, {9, 9}, {0, 0}, 0, 1, 0},
    {8, LONGEST, {5, 5}, {9, 9}, {0, 0}, 0, 0, 0},
};

/* the eleven numbers of a configuration, with n in their place */
#define NUMBERS(c, n) \
    (c).kind, n, (c).p.left, (c).p.right, (c).q.left, (c).q.right, (c).r.left, (c).r.right, (c).min, (c).value, (c).severity

enum outcome { PASSES, FAILS_LAST, FAILS_EACH };

static uint32_t trace[TRACE_WORDS], rows[CYCLES], list[3 * CYCLES];
static uint64_t words[CYCLES];
static int compared, failed;

static void expect(const char *what, uint8_t kind, uint32_t t, uint64_t found, uint64_t due)
{
    compared++;
    if (found != due && failed++ < 20)
        printf("%s, kind %d, cycle %" PRIu32 ": found %" PRIu64 ", due %" PRIu64 "\n", what, kind, t, found, due);
}

/* whether the tested wire is wrong in cycle t; in cycle 0 it is right, and there kind 8 takes its reference */
static int is_wrong(enum outcome outcome, uint32_t t)
{
    return outcome == FAILS_EACH ? t > 0 : outcome == FAILS_LAST && t == LAST;
}

/* reset_n and enable are 1; the start comes in cycle 0, or never */
static void sample(uint8_t kind, int start, enum outcome outcome)
{
    for (uint32_t t = 0; t < CYCLES; t++) {
        uint32_t starts = start && t == 0, right = !is_wrong(outcome, t);
        put_frame(trace, t, 3, (kind <= 5 ? starts : right) << 5, (kind <= 5 ? right : starts) << 9, 0);
    }
}

/* the record of a trace: with no start, rows and words are 0 */
static void expect_record(const char *what, uint8_t kind, int start, enum outcome outcome)
{
    for (uint32_t t = 0; t < CYCLES; t++) {
        uint32_t row = (t == 0 ? 4 : 0) + (t == LAST ? 8 : 0) + (is_wrong(outcome, t) ? 1 : 0);
        uint64_t left = LAST - t, reference = kind == 8 && left > 0 ? (UINT64_C(1) << 48) + (1 << 16) : 0;
        expect(what, kind, t, rows[t], start ? row : 0);
        expect(what, kind, t, words[t], start ? left + reference : 0);
    }
}

/* an edit of cycle 0 alone, whose recheck runs on to the end; `sign` is 1 where it brings the window, -1 where it takes it */
static void expect_recheck(struct selvedgeon_config c, int sign, enum outcome outcome)
{
    static const int32_t failures[] = {[PASSES] = 0, [FAILS_LAST] = 1, [FAILS_EACH] = 65535};
    const int32_t due[ANSWER] = {CYCLES, sign * failures[outcome], 0, sign, sign, 0, 0};
    int32_t answer[ANSWER] = {0};
    expect("refusal and cycle of a recheck", c.kind, 0,
           selvedgeon_recheck(NUMBERS(c, LONGEST), trace, TRACE_WORDS, rows, CYCLES, words, CYCLES, 0, 1, answer, ANSWER), 0);
    for (int i = 0; i < ANSWER; i++)
        expect("end and changes", c.kind, 0, (uint64_t)answer[i], (uint64_t)due[i]);
    expect_record("after a recheck", c.kind, sign > 0, outcome);
}

static void full_checks_and_rechecks(struct selvedgeon_config c, enum outcome outcome)
{
    sample(c.kind, 1, outcome);
    expect("check", c.kind, 0, selvedgeon_check(NUMBERS(c, LONGEST), trace, TRACE_WORDS, rows, CYCLES, words, CYCLES), 0);
    expect_record("after a full check", c.kind, 1, outcome);
    sample(c.kind, 0, outcome);
    expect_recheck(c, -1, outcome);
    sample(c.kind, 1, outcome);
    expect_recheck(c, 1, outcome);
}

/* a failure in each cycle from 1 to 65,535, all of the start in cycle 0; a list one word too short stays as it was */
static void lists(struct selvedgeon_config c)
{
    sample(c.kind, 1, FAILS_EACH);
    for (uint32_t i = 0; i < 3 * CYCLES; i++)
        list[i] = GUARD;
    expect("list too short", c.kind, 0,
           selvedgeon_failures(NUMBERS(c, LONGEST), trace, TRACE_WORDS, list, 3 * ENTRIES - 1), UINT64_C(8) << 32);
    for (uint32_t i = 0; i < 3 * CYCLES; i++)
        expect("refused and written", c.kind, i / 3, list[i], GUARD);
    expect("list", c.kind, 0, selvedgeon_failures(NUMBERS(c, LONGEST), trace, TRACE_WORDS, list, 3 * CYCLES), ENTRIES);
    for (uint32_t k = 0; k < ENTRIES; k++) {
        expect("cycle of an entry", c.kind, k + 1, list[3 * k], k + 1);
        expect("mark of an entry", c.kind, k + 1, list[3 * k + 1], 1);
        expect("start of an entry", c.kind, k + 1, list[3 * k + 2], 0);
    }
    for (uint32_t i = 3 * ENTRIES; i < 3 * CYCLES; i++)
        expect("behind the list", c.kind, i / 3, list[i], GUARD);
}

/* n 65,536 is refusal 2; and no window has 65,536 cycles left, nor one of 65,534 cycles 65,535 */
static void limits(struct selvedgeon_config c)
{
    expect("n 65,535", c.kind, 0, selvedgeon_check(NUMBERS(c, 65535), NULL, 0, NULL, 0, NULL, 0), 0);
    expect("n 65,536", c.kind, 0, selvedgeon_check(NUMBERS(c, 65536), NULL, 0, NULL, 0, NULL, 0), 2);
    expect("n 65,537", c.kind, 0, selvedgeon_check(NUMBERS(c, 65537), NULL, 0, NULL, 0, NULL, 0), 2);
    uint64_t reference = c.kind == 8 ? UINT64_C(1) << 48 : 0;
    expect("65,535 left", c.kind, 0, selvedgeon_open_count(NUMBERS(c, 65535), 65535 + reference), 1);
    expect("65,536 left", c.kind, 0, selvedgeon_open_count(NUMBERS(c, 65535), 65536 + reference), 7 * 256);
    expect("n 65,534, 65,535 left", c.kind, 0, selvedgeon_open_count(NUMBERS(c, 65534), 65535 + reference), 7 * 256);
    if (c.kind >= 7) {
        c.min = 65536;
        expect("min 65,536", c.kind, 0, selvedgeon_check(NUMBERS(c, 65535), NULL, 0, NULL, 0, NULL, 0), 2);
        expect("min and max 65,536", c.kind, 0, selvedgeon_check(NUMBERS(c, 65536), NULL, 0, NULL, 0, NULL, 0), 2);
    }
}

/*
 * A start in cycle 1,000 is watched for 50,000 cycles, kind 3. The test is 0 in cycles 20,000 and 51,000, the last of the
 * window. Put right in cycle 20,000, the words stay, and the recheck ends behind the edit.
 */
static void watched_for_50_000_cycles(void)
{
    const struct selvedgeon_config c = {3, 50000, {5, 5}, {9, 9}, {0, 0}, 0, 0, 0};
    static const uint32_t entries[6] = {20000, 1, 1000, 51000, 1, 1000};
    static const int32_t due[ANSWER] = {20001, -1, 0, 0, 0, 0, 0};
    int32_t answer[ANSWER] = {0};
    sample(c.kind, 0, PASSES);
    trace[at(1000, P)] = 1 << 5;
    trace[at(20000, Q)] = trace[at(51000, Q)] = 0;
    expect("check", c.kind, 0, selvedgeon_check(NUMBERS(c, 50000), trace, TRACE_WORDS, rows, CYCLES, words, CYCLES), 0);
    for (uint32_t t = 0; t < CYCLES; t++) {
        expect("row", c.kind, t, rows[t], t == 1000 ? 4 : t == 20000 ? 1 : t == 51000 ? 9 : 0);
        expect("word", c.kind, t, words[t], t >= 1000 && t < 51000 ? 51000 - t : 0);
    }
    expect("entries", c.kind, 0, selvedgeon_failures(NUMBERS(c, 50000), trace, TRACE_WORDS, list, 3 * CYCLES), 2);
    for (int i = 0; i < 6; i++)
        expect("entry", c.kind, 0, list[i], entries[i]);
    trace[at(20000, Q)] = 1 << 9;
    expect("refusal and cycle of a recheck", c.kind, 20000,
           selvedgeon_recheck(NUMBERS(c, 50000), trace, TRACE_WORDS, rows, CYCLES, words, CYCLES, 20000, 20001, answer,
                              ANSWER),
           0);
    for (int i = 0; i < ANSWER; i++)
        expect("end and changes", c.kind, 20000, (uint64_t)answer[i], (uint64_t)due[i]);
    expect("row put right", c.kind, 20000, rows[20000], 0);
}

int main(void)
{
    watched_for_50_000_cycles();
    for (int k = 0; k < KINDS; k++) {
        for (enum outcome outcome = PASSES; outcome <= FAILS_EACH; outcome++)
            full_checks_and_rechecks(kinds[k], outcome);
        lists(kinds[k]);
        limits(kinds[k]);
    }
    printf("windows: %d comparisons, %d failed\n", compared, failed);
    return failed != 0;
}
