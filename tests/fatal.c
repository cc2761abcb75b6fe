/*
 * Fatal checkers: the cases S to V below the whiteboard table, rechecks whose edits remove a fatal failure and add an earlier
 * one, and what 2^63 is to a step and to the open count. What is due was worked out by hand.
 */
#include <inttypes.h>
#include <stdio.h>

#include "checker.h"
#include "expect.h"
#include "frame.h"
#include "selvedgeon.h"

#define MOST 8
#define STOP SELVEDGEON_STOPPED

/* a fatal checker, its trace, and what is due: rows, words, and the words of its failure list */
struct example {
    const char *name;
    struct selvedgeon_config config;
    int cycles;
    uint32_t resets[MOST], p[MOST], q[MOST];
    uint32_t rows[MOST];
    uint64_t words[MOST];
    int entries;
    uint32_t list[3 * MOST];
};

static const struct example examples[] = {
    {"S", {1, 3, {2, 0}, {0, 0}, {0, 0}, 0, 0, 1}, 6, {1, 1, 1, 1, 1, 1}, {4, 6, 5, 4, 4, 4}, {0},
     {4, 4, 5, 0, 0, 0}, {1, 3, STOP, STOP, STOP, STOP}, 1, {2, 1, 1}},
    {"T", {5, 3, {0, 0}, {0, 0}, {0, 0}, 0, 0, 1}, 6, {1, 1, 1, 1, 1, 1}, {1, 0, 1, 0, 1, 0}, {0, 1, 1, 1, 1, 1},
     {4, 0, 2, 0, 0, 0}, {3, 2, STOP, STOP, STOP, STOP}, 1, {2, 2, 0}},
    {"U", {3, 2, {0, 0}, {0, 0}, {0, 0}, 0, 0, 1}, 6, {1, 1, 1, 0, 1, 1}, {1, 0, 0, 0, 1, 0}, {0, 1, 0, 1, 0, 0},
     {4, 0, 9, 0, 0, 0}, {2, 1, STOP, STOP, STOP, STOP}, 1, {2, 1, 0}},
    {"V", {8, 1, {2, 0}, {0, 0}, {0, 0}, 1, 0, 1}, 6, {3, 3, 3, 3, 3, 3}, {0, 1, 2, 3, 4, 5}, {1, 0, 0, 1, 0, 0},
     {4, 8, 0, 4, 8, 0}, {1, 0, 0, 1, 0, 0}, 0, {0}},
};

static void frames(const struct example *e, uint32_t *trace)
{
    for (int t = 0; t < e->cycles; t++)
        put_frame(trace, (size_t)t, e->resets[t], e->p[t], e->q[t], 0);
}

/* as a full check, step by step, and its list, totals and first failure */
static void run(const struct example *e)
{
    uint32_t trace[FRAME_WORDS * MOST], rows[MOST], list[3 * MOST], counts[MARKS], first = MOST;
    uint64_t words[MOST], word = 0;
    size_t n = (size_t)e->cycles;
    frames(e, trace);
    expect(e->name, "check", 0, selvedgeon_check(NUMBERS(e->config), trace, FRAME_WORDS * n, rows, n, words, n), 0);
    for (int t = 0; t < e->cycles; t++) {
        expect(e->name, "row", t, rows[t], e->rows[t]);
        expect(e->name, "word", t, words[t], e->words[t]);
        expect(e->name, "step", t, step(e->config, &trace[FRAME_WORDS * t], &word), e->rows[t]);
        expect(e->name, "next word", t, word, e->words[t]);
        if (e->rows[t] & 3 && first == MOST)
            first = (uint32_t)t;
    }
    expect(e->name, "entries", 0, selvedgeon_failures(NUMBERS(e->config), trace, FRAME_WORDS * n, list, 3 * n),
           (uint64_t)e->entries);
    for (int i = 0; i < 3 * e->entries; i++)
        expect(e->name, "list", i, list[i], e->list[i]);
    expect(e->name, "totals", 0, selvedgeon_totals(rows, n, counts, MARKS), 0);
    expect(e->name, "failures and illegal starts", 0, counts[0] + counts[1], (uint64_t)e->entries);
    expect(e->name, "first failure", 0, selvedgeon_first_failure(1, n, rows, n),
           e->entries ? (UINT64_C(1) << 31) + first : 0);
}

/*
 * Kind 3, n 2, start 1 in cycles 0, 3 and 6. Going on, the test of cycle 1 fails, and that of cycle 5, the last of its window.
 * Fatal: rows 4 1 and 0, words 2 and 2^63.
 */
static uint32_t trace[FRAME_WORDS * MOST], rows[MOST];
static uint64_t words[MOST];
static const struct selvedgeon_config watch = {3, 2, {0, 0}, {0, 0}, {0, 0}, 0, 0, 1};

static void expect_record(const char *what, const uint32_t *due_rows, const uint64_t *due_words)
{
    for (int t = 0; t < MOST; t++) {
        expect(what, "row", t, rows[t], due_rows[t]);
        expect(what, "word", t, words[t], due_words[t]);
    }
}

/* the recheck of cycles a to b-1: where it ends, and the changes of the marks 1, 4 and 8 */
static void recheck(const char *what, uint64_t a, uint64_t b, int32_t end, int32_t failures, int32_t opened, int32_t closed)
{
    const int32_t due[ANSWER] = {end, failures, 0, opened, closed, 0, 0};
    int32_t answer[ANSWER];
    expect(what, "refusal and cycle", 0,
           selvedgeon_recheck(NUMBERS(watch), trace, FRAME_WORDS * MOST, rows, MOST, words, MOST, a, b, answer, ANSWER), 0);
    for (int i = 0; i < ANSWER; i++)
        expect(what, "answer", i, (uint64_t)answer[i], (uint64_t)due[i]);
}

static void rechecks(void)
{
    static const uint32_t starts[MOST] = {1, 0, 0, 1, 0, 0, 1, 0}, tests[MOST] = {0, 0, 1, 0, 1, 0, 0, 1};
    static const uint32_t early[MOST] = {4, 1}, late[MOST] = {4, 0, 8, 4, 0, 9}, none[MOST] = {4, 0, 8, 4, 0, 8, 4, 0};
    static const uint64_t from_1[MOST] = {2, STOP, STOP, STOP, STOP, STOP, STOP, STOP};
    static const uint64_t from_5[MOST] = {2, 1, 0, 2, 1, STOP, STOP, STOP}, never[MOST] = {2, 1, 0, 2, 1, 0, 2, 1};
    for (int t = 0; t < MOST; t++)
        put_frame(trace, (size_t)t, 1, starts[t], tests[t], 0);
    selvedgeon_check(NUMBERS(watch), trace, FRAME_WORDS * MOST, rows, MOST, words, MOST);
    expect_record("fails in cycle 1", early, from_1);
    trace[at(4, RESET)] = 0; /* a reset behind the failure */
    recheck("an edit behind the failure", 4, 5, 5, 0, 0, 0);
    expect_record("an edit behind the failure", early, from_1);
    trace[at(4, RESET)] = 1;
    trace[at(1, Q)] = 1;
    recheck("the failure of cycle 1 removed", 1, 2, 6, 0, 1, 2);
    expect_record("the failure of cycle 1 removed", late, from_5);
    trace[at(5, Q)] = 1;
    recheck("the last failure removed", 5, 6, 8, -1, 1, 0);
    expect_record("the last failure removed", none, never);
    trace[at(5, Q)] = 0;
    recheck("a failure where there was none", 5, 6, 8, 1, -1, 0);
    expect_record("a failure where there was none", late, from_5);
    trace[at(1, Q)] = 0;
    recheck("an earlier failure", 1, 2, 6, 0, -1, -2);
    expect_record("an earlier failure", early, from_1);
}

/* which checkers may have stopped, and which severities there are */
static void possible(void)
{
    struct selvedgeon_config c = examples[0].config, k8 = examples[3].config;
    const uint32_t frame[FRAME_WORDS] = {KNOWN(1, 4, 0, 0)}; /* a start */
    uint64_t word = STOP;
    expect("open count", "stopped", 1, selvedgeon_open_count(NUMBERS(c), STOP), 0);
    expect("open count", "stopped, and a bit", 1, selvedgeon_open_count(NUMBERS(c), STOP + 1), 7 * 256);
    expect("step", "stopped", 1, step(c, frame, &word), 0);
    expect("step", "stopped", 1, word, STOP);
    expect("open count", "min equal to max", 8, selvedgeon_open_count(NUMBERS(k8), STOP), 7 * 256);
    k8.min = 0;
    expect("open count", "min below max", 8, selvedgeon_open_count(NUMBERS(k8), STOP), 0);
    for (int severity = 0; severity < 256; severity++) {
        c.severity = (uint8_t)severity;
        uint32_t due = severity == 0 ? 7 : severity == 1 ? 0 : 2;
        expect("open count", "severity", severity, selvedgeon_open_count(NUMBERS(c), STOP), 256 * due);
        expect("check", "severity", severity, selvedgeon_check(NUMBERS(c), NULL, 0, NULL, 0, NULL, 0), severity < 2 ? 0 : 2);
    }
    c.q.left = 1; /* the severity is tested before the ports, and after the kind */
    expect("check", "severity and port", 255, selvedgeon_check(NUMBERS(c), NULL, 0, NULL, 0, NULL, 0), 2);
    c.kind = 9;
    expect("check", "severity and kind", 255, selvedgeon_check(NUMBERS(c), NULL, 0, NULL, 0, NULL, 0), 1);
}

int main(void)
{
    for (size_t i = 0; i < sizeof examples / sizeof *examples; i++)
        run(&examples[i]);
    rechecks();
    possible();
    printf("fatal: %d comparisons, %d failed\n", compared, failed);
    return failed != 0;
}
