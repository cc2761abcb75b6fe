/*
 * Unknown bits: the cases of unknown_cases.h, as a full check, step by step, on a bench and as the end of a recheck; edits
 * that make wires known or unknown; what mark 32 is to totals and first failures; which words and lengths are refused. What
 * is due was worked out by hand.
 */
#include <inttypes.h>
#include <stdio.h>
#include <string.h>

#include "checker.h"
#include "expect.h"
#include "frame.h"
#include "selvedgeon.h"
#include "unknown_cases.h"

#define COUNT(array) (sizeof(array) / sizeof *(array))
#define MOST_CHECKERS 64
#define GUARD 0x5a5a5a5a

/* what a case leaves open: the value bits under unknown bits, and whether the wires that do not count are unknown */
struct look {
    uint32_t under;
    int outside;
};

static const struct look looks[] = {{0, 0}, {UINT32_MAX, 0}, {0x55555555, 0}, {0, 1}, {UINT32_MAX, 1}, {0x55555555, 1}};

static uint32_t wires_of(struct selvedgeon_range range)
{
    int low = range.left < range.right ? range.left : range.right;
    int high = range.left < range.right ? range.right : range.left;
    return UINT32_MAX << low & UINT32_MAX >> (31 - high);
}

/* the wires of a word that count: reset_n, for kinds 7 and 8 enable, and the declared ones of the ports that are used */
static uint32_t wires_that_count(const struct selvedgeon_config *c, enum frame_word word)
{
    switch (word) {
    case RESET: return c->kind >= 7 ? 3 : 1;
    case P: return wires_of(c->p);
    case Q: return c->kind >= 3 ? wires_of(c->q) : 0;
    default: return c->kind == 6 ? wires_of(c->r) : 0;
    }
}

/* a sample from the text, which then stands at the next */
static void read_sample(const char **text, uint32_t *value, uint32_t *unknown)
{
    *value = *unknown = 0;
    for (; **text != '\0' && **text != ' '; ++*text) {
        *value = *value << 1 | (**text == '1');
        *unknown = *unknown << 1 | (**text == 'x');
    }
    *text += **text == ' ';
}

static size_t samples_of(const char *text)
{
    size_t samples = 1;
    for (; *text != '\0'; text++)
        samples += *text == ' ';
    return samples;
}

/* the frames of the samples, as many as P has */
static size_t write_trace(const struct selvedgeon_config *c, const char *const *wires, struct look look, uint32_t *trace)
{
    size_t cycles = samples_of(wires[P]);
    for (enum frame_word word = RESET; word <= R; word++) {
        const char *text = wires[word];
        uint32_t outside = look.outside ? ~wires_that_count(c, word) : 0;
        for (size_t t = 0; t < cycles; t++) {
            uint32_t value = word == RESET ? 3 : 0, unknown = 0;
            if (text != NULL)
                read_sample(&text, &value, &unknown);
            unknown |= outside;
            trace[FRAME_WORDS * t + word] = (value & ~unknown) | (look.under & unknown);
            trace[FRAME_WORDS * t + word + RESET_X] = unknown;
        }
    }
    return cycles;
}

static int32_t rows_with(uint32_t mark, const uint32_t *rows, size_t cycles)
{
    int32_t count = 0;
    for (size_t t = 0; t < cycles; t++)
        count += (rows[t] & mark) != 0;
    return count;
}

static void expect_record(const char *name, const char *of, const uint32_t *rows, const uint64_t *words,
                          const uint32_t *due_rows, const uint64_t *due_words, size_t cycles)
{
    for (size_t t = 0; t < cycles; t++) {
        expect(name, of, (int)t, rows[t], due_rows[t]);
        expect(name, of, (int)t, words[t], due_words[t]);
    }
}

/* the failure list, the totals and the first failure: none of them takes mark 32 for a failure */
static void expect_counted(const struct example *e, const uint32_t *trace, const uint32_t *rows, size_t cycles)
{
    uint32_t list[3 * MOST], counts[MARKS];
    uint64_t first = 0;
    expect(e->name, "entries", 0, selvedgeon_failures(NUMBERS(e->config), trace, FRAME_WORDS * cycles, list, 3 * MOST),
           (uint64_t)e->entries);
    for (int i = 0; i < 3 * e->entries; i++)
        expect(e->name, "list", i, list[i], e->list[i]);
    expect(e->name, "totals", 0, selvedgeon_totals(rows, cycles, counts, MARKS), 0);
    for (int i = 0; i < MARKS; i++)
        expect(e->name, "total", i, counts[i], (uint64_t)rows_with(1u << i, e->rows, cycles));
    if (e->entries > 0) /* the list begins with the first failing cycle */
        first = (UINT64_C(1) << 31) + e->list[0];
    expect(e->name, "first failure", 0, selvedgeon_first_failure(1, cycles, rows, cycles), first);
}

/* the full check and the steps of a case */
static void run(const struct example *e, struct look look)
{
    uint32_t trace[FRAME_WORDS * MOST], rows[MOST];
    uint64_t words[MOST], word = 0;
    size_t cycles = write_trace(&e->config, e->wires, look, trace);
    for (int i = 0; i < 4; i++)
        expect(e->name, "samples", i, e->wires[i] == NULL ? cycles : samples_of(e->wires[i]), cycles);
    expect(e->name, "check", 0,
           selvedgeon_check(NUMBERS(e->config), trace, FRAME_WORDS * cycles, rows, cycles, words, cycles), 0);
    expect_record(e->name, "row and word of cycle", rows, words, e->rows, e->words, cycles);
    for (size_t t = 0; t < cycles; t++) {
        expect(e->name, "step", (int)t, step(e->config, &trace[FRAME_WORDS * t], &word), e->rows[t]);
        expect(e->name, "next word", (int)t, word, e->words[t]);
    }
    expect_counted(e, trace, rows, cycles);
}

/* the recheck of cycle t, in whose old frame all is known and 0 but reset_n and enable: it leaves what is due */
static void recheck_cycle(const struct example *e, struct look look, size_t t)
{
    uint32_t trace[FRAME_WORDS * MOST], old[FRAME_WORDS * MOST], rows[MOST], old_rows[MOST];
    uint64_t words[MOST];
    int32_t answer[ANSWER];
    size_t cycles = write_trace(&e->config, e->wires, look, trace), end = t + 1;
    memcpy(old, trace, sizeof old);
    put_frame(old, t, 3, 0, 0, 0);
    selvedgeon_check(NUMBERS(e->config), old, FRAME_WORDS * cycles, rows, cycles, words, cycles);
    memcpy(old_rows, rows, sizeof rows);
    while (end < cycles && words[end - 1] != e->words[end - 1])
        end++;
    expect(e->name, "recheck of cycle", (int)t,
           selvedgeon_recheck(NUMBERS(e->config), trace, FRAME_WORDS * cycles, rows, cycles, words, cycles, t, t + 1,
                              answer, ANSWER), 0);
    expect_record(e->name, "rechecked, cycle", rows, words, e->rows, e->words, cycles);
    expect(e->name, "end of the recheck of cycle", (int)t, (uint64_t)answer[0], end);
    for (int i = 0; i < MARKS; i++)
        expect(e->name, "change", i, (uint64_t)answer[i + 1],
               (uint64_t)(rows_with(1u << i, e->rows, cycles) - rows_with(1u << i, old_rows, cycles)));
}

/* a cycle of all cases of a group side by side, each from its word due before; a case that is over is in reset */
static void bench_cycle(const struct example *group, size_t checkers, struct look look, size_t t)
{
    struct selvedgeon_config table[MOST_CHECKERS];
    uint32_t frames[FRAME_WORDS * MOST_CHECKERS] = {0}, rows[MOST_CHECKERS], trace[FRAME_WORDS * MOST];
    uint64_t words[MOST_CHECKERS] = {0};
    for (size_t k = 0; k < checkers; k++) {
        const struct example *e = &group[k];
        table[k] = e->config;
        if (t < write_trace(&e->config, e->wires, look, trace)) {
            memcpy(&frames[FRAME_WORDS * k], &trace[FRAME_WORDS * t], FRAME_WORDS * sizeof *trace);
            words[k] = t == 0 ? 0 : e->words[t - 1];
        }
    }
    expect("bench", "cycle", (int)t,
           selvedgeon_bench(table, checkers, frames, FRAME_WORDS * checkers, words, checkers, rows, checkers), 0);
    for (size_t k = 0; k < checkers; k++) { /* behind the last cycle of a case the rows and words due are 0 too */
        expect(group[k].name, "row on the bench, cycle", (int)t, rows[k], group[k].rows[t]);
        expect(group[k].name, "word on the bench, cycle", (int)t, words[k], group[k].words[t]);
    }
}

static void run_group(const struct example *group, size_t count)
{
    for (size_t l = 0; l < COUNT(looks); l++) {
        for (size_t i = 0; i < count; i++) {
            run(&group[i], looks[l]);
            for (size_t t = 0; t < samples_of(group[i].wires[P]); t++)
                recheck_cycle(&group[i], looks[l], t);
        }
        for (size_t t = 0; t < MOST; t++)
            bench_cycle(group, count, looks[l], t);
    }
}

/* an edit of cycle a: the samples, rows and words before it and after it, and what its recheck answers */
struct edit {
    const char *name;
    struct selvedgeon_config config;
    const char *before[4], *after[4];
    uint32_t rows[2][MOST];
    uint64_t words[2][MOST];
    uint64_t a;
    int32_t answer[ANSWER];
};

static const struct edit edits[] = {
    /* the attempt goes on through cycle 1 and passes in cycle 2, where the kept word is its own */
    {"an event becomes 1", SEQUENCE(1, 3), .before[P] = "100 0x0 001 000", .after[P] = "100 010 001 000",
     .rows = {{4, 32, 0, 0}, {4, 0, 0, 0}}, .words = {{1, 0, 0, 0}, {1, 2, 0, 0}}, .a = 1,
     .answer = {3, 0, 0, 0, 0, 0, -1}},
    {"a test becomes 0", TIME(3, 3), .before[P] = "1 0 0 0", .after[P] = "1 0 0 0", .before[Q] = "0 x 1 1",
     .after[Q] = "0 0 1 1", .rows = {{4, 32, 0, 8}, {4, 1, 0, 8}}, .words = {{3, 2, 1, 0}, {3, 2, 1, 0}}, .a = 1,
     .answer = {2, 1, 0, 0, 0, 0, -1}},
    {"a test becomes x", TIME(3, 3), .before[P] = "1 0 0 0", .after[P] = "1 0 0 0", .before[Q] = "0 0 1 1",
     .after[Q] = "0 x 1 1", .rows = {{4, 1, 0, 8}, {4, 32, 0, 8}}, .words = {{3, 2, 1, 0}, {3, 2, 1, 0}}, .a = 1,
     .answer = {2, -1, 0, 0, 0, 0, 1}},
    /* now 2 is stored, and 3 in cycle 1 fails */
    {"a next state becomes 2", TRANSITION, .before[P] = "01 11 00", .after[P] = "01 11 00", .before[Q] = "01 01 01",
     .after[Q] = "01 01 01", .before[R] = "1x 00 00", .after[R] = "10 00 00", .rows = {{36, 0, 0}, {4, 1, 0}},
     .words = {{0, 0, 0}, {NEXT(2), 0, 0}}, .a = 0, .answer = {2, 1, 0, 0, 0, 0, -1}},
    /* 3 is the reference instead of the 2 of cycle 1: cycles 1 and 2 fail, and cycle 3 no more */
    {"a trigger's cycle becomes 3", STABILITY(0, 3), .before[P] = "1x 10 10 11 00", .after[P] = "11 10 10 11 00",
     .before[Q] = "1 0 0 0 0", .after[Q] = "1 0 0 0 0", .rows = {{36, 0, 0, 9, 0}, {4, 1, 1, 8, 0}},
     .words = {{3, HOLDS(2, 2), HOLDS(1, 2), 0, 0}, {HOLDS(3, 3), HOLDS(2, 3), HOLDS(1, 3), 0, 0}}, .a = 0,
     .answer = {4, 1, 0, 0, 0, 0, -1}},
    /* the fatal failure goes, and the checker goes on to the end */
    {"a fatal test becomes x", {3, 2, {0, 0}, {0, 0}, {0, 0}, 0, 0, 1}, .before[P] = "1 0 0 1 0", .after[P] = "1 0 0 1 0",
     .before[Q] = "0 0 1 0 1", .after[Q] = "0 x 1 0 1", .rows = {{4, 1, 0, 0, 0}, {4, 32, 8, 4, 0}},
     .words = {{2, STOP, STOP, STOP, STOP}, {2, 1, 0, 2, 1}}, .a = 1, .answer = {5, -1, 0, 1, 1, 0, 1}},
    /* out of reset the unknown event of cycle 1 is tested */
    {"reset_n becomes 1", SEQUENCE(1, 3), .before[RESET] = "1 x 1", .after[RESET] = "1 1 1", .before[P] = "100 0x0 000",
     .after[P] = "100 0x0 000", .rows = {{4, 0, 0}, {4, 32, 0}}, .words = {{1, 0, 0}, {1, 0, 0}}, .a = 1,
     .answer = {2, 0, 0, 0, 0, 0, 1}},
};

static void edit(const struct edit *e, struct look look)
{
    uint32_t trace[FRAME_WORDS * MOST], rows[MOST];
    uint64_t words[MOST];
    int32_t answer[ANSWER];
    size_t cycles = write_trace(&e->config, e->before, look, trace);
    selvedgeon_check(NUMBERS(e->config), trace, FRAME_WORDS * cycles, rows, cycles, words, cycles);
    expect_record(e->name, "before, cycle", rows, words, e->rows[0], e->words[0], cycles);
    write_trace(&e->config, e->after, look, trace);
    expect(e->name, "refusal and cycle", 0,
           selvedgeon_recheck(NUMBERS(e->config), trace, FRAME_WORDS * cycles, rows, cycles, words, cycles, e->a, e->a + 1,
                              answer, ANSWER), 0);
    expect_record(e->name, "after, cycle", rows, words, e->rows[1], e->words[1], cycles);
    for (int i = 0; i < ANSWER; i++)
        expect(e->name, "answer", i, (uint64_t)answer[i], (uint64_t)e->answer[i]);
}

/* mark 32 is counted as the sixth; 64 is no mark */
static void totals(void)
{
    static const uint32_t rows[6] = {32, 33, 63, 31, 64, 44}, due[MARKS] = {3, 2, 3, 3, 2, 4};
    uint32_t counts[MARKS];
    expect("totals", "refusal", 0, selvedgeon_totals(rows, 6, counts, MARKS), 0);
    for (int i = 0; i < MARKS; i++)
        expect("totals", "mark", i, counts[i], due[i]);
}

/* three checkers over two cycles: of the first two no row fails, and of the third that of cycle 1 */
static void first_failures(void)
{
    static const uint32_t rows[6] = {32, 36, 40, 44, 32, 33};
    expect("first failure", "none of", 2, selvedgeon_first_failure(2, 2, rows, 4), 0);
    expect("first failure", "in the last of", 3, selvedgeon_first_failure(3, 2, rows, 6),
           (UINT64_C(1) << 31) + (2 << 16) + 1);
}

/* kind 8: a window without a reference has 1 to max cycles left, with any min; one with a reference 1 to max - min */
static void possible(void)
{
    struct selvedgeon_config c = STABILITY(0, 3);
    const uint32_t frame[FRAME_WORDS] = {KNOWN(3, 2, 0, 0)};
    uint64_t word = 2;
    for (c.min = 0; c.min <= 3; c.min++) {
        expect("open count, min", "no window", (int)c.min, selvedgeon_open_count(NUMBERS(c), 0), 0);
        for (uint32_t left = 1; left <= 4; left++) {
            expect("open count, left", "no reference", (int)left, selvedgeon_open_count(NUMBERS(c), left),
                   left <= 3 ? 1 : 7 * 256);
            expect("open count, left", "a reference", (int)left, selvedgeon_open_count(NUMBERS(c), HOLDS(left, 3)),
                   left <= 3 - c.min ? 1 : 7 * 256);
        }
        expect("open count", "nothing left", (int)c.min, selvedgeon_open_count(NUMBERS(c), HOLDS(0, 3)), 7 * 256);
        expect("open count", "too wide", (int)c.min, selvedgeon_open_count(NUMBERS(c), HOLDS(1, 4)), 7 * 256);
    }
    c.min = c.n = 0; /* the window ends with the trigger's cycle */
    expect("open count", "max", 0, selvedgeon_open_count(NUMBERS(c), 1), 7 * 256);
    c.n = 3; /* one step from a window without a reference takes 2 for it */
    expect("step", "from word", 2, step(c, frame, &word), 0);
    expect("step", "word", 2, word, HOLDS(1, 2));
}

/* each unknown word by itself: kind 6, test and start state 1, next state 3, from a check for 2 and from none */
static void steps(void)
{
    static const struct {
        uint32_t frame[FRAME_WORDS];
        uint64_t from;
        uint32_t row;
        uint64_t to;
    } due[] = {
        {{1, 1, 1, 3, 0, 0, 0, 0}, NEXT(2), 5, NEXT(3)}, /* 1 is not 2, and is the start state */
        {{1, 1, 1, 3, 1, 0, 0, 0}, NEXT(2), 0, 0},       /* in reset */
        {{1, 1, 1, 3, 0, 2, 0, 0}, NEXT(2), 32, 0},      /* not to be judged, and no start */
        {{1, 1, 1, 3, 0, 0, 2, 0}, NEXT(2), 1, 0},       /* fails, and no start */
        {{1, 1, 1, 3, 0, 0, 0, 2}, NEXT(2), 37, 0},      /* fails, and starts with an unknown next state */
        {{1, 1, 1, 3, 0, 0, 0, 1}, 0, 36, 0},            /* starts so, with nothing to check */
        {{1, 1, 1, 3, 2, 4, 4, 4}, NEXT(2), 5, NEXT(3)}, /* only wires that do not count are unknown */
    };
    const struct selvedgeon_config c = TRANSITION;
    for (size_t i = 0; i < COUNT(due); i++) {
        uint64_t word = due[i].from;
        expect("step", "row", (int)i, step(c, due[i].frame, &word), due[i].row);
        expect("step", "word", (int)i, word, due[i].to);
    }
}

/* one cycle has eight words: traces of 1 to 12 words are refused but for that */
static void trace_lengths(void)
{
    static const uint32_t trace[FRAME_WORDS + 4] = {KNOWN(1, 0, 0, 0)};
    const struct selvedgeon_config c = TRANSITION;
    uint32_t row = GUARD, list[3] = {GUARD, GUARD, GUARD};
    uint64_t word = 0;
    int32_t answer[ANSWER] = {GUARD};
    for (size_t length = 1; length <= FRAME_WORDS + 4; length++) {
        size_t cycles = length / FRAME_WORDS;
        if (length == FRAME_WORDS)
            continue;
        expect("check", "trace of", (int)length,
               selvedgeon_check(NUMBERS(c), trace, length, &row, cycles, &word, cycles), 4);
        expect("recheck", "trace of", (int)length,
               selvedgeon_recheck(NUMBERS(c), trace, length, &row, cycles, &word, cycles, 0, cycles, answer, ANSWER),
               UINT64_C(4) << 32);
        expect("list", "trace of", (int)length, selvedgeon_failures(NUMBERS(c), trace, length, list, 3), UINT64_C(4) << 32);
    }
    expect("refused and written", "row", 0, row, GUARD);
    expect("refused and written", "answer", 0, (uint64_t)answer[0], GUARD);
    expect("refused and written", "list", 0, list[0], GUARD);
    expect("check", "trace of", FRAME_WORDS, selvedgeon_check(NUMBERS(c), trace, FRAME_WORDS, &row, 1, &word, 1), 0);
    expect("check", "row", 0, row, 4); /* 0 is the start state */
}

/* six counts and seven numbers of an answer are due, and no other length is taken */
static void answer_lengths(void)
{
    static const uint32_t trace[FRAME_WORDS] = {KNOWN(1, 0, 0, 0)};
    const struct selvedgeon_config c = TRANSITION;
    uint32_t row = 0, counts[ANSWER + 1];
    uint64_t word = 0;
    int32_t answer[ANSWER + 1];
    for (size_t length = 0; length <= ANSWER + 1; length++) {
        counts[0] = GUARD;
        answer[0] = GUARD;
        expect("totals", "counts of", (int)length, selvedgeon_totals(&row, 1, counts, length), length == MARKS ? 0 : 5);
        expect("counts written", "length", (int)length, counts[0] != GUARD, length == MARKS);
        expect("recheck", "answer of", (int)length,
               selvedgeon_recheck(NUMBERS(c), trace, FRAME_WORDS, &row, 1, &word, 1, 0, 1, answer, length) >> 32,
               length == ANSWER ? 0 : 5);
        expect("answer written", "length", (int)length, answer[0] != GUARD, length == ANSWER);
    }
}

int main(void)
{
    run_group(sequences, COUNT(sequences));
    run_group(times, COUNT(times));
    run_group(transitions, COUNT(transitions));
    run_group(windows, COUNT(windows));
    run_group(resets, COUNT(resets));
    run_group(fatals, COUNT(fatals));
    for (size_t l = 0; l < COUNT(looks); l++)
        for (size_t i = 0; i < COUNT(edits); i++)
            edit(&edits[i], looks[l]);
    totals();
    first_failures();
    possible();
    steps();
    trace_lengths();
    answer_lengths();
    printf("unknown: %d comparisons, %d failed\n", compared, failed);
    return failed != 0;
}
