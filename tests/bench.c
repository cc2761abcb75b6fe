/*
 * The bench step with 0, 1, 64 and 65 checkers, bad checkers in the middle, and slices of wrong length. What each checker's
 * step is to give comes from the whiteboard table or from `selvedgeon_step`; a refused bench must leave words and rows.
 */
#include <inttypes.h>
#include <stdio.h>
#include <string.h>

#include "checker.h"
#include "frame.h"
#include "selvedgeon.h"

#define MOST 65
#define KINDS 9
#define GUARD 0xa5a5a5a5u

static int compared, failed;

static void expect(const char *what, uint64_t found, uint64_t due)
{
    compared++;
    if (found != due) {
        failed++;
        printf("%s: found %" PRIu64 ", due %" PRIu64 "\n", what, found, due);
    }
}

/* a table, its frames, words and rows, with a guard behind words and rows */
struct bench {
    struct selvedgeon_config table[MOST];
    uint32_t frames[FRAME_WORDS * MOST];
    uint64_t words[MOST + 1];
    uint32_t rows[MOST + 1];
};

static uint32_t run(struct bench *b, size_t checkers)
{
    return selvedgeon_bench(b->table, checkers, b->frames, FRAME_WORDS * checkers, b->words, checkers, b->rows, checkers);
}

/* checker k: the kinds in turn, each with a word that is possible for it and a frame on which something happens */
static void fill(struct bench *b)
{
    static const struct selvedgeon_config kinds[KINDS] = {
        {0, 4, {3, 0}, {0, 0}, {0, 0}, 0, 0, 0}, {1, 4, {0, 3}, {0, 0}, {0, 0}, 0, 0, 0}, {2, 3, {2, 0}, {0, 0}, {0, 0}, 0, 0, 0},
        {3, 3, {0, 0}, {1, 1}, {0, 0}, 0, 0, 0}, {4, 3, {0, 0}, {1, 1}, {0, 0}, 0, 0, 0}, {5, 3, {0, 0}, {1, 1}, {0, 0}, 0, 0, 0},
        {6, 0, {2, 0}, {2, 0}, {2, 0}, 0, 0, 0}, {7, 3, {0, 2}, {1, 1}, {0, 0}, 1, 6, 0}, {8, 4, {2, 0}, {1, 1}, {0, 0}, 2, 0, 0},
    };
    static const uint64_t words[KINDS] = {5, 3, 2, 2, 1, 3, UINT64_C(0x100000004), 2, UINT64_C(0x1000000060002)};
    memset(b, 0, sizeof *b);
    for (uint32_t k = 0; k < MOST; k++) {
        b->table[k] = kinds[k % KINDS];
        b->table[k].severity = k % 4 == 3; /* some are fatal */
        b->words[k] = words[k % KINDS];
        b->rows[k] = GUARD;
        uint32_t reset = k % 11 == 10 ? 2 : k % 5 == 4 ? 1 : 3; /* some checkers are in reset, and some not enabled */
        put_frame(b->frames, k, reset, 5 * k + 1, 3 * k, k);
        if (k % 7 == 6) /* some have unknown bits in every word */
            for (enum frame_word word = RESET_X; word <= R_X; word++)
                b->frames[at(k, word)] = k * (word + 1);
    }
    b->words[MOST] = GUARD;
    b->rows[MOST] = GUARD;
}

/* every word and row is that of the checker's own step, and what lies behind them is as it was */
static void expect_stepped(struct bench *b, size_t checkers)
{
    struct bench before;
    memcpy(&before, b, sizeof before);
    expect("refusal", run(b, checkers), 0);
    for (size_t k = 0; k < checkers; k++) {
        uint64_t word = before.words[k];
        expect("row", b->rows[k], step(before.table[k], &before.frames[FRAME_WORDS * k], &word));
        expect("word", b->words[k], word);
    }
    expect("words behind", (uint64_t)memcmp(b->words + checkers, before.words + checkers, (MOST + 1 - checkers) * 8), 0);
    expect("rows behind", (uint64_t)memcmp(b->rows + checkers, before.rows + checkers, (MOST + 1 - checkers) * 4), 0);
}

/* the answer, and that nothing is written */
static void expect_refused(const char *what, struct bench *b, uint32_t answer, uint32_t refusal, uint32_t checker,
                           const struct bench *before)
{
    expect(what, answer, 256 * refusal + checker);
    expect("refused and written", (uint64_t)memcmp(b, before, sizeof *b), 0);
}

static void refused_lengths(void)
{
    struct bench b, before;
    fill(&b);
    memcpy(&before, &b, sizeof b);
    expect_refused("65 checkers", &b, run(&b, 65), 9, 0, &before);
    expect_refused("65 checkers and no frames", &b, selvedgeon_bench(b.table, 65, b.frames, 0, b.words, 65, b.rows, 65),
                   9, 0, &before);
    expect_refused("frames too short", &b, selvedgeon_bench(b.table, 4, b.frames, 31, b.words, 4, b.rows, 4), 5, 0, &before);
    expect_refused("frames too long", &b, selvedgeon_bench(b.table, 4, b.frames, 33, b.words, 4, b.rows, 4), 5, 0, &before);
    expect_refused("frames of four words", &b, selvedgeon_bench(b.table, 4, b.frames, 16, b.words, 4, b.rows, 4), 5, 0,
                   &before);
    expect_refused("words too long", &b, selvedgeon_bench(b.table, 4, b.frames, 32, b.words, 5, b.rows, 4), 5, 0, &before);
    expect_refused("rows too short", &b, selvedgeon_bench(b.table, 4, b.frames, 32, b.words, 4, b.rows, 3), 5, 0, &before);
}

static void refused_checkers(void)
{
    struct bench b, before;
    fill(&b);
    b.table[40].kind = 9;
    b.table[50].kind = 200;
    memcpy(&before, &b, sizeof b);
    expect_refused("kind of checker 40", &b, run(&b, 64), 1, 40, &before);
    expect_stepped(&b, 40);

    fill(&b);
    b.words[62] = SELVEDGEON_STOPPED; /* it goes on */
    memcpy(&before, &b, sizeof b);
    expect_refused("stopped word of checker 62", &b, run(&b, 64), 7, 62, &before);
    b.table[62].severity = SELVEDGEON_FATAL;
    b.words[63] = UINT64_MAX;
    memcpy(&before, &b, sizeof b);
    expect_refused("word of checker 63", &b, run(&b, 64), 7, 63, &before);
    b.table[34].value = 8; /* kind 7 on three wires */
    memcpy(&before, &b, sizeof b);
    expect_refused("value of checker 34", &b, run(&b, 64), 3, 34, &before);
    b.table[33].min = 1; /* kind 6 */
    memcpy(&before, &b, sizeof b);
    expect_refused("min of checker 33", &b, run(&b, 64), 2, 33, &before);
    b.table[32].severity = 2;
    memcpy(&before, &b, sizeof b);
    expect_refused("severity of checker 32", &b, run(&b, 64), 2, 32, &before);
    b.table[31].n = 65536;
    memcpy(&before, &b, sizeof b);
    expect_refused("n of checker 31", &b, run(&b, 64), 2, 31, &before);
    b.table[0].p.left = 32;
    memcpy(&before, &b, sizeof b);
    expect_refused("index of checker 0", &b, run(&b, 64), 3, 0, &before);
    /* a bad checker with a short slice is refused for the slice */
    expect_refused("short slice first", &b, selvedgeon_bench(b.table, 64, b.frames, 512, b.words, 64, b.rows, 63), 5, 0, &before);
}

/* case C of the whiteboard table, P [0:3], cycle by cycle */
static void case_c(void)
{
    static const uint32_t samples[6] = {8, 4, 10, 5, 2, 1}, rows[6] = {0, 0, 0, 4, 0, 5}, words[6] = {0, 0, 0, 1, 2, 1};
    struct selvedgeon_config c = {1, 4, {0, 3}, {0, 0}, {0, 0}, 0, 0, 0};
    uint64_t word = 0;
    uint32_t row = GUARD;
    for (int t = 0; t < 6; t++) {
        const uint32_t frame[FRAME_WORDS] = {KNOWN(1, samples[t], 0, 0)};
        expect("case C", selvedgeon_bench(&c, 1, frame, FRAME_WORDS, &word, 1, &row, 1), 0);
        expect("case C row", row, rows[t]);
        expect("case C word", word, words[t]);
    }
}

int main(void)
{
    static const size_t counts[4] = {0, 1, 2, 64};
    struct bench b;
    for (int i = 0; i < 4; i++) {
        fill(&b);
        for (int t = 0; t < 5; t++)
            expect_stepped(&b, counts[i]);
    }
    expect("no table", selvedgeon_bench(NULL, 0, NULL, 0, NULL, 0, NULL, 0), 0);
    refused_lengths();
    refused_checkers();
    case_c();
    printf("bench: %d comparisons, %d failed\n", compared, failed);
    return failed != 0;
}
