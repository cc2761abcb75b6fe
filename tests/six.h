/* Traces of six cycles, their records and their rechecks, as the C programs print them whose output is compared with a file. */
#ifndef SIX_H
#define SIX_H

#include <inttypes.h>
#include <stdio.h>
#include <string.h>

#include "checker.h"
#include "frame.h"
#include "print.h"
#include "selvedgeon.h"

#define CYCLES 6

/* the trace of case A, a sequence of four events on P [3:0] */
static const uint32_t case_a[FRAME_WORDS * CYCLES] = {KNOWN(1, 8, 0, 0), KNOWN(1, 4, 0, 0), KNOWN(1, 10, 0, 0),
                                                      KNOWN(1, 5, 0, 0), KNOWN(1, 2, 0, 0), KNOWN(1, 1, 0, 0)};

/* start and test are 1 in each cycle */
static const uint32_t ones[FRAME_WORDS * CYCLES] = {KNOWN(1, 1, 1, 1), KNOWN(1, 1, 1, 1), KNOWN(1, 1, 1, 1),
                                                    KNOWN(1, 1, 1, 1), KNOWN(1, 1, 1, 1), KNOWN(1, 1, 1, 1)};

struct record {
    uint32_t rows[CYCLES];
    uint64_t words[CYCLES];
};

static inline void print_record(const struct record *r)
{
    print_numbers("rows", r->rows, CYCLES);
    printf("words");
    print_spaced_words(r->words, CYCLES);
    printf("\n");
}

/* the full check of six cycles */
static inline struct record check(struct selvedgeon_config c, const uint32_t *trace)
{
    struct record r = {0};
    selvedgeon_check(NUMBERS(c), trace, FRAME_WORDS * CYCLES, r.rows, CYCLES, r.words, CYCLES);
    return r;
}

/* what a recheck answers */
static inline void print_answer(uint32_t refusal, uint64_t cycle, int64_t end, const int32_t *changes)
{
    printf("refusal %" PRIu32, refusal);
    if (refusal == SELVEDGEON_BAD_WORD || cycle != 0) /* a cycle with another refusal is wrong, and has to show */
        printf(" cycle %" PRIu64, cycle);
    printf(" end %" PRId64 " changes", end);
    for (int i = 0; i < MARKS; i++)
        printf(" %" PRId32, changes[i]);
    printf("\n");
}

/* the recheck of cycles a to b-1, and what it answers */
static inline void recheck(struct selvedgeon_config c, const uint32_t *trace, size_t cycles, uint32_t *rows,
                           uint64_t *words, uint64_t a, uint64_t b)
{
    int32_t answer[ANSWER] = {0}; /* a refused recheck leaves them */
    uint64_t answered = selvedgeon_recheck(NUMBERS(c), trace, FRAME_WORDS * cycles, rows, cycles, words, cycles, a, b,
                                           answer, ANSWER);
    print_answer((uint32_t)(answered >> 32), (uint32_t)answered, answer[0], answer + 1);
}

/* the same of six cycles, and what it leaves */
static inline void recheck_record(struct selvedgeon_config c, const uint32_t *trace, struct record *r, uint64_t a,
                                  uint64_t b)
{
    recheck(c, trace, CYCLES, r->rows, r->words, a, b);
    print_record(r);
}

/* the full check of six cycles, then the recheck with P made `p` in cycle t: what each leaves */
static inline void edit(struct selvedgeon_config c, const uint32_t *trace, uint64_t t, uint32_t p)
{
    uint32_t edited[FRAME_WORDS * CYCLES];
    struct record r = check(c, trace);
    print_record(&r);
    memcpy(edited, trace, sizeof edited);
    edited[at(t, P)] = p;
    recheck_record(c, edited, &r, t, t + 1);
}

#endif
