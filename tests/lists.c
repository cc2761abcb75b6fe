/*
 * The failure lists of cases C, F and I, the longest lists, and first failures. What is due is in lists.expected.
 */
#include <inttypes.h>
#include <stdio.h>

#include "checker.h"
#include "failures.h"
#include "frame.h"
#include "print.h"
#include "selvedgeon.h"

#define CYCLES 65536
#define MOST_ENTRIES 131070

static void short_lists(void)
{
    static const uint32_t case_c[] = {KNOWN(1, 8, 0, 0), KNOWN(1, 4, 0, 0), KNOWN(1, 10, 0, 0),
                                      KNOWN(1, 5, 0, 0), KNOWN(1, 2, 0, 0), KNOWN(1, 1, 0, 0)};
    static const uint32_t case_f[] = {KNOWN(1, 4, 0, 0), KNOWN(1, 6, 0, 0), KNOWN(1, 0, 0, 0)};
    static const uint32_t case_i[] = {KNOWN(1, 1, 0, 0), KNOWN(1, 0, 1, 0), KNOWN(1, 1, 0, 0),
                                      KNOWN(1, 0, 1, 0), KNOWN(1, 1, 1, 0), KNOWN(1, 0, 1, 0)};
    static const uint32_t moved[] = {KNOWN(1, 1, 0, 0), KNOWN(1, 0, 1, 0), KNOWN(1, 1, 0, 0), KNOWN(1, 0, 0, 0)};
    struct selvedgeon_config ascending = checker(1, 4, 0);
    ascending.p.right = 3;
    /* two attempts fail in cycle 2, and there is room for one entry more */
    list_failures("case F, kind 1", checker(1, 3, 2), case_f, 3, 9);
    list_failures("case C", ascending, case_c, 6, 3);
    /* a failure and an illegal start in one cycle; then a failure behind a window's reset */
    list_failures("case I", checker(5, 3, 0), case_i, 6, 6);
    list_failures("kind 4, window reset in cycle 2", checker(4, 3, 0), moved, 4, 3);
    /* one word short of two entries */
    list_failures("case F, kind 1, five words", checker(1, 3, 2), case_f, 3, 5);
}

/* a list of the longest trace, in a slice that has no more words than it needs: how many entries it has, and the last */
static void list_most(struct selvedgeon_config c, const uint32_t *trace, size_t entries)
{
    static uint32_t list[3 * MOST_ENTRIES];
    uint64_t answer = selvedgeon_failures(NUMBERS(c), trace, FRAME_WORDS * CYCLES, list, 3 * entries);
    printf("refusal %" PRIu64 "\ncount %" PRIu32 "\n", answer >> 32, (uint32_t)answer);
    print_numbers("last entry", &list[3 * (entries - 1)], 3);
}

static void longest_lists(void)
{
    static uint32_t trace[FRAME_WORDS * CYCLES];
    struct selvedgeon_config watch = checker(5, 65535, 0);
    printf("65536 cycles, 31 attempts fail in every 32nd\n");
    for (size_t t = 0; t < CYCLES; t++)
        put_frame(trace, t, UINT32_MAX, t % 32 == 31 ? 0 : UINT32_MAX, UINT32_MAX, UINT32_MAX);
    list_most(checker(1, 32, 31), trace, 2048 * 31);
    /* a failure and an illegal start in each cycle of the window: the test is wire 1 of Q, which is 0 */
    printf("65536 cycles, kind 5, n 65535, start 1 and test 0\n");
    watch.q.left = watch.q.right = 1;
    for (size_t t = 0; t < CYCLES; t++)
        put_frame(trace, t, 1, 1, 1, 1);
    list_most(watch, trace, MOST_ENTRIES);
}

/* a search's refusal, that nothing was found, or where; `of` says what the rows are, where the numbers do not */
static void search(uint64_t checkers, uint64_t cycles, const char *of, const uint32_t *rows, size_t rows_len)
{
    uint64_t answer = selvedgeon_first_failure(checkers, cycles, rows, rows_len);
    uint64_t found = answer - (UINT64_C(1) << 31); /* too large to be mistaken where bit 31 is not set */
    printf("K %" PRIu64 ", N %" PRIu64 "%s:", checkers, cycles, of);
    if (answer >> 32 != 0)
        printf(" refusal %" PRIu64 "\n", answer >> 32);
    else if (answer == 0)
        printf(" none\n");
    else
        printf(" checker %" PRIu64 " cycle %" PRIu64 "\n", found >> 16, found & 65535);
}

/* three checkers over four cycles: the first fails in cycle 3, the others in cycle 2; other marks and bits are no failures */
static void short_searches(void)
{
    static const uint32_t rows[12] = {4, 8, 20, 1, 0, 4, 2, 1, 28, 0xfffffffc, 1, 0};
    search(3, 4, "", rows, 12);
    search(12, 1, "", rows, 12);
    search(2, 2, "", rows, 4);
    search(3, 3, "", rows, 12);
    search(0, 7, "", NULL, 0);
    search(7, 0, "", NULL, 0);
    search(65, 0, "", NULL, 0);
}

/* at the limits the only failure is in the last row; above them each row has one */
static void longest_searches(void)
{
    static uint32_t rows[CYCLES + 1];
    search(1, CYCLES, ", no failure", rows, CYCLES);
    search(64, CYCLES / 64, ", no failure", rows, CYCLES);
    rows[CYCLES - 1] = 2;
    search(1, CYCLES, "", rows, CYCLES);
    search(64, CYCLES / 64, "", rows, CYCLES);
    for (size_t t = 0; t <= CYCLES; t++)
        rows[t] = 1;
    search(1, CYCLES + 1, "", rows, CYCLES + 1);
    search(CYCLES + 1, 1, "", rows, CYCLES + 1);
    search(64, CYCLES, "", rows, CYCLES + 1);
}

int main(void)
{
    short_lists();
    longest_lists();
    short_searches();
    longest_searches();
    return 0;
}
