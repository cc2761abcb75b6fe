/*
 * A full check, an edit and a recheck, as a viewer does them: case A of the whiteboard table, a sequence of four events on
 * P [3:0], with cycle 2 changed from 10 to 2. Then a call that is refused, and one that is refused because the record it is
 * given was spoiled. Then case N below the table: the value 6 is expected on P [0:2] from 1 to 3 cycles after a trigger, and
 * the failures are listed. Then case E made fatal: it stops in cycle 2, and an edit of that cycle lets it go on to the next
 * failure. Then case A again, where one wire of cycle 1 becomes x. Last, what the edit of case A would change, with nothing
 * changed.
 *
 *     sh build.sh          builds and runs this example
 */
#include <inttypes.h>
#include <stdio.h>

#include "selvedgeon.h"

#define CYCLES 6
#define MARKS 6
#define ANSWER (1 + MARKS)

/* the words of a frame, by their place in it, and how many they are; a 1 in the last four: that wire is x or z */
enum { RESET, P, Q, R, RESET_X, P_X, Q_X, R_X, FRAME_WORDS };
#define TRACE_WORDS (FRAME_WORDS * CYCLES)

/* kind 1, n 4, P [3:0]; Q and R are not used, nor min and the expected value; it goes on after a failure */
#define SEQUENCE 1, 4, 3, 0, 0, 0, 0, 0, 0, 0, SELVEDGEON_GOES_ON

/* kind 7, max 3, P [0:2], Q [0:0]; R is not used; min 1, value 6 */
#define VALUE 7, 3, 0, 2, 0, 0, 0, 0, 1, 6, SELVEDGEON_GOES_ON

/* kind 1, n 3, P [2:0], fatal */
#define FATAL_SEQUENCE 1, 3, 2, 0, 0, 0, 0, 0, 0, 0, SELVEDGEON_FATAL

static const char *refusal_in_words(uint32_t refusal)
{
    switch (refusal) {
    case SELVEDGEON_DONE: return "done";
    case SELVEDGEON_BAD_KIND: return "the kind is above 8";
    case SELVEDGEON_BAD_N: return "n, min or the severity is outside its limits";
    case SELVEDGEON_BAD_PORTS: return "a port or the expected value does not fit the kind";
    case SELVEDGEON_BAD_TRACE: return "the trace is no multiple of 8 words, or has more than 65,536 cycles";
    case SELVEDGEON_BAD_LENGTH: return "a lent slice has not the length that is due";
    case SELVEDGEON_BAD_RANGE: return "a is above b, or b above N";
    case SELVEDGEON_BAD_WORD: return "an open word is not possible for this checker";
    case SELVEDGEON_LIST_FULL: return "the list is too short";
    case SELVEDGEON_TOO_MANY: return "more than 64 checkers";
    default: return "no refusal number";
    }
}

static void print_marks(uint32_t row)
{
    static const char *const names[MARKS] = {"failure", "illegal start", "opened", "closed", "restarted", "unknown"};
    int any = 0;
    for (int i = 0; i < MARKS; i++) {
        if (row >> i & 1) {
            printf("%s%s", any ? ", " : "", names[i]);
            any = 1;
        }
    }
    printf("%s\n", any ? "" : "-");
}

/* a sample of P that has an unknown wire is printed X, as by Verilog's %d */
static void print_record(const uint32_t *trace, const uint32_t *rows, const uint64_t *words)
{
    printf("  cycle  P   open word  marks\n");
    for (int t = 0; t < CYCLES; t++) {
        const uint32_t *frame = &trace[FRAME_WORDS * t];
        if (frame[P_X] != 0)
            printf("  %5d   X  ", t);
        else
            printf("  %5d  %2" PRIu32 "  ", t, frame[P]);
        if (words[t] == SELVEDGEON_STOPPED)
            printf("  stopped  ");
        else
            printf("%9" PRIu64 "  ", words[t]);
        print_marks(rows[t]);
    }
}

/* a trace of these samples on P, out of reset; all its other words are 0 already, so every wire is known */
static void sample(uint32_t *trace, const uint32_t *samples)
{
    for (int t = 0; t < CYCLES; t++) {
        trace[FRAME_WORDS * t + RESET] = 1; /* reset_n */
        trace[FRAME_WORDS * t + P] = samples[t];
    }
}

static void print_changes(uint64_t end, const int32_t *changes)
{
    printf("  stopped before cycle %" PRIu64 "; changes of marks 1, 2, 4, 8, 16, 32:", end);
    for (int i = 0; i < MARKS; i++)
        printf(" %" PRId32, changes[i]);
    printf("\n");
}

/* the value check of a trace with one trigger, and where it failed */
static void check_value(void)
{
    const uint32_t samples[CYCLES] = {3, 6, 3, 6, 3, 3};
    uint32_t trace[TRACE_WORDS] = {0};
    uint32_t rows[CYCLES];
    uint64_t words[CYCLES];
    uint32_t list[3 * CYCLES];

    for (int t = 0; t < CYCLES; t++) {
        trace[FRAME_WORDS * t + RESET] = 3; /* reset_n and enable */
        trace[FRAME_WORDS * t + P] = samples[t];
        trace[FRAME_WORDS * t + Q] = t == 0; /* the trigger */
    }
    uint32_t refusal = selvedgeon_check(VALUE, trace, TRACE_WORDS, rows, CYCLES, words, CYCLES);
    printf("value 6 on [0:2], 1 to 3 cycles after the trigger: %s\n", refusal_in_words(refusal));
    print_record(trace, rows, words);
    uint64_t failures = selvedgeon_failures(VALUE, trace, TRACE_WORDS, list, 3 * CYCLES);
    for (uint32_t i = 0; i < (uint32_t)failures; i++)
        printf("  failed in cycle %" PRIu32 ", trigger in cycle %" PRIu32 "\n", list[3 * i], list[3 * i + 2]);
}

/* a fatal checker, and an edit that takes its failure away */
static void check_fatal(void)
{
    const uint32_t samples[CYCLES] = {4, 6, 5, 4, 4, 4};
    uint32_t trace[TRACE_WORDS] = {0};
    uint32_t rows[CYCLES];
    uint64_t words[CYCLES];
    int32_t answer[ANSWER];

    sample(trace, samples);
    uint32_t refusal = selvedgeon_check(FATAL_SEQUENCE, trace, TRACE_WORDS, rows, CYCLES, words, CYCLES);
    printf("fatal, full check: %s\n", refusal_in_words(refusal));
    print_record(trace, rows, words);

    trace[FRAME_WORDS * 2 + P] = 7;
    refusal = selvedgeon_recheck(FATAL_SEQUENCE, trace, TRACE_WORDS, rows, CYCLES, words, CYCLES, 2, 3, answer, ANSWER) >> 32;
    printf("cycle 2 becomes 7, recheck of cycles 2 to 2: %s\n", refusal_in_words(refusal));
    print_record(trace, rows, words);
    print_changes((uint64_t)answer[0], answer + 1);
}

/*
 * Wire 2 of cycle 1 is the second event of the sequence that starts in cycle 0. Where it is x, nobody can tell whether that
 * sequence passes: it ends with mark 32, which is no failure.
 */
static void check_unknown(const uint32_t *samples)
{
    uint32_t trace[TRACE_WORDS] = {0};
    uint32_t rows[CYCLES];
    uint64_t words[CYCLES];
    int32_t answer[ANSWER];

    sample(trace, samples);
    uint32_t refusal = selvedgeon_check(SEQUENCE, trace, TRACE_WORDS, rows, CYCLES, words, CYCLES);
    printf("case A again, full check: %s\n", refusal_in_words(refusal));

    trace[FRAME_WORDS * 1 + P_X] = 1 << 2;
    refusal = selvedgeon_recheck(SEQUENCE, trace, TRACE_WORDS, rows, CYCLES, words, CYCLES, 1, 2, answer, ANSWER) >> 32;
    printf("wire 2 of cycle 1 becomes x, recheck of cycles 1 to 1: %s\n", refusal_in_words(refusal));
    print_record(trace, rows, words);
    print_changes((uint64_t)answer[0], answer + 1);
}

/* the edit of cycle 2 is made, rechecked, taken back and rechecked in one call: the marks are in the end what they were */
static void try_edit(const uint32_t *samples)
{
    uint32_t trace[TRACE_WORDS] = {0};
    uint32_t frame[FRAME_WORDS] = {[RESET] = 1, [P] = 2};
    uint32_t rows[CYCLES];
    uint64_t words[CYCLES];

    sample(trace, samples);
    selvedgeon_check(SEQUENCE, trace, TRACE_WORDS, rows, CYCLES, words, CYCLES);
    struct selvedgeon_taken_back tried = selvedgeon_edit_and_take_back(SEQUENCE, trace, TRACE_WORDS, rows, CYCLES, words,
                                                                       CYCLES, 2, 3, frame, FRAME_WORDS);
    printf("case A once more, if cycle 2 became 2: %s\n", refusal_in_words(tried.edit.refusal));
    print_changes(tried.edit.end, tried.edit.changes);
    printf("and as it is again: %s\n", refusal_in_words(tried.back.refusal));
    print_changes(tried.back.end, tried.back.changes);
    print_record(trace, rows, words);
}

int main(void)
{
    const uint32_t samples[CYCLES] = {8, 4, 10, 5, 2, 1};
    uint32_t trace[TRACE_WORDS] = {0};
    uint32_t rows[CYCLES];
    uint64_t words[CYCLES];
    int32_t answer[ANSWER];

    sample(trace, samples);
    uint32_t refusal = selvedgeon_check(SEQUENCE, trace, TRACE_WORDS, rows, CYCLES, words, CYCLES);
    printf("full check: %s\n", refusal_in_words(refusal));
    print_record(trace, rows, words);

    trace[FRAME_WORDS * 2 + P] = 2;
    refusal = selvedgeon_recheck(SEQUENCE, trace, TRACE_WORDS, rows, CYCLES, words, CYCLES, 2, 3, answer, ANSWER) >> 32;
    printf("cycle 2 becomes 2, recheck of cycles 2 to 2: %s\n", refusal_in_words(refusal));
    print_record(trace, rows, words);
    print_changes((uint64_t)answer[0], answer + 1);

    refusal = selvedgeon_recheck(SEQUENCE, trace, TRACE_WORDS, rows, CYCLES, words, CYCLES, 4, 3, answer, ANSWER) >> 32;
    printf("recheck from 4 to 3: refused, %s\n", refusal_in_words(refusal));

    words[4] = 8; /* at most three checks are open, in bits 0 to 2: no open word of this checker is above 7 */
    uint64_t answered = selvedgeon_recheck(SEQUENCE, trace, TRACE_WORDS, rows, CYCLES, words, CYCLES, 2, 3, answer, ANSWER);
    printf("8 written over the open word of cycle 4, recheck of cycles 2 to 2: refused, %s: that of cycle %" PRIu32 "\n",
           refusal_in_words(answered >> 32), (uint32_t)answered);

    check_value();
    check_fatal();
    check_unknown(samples);
    try_edit(samples);
    return 0;
}
