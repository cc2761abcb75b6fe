/*
 * Edits that are taken back, and two edits in either order: what each recheck answers and leaves, and the call that makes an
 * edit and takes it back. What is due is in edits.expected.
 */
#include <stdio.h>
#include <string.h>

#include "six.h"

#define WORDS_OF_SIX (FRAME_WORDS * CYCLES)

/* one word of one cycle gets another sample */
struct edit {
    uint64_t cycle;
    enum frame_word word;
    uint32_t sample;
};

/* a checker, a trace, and two edits of it, of which `one` is in an earlier cycle */
struct example {
    const char *name;
    struct selvedgeon_config c;
    const uint32_t *trace;
    struct edit one, other;
};

/* case E: a sequence of three events that fails in each cycle from 2 on */
static const uint32_t case_e[WORDS_OF_SIX] = {KNOWN(1, 4, 0, 0), KNOWN(1, 6, 0, 0), KNOWN(1, 5, 0, 0),
                                              KNOWN(1, 4, 0, 0), KNOWN(1, 4, 0, 0), KNOWN(1, 4, 0, 0)};

/* a trigger in cycle 0, behind which P is 6, in enabled cycles */
static const uint32_t stable[WORDS_OF_SIX] = {KNOWN(3, 5, 1, 0), KNOWN(3, 6, 0, 0), KNOWN(3, 6, 0, 0),
                                              KNOWN(3, 6, 0, 0), KNOWN(3, 0, 0, 0), KNOWN(3, 0, 0, 0)};

static const struct example examples[] = {
    {"case A", {.kind = 1, .n = 4, .p = {3, 0}}, case_a, {2, P, 2}, {4, P, 0}},
    {"kind 3, n 2", {.kind = 3, .n = 2}, ones, {0, P, 0}, {4, P, 0}},
    {"case E, fatal", {.kind = 1, .n = 3, .p = {2, 0}, .severity = SELVEDGEON_FATAL}, case_e, {0, P, 0}, {2, P, 7}},
    {"kind 8, 1 to 3", {.kind = 8, .n = 3, .p = {2, 0}, .min = 1}, stable, {1, P, 7}, {3, P, 7}},
};

static void make(uint32_t *trace, struct edit e)
{
    printf("cycle %" PRIu64 " made %" PRIu32 "\n", e.cycle, e.sample);
    trace[at(e.cycle, e.word)] = e.sample;
}

static void make_and_recheck(const struct example *x, uint32_t *trace, struct record *r, struct edit e)
{
    make(trace, e);
    recheck_record(x->c, trace, r, e.cycle, e.cycle + 1);
}

static const char *compared(const void *found, const void *before, size_t size)
{
    return memcmp(found, before, size) == 0 ? "as before" : "NOT AS BEFORE";
}

/* an edit, and one that restores the old sample */
static void taken_back(const struct example *x, struct edit e)
{
    uint32_t trace[WORDS_OF_SIX];
    struct record old = check(x->c, x->trace), r = old;
    struct edit back = e;
    back.sample = x->trace[at(e.cycle, e.word)];
    memcpy(trace, x->trace, sizeof trace);
    printf("%s\n", x->name);
    print_record(&old);
    make_and_recheck(x, trace, &r, e);
    make_and_recheck(x, trace, &r, back);
    printf("the record is %s\n", compared(&r, &old, sizeof r));
}

/* the call that does both, with the samples of cycles a to b-1 */
static void edit_and_take_back(struct selvedgeon_config c, uint32_t *trace, struct record *r, uint64_t a, uint64_t b,
                               uint32_t *samples, size_t count)
{
    struct selvedgeon_taken_back answer = selvedgeon_edit_and_take_back(
        NUMBERS(c), trace, WORDS_OF_SIX, r->rows, CYCLES, r->words, CYCLES, a, b, samples, count);
    print_answer(answer.edit.refusal, answer.edit.cycle, (int64_t)answer.edit.end, answer.edit.changes);
    print_answer(answer.back.refusal, answer.back.cycle, (int64_t)answer.back.end, answer.back.changes);
}

static void in_one_call(const struct example *x, struct edit e)
{
    uint32_t trace[WORDS_OF_SIX], samples[FRAME_WORDS], given[FRAME_WORDS];
    struct record old = check(x->c, x->trace), r = old;
    memcpy(trace, x->trace, sizeof trace);
    memcpy(samples, x->trace + at(e.cycle, RESET), sizeof samples);
    samples[e.word] = e.sample;
    memcpy(given, samples, sizeof given);
    printf("%s, in one call\n", x->name);
    edit_and_take_back(x->c, trace, &r, e.cycle, e.cycle + 1, samples, FRAME_WORDS);
    printf("the record is %s, the trace is %s, the samples are %s\n", compared(&r, &old, sizeof r),
           compared(trace, x->trace, sizeof trace), compared(samples, given, sizeof samples));
}

/* both edits, in one order: the record that they leave */
static struct record both(const struct example *x, struct edit first, struct edit second)
{
    uint32_t trace[WORDS_OF_SIX];
    struct record r = check(x->c, x->trace);
    memcpy(trace, x->trace, sizeof trace);
    printf("%s, two edits\n", x->name);
    make_and_recheck(x, trace, &r, first);
    make_and_recheck(x, trace, &r, second);
    return r;
}

static void either_order(const struct example *x)
{
    struct record r = both(x, x->one, x->other), s = both(x, x->other, x->one);
    printf("the two records are %s\n", memcmp(&r, &s, sizeof r) == 0 ? "the same" : "NOT THE SAME");
}

/* case A with a kept word that is impossible in cycle 4, and edits that are refused before it is looked at */
static void refused(void)
{
    static const struct {
        const char *name;
        uint64_t a, b;
        size_t samples;
    } calls[] = {
        {"a kept word that is not possible", 2, 3, FRAME_WORDS},
        {"samples of a word more", 2, 3, FRAME_WORDS + 1},
        {"samples of a cycle more", 2, 3, 2 * FRAME_WORDS},
        {"a above b, no samples", 3, 2, 0},
        {"a above b, samples", 3, 2, FRAME_WORDS},
        {"b above N", CYCLES, CYCLES + 1, FRAME_WORDS},
    };
    struct record spoiled = {{4, 0, 4, 0, 0, 0}, {1, 2, 5, 2, 8, 0}};
    for (size_t i = 0; i < sizeof calls / sizeof *calls; i++) {
        uint32_t trace[WORDS_OF_SIX], samples[2 * FRAME_WORDS] = {0};
        struct record r = spoiled;
        memcpy(trace, case_a, sizeof trace);
        printf("case A, %s\n", calls[i].name);
        edit_and_take_back(checker(1, 4, 3), trace, &r, calls[i].a, calls[i].b, samples, calls[i].samples);
        printf("the record is %s, the trace is %s\n", compared(&r, &spoiled, sizeof r), compared(trace, case_a, sizeof trace));
    }
}

int main(void)
{
    for (size_t i = 0; i < sizeof examples / sizeof *examples; i++) {
        const struct example *x = &examples[i];
        taken_back(x, x->one);
        in_one_call(x, x->one);
        taken_back(x, x->other);
        in_one_call(x, x->other);
        either_order(x);
    }
    refused();
    return 0;
}
