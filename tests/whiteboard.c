/*
 * The whiteboard table: its twelve cases, the failure lists and rechecks below it, six cases of kinds 7 and 8, four of fatal
 * checkers, and seven with unknown bits. What is due is in whiteboard.expected.
 */
#include <inttypes.h>
#include <stdbool.h>
#include <stdio.h>
#include <string.h>

#include "failures.h"
#include "six.h"

/* the same sample in each cycle: 1 is out of reset, 3 is that with enable 1 */
#define ALL(sample) {sample, sample, sample, sample, sample, sample}

/* a trace of six cycles at most, word by word, as the table shows it */
struct samples {
    size_t cycles;
    uint32_t words[FRAME_WORDS][CYCLES];
};

/* a word of the frames under the name that the table has for it; without its `shift` lowest bits */
struct column {
    const char *name;
    enum frame_word word;
    int shift;
};

/* the words that are shown, each with its unknown wires behind it or without them */
struct layout {
    bool unknown;
    size_t count;
    struct column columns[3];
};

static const struct layout events = {false, 1, {{"", P, 0}}};
static const struct layout window = {false, 2, {{" start", P, 0}, {" test", Q, 0}}};
static const struct layout reset_window = {false, 3, {{" reset_n", RESET, 0}, {" start", P, 0}, {" test", Q, 0}}};
static const struct layout states = {false, 3, {{" test", P, 0}, {" start", Q, 0}, {" next", R, 0}}};
static const struct layout tracked = {false, 3, {{" enable", RESET, 1}, {" trigger", Q, 0}, {" P", P, 0}}};
static const struct layout unknown_events = {true, 1, {{"", P, 0}}};
static const struct layout unknown_ports = {true, 3, {{" reset", RESET, 0}, {" P", P, 0}, {" Q", Q, 0}}};
static const struct layout unknown_states = {true, 3, {{" test", P, 0}, {" start", Q, 0}, {" next", R, 0}}};

/* a line of a table: the case, its checker as the table writes it and as it is configured, and the samples */
struct example {
    const char *name, *written;
    struct selvedgeon_config c;
    const struct layout *layout;
    const struct samples *samples;
};

static const struct samples samples_a = {6, {[RESET] = ALL(1), [P] = {8, 4, 10, 5, 2, 1}}};
static const struct samples samples_d = {6, {[RESET] = ALL(1), [P] = {4, 6, 5, 4, 4, 4}}};
static const struct samples samples_f = {3, {[RESET] = ALL(1), [P] = {4, 6, 0}}};
static const struct samples samples_g = {6, {[RESET] = ALL(1), [P] = {1, 0, 1, 0, 1, 0}, [Q] = {0, 1, 0, 1, 1, 1}}};
static const struct samples samples_j = {3, {[RESET] = ALL(1), [P] = {1, 1, 1}, [Q] = {1, 1, 0}}};
static const struct samples samples_k = {5, {[RESET] = ALL(1), [P] = {3, 4, 3, 0, 3}, [Q] = ALL(3), [R] = {4, 4, 0, 4, 4}}};
static const struct samples samples_l = {2, {[RESET] = ALL(1), [P] = ALL(3), [Q] = ALL(3), [R] = ALL(4)}};

static const struct example table[] = {
    {"A", "1, n 4, [3:0]", {.kind = 1, .n = 4, .p = {3, 0}}, &events, &samples_a},
    {"B", "0, n 4, [3:0]", {.kind = 0, .n = 4, .p = {3, 0}}, &events, &samples_a},
    {"C", "1, n 4, [0:3]", {.kind = 1, .n = 4, .p = {0, 3}}, &events, &samples_a},
    {"D", "2, n 3, [2:0]", {.kind = 2, .n = 3, .p = {2, 0}}, &events, &samples_d},
    {"E", "1, n 3, [2:0]", {.kind = 1, .n = 3, .p = {2, 0}}, &events, &samples_d},
    {"F", "0, n 3, [2:0]", {.kind = 0, .n = 3, .p = {2, 0}}, &events, &samples_f},
    {"G", "3, n 3", {.kind = 3, .n = 3}, &window, &samples_g},
    {"H", "4, n 3", {.kind = 4, .n = 3}, &window, &samples_g},
    {"I", "5, n 3", {.kind = 5, .n = 3}, &window, &samples_g},
    {"J", "3, n 1", {.kind = 3, .n = 1}, &window, &samples_j},
    {"K", "6, all [2:0]", {.kind = 6, .p = {2, 0}, .q = {2, 0}, .r = {2, 0}}, &states, &samples_k},
    {"L", "6, all [2:0]", {.kind = 6, .p = {2, 0}, .q = {2, 0}, .r = {2, 0}}, &states, &samples_l},
};

static const struct samples samples_m = {6, {[RESET] = ALL(3), [P] = {0, 5, 5, 5, 0, 0}, [Q] = {1, 0, 0, 0, 0, 0}}};
static const struct samples samples_n = {6, {[RESET] = ALL(3), [P] = {3, 6, 3, 6, 3, 3}, [Q] = {1, 0, 0, 0, 0, 0}}};
/* the trigger of cycle 4, which is not enabled, is not seen */
static const struct samples samples_o = {
    6, {[RESET] = {3, 3, 1, 1, 1, 3}, [P] = {5, 4, 0, 0, 5, 5}, [Q] = {1, 0, 0, 0, 1, 1}}};
static const struct samples samples_p = {6, {[RESET] = ALL(3), [P] = {5, 0, 4, 5, 4, 5}, [Q] = {1, 0, 1, 1, 0, 1}}};
/* the reference is that of cycle 2, as cycle 1 is not enabled */
static const struct samples samples_q = {
    6, {[RESET] = {3, 1, 3, 3, 3, 3}, [P] = {1, 2, 6, 6, 3, 0}, [Q] = {1, 0, 0, 0, 0, 0}}};
static const struct samples samples_r = {6, {[RESET] = ALL(3), [P] = {3, 3, 3, 2, 2, 2}, [Q] = {1, 1, 1, 1, 0, 0}}};

static const struct example after_triggers[] = {
    {"M", "7, 1 to 3, value 5, [2:0]", {.kind = 7, .n = 3, .p = {2, 0}, .min = 1, .value = 5}, &tracked, &samples_m},
    {"N", "7, 1 to 3, value 6, [0:2]", {.kind = 7, .n = 3, .p = {0, 2}, .min = 1, .value = 6}, &tracked, &samples_n},
    {"O", "7, 1 to 3, value 5, [2:0]", {.kind = 7, .n = 3, .p = {2, 0}, .min = 1, .value = 5}, &tracked, &samples_o},
    {"P", "7, 0 to 0, value 5, [2:0]", {.kind = 7, .n = 0, .p = {2, 0}, .min = 0, .value = 5}, &tracked, &samples_p},
    {"Q", "8, 1 to 4, [2:0]", {.kind = 8, .n = 4, .p = {2, 0}, .min = 1}, &tracked, &samples_q},
    {"R", "8, 0 to 2, [2:0]", {.kind = 8, .n = 2, .p = {2, 0}, .min = 0}, &tracked, &samples_r},
};

/* T is stopped by an illegal start. In U there is a reset behind the failure. V cannot fail, as its min is its max */
static const struct samples samples_t = {6, {[RESET] = ALL(1), [P] = {1, 0, 1, 0, 1, 0}, [Q] = {0, 1, 1, 1, 1, 1}}};
static const struct samples samples_u = {
    6, {[RESET] = {1, 1, 1, 0, 1, 1}, [P] = {1, 0, 0, 0, 1, 0}, [Q] = {0, 1, 0, 1, 0, 0}}};
static const struct samples samples_v = {6, {[RESET] = ALL(3), [P] = {0, 1, 2, 3, 4, 5}, [Q] = {1, 0, 0, 1, 0, 0}}};

static const struct example fatal[] = {
    {"S", "1, n 3, [2:0]", {.kind = 1, .n = 3, .p = {2, 0}, .severity = SELVEDGEON_FATAL}, &events, &samples_d},
    {"T", "5, n 3", {.kind = 5, .n = 3, .severity = SELVEDGEON_FATAL}, &window, &samples_t},
    {"U", "3, n 2", {.kind = 3, .n = 2, .severity = SELVEDGEON_FATAL}, &reset_window, &samples_u},
    {"V", "8, 1 to 1, [2:0]", {.kind = 8, .n = 1, .p = {2, 0}, .min = 1, .severity = SELVEDGEON_FATAL}, &tracked, &samples_v},
};

/*
 * Wires that do not count are unknown in cycle 1: of P all but wire 0, of Q all but wire 3, enable, and wire 0 of R. In cycle
 * 2 reset_n is, which counts as reset.
 */
static const struct samples samples_w = {
    6, {[RESET] = ALL(1), [P] = {1, 0, 1, 1, 0, 0}, [Q] = {0, 8, 0, 0, 0, 8}, [RESET_X] = {0, 2, 1, 0, 0, 0},
        [P_X] = {0, ~UINT32_C(1), 0, 0, 0, 0}, [Q_X] = {0, ~UINT32_C(8), 0, 0, 0, 0}, [R_X] = {0, 1, 0, 0, 0, 0}}};
static const struct samples samples_x = {6, {[RESET] = ALL(1), [P] = {4, 6, 4, 2, 0, 4}, [P_X] = {0, 2, 0, 0, 1, 4}}};
static const struct samples samples_y = {6, {[RESET] = ALL(1), [P] = {4, 6, 2, 1, 4, 2}, [P_X] = {0, 2, 0, 1, 4, 0}}};
static const struct samples samples_z = {
    6, {[RESET] = ALL(1), [P] = {1, 1, 1, 0, 0, 0}, [Q] = {0, 1, 1, 1, 0, 0}, [P_X] = {0, 1, 0, 0, 0, 0},
        [Q_X] = {0, 1, 1, 0, 0, 1}}};
/* wire 3 of P and of R does not count */
static const struct samples samples_aa = {
    6, {[RESET] = ALL(1), [P] = {3, 7, 3, 3, 3, 0}, [Q] = {3, 5, 3, 7, 3, 3}, [R] = ALL(4), [P_X] = {0, 2, 0, 0, 8, 0},
        [Q_X] = {0, 0, 0, 4, 0, 0}, [R_X] = {8, 0, 4, 0, 0, 0}}};
static const struct samples samples_ab = {
    6, {[RESET] = ALL(3), [P] = {3, 6, 6, 3, 0, 0}, [Q] = {1, 0, 0, 0, 1, 1}, [RESET_X] = {0, 0, 0, 0, 0, 2},
        [P_X] = {1, 0, 4, 0, 0, 0}, [Q_X] = {0, 0, 0, 0, 1, 0}}};
static const struct samples samples_ac = {6, {[RESET] = ALL(1), [P] = {4, 6, 6, 2, 4, 4}, [P_X] = {0, 2, 0, 2, 0, 0}}};

static const struct example unknown[] = {
    {"W", "3, n 2, Q [3:3]", {.kind = 3, .n = 2, .q = {3, 3}}, &unknown_ports, &samples_w},
    {"X", "2, n 3, [2:0]", {.kind = 2, .n = 3, .p = {2, 0}}, &unknown_events, &samples_x},
    {"Y", "0, n 3, [2:0]", {.kind = 0, .n = 3, .p = {2, 0}}, &unknown_events, &samples_y},
    {"Z", "4, n 3", {.kind = 4, .n = 3}, &unknown_ports, &samples_z},
    {"AA", "6, all [2:0]", {.kind = 6, .p = {2, 0}, .q = {2, 0}, .r = {2, 0}}, &unknown_states, &samples_aa},
    {"AB", "8, 0 to 3, [2:0]", {.kind = 8, .n = 3, .p = {2, 0}, .min = 0}, &unknown_ports, &samples_ab},
    {"AC", "1, n 3, [2:0], fatal", {.kind = 1, .n = 3, .p = {2, 0}, .severity = SELVEDGEON_FATAL}, &unknown_events,
     &samples_ac},
};

/* the frames of samples; `trace` has room for six */
static void frames(const struct samples *s, uint32_t *trace)
{
    for (size_t t = 0; t < s->cycles; t++)
        for (size_t word = 0; word < FRAME_WORDS; word++)
            trace[at(t, (enum frame_word)word)] = s->words[word][t];
}

static void print_samples(const struct layout *l, const struct samples *s)
{
    for (size_t i = 0; i < l->count; i++) {
        const struct column *c = &l->columns[i];
        uint32_t shown[CYCLES];
        for (size_t t = 0; t < s->cycles; t++)
            shown[t] = s->words[c->word][t] >> c->shift;
        printf("%s%s", i == 0 ? "" : ",", c->name);
        print_spaced(shown, s->cycles);
        if (l->unknown) {
            printf(" unknown");
            print_spaced(s->words[RESET_X + c->word], s->cycles); /* the unknown words are in the order of the others */
        }
    }
}

/* the full check of a case, on a line */
static void print_case(const struct example *e)
{
    uint32_t trace[FRAME_WORDS * CYCLES], rows[CYCLES];
    uint64_t words[CYCLES];
    size_t n = e->samples->cycles;
    memset(rows, 0xff, sizeof rows); /* an entry that is not written has to show */
    memset(words, 0xff, sizeof words);
    frames(e->samples, trace);
    uint32_t refusal = selvedgeon_check(NUMBERS(e->c), trace, FRAME_WORDS * n, rows, n, words, n);
    printf("| %s | %s |", e->name, e->written);
    print_samples(e->layout, e->samples);
    printf(" |");
    if (refusal != SELVEDGEON_DONE) /* none is due, and one has to show */
        printf(" refusal %" PRIu32, refusal);
    print_spaced(rows, n);
    printf(" |");
    print_spaced_words(words, n);
    printf(" |\n");
}

static void print_table(const char *title, const struct example *examples, size_t count)
{
    printf("%s| | checker | samples | rows | words |\n|---|---|---|---|---|\n", title);
    for (size_t i = 0; i < count; i++)
        print_case(&examples[i]);
}

/* the lists of F's samples under kind 1, and of case C, each in as many words as it needs */
static void lists(void)
{
    uint32_t f[FRAME_WORDS * CYCLES], a[FRAME_WORDS * CYCLES];
    struct selvedgeon_config ascending = {.kind = 1, .n = 4, .p = {0, 3}};
    frames(&samples_f, f);
    frames(&samples_a, a);
    list_failures("\nSamples of F under kind 1:", checker(1, 3, 2), f, samples_f.cycles, 6);
    list_failures("Case C:", ascending, a, samples_a.cycles, 3);
}

static void rechecks(void)
{
    static const struct samples both = {6, {[RESET] = ALL(1), [P] = ALL(1), [Q] = ALL(1)}};
    uint32_t trace[FRAME_WORDS * CYCLES];
    printf("\nCase A, then cycle 2 made 2, a 2, b 3:\n");
    frames(&samples_a, trace);
    edit(checker(1, 4, 3), trace, 2, 2);
    printf("\nKind 3, n 2, start 1 and test 1 in six cycles, then start 0 in cycle 0, a 0, b 1:\n");
    frames(&both, trace);
    edit(checker(3, 2, 0), trace, 0, 0);
}

int main(void)
{
    print_table("", table, sizeof table / sizeof *table);
    lists();
    rechecks();
    print_table("\nKinds 7 and 8:\n", after_triggers, sizeof after_triggers / sizeof *after_triggers);
    print_table("\nFatal checkers:\n", fatal, sizeof fatal / sizeof *fatal);
    print_table("\nUnknown bits:\n", unknown, sizeof unknown / sizeof *unknown);
    return 0;
}
