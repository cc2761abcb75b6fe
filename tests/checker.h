/* The configuration of a checker, as the C programs write it and pass it, and its step. */
#ifndef CHECKER_H
#define CHECKER_H

#include "frame.h"
#include "selvedgeon.h"

/* the eleven numbers of a configuration */
#define NUMBERS(c) \
    (c).kind, (c).n, (c).p.left, (c).p.right, (c).q.left, (c).q.right, (c).r.left, (c).r.right, (c).min, (c).value, \
        (c).severity

/* a checker with the ports P [high:0], Q [0:0] and R [0:0] that goes on after a failure */
static inline struct selvedgeon_config checker(uint8_t kind, uint32_t n, uint8_t high)
{
    return (struct selvedgeon_config){.kind = kind, .n = n, .p = {high, 0}};
}

/* the step on a frame, from and to a word that is lent in eight bytes: 256 times the refusal plus the row */
static inline uint32_t step(struct selvedgeon_config c, const uint32_t *frame, uint64_t *word)
{
    uint8_t bytes[8];
    for (int i = 0; i < 8; i++)
        bytes[i] = (uint8_t)(*word >> 8 * i);
    uint32_t row = selvedgeon_step(NUMBERS(c), WORDS(frame), bytes, 8);
    *word = 0;
    for (int i = 0; i < 8; i++)
        *word |= (uint64_t)bytes[i] << 8 * i;
    return row;
}

#endif
