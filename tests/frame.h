/* The frames of a trace, as the C programs write and pass them, and how many numbers the calls answer. */
#ifndef FRAME_H
#define FRAME_H

#include <stddef.h>
#include <stdint.h>

/* the words of a frame, by their place in it, and how many they are */
enum frame_word { RESET, P, Q, R, RESET_X, P_X, Q_X, R_X, FRAME_WORDS };

/* the counts of totals, one for each mark, and the answer of a recheck: its end and the changes */
enum { MARKS = 6, ANSWER = 1 + MARKS };

/* a frame without unknown bits, among the words of a trace */
#define KNOWN(reset, p, q, r) reset, p, q, r, 0, 0, 0, 0

/* the words of a frame, as numbers that are passed */
#define WORDS(f) (f)[RESET], (f)[P], (f)[Q], (f)[R], (f)[RESET_X], (f)[P_X], (f)[Q_X], (f)[R_X]

/* where a word of cycle t stands in a trace */
static inline size_t at(size_t t, enum frame_word word)
{
    return FRAME_WORDS * t + word;
}

/* cycle t of a trace becomes a frame without unknown bits */
static inline void put_frame(uint32_t *trace, size_t t, uint32_t reset, uint32_t p, uint32_t q, uint32_t r)
{
    const uint32_t words[FRAME_WORDS] = {KNOWN(reset, p, q, r)};
    for (size_t i = 0; i < FRAME_WORDS; i++)
        trace[FRAME_WORDS * t + i] = words[i];
}

#endif
