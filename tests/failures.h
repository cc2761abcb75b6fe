/* A failure list, as the C programs print it whose output is compared with a file. */
#ifndef FAILURES_H
#define FAILURES_H

#include <inttypes.h>
#include <stdio.h>

#include "checker.h"
#include "frame.h"
#include "print.h"
#include "selvedgeon.h"

#define ROOM 9
#define UNWRITTEN 9

/* the list of a trace in a slice of `room` words: the refusal, how many entries it has, and all of the slice */
static inline void list_failures(const char *name, struct selvedgeon_config c, const uint32_t *trace, size_t cycles,
                                 size_t room)
{
    uint32_t list[ROOM];
    for (int i = 0; i < ROOM; i++)
        list[i] = UNWRITTEN;
    uint64_t answer = selvedgeon_failures(NUMBERS(c), trace, FRAME_WORDS * cycles, list, room);
    printf("%s\nrefusal %" PRIu64 " count %" PRIu32, name, answer >> 32, (uint32_t)answer);
    print_numbers(" list", list, room);
}

#endif
