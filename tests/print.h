/* What the C programs print whose output is compared with a file. */
#ifndef PRINT_H
#define PRINT_H

#include <inttypes.h>
#include <stdio.h>

/* numbers, each behind a space */
static inline void print_spaced(const uint32_t *values, size_t count)
{
    for (size_t i = 0; i < count; i++)
        printf(" %" PRIu32, values[i]);
}

static inline void print_spaced_words(const uint64_t *values, size_t count)
{
    for (size_t i = 0; i < count; i++)
        printf(" %" PRIu64, values[i]);
}

/* a name and numbers on a line */
static inline void print_numbers(const char *name, const uint32_t *values, size_t count)
{
    printf("%s", name);
    print_spaced(values, count);
    printf("\n");
}

#endif
