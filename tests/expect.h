/* The comparisons of a C program that asserts what is due. */
#ifndef EXPECT_H
#define EXPECT_H

#include <inttypes.h>
#include <stdio.h>

static int compared, failed;

static inline void expect(const char *what, const char *of, int number, uint64_t found, uint64_t due)
{
    compared++;
    if (found != due) {
        failed++;
        printf("%s, %s %d: found %" PRIu64 ", due %" PRIu64 "\n", what, of, number, found, due);
    }
}

#endif
