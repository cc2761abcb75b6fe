/*
 * A dump that arrives in pieces: a file is read in blocks of 77 bytes, wherever its words and lines end, and the cycles are
 * there as soon as they are complete. Then the same without the last block: a copy of the reader's state is kept before each
 * block, and the end is called on it. Last, a piece after the end.
 *
 *     sh build.sh          builds and runs this example
 *
 * Argument: the dump, with a clock of identifier code ! and a bus of four wires [3:0] of code #.
 */
#include <inttypes.h>
#include <stdio.h>
#include <string.h>

#include "selvedgeon.h"

#define BLOCK 77
#define TABLE 258
#define MOST 16 /* cycles */

enum { RESET, P, Q, R, RESET_X, P_X, Q_X, R_X, FRAME_WORDS };

static const char *refusal_in_words(uint32_t refusal)
{
    switch (refusal) {
    case SELVEDGEON_DONE: return "done";
    case SELVEDGEON_BAD_TRACE: return "the frames are no multiple of 8 words, or more than 65,536";
    case SELVEDGEON_BAD_LENGTH: return "the connections are not 258 words";
    case SELVEDGEON_ILL_FORMED: return "the text is no VCD, or ends too early";
    case SELVEDGEON_NOT_DECLARED: return "the clock or a connected wire is not declared";
    case SELVEDGEON_BACKWARDS: return "a time stamp goes back";
    case SELVEDGEON_NO_ROOM: return "there are more cycles than frames";
    case SELVEDGEON_OVER: return "the dump has ended already";
    default: return "refused";
    }
}

/* pair 0 is the clock, pair 1 + 32 P + i wire i of P: its identifier code, and its index in the declared range */
static void connect(uint64_t *wires)
{
    memset(wires, 0, TABLE * sizeof *wires);
    wires[0] = '!';
    for (uint64_t i = 0; i < 4; i++) {
        wires[2 * (1 + 32 * P + i)] = '#';
        wires[2 * (1 + 32 * P + i) + 1] = i;
    }
}

static void print_answer(const char *what, struct selvedgeon_loaded answer)
{
    printf("%s: %" PRIu64 " cycles, %s", what, answer.frames, refusal_in_words(answer.refusal));
    if (answer.line > 0)
        printf(", line %" PRIu64, answer.line);
    printf("\n");
}

/* each wire from left to right, an unknown one as x */
static void print_bus(uint32_t value, uint32_t unknown)
{
    for (int i = 3; i >= 0; i--)
        putchar(unknown >> i & 1 ? 'x' : value >> i & 1 ? '1' : '0');
}

int main(int arguments, char **words)
{
    static uint32_t frames[FRAME_WORDS * MOST], lost[FRAME_WORDS * MOST];
    static struct selvedgeon_read read, copy;
    uint64_t wires[TABLE];
    uint8_t block[BLOCK];
    size_t length;
    FILE *file = arguments == 2 ? fopen(words[1], "rb") : NULL;
    if (file == NULL) {
        printf("use: pieces DUMP\n");
        return 1;
    }
    connect(wires);
    read.state = selvedgeon_reader_begin(wires, TABLE);
    while ((length = fread(block, 1, BLOCK, file)) > 0) {
        copy = read;
        memcpy(lost, frames, sizeof frames);
        read = selvedgeon_reader_piece(read.state, block, length, frames, FRAME_WORDS * MOST);
        printf("%2zu bytes: %" PRIu64 " cycles so far\n", length, read.answer.frames);
    }
    fclose(file);
    read = selvedgeon_reader_end(read.state, frames, FRAME_WORDS * MOST);
    print_answer("end", read.answer);
    for (uint64_t t = 0; t < read.answer.frames; t++) {
        printf("  cycle %2" PRIu64 "  ", t);
        print_bus(frames[FRAME_WORDS * t + P], frames[FRAME_WORDS * t + P_X]);
        printf("\n");
    }
    copy = selvedgeon_reader_end(copy.state, lost, FRAME_WORDS * MOST);
    print_answer("without the last block", copy.answer);
    read = selvedgeon_reader_piece(read.state, block, 0, frames, FRAME_WORDS * MOST);
    print_answer("a piece after the end", read.answer);
    return 0;
}
