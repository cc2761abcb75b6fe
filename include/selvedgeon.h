/*
 * Selvedgeon: OVL assertion checkers and UVVM's checks after a trigger, over a recorded trace.
 *
 * A trace is N frames of eight 32-bit words, one frame a cycle: reset, P, Q, R, and in the same order their unknown bits,
 * reset_x, p_x, q_x, r_x. Bit 0 of the reset word is reset_n, and for kinds 7 and 8 bit 1 is enable; bit w of a port's word
 * is its wire w. A 1 in an unknown word says that the wire of that bit is x or z; its value bit is then ignored. A port is
 * declared by a range [left:right] of wire numbers 0 to 31, and its value is read in that order: the left wire is the most
 * significant, and the right wire is bit 0.
 *
 * A checker is configured by eleven numbers: its kind, n (num_cks; for kinds 7 and 8 max), the left and right end of P, Q
 * and R, min, the expected value, and its severity: 0 goes on after a failure, 1 is fatal.
 *
 *     kind                          n          P          Q            R
 *     0  sequence, most-pipe        2..32      n events   unused       unused
 *     1  sequence, first-pipe       2..32      n events   unused       unused
 *     2  sequence, first-no-pipe    2..32      n events   unused       unused
 *     3  time, ignore new start     1..65535   start      test         unused
 *     4  time, reset on new start   1..65535   start      test         unused
 *     5  time, error on new start   1..65535   start      test         unused
 *     6  transition                 0          test       start state  next state
 *     7  value after a trigger      0..65535   value      trigger      unused
 *     8  stability after a trigger  0..65535   value      trigger      unused
 *
 * A port that is not used is declared 0:0, and a number that is not used is 0: min for kinds 0 to 6, the expected value for
 * all kinds but 7.
 *
 * Kinds 7 and 8 watch the tracked value P, of 1 to 32 wires, from min to max cycles after a trigger at s (Q 1 and enable 1),
 * 0 <= min <= max. Kind 7 fails in each enabled cycle of s+min to s+max where P is not the expected value, which fits the
 * width of P; kind 8 in each where P is not its reference: what P was in the first enabled cycle from s+min on in which all
 * its wires are known. A cycle with enable 0 counts, but is not tested, and no trigger is seen in it. A failure does not end
 * the window, and a trigger in s+1 to s+max is ignored. Mark 4 is set at s, mark 8 at s+max.
 *
 * A fatal checker stops at the first cycle with mark 1 or 2. That cycle has all its marks. Its open word and all later ones
 * are SELVEDGEON_STOPPED, and all later rows are 0, also behind a reset. The failure list has the entries up to that cycle.
 *
 * An unknown wire is no answer. Where a test needs one, the cycle gets mark 32: from this trace nobody can tell whether the
 * test passed. Mark 32 is no failure: it is not in the failure list, it is no first failure, and it does not stop a fatal
 * checker. A cycle has it once, for one reason or for several, and may have mark 1 too, where another check of that cycle
 * fails. Only the wires in the range of a port that the kind uses count, and reset_n, and for kinds 7 and 8 enable. What an
 * unknown wire does:
 *
 *     reset_n      It counts as reset.
 *     enable       It counts as enable 0.
 *     kinds 0..2   An unknown first event starts no attempt. Kinds 1 and 2: an unknown later event sets 32 and ends its
 *                  attempt, and kind 2 ignores a start in that cycle too. Kind 0: an unknown last event sets 32; one before
 *                  the last reads as 0, without a mark.
 *     kinds 3..5   An unknown start is none: it opens no window, resets none, and is not illegal. An unknown test in an open
 *                  window sets 32, and the window goes on. A start that resets the window takes no test, and so no 32.
 *     kind 6       With an unknown wire in the test or in the start state, the start state is not seen. In the cycle after
 *                  a start, an unknown wire in the test sets 32 and ends the check, whatever its other wires are. With one
 *                  in the next state at a start, that cycle has the marks 4 and 32, and the next cycle is not checked.
 *     kinds 7, 8   An unknown trigger is none. An unknown wire in P in a cycle that is tested sets 32, and the window goes
 *                  on. For kind 8 that is so before there is a reference too, and such a cycle never gives it.
 *
 * A trace whose unknown words are all 0 has no mark 32.
 *
 * A record is N rows of 32 bits and N open words of 64 bits. A row is the sum of its cycle's marks. An open word says which
 * checks are unfinished after its cycle; a word is possible for a configuration where some trace leaves it. So
 * SELVEDGEON_STOPPED is possible for each fatal checker that can fail: all but kind 8 with min equal to max. The words 1 to
 * max are possible for kind 8 with every min, also 0: a window with so many cycles left that has no reference yet.
 *
 * Every call answers every input. A refused call writes nothing. A pointer is not read where its length is 0. A lent
 * buffer that is written must not overlap another buffer of the same call.
 */
#ifndef SELVEDGEON_H
#define SELVEDGEON_H

#include <stddef.h>
#include <stdint.h>

#ifdef __cplusplus
extern "C" {
#endif

/* the marks of a row */
enum selvedgeon_mark {
    SELVEDGEON_FAILURE = 1,    /* a check failed */
    SELVEDGEON_ILLEGAL = 2,    /* an illegal start: a new start in an open window (kind 5) */
    SELVEDGEON_OPENED = 4,     /* a trigger, a window opened (or reset: kind 4), or the start state seen */
    SELVEDGEON_CLOSED = 8,     /* a window closed */
    SELVEDGEON_RESTARTED = 16, /* a window reset by a new start (kind 4), always with mark 4: row 20 */
    SELVEDGEON_UNKNOWN = 32    /* a wire that is needed is unknown: neither pass nor failure */
};

/* the open word of a fatal checker that has failed */
#define SELVEDGEON_STOPPED (UINT64_C(1) << 63)

/* the severities */
enum selvedgeon_severity {
    SELVEDGEON_GOES_ON = 0,
    SELVEDGEON_FATAL = 1
};

/* the refusals: 0 is done. 9 is tested first, then each where it applies, by number */
enum selvedgeon_refusal {
    SELVEDGEON_DONE = 0,
    SELVEDGEON_BAD_KIND = 1,      /* the kind is above 8 */
    SELVEDGEON_BAD_N = 2,         /* n is outside its limits, min above max, min not 0 where it is unused, or the severity
                                     above 1 */
    SELVEDGEON_BAD_PORTS = 3,     /* an index above 31, a wrong width, an unused port that is not 0:0, or an expected value
                                     that does not fit P or is not 0 where it is unused */
    SELVEDGEON_BAD_TRACE = 4,     /* the trace is no multiple of 8 words, or has more than 65,536 cycles */
    SELVEDGEON_BAD_LENGTH = 5,    /* another lent slice has not the length that is due */
    SELVEDGEON_BAD_RANGE = 6,     /* a is above b, or b above N */
    SELVEDGEON_BAD_WORD = 7,      /* the word to go on from is not possible; of a recheck: a kept word is not possible */
    SELVEDGEON_LIST_FULL = 8,     /* three words for each entry exceed the list */
    SELVEDGEON_TOO_MANY = 9,      /* more than 64 checkers */
    /* of a load, by the first place of the dump that shows one, then by number */
    SELVEDGEON_ILL_FORMED = 10,   /* the text is no VCD, ends too early, or names an identifier that is not declared */
    SELVEDGEON_DEEP = 11,         /* a scope would be the 33rd open one */
    SELVEDGEON_LARGE = 12,        /* more than 1,024 variables, an identifier of more than 8 bytes, or a width above 4,096 */
    SELVEDGEON_NOT_DECLARED = 13, /* the clock or a connected wire is not declared as bits, or its index not in its range */
    SELVEDGEON_BACKWARDS = 14,    /* a time stamp goes back */
    SELVEDGEON_UNKNOWN_WIRE = 15, /* never given: an unknown wire has its unknown bit */
    SELVEDGEON_NO_ROOM = 16,      /* a sample for which there is no frame left */
    SELVEDGEON_OVER = 17          /* a piece or an end after an accepted end */
};

/* a declared range, and a checker of a bench */
struct selvedgeon_range {
    uint8_t left;
    uint8_t right;
};

struct selvedgeon_config {
    uint8_t kind;
    uint32_t n;
    struct selvedgeon_range p;
    struct selvedgeon_range q;
    struct selvedgeon_range r;
    uint32_t min;
    uint32_t value;
    uint8_t severity;
};

/*
 * One step on one frame, reset to r_x. `word` is the open word in eight bytes, least significant first.
 * Answers 256 times the refusal plus the cycle's row.
 * Writes: word (the next open word).
 * Refusals: 1, 2, 3; 5 where word_len is not 8; 7.
 */
uint32_t selvedgeon_step(uint8_t kind, uint32_t n, uint8_t p_left, uint8_t p_right, uint8_t q_left, uint8_t q_right,
                         uint8_t r_left, uint8_t r_right, uint32_t min, uint32_t value, uint8_t severity, uint32_t reset,
                         uint32_t p, uint32_t q, uint32_t r, uint32_t reset_x, uint32_t p_x, uint32_t q_x, uint32_t r_x,
                         uint8_t *word, size_t word_len);

/*
 * The full check of a trace of N cycles, 8 N words.
 * Answers the refusal.
 * Writes: rows and words, N entries each (entry t is that of cycle t).
 * Refusals: 1, 2, 3, 4; 5 where rows_len or words_len is not N.
 */
uint32_t selvedgeon_check(uint8_t kind, uint32_t n, uint8_t p_left, uint8_t p_right, uint8_t q_left, uint8_t q_right,
                          uint8_t r_left, uint8_t r_right, uint32_t min, uint32_t value, uint8_t severity,
                          const uint32_t *trace, size_t trace_len, uint32_t *rows, size_t rows_len, uint64_t *words,
                          size_t words_len);

/*
 * The recheck of a record after an edit of the trace in cycles a to b-1: rows and words are those of the old trace, the
 * trace is the edited one.
 * Answers 2^32 times the refusal plus a cycle: with refusal 7 the lowest whose kept word is not possible, else 0. So 0 is
 * done, and the refusal is in the upper half, which a 32-bit variable would lose.
 * Writes: rows and words of cycles a to e-1, where e, the cycle where the recheck stopped, is answer[0]; answer[1] to
 * answer[6] are by how much the counts of the marks 1, 2, 4, 8, 16 and 32 changed.
 * Refusals: 1, 2, 3, 4; 5 where rows_len or words_len is not N or answer_len is not 7; 6; 7 where any of the kept words is
 * not possible, wherever a and b are. A record that selvedgeon_check or selvedgeon_recheck left for the same configuration
 * is never refused with 7.
 * An edit can be taken back: from the trace's own record, the recheck of an edit and then that of the same cycles with their
 * old samples leave the rows and words that were there, and the changes of the two add to 0 for each mark. Two edits of
 * cycles that do not meet leave the same record in either order, and the same sums of changes; answer[0] may differ.
 */
uint64_t selvedgeon_recheck(uint8_t kind, uint32_t n, uint8_t p_left, uint8_t p_right, uint8_t q_left, uint8_t q_right,
                            uint8_t r_left, uint8_t r_right, uint32_t min, uint32_t value, uint8_t severity,
                            const uint32_t *trace, size_t trace_len, uint32_t *rows, size_t rows_len, uint64_t *words,
                            size_t words_len, uint64_t a, uint64_t b, int32_t *answer, size_t answer_len);

/* what a recheck answers, as a struct; refused: every other number is 0, but with 7 the cycle */
struct selvedgeon_rechecked {
    uint32_t refusal;
    uint64_t cycle;     /* with refusal 7 the lowest whose kept word is not possible, else 0 */
    uint64_t end;       /* e, the cycle where the recheck stopped */
    int32_t changes[6]; /* of the counts of the marks 1, 2, 4, 8, 16 and 32 */
};

/* the answers of two rechecks: after an edit, and after it was taken back */
struct selvedgeon_taken_back {
    struct selvedgeon_rechecked edit;
    struct selvedgeon_rechecked back;
};

/*
 * What an edit of cycles a to b-1 would change, with nothing changed in the end. Four things are done in this order: the
 * samples, b-a frames of eight words, change places with those of cycles a to b-1 of the trace; rows and words, which are
 * those of the old trace, are rechecked from a to b; the old samples change places with the new ones again; rows and words
 * are rechecked from a to b again.
 * Answers what the two rechecks answer. From the record that selvedgeon_check or selvedgeon_recheck left for the same
 * configuration and the trace as it is: both are done, edit.end and edit.changes are those of the edit, and back.changes
 * take them back, mark by mark.
 * Writes: trace and samples, which are in the end as they were, whatever was lent; rows and words, which from such a record
 * are in the end as they were too, and from another one are what the two rechecks left.
 * Refusals: 1, 2, 3, 4; 5 where rows_len or words_len is not N, or samples_len is not 8 (b-a), which is meant exactly also
 * where it is above 2^64 (not 0, where a is above b); 6; and 7, by the rechecks. Where edit.refusal is not 0, back has the
 * same refusal and cycle, and rows and words are as they were.
 */
struct selvedgeon_taken_back
selvedgeon_edit_and_take_back(uint8_t kind, uint32_t n, uint8_t p_left, uint8_t p_right, uint8_t q_left, uint8_t q_right,
                              uint8_t r_left, uint8_t r_right, uint32_t min, uint32_t value, uint8_t severity,
                              uint32_t *trace, size_t trace_len, uint32_t *rows, size_t rows_len, uint64_t *words,
                              size_t words_len, uint64_t a, uint64_t b, uint32_t *samples, size_t samples_len);

/*
 * How many rows have each mark; other bits of a row are ignored.
 * Answers the refusal.
 * Writes: counts, of the marks 1, 2, 4, 8, 16 and 32.
 * Refusals: 5 where counts_len is not 6, or for more than 65,536 rows.
 */
uint32_t selvedgeon_totals(const uint32_t *rows, size_t rows_len, uint32_t *counts, size_t counts_len);

/*
 * Every failure and illegal start of a trace: three words for each, its cycle, its mark (1 or 2) and its start, ordered by
 * cycle, mark and start. Mark 32 has no entry.
 * Answers 2^32 times the refusal plus the number of entries.
 * Writes: the first three words for each entry of list; later words stay.
 * Refusals: 1, 2, 3, 4; 8 where the list is too short.
 */
uint64_t selvedgeon_failures(uint8_t kind, uint32_t n, uint8_t p_left, uint8_t p_right, uint8_t q_left, uint8_t q_right,
                             uint8_t r_left, uint8_t r_right, uint32_t min, uint32_t value, uint8_t severity,
                             const uint32_t *trace, size_t trace_len, uint32_t *list, size_t list_len);

/*
 * How many checks an open word says are unfinished: 0 for SELVEDGEON_STOPPED.
 * Answers 256 times the refusal plus the count.
 * Writes nothing.
 * Refusals: 1, 2, 3, 7.
 */
uint32_t selvedgeon_open_count(uint8_t kind, uint32_t n, uint8_t p_left, uint8_t p_right, uint8_t q_left, uint8_t q_right,
                               uint8_t r_left, uint8_t r_right, uint32_t min, uint32_t value, uint8_t severity,
                               uint64_t word);

/*
 * The first failing cycle (mark 1 or 2) over the rows of several checkers, which lie checker by checker, `cycles` rows
 * each; of the checkers that fail in it, the first.
 * Answers 2^32 times the refusal; not refused: 0 for none, else 2^31 + 2^16 times the checker + the cycle.
 * Writes nothing.
 * Refusals: 9; 4 for more than 65,536 cycles; 5 where rows_len is not checkers times cycles.
 */
uint64_t selvedgeon_first_failure(uint64_t checkers, uint64_t cycles, const uint32_t *rows, size_t rows_len);

/*
 * One step of each of K checkers, 0 to 64, on its own frame, open word and row. All checkers are tested before the first
 * is stepped.
 * Answers 256 times the refusal plus the number of the first bad checker (0 for refusals 9 and 5).
 * Writes: words (each checker's next open word) and rows.
 * Refusals: 9; 5 where frames_len is not 8 K, or words_len or rows_len is not K; then for each checker 1, 2, 3, 7.
 */
uint32_t selvedgeon_bench(const struct selvedgeon_config *table, size_t table_len, const uint32_t *frames,
                          size_t frames_len, uint64_t *words, size_t words_len, uint32_t *rows, size_t rows_len);

/* what a load answers */
struct selvedgeon_loaded {
    uint32_t refusal;
    uint64_t frames;     /* how many frames were sampled, also where a later place of the dump is refused */
    uint64_t line;       /* refused with 10 to 16: that of the word that shows it, at the end the line count */
    uint64_t identifier; /* refused with 10 for an identifier that is not declared: its bytes, the first lowest; else 0 */
};

/*
 * Loads a dump: a text in the four-state VCD of IEEE Std 1364-2005, as simulators write it. Each time stamp in which the
 * clock goes from 0 to 1 gives one frame: every connected wire as it was before the changes of that stamp. A wire that is
 * x or z, or has no value yet, has its unknown bit 1 and its value bit 0; a wire that is not connected is 0.
 * `wires` says what is connected: 129 pairs of an identifier code of the dump and an index in its declared range. Pair 0 is
 * the clock, pair 1 + 32 w + i is wire i of the frame's word w (0 reset, 1 P, 2 Q, 3 R). A code is a number, its bytes with
 * the first one lowest; 0 says not connected. The index counts as the dump declares it: [0:3] has its most significant wire
 * at index 0. A code without a range has width-1 to 0.
 * Writes: the frames sampled, in front; all behind them stays.
 * Refusals: 4 where frames_len is no multiple of 8 or is more than 65,536 frames; 5 where wires_len is not 258; both before
 * anything is read, with frames 0. Then 10 to 14 and 16: frames that were sampled before that place stay written.
 */
struct selvedgeon_loaded selvedgeon_load(const uint8_t *dump, size_t dump_len, const uint64_t *wires, size_t wires_len,
                                         uint32_t *frames, size_t frames_len);

/*
 * A dump that arrives in pieces of any size, also of none. The state of its reader is handed over by value: what a call
 * gives back goes into the next one, with the same frames each time. It has nothing to free and may be copied and kept: a
 * copy goes on from where it was made. The numbers in it are the reader's own.
 *
 *     struct selvedgeon_read read = {selvedgeon_reader_begin(wires, 258), {0, 0, 0, 0}};
 *     while (there is a block)
 *         read = selvedgeon_reader_piece(read.state, block, block_len, frames, frames_len);
 *     read = selvedgeon_reader_end(read.state, frames, frames_len);
 *
 * However the dump is cut, read.answer and the frames are then those that selvedgeon_load gives for the whole of it.
 */
struct selvedgeon_reader {
    uint64_t kept[9021];
};

/* what a piece and the end give: the state for the next call, and the answer */
struct selvedgeon_read {
    struct selvedgeon_reader state;
    struct selvedgeon_loaded answer;
};

/* The state before the first piece, from the connections of selvedgeon_load. It refuses nothing: a piece or an end does. */
struct selvedgeon_reader selvedgeon_reader_begin(const uint64_t *wires, size_t wires_len);

/*
 * Reads one piece. A word is read when the white space behind it arrives, or the end: until then it refuses nothing and
 * samples nothing.
 * Answers 0, the number of frames sampled so far, and line and identifier 0; or the refusal.
 * Writes: the frames sampled; all other words stay.
 * Refusals, in this order: after an accepted end 17, with the frames that there were and line and identifier 0; after any
 * other refusal that one again, with its frames, line and identifier; both leave state and frames as they were. Then 4 where
 * frames_len is no multiple of 8 or is more than 65,536 frames; 5 where wires_len was not 258. Then 10 to 14 and 16, where
 * lines count over all pieces.
 * A state that no call gave, and frames other than the last ones, get an answer too; nothing but the frames is written.
 */
struct selvedgeon_read selvedgeon_reader_piece(struct selvedgeon_reader state, const uint8_t *piece, size_t piece_len,
                                               uint32_t *frames, size_t frames_len);

/*
 * The end of the dump.
 * Answers what selvedgeon_load answers for all pieces together; a last line without a newline is a line.
 * Writes and refusals: as for a piece.
 */
struct selvedgeon_read selvedgeon_reader_end(struct selvedgeon_reader state, uint32_t *frames, size_t frames_len);

#ifdef __cplusplus
}
#endif

#endif
