/*
 * Dumps as Icarus Verilog, Verilator and GHDL wrote them (dumps/README.md): each is loaded, and every word of every frame is
 * compared with what the simulator itself printed at the rising edges of the clock. A case NAME has the connections in
 * NAME.wires and the printed lines in NAME.printed, of the dump NAME.vcd without the number behind its name. Some dumps have
 * what the standard does not allow: NAME.refused has the refusal and its line that are due. Each dump is also read in two
 * pieces, cut at every byte, and byte by byte, and then once more behind its end.
 *
 * Arguments: the cases to compare (default: all). The files are found from the root of the project.
 */
#include <inttypes.h>
#include <stdarg.h>
#include <stdio.h>
#include <stdlib.h>
#include <string.h>

#include "frame.h"
#include "selvedgeon.h"

#define WIRES 32              /* of a word of a frame */
#define TABLE (2 * (1 + 4 * WIRES))
#define MOST 64               /* frames lent, more than any case has */
#define GUARD 0xa5a5a5a5u

/* a place where signals are connected, the clock aside: its word, the wire at the right end, and the ends in the dump */
struct port {
    const char *name;
    enum frame_word word;
    uint64_t wire;
    int connected, printed;
    uint64_t left, right;
};

static const struct port unconnected[] = {
    {"reset", RESET, 0, 0, 0, 0, 0}, {"enable", RESET, 1, 0, 0, 0, 0}, {"p", P, 0, 0, 0, 0, 0},
    {"q", Q, 0, 0, 0, 0, 0},         {"r", R, 0, 0, 0, 0, 0},
};

enum { PORTS = sizeof unconnected / sizeof *unconnected };

static const struct {
    const char *name, *simulator;
} cases[] = {
    {"icarus-buses.1", "Icarus"},       {"icarus-buses.2", "Icarus"},       {"icarus-buses.3", "Icarus"},
    {"icarus-store.1", "Icarus"},       {"icarus-store.2", "Icarus"},       {"icarus-store.3", "Icarus"},
    {"icarus-drivers.1", "Icarus"},     {"icarus-drivers.2", "Icarus"},     {"icarus-drivers.3", "Icarus"},
    {"icarus-gaps.1", "Icarus"},        {"verilator-buses.1", "Verilator"}, {"verilator-buses.2", "Verilator"},
    {"verilator-buses.3", "Verilator"}, {"verilator-store.1", "Verilator"}, {"verilator-store.2", "Verilator"},
    {"verilator-store.3", "Verilator"}, {"verilator-record.1", "Verilator"}, {"ghdl-buses.1", "GHDL"},
    {"ghdl-buses.2", "GHDL"},           {"ghdl-buses.3", "GHDL"},           {"ghdl-store.1", "GHDL"},
    {"ghdl-store.2", "GHDL"},           {"ghdl-store.3", "GHDL"},
};

static const char *const refused[] = {"icarus-signs", "verilator-struct", "ghdl-nine", "ghdl-blank"};

static const char *current;

_Noreturn static void fail(const char *format, ...)
{
    va_list values;
    va_start(values, format);
    printf("dumps/%s: ", current);
    vprintf(format, values);
    printf("\n");
    va_end(values);
    exit(1);
}

/* the bytes of a file of the current case, with a 0 behind them */
static char *read_file(const char *ending, int numbered, size_t *length)
{
    char path[256];
    const char *number = strchr(current, '.');
    int name = number != NULL && !numbered ? (int)(number - current) : (int)strlen(current);
    snprintf(path, sizeof path, "tests/dumps/%.*s%s", name, current, ending);
    FILE *file = fopen(path, "rb");
    if (file == NULL)
        fail("cannot open %s", path);
    size_t room = 1 << 16;
    char *bytes = malloc(room);
    if (bytes == NULL)
        fail("no memory");
    *length = fread(bytes, 1, room - 1, file);
    if (*length == room - 1 || ferror(file))
        fail("cannot read %s, or it is too long", path);
    fclose(file);
    bytes[*length] = '\0';
    return bytes;
}

/* the next word of a text, ended by a 0 in place of the blank or line end behind it; NULL at the end of the line or text */
static char *next_word(char **rest)
{
    char *word = *rest + strspn(*rest, " ");
    size_t length = strcspn(word, " \n");
    if (length == 0) {
        *rest = word;
        return NULL;
    }
    *rest = word + length;
    if (**rest == ' ')
        *(*rest)++ = '\0';
    return word;
}

/* the next line of a text, its end cut off; NULL at the end */
static char *next_line(char **rest)
{
    char *line = *rest;
    if (*line == '\0')
        return NULL;
    *rest += strcspn(line, "\n");
    if (**rest == '\n')
        *(*rest)++ = '\0';
    return line;
}

static char *due_word(char **line, const char *what)
{
    char *word = next_word(line);
    if (word == NULL)
        fail("a line ends where %s is due", what);
    return word;
}

static uint64_t number(char **line)
{
    char *end, *word = due_word(line, "a number");
    uint64_t value = strtoull(word, &end, 10);
    if (*end != '\0')
        fail("%s is no number", word);
    return value;
}

/* an identifier code: its bytes as one number, the first lowest */
static uint64_t code(char **line)
{
    const char *word = due_word(line, "an identifier code");
    uint64_t value = 0;
    if (strlen(word) > 8)
        fail("the identifier code %s is too long", word);
    for (size_t i = strlen(word); i > 0; i--)
        value = value << 8 | (uint8_t)word[i - 1];
    return value;
}

static struct port *port_of(struct port *ports, const char *name, size_t length)
{
    for (size_t i = 0; i < PORTS; i++)
        if (strlen(ports[i].name) == length && memcmp(ports[i].name, name, length) == 0)
            return &ports[i];
    fail("there is no port %.*s", (int)length, name);
}

static uint64_t width(const struct port *port)
{
    return 1 + (port->left >= port->right ? port->left - port->right : port->right - port->left);
}

/* the wire of a port's word that the signal's digit `place` places from the left becomes: [left-right:0], or [0:right-left] */
static uint64_t wire(const struct port *port, uint64_t place)
{
    return port->wire + (port->left >= port->right ? width(port) - 1 - place : place);
}

/* the table of the connections, and the ports that they are to */
static void connect(uint64_t *table, struct port *ports)
{
    size_t length;
    char *text = read_file(".wires", 1, &length), *rest = text, *line;
    memset(table, 0, TABLE * sizeof *table);
    memcpy(ports, unconnected, sizeof unconnected);
    while ((line = next_line(&rest)) != NULL) {
        const char *name = due_word(&line, "a port");
        uint64_t identifier = code(&line);
        if (strcmp(name, "clock") == 0) {
            table[0] = identifier;
            table[1] = number(&line);
            continue;
        }
        struct port *port = port_of(ports, name, strlen(name));
        if (port->connected)
            fail("%s is connected twice", name);
        port->connected = 1;
        port->left = port->right = number(&line);
        if (port->word != RESET)
            port->right = number(&line);
        if (width(port) > WIRES)
            fail("%s has more than %d wires", name, WIRES);
        for (uint64_t place = 0; place < width(port); place++) {
            uint64_t *pair = &table[2 * (1 + WIRES * port->word + wire(port, place))];
            pair[0] = identifier;
            pair[1] = port->left >= port->right ? port->left - place : port->left + place;
        }
    }
    if (table[0] == 0)
        fail("no clock is connected");
    free(text);
}

/* the words that a printed value gives a frame */
static void put_value(uint32_t *frame, const struct port *port, const char *value, size_t line)
{
    if (strlen(value) != width(port))
        fail("printed line %zu has %s for %s, which is of %" PRIu64 " wires", line, value, port->name, width(port));
    for (uint64_t place = 0; place < width(port); place++) {
        uint32_t bit = UINT32_C(1) << wire(port, place);
        if (strchr("01xXzZ", value[place]) == NULL)
            fail("printed line %zu has %s for %s", line, value, port->name);
        if (value[place] == '1')
            frame[port->word] |= bit;
        else if (value[place] != '0')
            frame[port->word + RESET_X] |= bit;
    }
}

/* the frames that are due by the printed lines, each a rising edge; the first line names the columns, PORT=SIGNAL */
static size_t read_printed(uint32_t *frames, struct port *ports)
{
    size_t length, columns = 0, lines = 0;
    struct port *order[PORTS];
    char *text = read_file(".printed", 1, &length), *rest = text, *line = next_line(&rest), *word;
    if (line == NULL)
        fail("nothing was printed");
    while ((word = next_word(&line)) != NULL) {
        struct port *port = port_of(ports, word, strcspn(word, "="));
        if (!port->connected || port->printed)
            fail("the column %s is not connected, or not the only one", word);
        port->printed = 1;
        order[columns++] = port;
    }
    for (size_t i = 0; i < PORTS; i++)
        if (ports[i].connected && !ports[i].printed)
            fail("%s is connected, but has no column", ports[i].name);
    if (columns == 0)
        fail("no column was printed");
    for (; (line = next_line(&rest)) != NULL; lines++) {
        uint32_t *frame = &frames[FRAME_WORDS * lines];
        if (lines == MOST)
            fail("more than %d lines were printed", MOST);
        memset(frame, 0, FRAME_WORDS * sizeof *frame);
        for (size_t i = 0; i < columns; i++)
            put_value(frame, order[i], due_word(&line, "a value"), lines + 2);
        if (next_word(&line) != NULL)
            fail("printed line %zu has too many values", lines + 2);
    }
    if (lines == 0)
        fail("no rising edge was printed");
    free(text);
    return lines;
}

static int same(struct selvedgeon_loaded one, struct selvedgeon_loaded other)
{
    return one.refusal == other.refusal && one.frames == other.frames && one.line == other.line &&
           one.identifier == other.identifier;
}

/* a call behind the end, which answers what is due and alters neither state nor frames */
static void expect_over(struct selvedgeon_read before, struct selvedgeon_read after, struct selvedgeon_loaded loaded,
                        const uint32_t *due, const uint32_t *frames)
{
    struct selvedgeon_loaded over = {SELVEDGEON_OVER, loaded.frames, 0, 0};
    if (!same(after.answer, loaded.refusal == 0 ? over : loaded))
        fail("a call behind the end found refusal %" PRIu32, after.answer.refusal);
    if (memcmp(&after.state, &before.state, sizeof after.state) != 0 ||
        memcmp(frames, due, FRAME_WORDS * MOST * sizeof *frames) != 0)
        fail("a call behind the end altered the state or the frames");
}

/* the dump in a first piece up to the cut and then in pieces of at most `block` bytes */
static void expect_pieces(const uint8_t *dump, size_t length, size_t cut, size_t block, const uint64_t *table,
                          struct selvedgeon_loaded loaded, const uint32_t *due)
{
    static struct selvedgeon_read read, over;
    uint32_t frames[FRAME_WORDS * MOST];
    for (size_t i = 0; i < FRAME_WORDS * MOST; i++)
        frames[i] = GUARD;
    read.state = selvedgeon_reader_begin(table, TABLE);
    read = selvedgeon_reader_piece(read.state, dump, cut, frames, FRAME_WORDS * MOST);
    for (size_t at = cut; at < length; at += block)
        read = selvedgeon_reader_piece(read.state, dump + at, length - at < block ? length - at : block, frames,
                                       FRAME_WORDS * MOST);
    read = selvedgeon_reader_end(read.state, frames, FRAME_WORDS * MOST);
    if (!same(read.answer, loaded) || memcmp(frames, due, sizeof frames) != 0)
        fail("cut at byte %zu and then each %zu bytes it is another dump", cut, block);
    over = selvedgeon_reader_piece(read.state, dump, length, frames, FRAME_WORDS * MOST);
    expect_over(read, over, loaded, due, frames);
    over = selvedgeon_reader_end(read.state, frames, FRAME_WORDS * MOST);
    expect_over(read, over, loaded, due, frames);
}

/* loads the dump into MOST frames; those that are not sampled must stay */
static struct selvedgeon_loaded load(const uint64_t *table, uint32_t *frames)
{
    size_t length;
    char *dump = read_file(".vcd", 0, &length);
    for (size_t i = 0; i < FRAME_WORDS * MOST; i++)
        frames[i] = GUARD;
    struct selvedgeon_loaded loaded =
        selvedgeon_load((const uint8_t *)dump, length, table, TABLE, frames, FRAME_WORDS * MOST);
    /* at every byte once for a dump: its further cases connect other wires */
    const char *number = strchr(current, '.');
    for (size_t cut = 0; cut <= length; cut += number == NULL || number[1] == '1' ? 1 : 97)
        expect_pieces((const uint8_t *)dump, length, cut, length, table, loaded, frames);
    expect_pieces((const uint8_t *)dump, length, 0, 1, table, loaded, frames);
    free(dump);
    if (loaded.frames > MOST)
        fail("found %" PRIu64 " frames, and %d were lent", loaded.frames, MOST);
    for (size_t i = FRAME_WORDS * loaded.frames; i < FRAME_WORDS * MOST; i++)
        if (frames[i] != GUARD)
            fail("word %zu of frame %zu was written behind the frames", i % FRAME_WORDS, i / FRAME_WORDS);
    return loaded;
}

static void expect_answer(struct selvedgeon_loaded found, uint64_t refusal, uint64_t line, uint64_t frames)
{
    if (found.refusal != refusal || found.line != line || found.identifier != 0 || found.frames != frames)
        fail("found refusal %" PRIu32 ", line %" PRIu64 ", identifier %" PRIu64 ", %" PRIu64 " frames; due refusal %" PRIu64
             ", line %" PRIu64 ", identifier 0, %" PRIu64 " frames",
             found.refusal, found.line, found.identifier, found.frames, refusal, line, frames);
}

static void compare(const char *simulator)
{
    static const char *const words[] = {"reset", "P", "Q", "R", "reset_x", "p_x", "q_x", "r_x"};
    uint64_t table[TABLE];
    uint32_t due[FRAME_WORDS * MOST], found[FRAME_WORDS * MOST];
    struct port ports[PORTS];
    connect(table, ports);
    size_t lines = read_printed(due, ports);
    expect_answer(load(table, found), 0, 0, lines);
    for (size_t i = 0; i < FRAME_WORDS * lines; i++)
        if (found[i] != due[i])
            fail("frame %zu, %s: found %08" PRIx32 ", %s printed %08" PRIx32, i / FRAME_WORDS, words[i % FRAME_WORDS], found[i],
                 simulator, due[i]);
    printf("dumps/%s: %zu frames as %s printed them\n", current, lines, simulator);
}

static void expect_refused(void)
{
    static const char *const names[] = {"refusal", "line", "frames"};
    uint64_t table[TABLE], due[3];
    uint32_t frames[FRAME_WORDS * MOST];
    struct port ports[PORTS];
    size_t length;
    char *text = read_file(".refused", 1, &length), *rest = text, *line = next_line(&rest);
    for (int i = 0; i < 3; i++) {
        if (line == NULL || strcmp(due_word(&line, names[i]), names[i]) != 0)
            fail("what is due does not name the %s", names[i]);
        due[i] = number(&line);
    }
    free(text);
    if (due[0] == 0)
        fail("no refusal is due");
    connect(table, ports);
    expect_answer(load(table, frames), due[0], due[1], due[2]);
    printf("dumps/%s: refusal %" PRIu64 " in line %" PRIu64 "\n", current, due[0], due[1]);
}

/* whether a case is to be compared: all are, or those named */
static int chosen(const char *name, int named, char **names)
{
    current = name;
    for (int i = 0; i < named; i++)
        if (strcmp(names[i], name) == 0)
            return 1;
    return named == 0;
}

int main(int arguments, char **names)
{
    int compared = 0, named = arguments - 1;
    for (size_t i = 0; i < sizeof cases / sizeof *cases; i++)
        if (chosen(cases[i].name, named, names + 1)) {
            compare(cases[i].simulator);
            compared++;
        }
    for (size_t i = 0; i < sizeof refused / sizeof *refused; i++)
        if (chosen(refused[i], named, names + 1)) {
            expect_refused();
            compared++;
        }
    if (named > 0 && compared != named) {
        printf("dumps: of %d names, %d are cases\n", named, compared);
        return 1;
    }
    return 0;
}
