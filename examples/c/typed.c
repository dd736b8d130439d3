/*
 * Typed commands into cells: lines such as
 *
 *     add 5 put(lamp, X)
 *     generalisations put(lamp, table)     % a comment
 *
 * come from standard input, and what goes out is the file of cells that `make run` shows, with the names in comments. Terms
 * are read by cf_text_read. The first wrong line is named with its column; then nothing goes out, and the program ends
 * with 1.
 */
#include <stdio.h>
#include <stdlib.h>
#include <string.h>

#include "claggyfoot.h"

#define COUNT(array) (sizeof(array) / sizeof((array)[0]))

/* The commands: a word, a kind, and whether a rule's number and a term follow. */
static const struct command {
    const char *word;
    unsigned kind;
    int has_number, has_term;
} commands[] = {
    {"add", CF_ADD, 1, 1},
    {"remove", CF_REMOVE, 1, 0},
    {"variants", CF_VARIANTS, 0, 1},
    {"instances", CF_INSTANCES, 0, 1},
    {"generalisations", CF_GENERALISATIONS, 0, 1},
    {"unifiables", CF_UNIFIABLES, 0, 1},
    {"show", CF_SHOW, 1, 0},
    {"room", CF_ROOM, 0, 0},
};

static char input[1 << 20];
static uint8_t names[1024 * CF_SLOT_BYTES]; /* as many slots as a table has at most, all free: zeros */
static uint16_t cells[4096];                /* as many as the session program takes */
static size_t count;

/* The line at hand, counted from 1, and the place in it. */
static struct {
    unsigned number;
    const char *bytes;
    size_t length, place;
} line;

static void wrong(const char *what) {
    fprintf(stderr, "line %u, column %u: %s\n", line.number, (unsigned)line.place + 1, what);
    exit(1);
}

/* The byte at the place; a newline at the line's end. */
static char byte(void) {
    return line.place < line.length ? line.bytes[line.place] : '\n';
}

/* Past spaces and tabs; is nothing left but a comment? */
static int ends(void) {
    while (byte() == ' ' || byte() == '\t') {
        line.place++;
    }
    return byte() == '\n' || byte() == '%';
}

static void put(uint16_t cell) {
    if (count == COUNT(cells)) {
        wrong("a session has at most 4,096 cells: leave some commands out");
    }
    cells[count++] = cell;
}

/* The command whose word stands at the place. */
static const struct command *read_word(void) {
    size_t start = line.place;
    while ((byte() >= 'a' && byte() <= 'z') || (byte() >= 'A' && byte() <= 'Z')) {
        line.place++;
    }
    size_t length = line.place - start;
    for (size_t i = 0; i < COUNT(commands); i++) {
        if (strlen(commands[i].word) == length && memcmp(commands[i].word, line.bytes + start, length) == 0) {
            return &commands[i];
        }
    }
    line.place = start;
    wrong("no such command: write add, remove, show, room, variants, instances, generalisations or unifiables");
    return NULL;
}

/* The number of a rule. */
static unsigned read_number(void) {
    ends();
    size_t start = line.place;
    unsigned number = 0;
    while (byte() >= '0' && byte() <= '9' && number <= 4095) {
        number = 10 * number + (unsigned)(byte() - '0');
        line.place++;
    }
    if (line.place == start || number > 4095) {
        line.place = start;
        wrong("a rule's number is wanted here, 0 to 4095");
    }
    return number;
}

/* What is wrong with a text, and what to do. */
static const char *words(uint64_t refusal) {
    switch (refusal) {
    case CF_REFUSED_VARIABLE: return "the term has a seventeenth variable (refusal 4): use at most 16";
    case CF_REFUSED_LONG: return "the term has more than 32 cells (refusal 5): make it shorter";
    case CF_REFUSED_NAME:
        return "a name in this term is none (refusal 11): use 1 to 31 printable ASCII characters, no space first or last";
    case CF_REFUSED_SLOT: return "there are more than 1,024 names (refusal 12): use fewer";
    case CF_REFUSED_TEXT:
        return "no term can go on here (refusal 20): write lamp, 'dark cave' or X, and a comma or a bracket after an argument";
    case CF_REFUSED_ARGUMENT: return "a name has an eighth argument (refusal 21): give at most seven";
    default: return "the term is refused";
    }
}

/* A term: its cells. */
static void read_term(void) {
    ends();
    const uint8_t *text = (const uint8_t *)line.bytes + line.place;
    cf_text_term term = cf_text_read(names, sizeof names, text, line.length - line.place);
    line.place += term.place;
    if (term.refusal != CF_DONE) {
        wrong(words(term.refusal));
    }
    for (size_t i = 0; i < term.size; i++) {
        put(term.cells[i]);
    }
}

/* A line: a command, or none. */
static void read_line(void) {
    if (ends()) {
        return;
    }
    const struct command *command = read_word();
    put(CF_COMMAND(command->kind, command->has_number ? read_number() : 0));
    if (command->has_term) {
        read_term();
    }
    if (!ends()) {
        wrong("the command has ended: put the next one on a line of its own, and a comment behind %");
    }
}

/* All lines. A carriage return before a newline belongs to the line's end. */
static void read_lines(size_t length) {
    size_t start = 0;
    while (start < length) {
        const char *newline = memchr(input + start, '\n', length - start);
        size_t whole = newline == NULL ? length - start : (size_t)(newline - input) - start;
        line.number++;
        line.bytes = input + start;
        line.length = whole - (whole > 0 && input[start + whole - 1] == '\r');
        line.place = 0;
        read_line();
        start += whole + 1;
    }
}

int main(void) {
    size_t length = fread(input, 1, sizeof input, stdin);
    if (length == sizeof input) {
        fprintf(stderr, "line 1, column 1: the file is too long: a million bytes are the most\n");
        return 1;
    }
    read_lines(length);
    cf_name_place place = cf_name_of(names, sizeof names, 0);
    for (unsigned number = 0; place.refusal == CF_DONE; place = cf_name_of(names, sizeof names, ++number)) {
        printf("# name: %u=%.*s\n", number, (int)place.length, (const char *)names + place.start);
    }
    for (size_t i = 0; i < count; i++) {
        printf("%04x%c", cells[i], i % 16 == 15 ? '\n' : ' ');
    }
    printf("\n");
    return 0;
}
