/*
 * A small adventure: rules are typed as text and go into a book, and the book says which rules could apply to what a
 * player typed. Build it from the root of the repository, once the archive stands (make archive):
 *
 *     cc -Iinclude examples/c/adventure.c target/staticlib/libclaggyfoot.a -o target/adventure
 */
#include <stdio.h>
#include <stdlib.h>
#include <string.h>

#include "claggyfoot.h"

#define COUNT(array) (sizeof(array) / sizeof((array)[0]))

/* A command: its words for a person, and the term of an add or a question as text. */
typedef struct command {
    unsigned kind, number;
    const char *words, *text;
} command;

static const command commands[] = {
    {CF_ADD, 5, "add rule 5: ", "put(lamp, X)"},
    {CF_ADD, 9, "add rule 9: ", "put(X, table)"},
    {CF_ADD, 12, "add rule 12: ", "put(X, 'dark cave')"},
    {CF_ADD, 9, "add rule 9: ", "look"},
    {CF_GENERALISATIONS, 0, "which rules could apply to ", "put(lamp, table)"},
    {CF_GENERALISATIONS, 0, "which rules could apply to ", "look"},
    {CF_UNIFIABLES, 0, "which rules collide with ", "put(lamp, X)"},
    {CF_SHOW, 12, "show rule 12", NULL},
    {CF_ROOM, 0, "rules and nodes", NULL},
};

static uint8_t names[64 * CF_SLOT_BYTES]; /* 64 slots, all free: zeros */
static uint64_t book[CF_BOOK_WORDS];
static uint16_t cells[COUNT(commands) * (1 + CF_MOST_CELLS)];
static uint16_t out[1024]; /* any record fits: the largest has 513 cells */

static cf_text_term read_term(const char *text) {
    return cf_text_read(names, sizeof names, (const uint8_t *)text, strlen(text));
}

/* A text that is refused: no byte of the names has changed. */
static void show_refused(const char *text) {
    cf_text_term term = read_term(text);
    printf("%s is refused, %u", text, (unsigned)term.refusal);
    if (term.refusal == CF_REFUSED_TEXT) {
        printf(" at byte %u", (unsigned)term.place);
    }
    printf("\n");
}

/* Writes the cells of a command and answers how many they are; a text that is refused ends the program. */
static size_t put(const command *one, uint16_t *to) {
    to[0] = CF_COMMAND(one->kind, one->number);
    if (one->text == NULL) {
        return 1;
    }
    cf_text_term term = read_term(one->text);
    if (term.refusal != CF_DONE) {
        fprintf(stderr, "%s is refused, %u\n", one->text, (unsigned)term.refusal);
        exit(1);
    }
    memcpy(to + 1, term.cells, term.size * sizeof term.cells[0]);
    return 1 + term.size;
}

/* A record in one line; answers its length in cells. A rule's cells are written in hex, all else in decimal. */
static size_t show(const command *one, const uint16_t *record) {
    unsigned refusal = CF_RECORD_REFUSAL(record[0]);
    size_t count = CF_RECORD_COUNT(record[0]);
    printf("%s%s:", one->words, one->text == NULL ? "" : one->text);
    if (refusal != CF_DONE) {
        printf(" refused, %u", refusal);
    } else if (count == 0) {
        printf(one->kind == CF_ADD ? " done" : " none");
    }
    for (size_t i = 1; i <= count; i++) {
        printf(one->kind == CF_SHOW ? " %04x" : " %u", record[i]);
    }
    printf("\n");
    return 1 + count;
}

/* All names with their numbers, which stand in the cells. */
static void show_names(void) {
    cf_name_place place = cf_name_of(names, sizeof names, 0);
    for (unsigned number = 0; place.refusal == CF_DONE; place = cf_name_of(names, sizeof names, ++number)) {
        printf("name %u: %.*s\n", number, (int)place.length, (const char *)names + place.start);
    }
}

int main(void) {
    /* A bracket is missing; and a space is a character, so that nothing is trimmed. */
    show_refused("put(lamp, X");
    show_refused("'dark cave '");

    /* An empty book. It may be kept in a file or sent, and cf_book_passes says whether what comes back is a book. */
    if (cf_book_empty(book, COUNT(book)) != CF_DONE || cf_book_passes(book, COUNT(book)) != CF_DONE) {
        fprintf(stderr, "header and archive differ: a book has %u words\n", (unsigned)cf_book_words());
        return 1;
    }

    size_t count = 0;
    for (size_t i = 0; i < COUNT(commands); i++) {
        count += put(&commands[i], cells + count);
    }
    cf_batch_ended ended = cf_batch(book, COUNT(book), cells, count, out, COUNT(out));

    size_t at = 0;
    for (size_t i = 0; i < COUNT(commands) && at < ended.written; i++) {
        at += show(&commands[i], out + at);
    }
    printf("stop %u: %u of %u cells used, %u written\n", (unsigned)ended.stop, (unsigned)ended.used, (unsigned)count,
           (unsigned)ended.written);
    show_names();
    return 0;
}
