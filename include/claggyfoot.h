/*
 * Claggyfoot: a rule book for text adventures that is proved never to miss a rule.
 *
 * Link target/staticlib/libclaggyfoot.a (x86-64). It needs memcpy and memset and nothing else.
 *
 * What is lent. Each piece of memory is given as a pointer and a count of elements, in that order. The functions keep
 * no pointer, allocate nothing and remember nothing between calls; so two threads may call them at once, each on its
 * own memory.
 *
 * What the caller owes, since no function can see it:
 *   - a pointer leads to as many elements as the count says, aligned for their type; it is never null, even with
 *     count 0;
 *   - memory that a call may write (not const) overlaps no other memory of that call.
 * Nothing else is trusted. Any words, cells and bytes may stand in the memory; every call ends, and does what stands
 * here.
 *
 * The refusal numbers, and what a person can do, stand in the table below. A refused command never changes the book,
 * and a refused name or text never changes the table.
 */
#ifndef CLAGGYFOOT_H
#define CLAGGYFOOT_H

#include <stddef.h>
#include <stdint.h>

#ifdef __cplusplus
extern "C" {
#endif

/* ---- Sizes and limits */

#define CF_BOOK_WORDS 12618 /* words of 64 bits of a book; cf_book_words() answers the same */
#define CF_MOST_RULES 512   /* rules that a book holds at most, under numbers 0 to 4,095 */
#define CF_MOST_NODES 4096  /* different non-empty beginnings of their blank forms, at most */
#define CF_MOST_CELLS 32    /* cells of a term at most */
#define CF_SLOT_BYTES 32    /* bytes of a slot of a name table; a table has 1 to 1,024 slots */

/* ---- Cells: a term is a row of them in preorder */

/* A symbol: a name's number, 0 to 4,095, with so many arguments, 0 to 7. The two together are the symbol. */
#define CF_SYMBOL(name, arity) ((uint16_t)((arity) << 12 | (name)))

/* A variable, 0 to 15. The first new variable of a term is 0, the next new one 1, and so on. */
#define CF_VARIABLE(number) ((uint16_t)(0x8000 | (number)))

/* ---- Commands: a command cell, and for CF_ADD and the four questions a term after it */

#define CF_ADD 0             /* add the term as rule `number`; the record is empty */
#define CF_REMOVE 1          /* remove rule `number`; the record is empty */
#define CF_VARIANTS 2        /* the rules with the same blank form as the term */
#define CF_INSTANCES 3       /* the rules that the term covers */
#define CF_GENERALISATIONS 4 /* the rules that cover the term: those which could apply to a player's command */
#define CF_UNIFIABLES 5      /* the rules that can meet the term: those with which a new rule could collide */
#define CF_SHOW 6            /* the cells of rule `number` */
#define CF_ROOM 7            /* two cells: rules held, node count */

/* A command cell. `number` is 0 to 4,095, and 0 for kinds 2 to 5 and 7. */
#define CF_COMMAND(kind, number) ((uint16_t)((kind) << 12 | (number)))

/* ---- Records: one cell, and then as many cells as it says. A question's are rule numbers, ascending, each once. */

#define CF_RECORD_REFUSAL(cell) ((cell) >> 12)
#define CF_RECORD_COUNT(cell) ((cell) & 0x0fff)

/* ---- Refusals
 *
 *      given exactly when                            what to do
 *  1   wrong length, or not a book (not a table)     make an empty one and add the rules (enter the names) again
 *  2   kind 8 to 15, or number not 0                 kinds are 0 to 7; number 0 for kinds 2 to 5 and 7
 *  3   the cells end while a subterm is wanted       give each symbol as many arguments as its arity says
 *  4   a variable with a wrong field or number       number variables 0, 1, .. 15 as they first appear in the term
 *  5   32 cells read, a subterm still wanted         make the pattern shorter
 *  6   add: the number is held already               take another number, or remove that rule first
 *  7   remove, show: the number is not held          ask for the instances of 8000: they are all the rules
 *  8   add: 512 rules are held                       remove one first
 *  9   add: there would be more than 4,096 nodes     remove rules, or let the rule begin as others do
 *  10  the record does not fit in the output left    go on from cells + used, with more output
 *  11  the bytes are no name                         1 to 31 bytes from 32 to 126, no space first or last
 *  12  a new name, and no free slot                  copy the table into a larger one: its bytes, then zeros
 *  13  no name has this number                       use a number that cf_name_enter gave
 *  20  text: no term can go on at this byte or end   look there: a name, a variable, a comma or a bracket is wanted
 *  21  text: an eighth argument                      give at most seven, or put some into a term of their own
 *
 * Where several hold, the first is given: 1, then 2, then what is wrong with the term in reading order (at one place
 * 5, 3, 4), then 6, 8, 9. 10 replaces any record that does not fit. For texts see cf_text_read.
 */
#define CF_DONE 0
#define CF_REFUSED_MEMORY 1
#define CF_REFUSED_COMMAND 2
#define CF_REFUSED_SHORT 3
#define CF_REFUSED_VARIABLE 4
#define CF_REFUSED_LONG 5
#define CF_REFUSED_HELD 6
#define CF_REFUSED_UNHELD 7
#define CF_REFUSED_RULES 8
#define CF_REFUSED_NODES 9
#define CF_REFUSED_ROOM 10
#define CF_REFUSED_NAME 11
#define CF_REFUSED_SLOT 12
#define CF_REFUSED_NUMBER 13
#define CF_REFUSED_TEXT 20
#define CF_REFUSED_ARGUMENT 21

/* ---- The book */

/* The count of words that a book has: CF_BOOK_WORDS. */
uint64_t cf_book_words(void);

/*
 * Makes an empty book, whatever the words held before.
 * Answers 0; or 1 where `words` is not CF_BOOK_WORDS, and then no word has changed.
 */
uint64_t cf_book_empty(uint64_t *book, size_t words);

/*
 * The check alone. Answers 0 where the memory is a book, 1 where it is none or has a wrong length. Writes nothing.
 * cf_batch checks for itself; this is for memory that was stored or sent and is looked at before it is used.
 */
uint64_t cf_book_passes(const uint64_t *book, size_t words);

typedef struct cf_batch_ended {
    uint64_t stop;    /* 0: all cells are used; else 1, 2, 3, 4, 5 or 10 */
    uint64_t used;    /* command cells used; the command at which the batch stopped is not counted */
    uint64_t written; /* output cells written, from out[0] on */
} cf_batch_ended;

/*
 * Runs the commands in `cells` in turn and writes a record for each to the front of `out`.
 *
 *   1           no book: used 0, written 0; nothing has changed, neither the book nor `out`.
 *   2 3 4 5     the batch stops at this command. Its record says the same number and is the last.
 *   6 7 8 9     only in records: the command has no effect, and the batch goes on.
 *   10          the record of this command does not fit: it has no record and no effect, and the batch stops.
 *
 * Commands before the one at which it stops keep their effect. `out` past `written` stays as it was, and so does the
 * book where no add or remove took effect. The largest record has 513 cells, a list of 512 rules.
 */
cf_batch_ended cf_batch(uint64_t *book, size_t words, const uint16_t *cells, size_t count, uint16_t *out, size_t room);

/* ---- The name table: 32 to 32,768 bytes, a multiple of 32. All zeros is a table without names.
 *
 * A space is a character: "cave" and "Cave" differ, "dark cave" and "dark  cave" differ, and "cave " is no name (11).
 * No call trims. Names are bytes with a length, without a zero at the end.
 */

typedef struct cf_name_entered {
    uint64_t refusal; /* 0, 1, 11 or 12 */
    uint64_t number;  /* the name's number, 0 to 1,023; 0 when refused */
} cf_name_entered;

/*
 * The number of a name. A new name takes the first free slot; one that is held keeps its number, in a full table too.
 * Refused (1, 11, 12, the first that holds), the table has not changed.
 */
cf_name_entered cf_name_enter(uint8_t *table, size_t bytes, const uint8_t *name, size_t length);

typedef struct cf_name_place {
    uint64_t refusal; /* 0, 1 or 13 */
    uint64_t start;   /* the name's first byte is table[start]; 0 when refused */
    uint64_t length;  /* and it has so many bytes; 0 when refused */
} cf_name_place;

/* Where the name with a number stands in the table. Writes nothing. */
cf_name_place cf_name_of(const uint8_t *table, size_t bytes, uint64_t number);

/* ---- Typed terms: put(lamp, X), in the TPTP plain term form
 *
 * A name is a lower word, lamp; any other name stands in single quotes, 'dark cave', with \' and \\ for a quote and a
 * backslash. 'lamp' and lamp are the same name. A variable is an upper word, X. Words go on over letters, digits and _.
 * A bracket after a name opens its arguments, with commas between them. Spaces, tabs, newlines and comments, from % to
 * the line's end, may stand between all of these. There are no numbers.
 */

typedef struct cf_text_term {
    uint64_t refusal;              /* 0, 1, 4, 5, 11, 12, 20 or 21 */
    uint64_t place;                /* text[place] comes after the term's last byte; with 20 it is the byte at which no term
                                      can go on, or `length` at the text's end; 0 with any other refusal */
    uint64_t size;                 /* the term's cells; 0 when refused */
    uint16_t cells[CF_MOST_CELLS]; /* the cells, and zeros behind them; all zeros when refused */
} cf_text_term;

/*
 * Reads one term from the front of a text, and enters its names into the table: each name before those of its arguments.
 * Variables are numbered as they first appear. What follows the term is not judged; the next one can be read from
 * text + place.
 *
 *   1           not a table; before all others, whatever the text is.
 *   20          no term can go on at `place`.
 *   21  5       at the first byte of an eighth argument, of a thirty-third cell.
 *   11  4       at the last byte of a word or a quoted name that is no name (any byte may stand in quotes), of a
 *               seventeenth variable.
 *   12          more new names than free slots; only where nothing else is refused.
 *
 * The first in reading order is given, and at one place the first in this order. Refused, no byte of the table has
 * changed.
 */
cf_text_term cf_text_read(uint8_t *table, size_t bytes, const uint8_t *text, size_t length);

#ifdef __cplusplus
}
#endif

#endif
