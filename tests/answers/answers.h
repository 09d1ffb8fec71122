/* What the files of this program share. docs/ANSWERS.md has the language that it speaks: a case a line in, an answer a line out.
 *
 * main.c cuts the input into lines. calls.c has the table of calls: it finds the call that a line names and has its words read (words.c). The
 * function of the call, in reads.c or writes.c, borrows what it lends to the library (lent.c), asks, and says what came back (said.c). What was
 * lent is shown after it, in the order in which it was lent.
 *
 * A new call is a row of the table and a small function. A new kind of word is a case of `take` in words.c.
 */
#ifndef ANSWERS_H
#define ANSWERS_H

#include "../../include/befrolan.h"

#include <stdbool.h>

/* Some bytes of the input. */
struct text {
    const uint8_t *at;
    size_t n;
};

bool is(struct text t, const char *word);

/* What stands in front of the first such sign, or all of it. The rest is what follows the sign; it has no place where there is none. */
struct text front(struct text t, char sign, struct text *rest);

/* The program ends: there is no memory, or the answers cannot be written. */
_Noreturn void give_up(const char *why);
void *room_for(size_t bytes);

/* ---- words.c: the words of a case */

#define MOST_WORDS 16
#define MOST_BYTES 1048640

/* How many cells a table may have, lent or given. */
extern size_t most_cells;

/* What a word stands for. What it does not stand for is FILL, or nothing at all: a call that looks at it is noticed. */
struct word {
    bool nothing;         /* it is `null` or `absent` */
    bool null;            /* it is `null` */
    int64_t cell;         /* a number, or the start of a part */
    size_t size;          /* a room, the length of a part, or how many bytes or cells there are */
    const uint8_t *bytes;
    const int64_t *cells;
};

/* Takes the k-th word of a line as one of that kind; false where it is none. The kinds:
 * R, O  room for cells, for bytes      N, V  a number, a version         F  1 or 0
 * B     bytes                          C     cells                       P  a part, or `absent`
 * A, T  F or N, or `absent`            Y, Z  B or N, or `null`           X  P, or `null`
 */
bool take(char kind, struct text t, size_t k, struct word *w);

/* ---- lent.c: what is lent to be written to */

#define GUARD 8
#define FILL 777
#define FILL_BYTE 0xa5

/* Nothing is lent yet. */
void lend_nothing(void);

/* A table, and the output, of so many cells and bytes, filled, between guards that are filled alike. They are shown after the answer. */
int64_t *lend_table(size_t room);
uint8_t *lend_output(size_t room);

/* A table that is part of the answer, and is not shown. */
int64_t *lend_numbers(size_t room);

/* Says what was lent, and whether the guards were kept. */
void say_lent(void);

/* ---- said.c: the words of an answer */

void say(const char *words);
void say_decimal(uint64_t number);
void say_cell(int64_t cell);

/* The same, after a space. */
void say_number(int64_t number);
void say_signed(int64_t cell);

void say_bytes(const uint8_t *bytes, size_t n);
void say_cells(const int64_t *cells, size_t n);

/* Whether the call accepted, and `ok` or the refusal. An answer is a struct of numbers of which the first three are number, place and need. */
bool accepted(const void *answer, size_t size);
#define ACCEPTED(answer) accepted(&(answer), sizeof(answer))

/* A number that a version may lack. */
void say_optional(int64_t kind, int64_t value);

/* A part of the message, which may be absent or null. */
void say_part(int64_t kind, const struct word *message, int64_t start, int64_t length);

/* Notes a number that the header says is something else; the answer then ends with `stray`. */
void note(bool as_promised);
void say_stray(void);

void end_line(void);
void hand_on(void);

/* ---- the calls */

/* Answers a line. */
void answer(struct text line);

/* A call's function is given its words, the first one after the name being w[0], and the number of its row. */
typedef void asking(const struct word *w, uint64_t number);

asking ask_well_formed, ask_is_text, ask_primitive, ask_tagged_fields;
asking ask_response, ask_request, ask_agree, ask_metadata, ask_host, ask_fetch;
asking ask_request_frame, ask_response_frame, ask_request_number, ask_response_number;
asking ask_write_primitive, ask_write_tagged_fields, ask_write_response, ask_write_request, ask_write_metadata, ask_write_fetch;
asking ask_write_request_frame, ask_write_response_frame;

#endif
