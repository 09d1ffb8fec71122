/* What the files of this test share: checks, what is lent to a call, and what an answer says. What is lent to be written to
 * stands between guards: cells of 777 and bytes of a5, which also fill it before the call; what a call should not touch
 * must still hold them.
 */
#ifndef LENT_H
#define LENT_H

#include "../../include/befrolan.h"

#include <string.h>

#define GUARD 8
#define CELLS 64
#define BYTES 1048640
#define FILL 777
#define BYTE 0xa5

/* Counts a check, and writes a line where it fails. */
void check(const char *file, int line, const char *what, int good);
#define CHECK(good) check(__FILE__, __LINE__, #good, (good) != 0)

/* ---- the subjects, a file each */

void api_versions(void);
void metadata_and_hosts(void);
void fetch_responses(void);
void fetch_requests(void);
void frames(void);
void primitives(void);
void boundary(void);

/* ---- what is lent to be written to */

extern int64_t first[GUARD + CELLS + GUARD], second[GUARD + CELLS + GUARD];

/* fills a table, or the output, and gives its front */
int64_t *table(int64_t *t);
uint8_t *out(void);

/* `cells` stand at the front, and everything else is as it was */
int holds(const int64_t *t, const int64_t *cells, int n);
int wrote(const uint8_t *bytes, size_t n);

/* ---- what an answer says */

#define REFUSED(r, n, p, k) ((r).number == (n) && (r).place == (p) && (r).need == (k) && (r).used == 0)
#define USED(r, n) ((r).number == 0 && (r).place == 0 && (r).need == 0 && (r).used == (n))
#define B(...) ((const uint8_t[]){__VA_ARGS__})
#define C(...) ((const int64_t[]){__VA_ARGS__})
#define ROOM(...) ((const size_t[]){__VA_ARGS__})
#define LEN(...) (sizeof((const uint8_t[]){__VA_ARGS__}))

/* a writer refused, and the output is as it was */
int not_written(befrolan_numbers r, int64_t number, int64_t need);

/* ---- bytes and cells that more than one file lends */

extern uint8_t large[BEFROLAN_MOST + 1];
extern const uint8_t none[1], E9[12];
extern const int64_t no_cells[1];

/* Int32 numbers as bytes: a small count, -1, -2, the highest, the lowest */
#define COUNT(n) 0, 0, 0, n
#define NONE 0xff, 0xff, 0xff, 0xff
#define BELOW 0xff, 0xff, 0xff, 0xfe
#define MOST32 0x7f, 0xff, 0xff, 0xff
#define LEAST32 0x80, 0, 0, 0

/* Int64 numbers as bytes: a small one, a small one below 0, the highest, the lowest, and one with a different number in each byte */
#define LONG(n) 0, 0, 0, 0, 0, 0, 0, n
#define MINUS(n) 0xff, 0xff, 0xff, 0xff, 0xff, 0xff, 0xff, 0x100 - (n)
#define MOST64 0x7f, 0xff, 0xff, 0xff, 0xff, 0xff, 0xff, 0xff
#define LEAST64 0x80, 0, 0, 0, 0, 0, 0, 0
#define BIG_BYTES 1, 2, 3, 4, 5, 6, 7, 8
#define BIG INT64_C(72623859790382856)

#endif
