/* Fetch requests, written. */
#include "lent.h"

/* what is lent for a request */
typedef struct {
    int64_t version;
    const uint8_t *lent;
    size_t size;
    const int64_t *row, *topics;
    size_t topic_cells;
    const int64_t *partitions;
    size_t partition_cells;
} asked;

static befrolan_numbers put_fetch(size_t room, asked q)
{
    return befrolan_write_fetch_request(out(), room, q.version, q.lent, q.size, q.row, q.topics, q.topic_cells, q.partitions, q.partition_cells);
}

/* `n` bytes at the front of the output: in more room, in just enough; refused in a byte less, and in none */
static void asks(int line, asked q, const uint8_t *bytes, size_t n)
{
    check(__FILE__, line, "in more room", USED(put_fetch(n + 32, q), (int64_t)n) && wrote(bytes, n));
    check(__FILE__, line, "in just enough", USED(put_fetch(n, q), (int64_t)n) && wrote(bytes, n));
    check(__FILE__, line, "in a byte less", not_written(put_fetch(n - 1, q), 10, (int64_t)n));
    check(__FILE__, line, "in no room", not_written(put_fetch(0, q), 10, (int64_t)n));
}

/* refused with `number`, in room and without any */
static void denies(int line, asked q, int64_t number)
{
    check(__FILE__, line, "in room", not_written(put_fetch(BYTES, q), number, 0));
    check(__FILE__, line, "in no room", not_written(put_fetch(0, q), number, 0));
}

/* Lent: "a", "bc", U+00E9, U+10FFFF, a zero byte; from 10 on bytes that are no text. */
static const uint8_t lent[19] = {'a', 'b', 'c', 0xc3, 0xa9, 0xf4, 0x8f, 0xbf, 0xbf, 0, 0xc0, 0x80, 0xed, 0xa0, 0x80, 0xf4, 0x90, 0x80, 0x80};

#define ASKED(v, row, t, tn, p, pn) ((asked){v, lent, sizeof lent, row, t, tn, p, pn})
#define ASKS(v, row, t, tn, p, pn, ...) asks(__LINE__, ASKED(v, row, t, tn, p, pn), B(__VA_ARGS__), LEN(__VA_ARGS__))
#define DENIES(v, number, row, t, tn, p, pn) denies(__LINE__, ASKED(v, row, t, tn, p, pn), number)

/* replica -1, max wait 500, min bytes 1; with everything unset, and as bytes */
#define UNSET(n) C(-1, 500, 1, 0, 0, 0, 0, n)
#define HEAD NONE, 0, 0, 1, 0xf4, COUNT(1)
#define KIBIBYTE 0, 0, 4, 0

/* at each version, what it lacks left out: max bytes and isolation level as given, and the bytes from the topics' count on */
#define EACH(row, t, tn, p, pn, max, level, ...) \
    for (int64_t v = 0; v < 3; v++) \
        ASKS(v, row, t, tn, p, pn, HEAD, __VA_ARGS__); \
    ASKS(3, row, t, tn, p, pn, HEAD, max, __VA_ARGS__); \
    ASKS(4, row, t, tn, p, pn, HEAD, max, level, __VA_ARGS__)

/* "a" with two partitions and "bc" with one; as bytes */
static const int64_t both[6] = {0, 1, 2, 1, 2, 1}, three[9] = {0, 5, 100, 1, -1, 0, 7, BIG, -1};
#define WANTED_A 0, 1, 'a', COUNT(2), COUNT(0), LONG(5), COUNT(100), COUNT(1), MINUS(1), COUNT(0)
#define WANTED_BC 0, 2, 'b', 'c', COUNT(1), COUNT(7), BIG_BYTES, NONE

static void requests_written(void)
{
    /* the example of the rules with no topics, and the one with a topic at 0 */
    ASKS(4, UNSET(0), no_cells, 0, no_cells, 0, 0xff, 0xff, 0xff, 0xff, 0, 0, 1, 0xf4, 0, 0, 0, 1, 0x7f, 0xff, 0xff, 0xff, 0, 0, 0, 0, 0);
    asks(__LINE__, (asked){0, B(0x63, 0x61, 0x62), 3, C(-1, 0, 1, 0, 0, 0, 0, 1), C(1, 2, 1), 3, C(3, 256, 1), 3},
         B(NONE, COUNT(0), COUNT(1), COUNT(1), 0, 2, 0x61, 0x62, COUNT(1), COUNT(3), 0, 0, 0, 0, 0, 0, 1, 0, COUNT(1)), 40);
    denies(__LINE__, (asked){0, B(0x63, 0x61, 0x62), 3, C(-1, 0, 1, 0, 0, 0, 0, 1), C(1, 2, 2), 3, C(3, 256, 1), 3}, 13);
    denies(__LINE__, (asked){0, B(0x63, 0x61, 0x62), 3, C(-1, 0, 1, 0, 0, 0, 0, 1), C(2, 2, 1), 3, C(3, 256, 1), 3}, 13);
    EACH(UNSET(0), no_cells, 0, no_cells, 0, MOST32, 0, COUNT(0));
    EACH(UNSET(2), both, 6, three, 9, MOST32, 0, COUNT(2), WANTED_A, WANTED_BC);
    /* set, with any kind but 0; unset, with a number that is not looked at */
    EACH(C(-1, 500, 1, 2, 1024, 2, 1, 2), both, 6, three, 9, KIBIBYTE, 1, COUNT(2), WANTED_A, WANTED_BC);
    EACH(C(-1, 500, 1, 1, 0, 1, 0, 0), no_cells, 0, no_cells, 0, COUNT(0), 0, COUNT(0));
    EACH(C(-1, 500, 1, -1, -1, INT64_MIN, 1, 0), no_cells, 0, no_cells, 0, NONE, 1, COUNT(0));
    EACH(C(-1, 500, 1, INT64_MIN, INT64_C(-2147483648), INT64_MAX, 1, 0), no_cells, 0, no_cells, 0, LEAST32, 1, COUNT(0));
    EACH(C(-1, 500, 1, 2, 2147483647, 0, 1, 0), no_cells, 0, no_cells, 0, MOST32, 0, COUNT(0));
    EACH(C(-1, 500, 1, 0, 1, 2, 1, 0), no_cells, 0, no_cells, 0, MOST32, 1, COUNT(0));
    EACH(C(-1, 500, 1, 0, INT64_MAX, 0, 2, 0), no_cells, 0, no_cells, 0, MOST32, 0, COUNT(0));
    EACH(C(-1, 500, 1, 0, INT64_MIN, 0, INT64_MIN, 0), no_cells, 0, no_cells, 0, MOST32, 0, COUNT(0));
    /* the widest and the lowest numbers */
    ASKS(0, C(INT64_C(-2147483648), 2147483647, -1, 0, 0, 0, 0, 0), no_cells, 0, no_cells, 0, LEAST32, MOST32, NONE, COUNT(0));
    ASKS(4, C(2147483647, -1, INT64_C(-2147483648), 0, 0, 0, 0, 0), no_cells, 0, no_cells, 0, MOST32, NONE, LEAST32, MOST32, 0, COUNT(0));
    EACH(UNSET(1), C(0, 0, 2), 3, C(2147483647, INT64_MIN, INT64_C(-2147483648), INT64_C(-2147483648), INT64_MAX, 2147483647), 6, MOST32, 0,
         COUNT(1), 0, 0, COUNT(2), MOST32, LEAST64, LEAST32, LEAST32, MOST64, MOST32);
    /* topics without partitions, before, between and behind the others; one name twice, and the empty part at the end */
    EACH(UNSET(5), C(0, 1, 0, 1, 2, 1, 19, 0, 0, 1, 2, 1, 0, 3, 0), 15, C(1, 2, 3, 4, 5, 6), 6, MOST32, 0, COUNT(5), 0, 1, 'a', COUNT(0),
         0, 2, 'b', 'c', COUNT(1), COUNT(1), LONG(2), COUNT(3), 0, 0, COUNT(0), 0, 2, 'b', 'c', COUNT(1), COUNT(4), LONG(5), COUNT(6),
         0, 3, 'a', 'b', 'c', COUNT(0));
    /* names of all widths, and nothing lent but an empty one */
    EACH(UNSET(2), C(0, 5, 0, 5, 5, 0), 6, no_cells, 0, MOST32, 0, COUNT(2), 0, 5, 'a', 'b', 'c', 0xc3, 0xa9, COUNT(0),
         0, 5, 0xf4, 0x8f, 0xbf, 0xbf, 0, COUNT(0));
    asks(__LINE__, (asked){0, none, 0, UNSET(1), C(0, 0, 0), 3, no_cells, 0}, B(HEAD, COUNT(1), 0, 0, COUNT(0)), 22);
    /* cut rows behind the others are no rows */
    ASKS(0, UNSET(1), C(0, 1, 1, 9), 4, C(1, 2, 3, 9), 4, HEAD, COUNT(1), 0, 1, 'a', COUNT(1), COUNT(1), LONG(2), COUNT(3));
    ASKS(0, UNSET(1), C(0, 1, 1, 9, 9), 5, C(1, 2, 3, INT64_MAX, 9), 5, HEAD, COUNT(1), 0, 1, 'a', COUNT(1), COUNT(1), LONG(2), COUNT(3));
    ASKS(4, UNSET(0), C(-1, -1), 2, C(INT64_MAX, 0), 2, HEAD, MOST32, 0, COUNT(0));
}

/* numbers that 32 bits do not hold, and levels that are neither 0 nor 1 */
static const int64_t too_wide[5] = {INT64_C(2147483648), INT64_C(-2147483649), INT64_C(4294967296), INT64_MIN, INT64_MAX};
static const int64_t levels[7] = {2, -1, 256, 257, INT64_C(4294967297), INT64_MIN, INT64_MAX};

static void numbers_refused(void)
{
    for (int64_t v = 0; v < 5; v++)
        for (int i = 0; i < 5; i++) {
            DENIES(v, 11, C(too_wide[i], 500, 1, 0, 0, 0, 0, 0), no_cells, 0, no_cells, 0);
            DENIES(v, 11, C(-1, too_wide[i], 1, 0, 0, 0, 0, 0), no_cells, 0, no_cells, 0);
            DENIES(v, 11, C(-1, 500, too_wide[i], 0, 0, 0, 0, 0), no_cells, 0, no_cells, 0);
            /* the index and the most bytes of each partition */
            for (int cell = 0; cell < 9; cell++) {
                if (cell % 3 == 1)
                    continue;
                int64_t rows[9];
                memcpy(rows, three, sizeof rows);
                rows[cell] = too_wide[i];
                DENIES(v, 11, UNSET(2), both, 6, rows, 9);
            }
        }
    /* max bytes from 3 on; dropped below */
    for (int i = 0; i < 5; i++) {
        const int64_t *row = C(-1, 500, 1, 2, too_wide[i], 0, 0, 0);
        for (int64_t v = 0; v < 3; v++)
            ASKS(v, row, no_cells, 0, no_cells, 0, HEAD, COUNT(0));
        DENIES(3, 11, row, no_cells, 0, no_cells, 0);
        DENIES(4, 11, row, no_cells, 0, no_cells, 0);
    }
    /* the isolation level at 4; dropped below */
    for (int i = 0; i < 7; i++) {
        const int64_t *row = C(-1, 500, 1, 0, 0, 2, levels[i], 0);
        for (int64_t v = 0; v < 3; v++)
            ASKS(v, row, no_cells, 0, no_cells, 0, HEAD, COUNT(0));
        ASKS(3, row, no_cells, 0, no_cells, 0, HEAD, MOST32, COUNT(0));
        DENIES(4, 11, row, no_cells, 0, no_cells, 0);
        DENIES(4, 11, C(-1, 500, 1, 0, 0, 1, levels[i], 0), no_cells, 0, no_cells, 0);
    }
}

static void tables_refused(void)
{
    static const int64_t counts[8] = {0, 1, 3, -1, -2, INT64_MIN, INT64_MAX, INT64_C(4294967298)};
    static const int64_t sums[10][2] = {{2, 2}, {2, 0}, {1, 1}, {0, 0}, {3, -1}, {4, -1}, {-2, 5}, {5, -2}, {INT64_MIN, 3}, {INT64_C(4294967298), 1}};
    static const int64_t outside[10][2] = {{18, 2}, {19, 1}, {20, 0}, {0, 20}, {0, -1}, {-1, 1}, {-1, 2}, {INT64_MAX, INT64_MAX}, {1, INT64_MAX}, {INT64_MIN, 0}};
    for (int64_t v = 0; v < 5; v++) {
        /* the topics' count: other than the two rows there are, null, below null */
        for (int i = 0; i < 8; i++)
            DENIES(v, 13, UNSET(counts[i]), both, 6, three, 9);
        for (int i = 1; i < 8; i++)
            DENIES(v, 13, UNSET(counts[i]), no_cells, 0, no_cells, 0);
        DENIES(v, 13, UNSET(2), both, 5, three, 9);
        DENIES(v, 13, UNSET(1), both, 5, three, 9);
        /* the partitions' counts: other than the three rows there are, null, below null; sums do not wrap */
        for (int i = 0; i < 10; i++)
            DENIES(v, 13, UNSET(2), C(0, 1, sums[i][0], 1, 2, sums[i][1]), 6, three, 9);
        DENIES(v, 13, UNSET(3), C(0, 1, INT64_MAX, 0, 1, INT64_MAX, 0, 1, 5), 9, three, 9);
        DENIES(v, 13, UNSET(1), C(0, 1, -1), 3, no_cells, 0);
        DENIES(v, 13, UNSET(2), both, 6, three, 8);
        DENIES(v, 13, UNSET(2), both, 6, three, 6);
        DENIES(v, 13, UNSET(2), both, 6, C(0, 0, 0, 0, 0, 0, 0, 0, 0, 0, 0, 0), 12);
        DENIES(v, 13, UNSET(0), no_cells, 0, three, 3);
        /* names outside what is lent, of the first topic and of the second; sums do not wrap */
        for (int i = 0; i < 10; i++) {
            DENIES(v, 13, UNSET(2), C(outside[i][0], outside[i][1], 2, 1, 2, 1), 6, three, 9);
            DENIES(v, 13, UNSET(2), C(0, 1, 2, outside[i][0], outside[i][1], 1), 6, three, 9);
        }
        denies(__LINE__, (asked){v, none, 0, UNSET(1), C(0, 1, 0), 3, no_cells, 0}, 13);
        /* before numbers that are too wide and names that are no text, wherever they stand */
        DENIES(v, 13, C(too_wide[0], 500, 1, 2, too_wide[0], 2, 2, 1), C(18, 2, 0), 3, no_cells, 0);
        DENIES(v, 13, UNSET(2), C(10, 2, 0, 20, 0, 0), 6, no_cells, 0);
        DENIES(v, 13, UNSET(2), C(10, 2, 1, 0, 1, 1), 6, C(too_wide[0], 0, too_wide[0]), 3);
    }
    /* the version comes before the tables */
    static const int64_t others[4] = {-1, 5, -32768, 32767};
    for (int i = 0; i < 4; i++) {
        DENIES(others[i], 1, UNSET(2), both, 6, three, 9);
        DENIES(others[i], 1, UNSET(0), no_cells, 0, no_cells, 0);
        DENIES(others[i], 1, UNSET(1), C(18, 2, 0), 3, no_cells, 0);
        DENIES(others[i], 1, C(too_wide[0], 500, 1, 0, 0, 0, 0, -2), no_cells, 0, no_cells, 0);
    }
}

static void order_of_fields(void)
{
    static const int64_t ill[8][2] = {{10, 2}, {10, 1}, {12, 3}, {15, 4}, {3, 1}, {4, 1}, {5, 3}, {0, 4}};
    const int64_t *wide_first = C(too_wide[0], 0, 0), *wide_last = C(0, 0, 0, 0, 0, too_wide[1]);
    for (int64_t v = 0; v < 5; v++) {
        /* names that are no text, of the first topic and of the second */
        for (int i = 0; i < 8; i++) {
            DENIES(v, 7, UNSET(2), C(ill[i][0], ill[i][1], 2, 1, 2, 1), 6, three, 9);
            DENIES(v, 7, UNSET(2), C(0, 1, 2, ill[i][0], ill[i][1], 1), 6, three, 9);
        }
        /* a topic's name before its partitions, and its partitions before the next name */
        DENIES(v, 7, UNSET(1), C(10, 2, 1), 3, wide_first, 3);
        DENIES(v, 7, UNSET(2), C(0, 1, 0, 10, 2, 1), 6, wide_first, 3);
        DENIES(v, 11, UNSET(2), C(0, 1, 1, 10, 2, 0), 6, wide_first, 3);
        DENIES(v, 11, UNSET(2), C(0, 1, 2, 10, 2, 0), 6, wide_last, 6);
        DENIES(v, 7, UNSET(2), C(0, 1, 1, 10, 2, 1), 6, wide_last, 6);
        DENIES(v, 7, UNSET(3), C(0, 1, 0, 10, 2, 0, 0, 1, 1), 9, wide_first, 3);
        DENIES(v, 11, UNSET(3), C(0, 1, 0, 0, 1, 1, 10, 2, 0), 9, wide_first, 3);
        /* what stands before the topics comes first; what the version drops is not looked at */
        DENIES(v, 11, C(too_wide[0], 500, 1, 0, 0, 0, 0, 1), C(10, 2, 0), 3, no_cells, 0);
        DENIES(v, 11, C(-1, too_wide[0], 1, 0, 0, 0, 0, 1), C(10, 2, 0), 3, no_cells, 0);
        DENIES(v, 11, C(-1, 500, too_wide[0], 0, 0, 0, 0, 1), C(10, 2, 0), 3, no_cells, 0);
        DENIES(v, v < 3 ? 7 : 11, C(-1, 500, 1, 2, too_wide[0], 0, 0, 1), C(10, 2, 0), 3, no_cells, 0);
        DENIES(v, v < 4 ? 7 : 11, C(-1, 500, 1, 0, 0, 2, 2, 1), C(10, 2, 0), 3, no_cells, 0);
        DENIES(v, 7, C(-1, 500, 1, 0, too_wide[0], 0, 2, 1), C(10, 2, 0), 3, no_cells, 0);
        /* too long a name: before it is looked at as a text, and in its place among the names */
        static uint8_t ff[32768];
        memset(ff, 0xff, sizeof ff);
        denies(__LINE__, (asked){v, ff, 32768, UNSET(1), C(0, 32768, 0), 3, no_cells, 0}, 11);
        denies(__LINE__, (asked){v, ff, 32768, UNSET(1), C(0, 32767, 0), 3, no_cells, 0}, 7);
        denies(__LINE__, (asked){v, ff, 32768, UNSET(2), C(0, 1, 0, 0, 32768, 0), 6, no_cells, 0}, 7);
        denies(__LINE__, (asked){v, ff, 32768, UNSET(2), C(0, 32768, 0, 0, 1, 0), 6, no_cells, 0}, 11);
        denies(__LINE__, (asked){v, ff, 32768, UNSET(2), C(0, 32768, 0, 0, 32769, 0), 6, no_cells, 0}, 13);
        denies(__LINE__, (asked){v, large, 32768, UNSET(1), C(0, 32768, 0), 3, no_cells, 0}, 11);
    }
}

/* ---- requests whose bytes are laid out here, row behind row */

static uint8_t expected[BEFROLAN_MOST];

/* a number in so many bytes, highest first */
static uint8_t *lay(uint8_t *at, int width, int64_t n)
{
    for (int i = width - 1; i >= 0; i--)
        *at++ = (uint8_t)((uint64_t)n >> 8 * i);
    return at;
}

/* the bytes of a request with the head of those above, everything else unset; how many there are */
static int64_t laid(asked q)
{
    uint8_t *at = lay(lay(lay(expected, 4, -1), 4, 500), 4, 1);
    const int64_t *p = q.partitions;
    if (q.version >= 3)
        at = lay(at, 4, 2147483647);
    if (q.version == 4)
        at = lay(at, 1, 0);
    at = lay(at, 4, q.row[7]);
    for (const int64_t *t = q.topics; t < q.topics + 3 * q.row[7]; t += 3) {
        at = lay(at, 2, t[1]);
        memcpy(at, q.lent + t[0], (size_t)t[1]);
        at = lay(at + t[1], 4, t[2]);
        for (const int64_t *end = p + 3 * t[2]; p < end; p += 3)
            at = lay(lay(lay(at, 4, p[0]), 8, p[1]), 4, p[2]);
    }
    return at - expected;
}

/* `n` bytes, as they are laid out here */
static void asks_laid(int line, asked q, int64_t n)
{
    check(__FILE__, line, "as many bytes", laid(q) == n);
    asks(line, q, expected, (size_t)n);
}

/* how many bytes version v has more than version 0 */
static const int64_t extra[5] = {0, 0, 0, 4, 5};

static void hundred_partitions(void)
{
    /* partitions of ten topics, the third without any; names of 0 to 3 bytes, 13 in all */
    static const int64_t counts[10] = {1, 19, 0, 20, 10, 10, 15, 5, 7, 13};
    int64_t topics[30], partitions[300];
    for (int i = 0; i < 10; i++)
        memcpy(topics + 3 * i, C(i % 3, i % 4, counts[i]), 3 * sizeof(int64_t));
    for (int i = 0; i < 100; i++)
        memcpy(partitions + 3 * i, C(i, INT64_C(12345678901) * i, 1048576 - i), 3 * sizeof(int64_t));
    for (int64_t v = 0; v < 5; v++) {
        asked q = {v, B('a', 'b', 'c', 'd', 'e', 0xff), 6, UNSET(10), topics, 30, partitions, 300};
        /* 16 in front, 6 and a name for each topic, 16 for each partition */
        asks_laid(__LINE__, q, 1689 + extra[v]);
        q.partition_cells = 299;
        denies(__LINE__, q, 13);
        q.partition_cells = 300;
        /* the last number of all */
        partitions[299] = too_wide[0];
        denies(__LINE__, q, 11);
        partitions[299] = 0;
        /* the fifth name is no text: behind the partitions 0 to 39, before partition 40 */
        memcpy(topics + 12, C(5, 1), 2 * sizeof(int64_t));
        denies(__LINE__, q, 7);
        partitions[3 * 40] = too_wide[0];
        denies(__LINE__, q, 7);
        partitions[3 * 39] = too_wide[0];
        denies(__LINE__, q, 11);
        partitions[3 * 39] = 39;
        partitions[3 * 40] = 40;
        memcpy(topics + 12, C(1, 0), 2 * sizeof(int64_t));
        partitions[299] = 1048576 - 99;
    }
}

static void longest(void)
{
    static int64_t names[96], partitions[3 * 65534];
    for (int i = 0; i < 32; i++)
        names[3 * i + 1] = 32767;
    for (int64_t v = 0; v < 5; v++) {
        /* the longest name: 16 in front, 6 and the name */
        asks_laid(__LINE__, (asked){v, large, 32767, UNSET(1), C(0, 32767, 0), 3, no_cells, 0}, 32789 + extra[v]);

        /* the most bytes, in names: 16 + 31 * 32,773 + 32,597 */
        names[94] = 32591 - extra[v];
        asked q = {v, large, 32767, UNSET(32), names, 96, no_cells, 0};
        asks_laid(__LINE__, q, BEFROLAN_MOST);
        names[94]++;
        denies(__LINE__, q, 2);
        /* 11, 7 and 13 come before 2 */
        q.row = C(too_wide[0], 500, 1, 0, 0, 0, 0, 32);
        denies(__LINE__, q, 11);
        q.row = UNSET(33);
        denies(__LINE__, q, 13);
        q.row = UNSET(32);
        large[32766] = 0xff;
        denies(__LINE__, q, 7);
        large[32766] = 0;

        /* the most bytes, in partitions: 16 + 6 + 10 + 65,534 * 16 */
        for (int i = 0; i < 65534; i++)
            memcpy(partitions + 3 * i, C(i, -i, 2 * i), 3 * sizeof(int64_t));
        q = (asked){v, large, 11, UNSET(1), C(0, 10 - extra[v], 65534), 3, partitions, 3 * 65534};
        asks_laid(__LINE__, q, BEFROLAN_MOST);
        q.topics = C(0, 11 - extra[v], 65534);
        denies(__LINE__, q, 2);
        partitions[3 * 65533] = too_wide[0];
        denies(__LINE__, q, 11);
    }
}

void fetch_requests(void)
{
    requests_written();
    numbers_refused();
    tables_refused();
    order_of_fields();
    hundred_partitions();
    longest();
}
