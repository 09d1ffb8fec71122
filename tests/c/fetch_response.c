/* Fetch responses, read. */
#include "lent.h"

/* ---- bodies with rows in every table */

/* Two topics: "t" with two partitions, "uv" with one.
 * Partitions: index 0, error 0, high watermark 5, last stable offset 4, two aborted transactions, records aa c0 ff;
 * index 1, error 3, high watermark -1, last stable offset -2, aborted transactions null, records empty;
 * index 7, error -1, high watermark BIG, last stable offset 2, one aborted transaction, records null.
 * Aborted: producer 6 from 3, producer -1 from 2^32; producer 8 from 9. */
#define NAME_T 0, 1, 't'
#define NAME_UV 0, 2, 'u', 'v'
#define PARTITION_0 COUNT(0), 0, 0, LONG(5)
#define PARTITION_1 COUNT(1), 0, 3, MINUS(1)
#define PARTITION_7 COUNT(7), 0xff, 0xff, BIG_BYTES
#define ABORTED_0 LONG(4), COUNT(2), LONG(6), LONG(3), MINUS(1), 0, 0, 0, 1, COUNT(0)
#define ABORTED_1 MINUS(2), NONE
#define ABORTED_7 LONG(2), COUNT(1), LONG(8), LONG(9)
#define RECORDS COUNT(3), 0xaa, 0xc0, 0xff

static const uint8_t F0[] = {COUNT(2), NAME_T, COUNT(2), PARTITION_0, RECORDS, PARTITION_1, COUNT(0), NAME_UV, COUNT(1), PARTITION_7, NONE};
/* from 1 on the throttle time: 7 */
static const uint8_t F1[] = {COUNT(7), COUNT(2), NAME_T, COUNT(2), PARTITION_0, RECORDS, PARTITION_1, COUNT(0), NAME_UV, COUNT(1), PARTITION_7, NONE};
/* at 4 last stable offsets and aborted transactions. Throttle time -1 */
static const uint8_t F4[] = {NONE, COUNT(2), NAME_T, COUNT(2), PARTITION_0, ABORTED_0, RECORDS, PARTITION_1, ABORTED_1, COUNT(0),
                             NAME_UV, COUNT(1), PARTITION_7, ABORTED_7, NONE};

/* where their primitives start; a text, a byte string and its length are one */
static const uint8_t starts0[] = {0, 4, 7, 11, 15, 17, 25, 32, 36, 38, 46, 50, 54, 58, 62, 64, 72, 76};
static const uint8_t starts1[] = {0, 4, 8, 11, 15, 19, 21, 29, 36, 40, 42, 50, 54, 58, 62, 66, 68, 76, 80};
static const uint8_t starts4[] = {0, 4, 8, 11, 15, 19, 21, 29, 37, 41, 49, 57, 65, 73, 80, 84, 86, 94, 102, 106, 110, 114, 118, 122, 124, 132, 140,
                                  144, 152, 160, 164};

/* the rows of the topics, by the starts of their names; those of the partitions below 4, by the starts of their records */
#define SHIFTED(t, u) {t, 1, 2, u, 2, 1}
#define BARE(a, b, c) {0, 0, 5, -1, 0, a, 3, 1, 3, -1, -1, 0, b, 0, 7, -1, BIG, -1, 0, c, 0}

/* own row: throttle time (kind, number), topics */
static const struct {
    const uint8_t *bytes, *starts;
    size_t size, primitives;
    int64_t own[3], topics[6], partitions[21], aborted[6];
    size_t needs[3];
} bodies[5] = {
    {F0, starts0, 76, sizeof starts0, {0, 0, 2}, SHIFTED(6, 52), BARE(29, 50, 76), {0}, {2, 3, 0}},
    {F1, starts1, 80, sizeof starts1, {2, 7, 2}, SHIFTED(10, 56), BARE(33, 54, 80), {0}, {2, 3, 0}},
    {F1, starts1, 80, sizeof starts1, {2, 7, 2}, SHIFTED(10, 56), BARE(33, 54, 80), {0}, {2, 3, 0}},
    {F1, starts1, 80, sizeof starts1, {2, 7, 2}, SHIFTED(10, 56), BARE(33, 54, 80), {0}, {2, 3, 0}},
    {F4, starts4, 164, sizeof starts4, {2, -1, 2}, SHIFTED(10, 112),
     {0, 0, 5, 4, 2, 77, 3, 1, 3, -1, -2, 0, 110, 0, 7, -1, BIG, 2, 1, 164, 0}, {6, 3, -1, INT64_C(4294967296), 8, 9}, {2, 3, 3}},
};

/* topics, partitions, aborted: the cells of a row */
static const size_t wide[3] = {BEFROLAN_FETCH_TOPIC_CELLS, BEFROLAN_FETCH_PARTITION_CELLS, BEFROLAN_ABORTED_CELLS};
static const size_t ample[3] = {CELLS, CELLS, CELLS}, no_room[3] = {0, 0, 0};

static int64_t tables[3][GUARD + CELLS + GUARD];

static befrolan_fetch_numbers answer(const uint8_t *m, size_t n, int64_t v, const size_t *room)
{
    return befrolan_read_fetch_response(m, n, v, table(tables[0]), room[0], table(tables[1]), room[1], table(tables[2]), room[2]);
}

static int own(befrolan_fetch_numbers r, int64_t used, int64_t kind, int64_t throttle, int64_t topics)
{
    return USED(r, used) && r.throttle_kind == kind && r.throttle == throttle && r.topics == topics;
}

static int filled(const int64_t *t, int tn, const int64_t *p, int pn, const int64_t *a, int an)
{
    return holds(tables[0], t, tn) && holds(tables[1], p, pn) && holds(tables[2], a, an);
}

static int unfilled(void)
{
    return filled(no_cells, 0, no_cells, 0, no_cells, 0);
}

/* the body of version v, with rows in all the tables that the version has */
static int whole(befrolan_fetch_numbers r, int64_t v)
{
    const int64_t *row = bodies[v].own;
    return own(r, (int64_t)bodies[v].size, row[0], row[1], row[2]) && filled(bodies[v].topics, 6, bodies[v].partitions, 21, bodies[v].aborted, v < 4 ? 0 : 6);
}

static int no_answer(befrolan_fetch_numbers r, int64_t number, int64_t place, int64_t need)
{
    return REFUSED(r, number, place, need) && r.throttle_kind == 0 && r.throttle == 0 && r.topics == 0 && unfilled();
}

/* bytes that are taken, all of them, in just the room that the rows need */
#define GOOD(v, kind, throttle, count, t, tn, p, pn, a, an, ...) \
    CHECK(own(answer(B(__VA_ARGS__), LEN(__VA_ARGS__), v, ROOM(tn, pn, an)), (int64_t)LEN(__VA_ARGS__), kind, throttle, count) \
          && filled(t, tn, p, pn, a, an))

/* bytes that are refused, with room and without any */
#define BAD(v, number, place, ...) \
    CHECK(no_answer(answer(B(__VA_ARGS__), LEN(__VA_ARGS__), v, ample), number, place, 0)); \
    CHECK(no_answer(answer(B(__VA_ARGS__), LEN(__VA_ARGS__), v, no_room), number, place, 0))

/* each table by itself too small: by a row, by a cell, and together with those behind it */
static void short_of_room(int64_t v, const size_t *exact)
{
    const uint8_t *m = bodies[v].bytes;
    size_t n = bodies[v].size;
    for (int t = 0; t < 3; t++) {
        int64_t need = (int64_t)bodies[v].needs[t];
        size_t room[3], cut[3];
        memcpy(room, exact, sizeof room);
        memcpy(cut, exact, sizeof cut);
        /* a cell more is no row */
        cut[t]++;
        CHECK(whole(answer(m, n, v, cut), v));
        if (need == 0)
            continue;
        cut[t] -= 2;
        CHECK(no_answer(answer(m, n, v, cut), 10, 0, need));
        room[t] -= wide[t];
        CHECK(no_answer(answer(m, n, v, room), 10, 0, need));
        room[t] = 0;
        CHECK(no_answer(answer(m, n, v, room), 10, 0, need));
        /* the first that is too small is told, not one behind it */
        for (int u = t + 1; u < 3; u++)
            room[u] = 0;
        CHECK(no_answer(answer(m, n, v, room), 10, 0, need));
    }
    CHECK(no_answer(answer(m, n, v, no_room), 10, 0, 2));
}

static void bodies_read(void)
{
    for (int64_t v = 0; v < 5; v++) {
        const uint8_t *m = bodies[v].bytes, *starts = bodies[v].starts;
        size_t n = bodies[v].size, exact[3];
        for (int t = 0; t < 3; t++)
            exact[t] = bodies[v].needs[t] * wide[t];
        CHECK(whole(answer(m, n, v, exact), v));
        CHECK(whole(answer(m, n, v, ample), v));
        /* bytes behind the body have no part in the answer */
        uint8_t more[192];
        memset(more, 0xff, sizeof more);
        memcpy(more, m, n);
        CHECK(whole(answer(more, n + 1, v, ample), v));
        CHECK(whole(answer(more, sizeof more, v, exact), v));
        short_of_room(v, exact);
        /* a body cut anywhere: 3 at the primitive that is not all there */
        for (size_t i = 0; i + 1 < bodies[v].primitives; i++)
            for (size_t k = starts[i]; k < starts[i + 1]; k++)
                CHECK(no_answer(answer(m, k, v, ample), 3, starts[i], 0));
        /* bytes are judged before room */
        CHECK(no_answer(answer(m, n - 1, v, no_room), 3, starts[bodies[v].primitives - 2], 0));
        CHECK(no_answer(answer(none, 0, v, ample), 3, 0, 0));
        CHECK(no_answer(answer(none, 0, v, no_room), 3, 0, 0));
        CHECK(no_answer(answer(large, BEFROLAN_MOST + 1, v, ample), 2, 0, 0));
        /* nothing but zeros: no topics */
        CHECK(own(answer(large, BEFROLAN_MOST, v, no_room), v == 0 ? 4 : 8, v == 0 ? 0 : 2, 0, 0) && unfilled());
    }
    static const int64_t others[4] = {-1, 5, -32768, 32767};
    for (int i = 0; i < 4; i++) {
        CHECK(no_answer(answer(F0, 76, others[i], ample), 1, 0, 0));
        CHECK(no_answer(answer(F4, 164, others[i], ample), 1, 0, 0));
        CHECK(no_answer(answer(none, 0, others[i], no_room), 1, 0, 0));
        CHECK(no_answer(answer(large, BEFROLAN_MOST + 1, others[i], no_room), 1, 0, 0));
    }
}

/* What stands before the records of one partition of one topic without a name: 24 bytes at 0, 28 from 1 on. At 4 the
 * partition goes on with the last stable offset, and its aborted transactions are counted at 36. */
#define LONE COUNT(1), 0, 0, COUNT(1), COUNT(2), 0, 0, LONG(0)
#define LONE4 COUNT(0), LONE, LONG(0)

static void values_read(void)
{
    /* null arrays of topics, partitions and aborted transactions are empty ones; so are null records */
    GOOD(0, 0, 0, 0, no_cells, 0, no_cells, 0, no_cells, 0, NONE);
    GOOD(1, 2, 9, 0, no_cells, 0, no_cells, 0, no_cells, 0, COUNT(9), NONE);
    GOOD(4, 2, 9, 0, no_cells, 0, no_cells, 0, no_cells, 0, COUNT(9), NONE);
    GOOD(0, 0, 0, 1, C(6, 0, 0), 3, no_cells, 0, no_cells, 0, COUNT(1), 0, 0, NONE);
    GOOD(0, 0, 0, 1, C(6, 0, 0), 3, no_cells, 0, no_cells, 0, COUNT(1), 0, 0, COUNT(0));
    GOOD(4, 2, 0, 1, C(10, 0, 1), 3, C(2, 0, 0, 0, 0, 44, 0), 7, no_cells, 0, LONE4, NONE, NONE);
    GOOD(4, 2, 0, 1, C(10, 0, 1), 3, C(2, 0, 0, 0, 0, 44, 0), 7, no_cells, 0, LONE4, COUNT(0), COUNT(0));
    /* a topic without partitions before one that has some, and one behind it */
    GOOD(0, 0, 0, 3, C(6, 1, 0, 13, 1, 1, 38, 1, 0), 9, C(2, 0, 0, -1, 0, 36, 0), 7, no_cells, 0,
         COUNT(3), 0, 1, 'a', NONE, 0, 1, 'b', COUNT(1), COUNT(2), 0, 0, LONG(0), NONE, 0, 1, 'c', COUNT(0));
    /* records are not looked into: no text, and no whole body of one */
    GOOD(0, 0, 0, 1, C(6, 0, 1), 3, C(2, 0, 0, -1, 0, 28, 2), 7, no_cells, 0, LONE, COUNT(2), 0xc0, 0x80);
    /* a name of four bytes, U+10FFFF, and one that is a zero byte */
    GOOD(0, 0, 0, 2, C(6, 4, 0, 16, 1, 0), 6, no_cells, 0, no_cells, 0, COUNT(2), 0, 4, 0xf4, 0x8f, 0xbf, 0xbf, COUNT(0), 0, 1, 0, NONE);
    /* the example of the rules, at 4 */
    GOOD(4, 2, 9, 1, C(10, 1, 1), 3, C(2, 0, 5, 4, 1, 61, 0), 7, C(6, 3), 2, COUNT(9), COUNT(1), 0, 1, 0x61, COUNT(1), COUNT(2), 0, 0, LONG(5), LONG(4),
         COUNT(1), LONG(6), LONG(3), NONE);
    /* the widest and the lowest numbers */
    GOOD(0, 0, 0, 1, C(6, 0, 2), 3, C(2147483647, 32767, INT64_MAX, -1, 0, 28, 0, -INT64_C(2147483648), -32768, INT64_MIN, -1, 0, 46, 0), 14, no_cells, 0,
         COUNT(1), 0, 0, COUNT(2), MOST32, 0x7f, 0xff, MOST64, NONE, LEAST32, 0x80, 0, LEAST64, NONE);
    GOOD(3, 2, 2147483647, 0, no_cells, 0, no_cells, 0, no_cells, 0, MOST32, COUNT(0));
    GOOD(4, 2, -INT64_C(2147483648), 1, C(10, 0, 1), 3, C(-1, -1, INT64_MIN, INT64_MAX, 2, 76, 0), 7, C(INT64_MAX, INT64_MIN, INT64_MIN, INT64_MAX), 4,
         LEAST32, COUNT(1), 0, 0, COUNT(1), NONE, 0xff, 0xff, LEAST64, MOST64, COUNT(2), MOST64, LEAST64, LEAST64, MOST64, NONE);

    /* records up to the end of a message of the most bytes, and one more announced */
    static uint8_t full[BEFROLAN_MOST];
    memcpy(full, B(LONE, 0, 0xf, 0xff, 0xe4), 28);
    CHECK(own(answer(full, BEFROLAN_MOST, 0, ROOM(3, 7, 0)), BEFROLAN_MOST, 0, 0, 1));
    CHECK(filled(C(6, 0, 1), 3, C(2, 0, 0, -1, 0, 28, BEFROLAN_MOST - 28), 7, no_cells, 0));
    CHECK(no_answer(answer(full, BEFROLAN_MOST - 1, 0, ample), 3, 24, 0));
    full[27]++;
    CHECK(no_answer(answer(full, BEFROLAN_MOST, 0, ample), 3, 24, 0));

    /* more rows than any table here has: 1,000 topics of 6 bytes, partitions of 18, pairs of 16 */
    static uint8_t topics[4 + 1000 * 6] = {0, 0, 3, 0xe8}, partitions[10 + 1000 * 18] = {COUNT(1), 0, 0, 0, 0, 3, 0xe8};
    static uint8_t pairs[44 + 1000 * 16] = {LONE4, 0, 0, 3, 0xe8};
    CHECK(no_answer(answer(topics, sizeof topics, 0, ample), 10, 0, 1000));
    CHECK(no_answer(answer(topics, sizeof topics, 0, no_room), 10, 0, 1000));
    CHECK(no_answer(answer(topics, sizeof topics - 1, 0, no_room), 3, 4 + 999 * 6 + 2, 0));
    CHECK(no_answer(answer(partitions, sizeof partitions, 0, ample), 10, 0, 1000));
    CHECK(no_answer(answer(partitions, sizeof partitions, 0, ROOM(2, 0, 0)), 10, 0, 1));
    CHECK(no_answer(answer(partitions, sizeof partitions - 1, 0, no_room), 3, 10 + 999 * 18 + 14, 0));
    CHECK(no_answer(answer(pairs, sizeof pairs, 4, ample), 10, 0, 1000));
    CHECK(no_answer(answer(pairs, sizeof pairs, 4, ROOM(3, 6, 0)), 10, 0, 1));
    CHECK(no_answer(answer(pairs, sizeof pairs - 4, 4, ample), 3, 40 + 1000 * 16, 0));
    CHECK(no_answer(answer(pairs, sizeof pairs - 5, 4, no_room), 3, 40 + 999 * 16 + 8, 0));
}

static void answers_refused(void)
{
    /* counts: of topics, partitions, aborted transactions */
    BAD(0, 4, 0, BELOW);
    BAD(0, 4, 0, LEAST32);
    for (int64_t v = 1; v < 5; v++) {
        BAD(v, 4, 4, COUNT(0), BELOW);
        BAD(v, 4, 10, NONE, COUNT(1), 0, 0, BELOW);
        BAD(v, 4, 10, NONE, COUNT(1), 0, 0, LEAST32);
    }
    BAD(0, 4, 6, COUNT(1), 0, 0, BELOW);
    BAD(0, 4, 12, COUNT(2), 0, 0, NONE, 0, 0, BELOW);
    BAD(4, 4, 36, LONE4, BELOW);
    BAD(4, 4, 36, LONE4, LEAST32);
    /* records */
    BAD(0, 4, 24, LONE, BELOW);
    BAD(0, 4, 24, LONE, LEAST32, 0, 0);
    BAD(3, 4, 28, COUNT(0), LONE, BELOW);
    BAD(4, 4, 40, LONE4, COUNT(0), BELOW);
    BAD(4, 4, 56, LONE4, COUNT(1), LONG(1), LONG(2), BELOW);
    BAD(0, 3, 24, LONE, COUNT(1));
    BAD(0, 3, 24, LONE, COUNT(3), 0xaa, 0xbb);
    BAD(0, 3, 24, LONE, MOST32, 0xaa, 0xbb);
    BAD(1, 3, 28, COUNT(0), LONE, COUNT(2), 0xaa);
    BAD(4, 3, 40, LONE4, NONE, COUNT(2), 0xaa);
    /* names: a length below 0, contents that are no text, contents cut short, which come before those that are no text */
    BAD(0, 4, 4, COUNT(1), 0xff, 0xff);
    BAD(0, 4, 4, COUNT(1), 0x80, 0, 0, 0);
    BAD(4, 4, 8, COUNT(0), COUNT(1), 0xff, 0xfe, COUNT(0));
    BAD(0, 7, 6, COUNT(1), 0, 2, 0xc0, 0x80);
    BAD(1, 7, 10, COUNT(0), COUNT(1), 0, 3, 0xed, 0xa0, 0x80, COUNT(0));
    BAD(2, 7, 10, COUNT(0), COUNT(1), 0, 4, 0xf4, 0x90, 0x80, 0x80);
    BAD(3, 7, 11, COUNT(0), COUNT(1), 0, 2, 'a', 0xc3, 0xa9, COUNT(0));
    BAD(4, 7, 10, COUNT(0), COUNT(1), 0, 1, 0x80, COUNT(0));
    BAD(0, 3, 4, COUNT(1), 0, 4, 0xc0, 0x80);
    BAD(0, 3, 4, COUNT(1), 0x7f, 0xff, 'a');
    /* in the second topic: behind the records of a partition of the first */
    BAD(0, 7, 31, COUNT(2), 0, 0, COUNT(1), COUNT(2), 0, 0, LONG(0), COUNT(1), 0xff, 0, 1, 0xff, COUNT(0));
    BAD(0, 4, 29, COUNT(2), 0, 0, COUNT(1), COUNT(2), 0, 0, LONG(0), COUNT(1), 0xff, 0xff, 0xff, COUNT(0));
    /* two faults: the first in the order of the bytes */
    BAD(0, 7, 6, COUNT(1), 0, 1, 0xff, BELOW);
    BAD(0, 4, 7, COUNT(2), 0, 1, 'a', BELOW, 0, 1, 0xff, COUNT(0));
    BAD(4, 4, 36, LONE4, BELOW, BELOW);
    BAD(0, 4, 24, COUNT(2), 0, 0, COUNT(1), COUNT(2), 0, 0, LONG(0), BELOW, 0, 1, 0xff, COUNT(0));
    BAD(0, 3, 28, COUNT(2), 0, 0, COUNT(1), COUNT(2), 0, 0, LONG(0), NONE);
    /* the largest counts, with nothing or with one item behind them */
    BAD(0, 3, 4, MOST32);
    BAD(1, 3, 8, COUNT(0), MOST32);
    BAD(0, 3, 10, MOST32, 0, 0, COUNT(0));
    BAD(0, 3, 10, COUNT(1), 0, 0, MOST32);
    BAD(0, 3, 28, COUNT(1), 0, 0, MOST32, COUNT(2), 0, 0, LONG(0), NONE);
    BAD(4, 3, 40, LONE4, MOST32);
    BAD(4, 3, 56, LONE4, MOST32, LONG(1), LONG(2));
    BAD(4, 3, 64, LONE4, MOST32, LONG(1), LONG(2), LONG(3), 0);
    BAD(0, 4, 10, MOST32, 0, 0, COUNT(0), 0xff, 0xff);
    /* a body of another version: what stands where the length of records should is more than what is left; read at 4, that
     * of 1 seems to have 256 aborted transactions; read at 0, the throttle time -1 of 4 is a null count */
    for (int64_t v = 1; v < 4; v++) {
        CHECK(no_answer(answer(F0, 76, v, ample), 3, 28, 0));
        CHECK(no_answer(answer(F4, 164, v, ample), 3, 47, 0));
    }
    CHECK(no_answer(answer(F1, 80, 0, ample), 3, 60, 0));
    CHECK(no_answer(answer(F1, 80, 4, ample), 3, 73, 0));
    CHECK(own(answer(F4, 164, 0, no_room), 4, 0, 0, 0) && unfilled());
}

void fetch_responses(void)
{
    bodies_read();
    values_read();
    answers_refused();
}
