/* Metadata responses, read, with the lookup of a host in them, and requests, written. */
#include "lent.h"

/* ---- Metadata responses, read */

/* Two brokers: node 1, host "h1", port 9092, rack null; node 2, host "k", port 9093, rack "r".
 * Two topics: error 5, "t", internal (a byte of 2), two partitions; error 0, "uv", not internal, one partition.
 * Partitions: error 0, index 0, leader 1, replicas 1 and 2, in sync null; error 9, index 1, leader -1, replicas null,
 * in sync 2; error -1, index 2, leader 2, replicas 2 and 1, in sync none. */
#define FIRST_BROKER COUNT(1), 0, 2, 'h', '1', 0, 0, 0x23, 0x84
#define SECOND_BROKER COUNT(2), 0, 1, 'k', 0, 0, 0x23, 0x85
#define NO_RACK 0xff, 0xff
#define RACK 0, 1, 'r'
#define FIRST_TOPIC 0, 5, 0, 1, 't'
#define SECOND_TOPIC 0, 0, 0, 2, 'u', 'v'
/* 52 bytes and 30 bytes: the number of partitions, and the partitions */
#define FIRST_PARTITIONS \
    COUNT(2), 0, 0, COUNT(0), COUNT(1), COUNT(2), COUNT(1), COUNT(2), NONE, 0, 9, COUNT(1), NONE, NONE, COUNT(1), COUNT(2)
#define SECOND_PARTITIONS COUNT(1), 0xff, 0xff, COUNT(2), COUNT(2), COUNT(2), COUNT(2), COUNT(1), COUNT(0)

static const uint8_t M0[] = {COUNT(2), FIRST_BROKER, SECOND_BROKER, COUNT(2), FIRST_TOPIC, FIRST_PARTITIONS, SECOND_TOPIC, SECOND_PARTITIONS};
/* from 1 on racks, the controller 2 and the internal flags */
static const uint8_t M1[] = {COUNT(2), FIRST_BROKER, NO_RACK, SECOND_BROKER, RACK, COUNT(2),
                             COUNT(2), FIRST_TOPIC, 2, FIRST_PARTITIONS, SECOND_TOPIC, 0, SECOND_PARTITIONS};
/* from 2 on the cluster: null */
static const uint8_t M2[] = {COUNT(2), FIRST_BROKER, NO_RACK, SECOND_BROKER, RACK, 0xff, 0xff, COUNT(2),
                             COUNT(2), FIRST_TOPIC, 2, FIRST_PARTITIONS, SECOND_TOPIC, 0, SECOND_PARTITIONS};
/* from 3 on the throttle time: 7. Cluster "cl" */
static const uint8_t M3[] = {COUNT(7), COUNT(2), FIRST_BROKER, NO_RACK, SECOND_BROKER, RACK, 0, 2, 'c', 'l', COUNT(2),
                             COUNT(2), FIRST_TOPIC, 2, FIRST_PARTITIONS, SECOND_TOPIC, 0, SECOND_PARTITIONS};
/* throttle time -1, an empty cluster, controller -1 */
static const uint8_t M4[] = {NONE, COUNT(2), FIRST_BROKER, NO_RACK, SECOND_BROKER, RACK, 0, 0, NONE,
                             COUNT(2), FIRST_TOPIC, 2, FIRST_PARTITIONS, SECOND_TOPIC, 0, SECOND_PARTITIONS};

/* own row: throttle time (kind, number), brokers, cluster (kind, start, length), controller (kind, number), topics */
static const struct {
    const uint8_t *bytes;
    size_t size;
    int64_t own[9], brokers[14], topics[10];
} bodies[5] = {
    {M0, 124, {0, 0, 2, 0, 0, 0, 0, 0, 2}, {1, 10, 2, 9092, 0, 0, 0, 2, 22, 1, 9093, 0, 0, 0}, {5, 35, 1, -1, 2, 0, 92, 2, -1, 1}},
    {M1, 135, {0, 0, 2, 0, 0, 0, 2, 2, 2}, {1, 10, 2, 9092, 1, 0, 0, 2, 24, 1, 9093, 2, 31, 1}, {5, 44, 1, 1, 2, 0, 102, 2, 0, 1}},
    {M2, 137, {0, 0, 2, 1, 0, 0, 2, 2, 2}, {1, 10, 2, 9092, 1, 0, 0, 2, 24, 1, 9093, 2, 31, 1}, {5, 46, 1, 1, 2, 0, 104, 2, 0, 1}},
    {M3, 143, {2, 7, 2, 2, 38, 2, 2, 2, 2}, {1, 14, 2, 9092, 1, 0, 0, 2, 28, 1, 9093, 2, 35, 1}, {5, 52, 1, 1, 2, 0, 110, 2, 0, 1}},
    {M4, 141, {2, -1, 2, 2, 38, 0, 2, -1, 2}, {1, 14, 2, 9092, 1, 0, 0, 2, 28, 1, 9093, 2, 35, 1}, {5, 50, 1, 1, 2, 0, 108, 2, 0, 1}},
};
static const int64_t partitions[15] = {0, 0, 1, 2, -1, 9, 1, -1, -1, 1, -1, 2, 2, 2, 0}, replicas[4] = {1, 2, 2, 1}, in_sync[1] = {2};

/* brokers, topics, partitions, replicas, in sync: the cells of a row, and the rows that each of the bodies above needs */
static const size_t wide[5] = {BEFROLAN_BROKER_CELLS, BEFROLAN_TOPIC_CELLS, BEFROLAN_PARTITION_CELLS, BEFROLAN_REPLICA_CELLS, BEFROLAN_REPLICA_CELLS};
static const size_t needs[5] = {2, 2, 3, 4, 1};
static const size_t ample[5] = {CELLS, CELLS, CELLS, CELLS, CELLS}, no_room[5] = {0, 0, 0, 0, 0};

static int64_t tables[5][GUARD + CELLS + GUARD];

static befrolan_metadata_numbers metadata(const uint8_t *m, size_t n, int64_t v, const size_t *room)
{
    return befrolan_read_metadata_response(m, n, v, table(tables[0]), room[0], table(tables[1]), room[1], table(tables[2]), room[2],
                                           table(tables[3]), room[3], table(tables[4]), room[4]);
}

static int own(befrolan_metadata_numbers r, int64_t used, const int64_t *row)
{
    return USED(r, used) && r.throttle_kind == row[0] && r.throttle == row[1] && r.brokers == row[2] && r.cluster_kind == row[3] && r.cluster_start == row[4]
           && r.cluster_length == row[5] && r.controller_kind == row[6] && r.controller == row[7] && r.topics == row[8];
}

static int filled(const int64_t *b, int bn, const int64_t *t, int tn, const int64_t *p, int pn, const int64_t *r, int rn, const int64_t *s, int sn)
{
    return holds(tables[0], b, bn) && holds(tables[1], t, tn) && holds(tables[2], p, pn) && holds(tables[3], r, rn) && holds(tables[4], s, sn);
}

static int unfilled(void)
{
    return filled(no_cells, 0, no_cells, 0, no_cells, 0, no_cells, 0, no_cells, 0);
}

/* the body of version v, with rows in all five tables */
static int whole(befrolan_metadata_numbers r, int64_t v)
{
    return own(r, (int64_t)bodies[v].size, bodies[v].own) && filled(bodies[v].brokers, 14, bodies[v].topics, 10, partitions, 15, replicas, 4, in_sync, 1);
}

static int no_metadata(befrolan_metadata_numbers r, int64_t number, int64_t place, int64_t need)
{
    return REFUSED(r, number, place, need) && r.throttle_kind == 0 && r.throttle == 0 && r.brokers == 0 && r.cluster_kind == 0 && r.cluster_start == 0
           && r.cluster_length == 0 && r.controller_kind == 0 && r.controller == 0 && r.topics == 0 && unfilled();
}

/* ---- hosts */

static int host(const uint8_t *m, size_t n, int64_t v, int64_t node, int64_t start, int64_t length)
{
    befrolan_host_numbers r = befrolan_find_host(m, n, v, node);
    return r.number == 0 && r.place == 0 && r.need == 0 && r.found == 1 && r.start == start && r.length == length;
}

static int no_host(const uint8_t *m, size_t n, int64_t v, int64_t node, int64_t number, int64_t place)
{
    befrolan_host_numbers r = befrolan_find_host(m, n, v, node);
    return r.number == number && r.place == place && r.need == 0 && r.found == 0 && r.start == 0 && r.length == 0;
}

/* bytes that are refused, by the reader with room and without any, and by the lookup */
#define BAD(v, number, place, ...) \
    CHECK(no_metadata(metadata(B(__VA_ARGS__), LEN(__VA_ARGS__), v, ample), number, place, 0)); \
    CHECK(no_metadata(metadata(B(__VA_ARGS__), LEN(__VA_ARGS__), v, no_room), number, place, 0)); \
    CHECK(no_host(B(__VA_ARGS__), LEN(__VA_ARGS__), v, 1, number, place))

static void metadata_read(void)
{
    for (int64_t v = 0; v < 5; v++) {
        const uint8_t *m = bodies[v].bytes;
        size_t n = bodies[v].size, exact[5];
        for (int t = 0; t < 5; t++)
            exact[t] = needs[t] * wide[t];
        CHECK(whole(metadata(m, n, v, exact), v));
        CHECK(whole(metadata(m, n, v, ample), v));
        /* bytes behind the body have no part in the answer */
        uint8_t more[160];
        memset(more, 0xff, sizeof more);
        memcpy(more, m, n);
        CHECK(whole(metadata(more, n + 1, v, ample), v));
        CHECK(whole(metadata(more, sizeof more, v, exact), v));
        for (int t = 0; t < 5; t++) {
            size_t room[5], cut[5];
            memcpy(room, exact, sizeof room);
            memcpy(cut, exact, sizeof cut);
            /* one row too few, and a cut row */
            room[t] -= wide[t];
            CHECK(no_metadata(metadata(m, n, v, room), 10, 0, (int64_t)needs[t]));
            cut[t]--;
            CHECK(no_metadata(metadata(m, n, v, cut), 10, 0, (int64_t)needs[t]));
            /* a cell more is no row */
            cut[t] += 2;
            CHECK(whole(metadata(m, n, v, cut), v));
            /* the first that is too small is told, not one behind it */
            for (int u = t + 1; u < 5; u++)
                room[u] = 0;
            CHECK(no_metadata(metadata(m, n, v, room), 10, 0, (int64_t)needs[t]));
        }
        CHECK(no_metadata(metadata(m, n, v, no_room), 10, 0, 2));
        CHECK(no_metadata(metadata(none, 0, v, ample), 3, 0, 0));
        CHECK(no_metadata(metadata(large, BEFROLAN_MOST + 1, v, ample), 2, 0, 0));
    }
    static const int64_t others[4] = {-1, 5, -32768, 32767};
    for (int i = 0; i < 4; i++) {
        CHECK(no_metadata(metadata(M0, 124, others[i], ample), 1, 0, 0));
        CHECK(no_metadata(metadata(large, BEFROLAN_MOST + 1, others[i], no_room), 1, 0, 0));
    }
    /* nothing but zeros: no brokers, an empty cluster, controller 0, no topics */
    CHECK(own(metadata(large, BEFROLAN_MOST, 0, no_room), 8, C(0, 0, 0, 0, 0, 0, 0, 0, 0)) && unfilled());
    CHECK(own(metadata(large, BEFROLAN_MOST, 1, no_room), 12, C(0, 0, 0, 0, 0, 0, 2, 0, 0)) && unfilled());
    CHECK(own(metadata(large, BEFROLAN_MOST, 2, no_room), 14, C(0, 0, 0, 2, 6, 0, 2, 0, 0)) && unfilled());
    CHECK(own(metadata(large, BEFROLAN_MOST, 3, no_room), 18, C(2, 0, 0, 2, 10, 0, 2, 0, 0)) && unfilled());
    CHECK(own(metadata(large, BEFROLAN_MOST, 4, no_room), 18, C(2, 0, 0, 2, 10, 0, 2, 0, 0)) && unfilled());
    /* null arrays of brokers, topics and partitions are empty ones */
    CHECK(own(metadata(B(NONE, NONE), 8, 0, no_room), 8, C(0, 0, 0, 0, 0, 0, 0, 0, 0)) && unfilled());
    CHECK(own(metadata(B(NONE, COUNT(1), 0, 0, 0, 0, NONE), 16, 0, ROOM(0, 5, 0, 0, 0)), 16, C(0, 0, 0, 0, 0, 0, 0, 0, 1)));
    CHECK(filled(no_cells, 0, C(0, 12, 0, -1, 0), 5, no_cells, 0, no_cells, 0, no_cells, 0));
    /* the example of the rules, at 1 */
    CHECK(own(metadata(B(COUNT(1), COUNT(1), 0, 1, 0x68, 0, 0, 0x23, 0x84, 0xff, 0xff, COUNT(1), COUNT(1), 0, 0, 0, 1, 0x74, 1, COUNT(1),
                         0, 0, COUNT(0), COUNT(1), COUNT(2), COUNT(1), COUNT(2), NONE), 61, 1, ROOM(7, 5, 5, 2, 0)),
              61, C(0, 0, 1, 0, 0, 0, 2, 1, 1)));
    CHECK(filled(C(1, 10, 1, 9092, 1, 0, 0), 7, C(0, 29, 1, 1, 1), 5, C(0, 0, 1, 2, -1), 5, C(1, 2), 2, no_cells, 0));
    /* the widest and the lowest numbers */
    CHECK(own(metadata(B(COUNT(1), 0x80, 0, 0, 0, 0, 0, 0x7f, 0xff, 0xff, 0xff, COUNT(1), 0x80, 0, 0, 0, NONE), 26, 0, ROOM(7, 5, 0, 0, 0)),
              26, C(0, 0, 1, 0, 0, 0, 0, 0, 1)));
    CHECK(filled(C(-INT64_C(2147483648), 10, 0, 2147483647, 0, 0, 0), 7, C(-32768, 22, 0, -1, 0), 5, no_cells, 0, no_cells, 0, no_cells, 0));
}

/* where the primitives of M0 and M4 start */
static const uint8_t starts0[] = {0, 4, 8, 12, 16, 20, 23, 27, 31, 33, 36, 40, 42, 46, 50, 54, 58, 62, 66, 68, 72, 76, 80, 84,
                                  88, 90, 94, 98, 100, 104, 108, 112, 116, 120, 124};
static const uint8_t starts4[] = {0, 4, 8, 12, 16, 20, 22, 26, 29, 33, 36, 38, 42, 46, 48, 51, 52, 56, 58, 62, 66, 70, 74, 78, 82, 84, 88, 92, 96, 100,
                                  104, 106, 110, 111, 115, 117, 121, 125, 129, 133, 137, 141};

/* a body cut anywhere: 3 at the primitive that is not all there, for the reader and for the lookup of a broker at the front */
static void cut(const uint8_t *m, int64_t v, const uint8_t *starts, size_t n)
{
    for (size_t i = 0; i + 1 < n; i++)
        for (size_t k = starts[i]; k < starts[i + 1]; k++) {
            CHECK(no_metadata(metadata(m, k, v, ample), 3, starts[i], 0));
            CHECK(no_host(m, k, v, 1, 3, starts[i]));
        }
}

static void metadata_refused(void)
{
    cut(M0, 0, starts0, sizeof starts0);
    cut(M4, 4, starts4, sizeof starts4);
    /* counts: of brokers, topics, partitions, replicas, in sync */
    BAD(0, 4, 0, BELOW);
    BAD(3, 4, 4, COUNT(0), BELOW);
    BAD(0, 4, 4, NONE, BELOW);
    BAD(0, 4, 12, NONE, COUNT(1), 0, 0, 0, 0, BELOW);
    BAD(0, 4, 26, NONE, COUNT(1), 0, 0, 0, 0, COUNT(1), 0, 0, COUNT(0), COUNT(1), BELOW);
    BAD(0, 4, 30, NONE, COUNT(1), 0, 0, 0, 0, COUNT(1), 0, 0, COUNT(0), COUNT(1), NONE, BELOW);
    BAD(0, 4, 0, 0x80, 0, 0, 0);
    /* texts: a host, a rack, a cluster, a topic's name */
    BAD(0, 4, 8, COUNT(1), COUNT(1), 0xff, 0xff);
    BAD(1, 4, 14, COUNT(1), COUNT(1), 0, 0, COUNT(0), 0xff, 0xfe);
    BAD(2, 4, 4, NONE, 0xff, 0xfe);
    BAD(0, 4, 10, NONE, COUNT(1), 0, 0, 0xff, 0xff);
    BAD(0, 7, 10, COUNT(1), COUNT(1), 0, 2, 0xc0, 0x80);
    BAD(1, 7, 16, COUNT(1), COUNT(1), 0, 0, COUNT(0), 0, 1, 0xff);
    BAD(2, 7, 6, NONE, 0, 3, 0xed, 0xa0, 0x80);
    BAD(4, 7, 10, COUNT(0), NONE, 0, 4, 0xf4, 0x90, 0x80, 0x80);
    BAD(0, 7, 12, NONE, COUNT(1), 0, 0, 0, 1, 0x80);
    BAD(0, 7, 15, NONE, COUNT(1), 0, 0, 0, 5, 0xc3, 0xa9, 't', 0xc3, 0x28);
    /* contents cut short come before contents that are no text */
    BAD(0, 3, 8, COUNT(1), COUNT(1), 0, 3, 0xc0, 0x80);
    /* the largest counts, with nothing or with one item behind them */
    BAD(0, 3, 4, 0x7f, 0xff, 0xff, 0xff);
    BAD(0, 3, 8, NONE, 0x7f, 0xff, 0xff, 0xff);
    BAD(0, 3, 16, NONE, 0x7f, 0xff, 0xff, 0xff, 0, 0, 0, 0, NONE);
    BAD(4, 3, 18, COUNT(0), NONE, 0xff, 0xff, COUNT(0), 0x7f, 0xff, 0xff, 0xff);
    BAD(0, 3, 16, NONE, COUNT(1), 0, 0, 0, 0, 0x7f, 0xff, 0xff, 0xff);
    BAD(0, 3, 34, NONE, COUNT(1), 0, 0, 0, 0, COUNT(1), 0, 0, COUNT(0), COUNT(1), 0x7f, 0xff, 0xff, 0xff, COUNT(1));
    BAD(0, 3, 34, NONE, COUNT(1), 0, 0, 0, 0, COUNT(1), 0, 0, COUNT(0), COUNT(1), NONE, 0x7f, 0xff, 0xff, 0xff);
}

static void hosts(void)
{
    for (int64_t v = 0; v < 5; v++) {
        const uint8_t *m = bodies[v].bytes;
        size_t n = bodies[v].size;
        CHECK(host(m, n, v, 1, bodies[v].brokers[1], 2));
        CHECK(host(m, n, v, 2, bodies[v].brokers[8], 1));
        /* neither a leader that is no broker, nor a number of more than 32 bits */
        CHECK(no_host(m, n, v, -1, 0, 0));
        CHECK(no_host(m, n, v, 0, 0, 0));
        CHECK(no_host(m, n, v, (INT64_C(1) << 32) + 1, 0, 0));
        CHECK(no_host(m, n, v, INT64_MIN + 2, 0, 0));
        CHECK(no_host(none, 0, v, 1, 3, 0));
        CHECK(no_host(large, BEFROLAN_MOST + 1, v, 1, 2, 0));
        CHECK(no_host(large, BEFROLAN_MOST, v, 0, 0, 0));
    }
    CHECK(no_host(M0, 124, -1, 1, 1, 0));
    CHECK(no_host(M0, 124, 5, 1, 1, 0));
    CHECK(no_host(large, BEFROLAN_MOST + 1, 5, 1, 1, 0));
    /* the example of the rules: an empty host, one of a byte, none */
    static const uint8_t two[] = {COUNT(2), COUNT(1), 0, 0, 0, 0, 0x23, 0x84, COUNT(2), 0, 1, 'h', 0, 0, 0x23, 0x84, COUNT(0), 0xff};
    CHECK(host(two, 29, 0, 1, 10, 0));
    CHECK(host(two, 29, 0, 2, 20, 1));
    CHECK(no_host(two, 29, 0, 3, 0, 0));
    /* a byte behind the body, and a byte too few */
    CHECK(host(two, 30, 0, 2, 20, 1));
    CHECK(no_host(two, 28, 0, 2, 3, 25));
    /* two brokers with one number: the first, also where its host is empty */
    CHECK(host(B(COUNT(2), COUNT(7), 0, 1, 'a', COUNT(1), COUNT(7), 0, 2, 'b', 'c', COUNT(2), NONE), 31, 0, 7, 10, 1));
    CHECK(host(B(COUNT(2), COUNT(7), 0, 0, COUNT(1), COUNT(7), 0, 2, 'b', 'c', COUNT(2), NONE), 30, 0, 7, 10, 0));
    /* a negative node is that number, and no other */
    CHECK(host(B(COUNT(1), NONE, 0, 1, 'n', COUNT(1), COUNT(0)), 19, 0, -1, 10, 1));
    CHECK(no_host(B(COUNT(1), NONE, 0, 1, 'n', COUNT(1), COUNT(0)), 19, 0, INT64_C(4294967295), 0, 0));
    /* damage behind the broker: in the next one, in a rack, in a topic */
    CHECK(no_host(B(COUNT(2), COUNT(1), 0, 1, 'h', COUNT(1), COUNT(2), 0, 1, 0xff, COUNT(1), COUNT(0)), 30, 0, 1, 7, 21));
    CHECK(no_host(B(COUNT(1), COUNT(1), 0, 1, 'h', COUNT(1), 0xff, 0xfe, COUNT(1), COUNT(0)), 25, 1, 1, 4, 15));
    CHECK(no_host(B(COUNT(1), COUNT(1), 0, 1, 'h', COUNT(1), COUNT(1), 0, 0, 0xff, 0xff, COUNT(0)), 27, 0, 1, 4, 21));
    /* more brokers than any table here has rows: there is no 10 */
    static uint8_t many[4 + 1000 * 10 + 4] = {0, 0, 3, 0xe8};
    many[4 + 999 * 10 + 3] = 9;
    CHECK(host(many, sizeof many, 0, 9, 10000, 0));
    CHECK(host(many, sizeof many, 0, 0, 10, 0));
    CHECK(no_host(many, sizeof many, 0, 8, 0, 0));
    CHECK(no_metadata(metadata(many, sizeof many, 0, ample), 10, 0, 1000));
}

/* ---- Metadata requests, written */

static befrolan_numbers put_metadata(size_t room, int64_t v, const uint8_t *lent, size_t size, const int64_t *row, const int64_t *topics, size_t cells)
{
    return befrolan_write_metadata_request(out(), room, v, lent, size, row, topics, cells);
}

/* `n` bytes at the front of the output: in more room, in just enough, and refused in a byte less */
static void asks(int line, int64_t v, const uint8_t *lent, size_t size, const int64_t *row, const int64_t *topics, size_t cells, const uint8_t *bytes, size_t n)
{
    check(__FILE__, line, "in more room", USED(put_metadata(64, v, lent, size, row, topics, cells), (int64_t)n) && wrote(bytes, n));
    check(__FILE__, line, "in just enough", USED(put_metadata(n, v, lent, size, row, topics, cells), (int64_t)n) && wrote(bytes, n));
    check(__FILE__, line, "in a byte less", not_written(put_metadata(n - 1, v, lent, size, row, topics, cells), 10, (int64_t)n));
}
#define ASKS(v, row, topics, cells, ...) asks(__LINE__, v, lent, 3, row, topics, cells, B(__VA_ARGS__), LEN(__VA_ARGS__))

static void metadata_written(void)
{
    static const uint8_t lent[] = {'a', 'b', 'c'};
    static const int64_t names[] = {0, 1, 1, 2};
    for (int64_t v = 0; v < 4; v++) {
        /* null, none, and two names; auto-creation is dropped */
        ASKS(v, C(-1, 0, 0), no_cells, 0, NONE);
        ASKS(v, C(0, 2, 0), no_cells, 0, COUNT(0));
        ASKS(v, C(2, 0, 0), names, 4, COUNT(2), 0, 1, 'a', 0, 2, 'b', 'c');
        ASKS(v, C(2, 2, 1), names, 4, COUNT(2), 0, 1, 'a', 0, 2, 'b', 'c');
        ASKS(v, C(2, 2, 0), names, 4, COUNT(2), 0, 1, 'a', 0, 2, 'b', 'c');
        CHECK(not_written(put_metadata(0, v, lent, 3, C(-1, 0, 0), no_cells, 0), 10, 4));
    }
    /* unset is true, whatever the flag; any kind but 0 is set; any flag but 0 is true */
    ASKS(4, C(-1, 0, 0), no_cells, 0, NONE, 1);
    ASKS(4, C(-1, 0, 9), no_cells, 0, NONE, 1);
    ASKS(4, C(-1, 2, 0), no_cells, 0, NONE, 0);
    ASKS(4, C(0, 2, 1), no_cells, 0, COUNT(0), 1);
    ASKS(4, C(0, 1, 0), no_cells, 0, COUNT(0), 0);
    ASKS(4, C(0, INT64_MIN, 0), no_cells, 0, COUNT(0), 0);
    ASKS(4, C(0, -1, INT64_MIN), no_cells, 0, COUNT(0), 1);
    ASKS(4, C(2, 0, 0), names, 4, COUNT(2), 0, 1, 'a', 0, 2, 'b', 'c', 1);
    ASKS(4, C(2, 2, 0), names, 4, COUNT(2), 0, 1, 'a', 0, 2, 'b', 'c', 0);
    /* one part twice, the empty part at the end, a cut row behind */
    ASKS(1, C(2, 0, 0), C(0, 3, 0, 3), 4, COUNT(2), 0, 3, 'a', 'b', 'c', 0, 3, 'a', 'b', 'c');
    ASKS(1, C(1, 0, 0), C(3, 0, 9), 3, COUNT(1), 0, 0);
    ASKS(1, C(-1, 0, 0), C(9), 1, NONE);

    for (int64_t v = 0; v < 5; v++) {
        /* counts other than the rows, null with rows, below null */
        CHECK(not_written(put_metadata(64, v, lent, 3, C(1, 0, 0), names, 4), 13, 0));
        CHECK(not_written(put_metadata(64, v, lent, 3, C(3, 0, 0), names, 4), 13, 0));
        CHECK(not_written(put_metadata(64, v, lent, 3, C(2, 0, 0), names, 3), 13, 0));
        CHECK(not_written(put_metadata(64, v, lent, 3, C(0, 0, 0), names, 2), 13, 0));
        CHECK(not_written(put_metadata(64, v, lent, 3, C(-1, 0, 0), names, 2), 13, 0));
        CHECK(not_written(put_metadata(64, v, lent, 3, C(-2, 0, 0), no_cells, 0), 13, 0));
        CHECK(not_written(put_metadata(64, v, lent, 3, C(INT64_MIN, 0, 0), no_cells, 0), 13, 0));
        /* parts outside what is lent; sums do not wrap */
        CHECK(not_written(put_metadata(64, v, lent, 3, C(1, 0, 0), C(2, 2), 2), 13, 0));
        CHECK(not_written(put_metadata(64, v, lent, 3, C(1, 0, 0), C(4, 0), 2), 13, 0));
        CHECK(not_written(put_metadata(64, v, lent, 3, C(1, 0, 0), C(0, -1), 2), 13, 0));
        CHECK(not_written(put_metadata(64, v, lent, 3, C(1, 0, 0), C(-1, 1), 2), 13, 0));
        CHECK(not_written(put_metadata(64, v, lent, 3, C(1, 0, 0), C(-1, 2), 2), 13, 0));
        CHECK(not_written(put_metadata(64, v, lent, 3, C(1, 0, 0), C(INT64_MAX, INT64_MAX), 2), 13, 0));
        CHECK(not_written(put_metadata(64, v, lent, 0, C(1, 0, 0), C(0, 1), 2), 13, 0));
        /* a name that is no text: before 10, and behind the 13 of a later row */
        CHECK(not_written(put_metadata(64, v, B(0xc0, 0x80), 2, C(1, 0, 0), C(0, 2), 2), 7, 0));
        CHECK(not_written(put_metadata(0, v, B(0xc0, 0x80), 2, C(1, 0, 0), C(0, 2), 2), 7, 0));
        CHECK(not_written(put_metadata(64, v, B(0xc0, 0x80), 2, C(2, 0, 0), C(0, 2, 0, 3), 4), 13, 0));
        CHECK(USED(put_metadata(BYTES, v, large, 32767, C(1, 0, 0), C(0, 32767), 2), v < 4 ? 32773 : 32774));
        CHECK(not_written(put_metadata(BYTES, v, large, 32768, C(1, 0, 0), C(0, 32768), 2), 11, 0));
        CHECK(not_written(put_metadata(0, v, large, 32768, C(1, 0, 0), C(0, 32768), 2), 11, 0));
        CHECK(not_written(put_metadata(BYTES, v, large, 32768, C(2, 0, 0), C(0, 32768), 2), 13, 0));
    }
    CHECK(not_written(put_metadata(64, 5, lent, 3, C(2, 0, 0), names, 4), 1, 0));
    CHECK(not_written(put_metadata(64, -1, lent, 3, C(2, 0, 0), names, 4), 1, 0));
    CHECK(not_written(put_metadata(64, -32768, lent, 3, C(-1, 0, 0), no_cells, 0), 1, 0));
    CHECK(not_written(put_metadata(64, 5, lent, 3, C(1, 0, 0), C(2, 2), 2), 1, 0));
    /* in the order of the names; in one name its length first */
    static uint8_t bad[32768];
    memset(bad, 0xff, sizeof bad);
    CHECK(not_written(put_metadata(64, 1, bad, 32768, C(2, 0, 0), C(0, 1, 0, 32768), 4), 7, 0));
    CHECK(not_written(put_metadata(64, 1, bad, 32768, C(2, 0, 0), C(0, 32768, 0, 1), 4), 11, 0));
    CHECK(not_written(put_metadata(64, 1, bad, 32768, C(2, 0, 0), C(0, 0, 0, 1), 4), 7, 0));

    /* 31 names of 32,767 bytes and one of 32,731: 4 + 31 * 32,769 + 32,733 bytes, which is the most */
    int64_t rows[64] = {0};
    for (int i = 0; i < 32; i++)
        rows[2 * i + 1] = 32767;
    rows[63] = 32731;
    CHECK(USED(put_metadata(BEFROLAN_MOST, 3, large, 32767, C(32, 2, 1), rows, 64), BEFROLAN_MOST));
    CHECK(not_written(put_metadata(BEFROLAN_MOST - 1, 3, large, 32767, C(32, 2, 1), rows, 64), 10, BEFROLAN_MOST));
    CHECK(not_written(put_metadata(BYTES, 4, large, 32767, C(32, 2, 1), rows, 64), 2, 0));
    rows[63] = 32732;
    CHECK(not_written(put_metadata(BYTES, 3, large, 32767, C(32, 2, 1), rows, 64), 2, 0));
    CHECK(not_written(put_metadata(0, 3, large, 32767, C(32, 2, 1), rows, 64), 2, 0));
}

void metadata_and_hosts(void)
{
    metadata_read();
    metadata_refused();
    hosts();
    metadata_written();
}
