/* The ends of the interface: versions that no message has, whatever their low bits are; and slices of length 0 whose
 * pointer is null. A pointer that is null would end the program where a call read or wrote through it.
 */
#include "lent.h"

static int64_t more[3][GUARD + CELLS + GUARD];

/* all tables are lent anew, and all of them are as they were */
static void lend(void)
{
    table(first);
    table(second);
    for (int i = 0; i < 3; i++)
        table(more[i]);
}

static int untouched(void)
{
    for (int i = 0; i < 3; i++)
        if (!holds(more[i], no_cells, 0))
            return 0;
    return holds(first, no_cells, 0) && holds(second, no_cells, 0);
}

/* the first numbers of an answer are those, and all others are 0 */
static int same(const void *answer, size_t size, const int64_t *expected, size_t n)
{
    int64_t got[16] = {0}, wanted[16] = {0};
    memcpy(got, answer, size);
    memcpy(wanted, expected, n);
    return memcmp(got, wanted, sizeof got) == 0;
}

#define IS(type, call, ...) \
    do { \
        befrolan_##type answered = call; \
        CHECK(same(&answered, sizeof answered, C(__VA_ARGS__), sizeof C(__VA_ARGS__))); \
    } while (0)

/* answered with these numbers, and the tables, or the output, are as they were */
#define LEAVES(type, call, ...) \
    do { \
        lend(); \
        IS(type, call, __VA_ARGS__); \
        CHECK(untouched()); \
    } while (0)
#define WRITES_NOTHING(call, ...) \
    do { \
        out(); \
        IS(numbers, call, __VA_ARGS__); \
        CHECK(wrote(none, 0)); \
    } while (0)
#define WRITES(call, ...) \
    do { \
        out(); \
        IS(numbers, call, 0, 0, 0, (int64_t)LEN(__VA_ARGS__)); \
        CHECK(wrote(B(__VA_ARGS__), LEN(__VA_ARGS__))); \
    } while (0)

/* fronts of tables, between their guards */
#define T1 (first + GUARD), CELLS
#define T2 (second + GUARD), CELLS
#define T3 (more[0] + GUARD), CELLS
#define T4 (more[1] + GUARD), CELLS
#define T5 (more[2] + GUARD), CELLS

/* ---- bodies of the first version and of the last: one row in each table, where the version has it */

/* an item (18, 0 to 3) */
static const uint8_t E11[15] = {0, 0, 2, 0, 18, 0, 0, 0, 3, 0, 0, 0, 0, 0, 0};
/* an item (3, 0 to 4) with a tag 7 of two bytes, throttle 9, an own tag 1 of none */
static const uint8_t TAGGED[21] = {0, 0, 2, 0, 3, 0, 0, 0, 4, 1, 7, 2, 0xaa, 0xbb, 0, 0, 0, 9, 1, 1, 0};
/* broker 1, host "h", port 9; topic "t"; its partition 0, led by 1, with a replica and one in sync */
static const uint8_t METADATA0[54] = {COUNT(1), COUNT(1), 0, 1, 'h', COUNT(9), COUNT(1), 0, 0, 0, 1, 't', COUNT(1),
                                      0, 0, COUNT(0), COUNT(1), COUNT(1), COUNT(1), COUNT(1), COUNT(1)};
static const uint8_t METADATA4[67] = {COUNT(0), COUNT(1), COUNT(1), 0, 1, 'h', COUNT(9), 0xff, 0xff, 0xff, 0xff, COUNT(1), COUNT(1), 0, 0, 0, 1, 't', 0, COUNT(1),
                                      0, 0, COUNT(0), COUNT(1), COUNT(1), COUNT(1), COUNT(1), COUNT(1)};
/* topic "t"; its partition 0, with an aborted transaction at 4, and no records */
static const uint8_t FETCH0[29] = {COUNT(1), 0, 1, 't', COUNT(1), COUNT(0), 0, 0, LONG(5), COUNT(0)};
static const uint8_t FETCH4[61] = {COUNT(0), COUNT(1), 0, 1, 't', COUNT(1), COUNT(0), 0, 0, LONG(5), LONG(4), COUNT(1), LONG(6), LONG(3), COUNT(0)};

/* frames: key 18, version 3, correlation number 7, client's name "g"; and a tag 5 with the data "A" in each; no body */
static const uint8_t FRAME2[19] = {COUNT(15), 0, 18, 0, 3, COUNT(7), 0, 1, 'g', 1, 5, 1, 'A'};
static const uint8_t FRAME1[12] = {COUNT(8), COUNT(7), 1, 5, 1, 'A'};
static const int64_t request_header[7] = {18, 3, 7, 0, 0, 0, -1}, response_header[2] = {7, -1};

/* own rows to write: no items, no topics, everything unset */
static const int64_t response[5] = {0, 0, 0, 0, -1}, request[7] = {0, 0, 0, 0, 0, 0, -1}, metadata[3] = {0, 0, 0}, fetch[8] = {-1, 500, 1, 0, 0, 0, 0, 0};
#define FETCH_HEAD NONE, 0, 0, 1, 0xf4, COUNT(1)

/* ---- versions */

static void outside(int64_t v)
{
    for (uint64_t w = 0; w < 2; w++) {
        LEAVES(response_numbers, befrolan_read_api_versions_response(E9, 12, v, w, T1, T2), 1);
        LEAVES(response_numbers, befrolan_read_api_versions_response(E11, 15, v, w, T1, T2), 1);
    }
    LEAVES(request_numbers, befrolan_read_api_versions_request(B(1, 1, 0), 3, v, T1), 1);
    LEAVES(metadata_numbers, befrolan_read_metadata_response(METADATA0, 54, v, T1, T2, T3, T4, T5), 1);
    LEAVES(metadata_numbers, befrolan_read_metadata_response(METADATA4, 67, v, T1, T2, T3, T4, T5), 1);
    LEAVES(host_numbers, befrolan_find_host(METADATA0, 54, v, 1), 1);
    LEAVES(host_numbers, befrolan_find_host(METADATA4, 67, v, 1), 1);
    LEAVES(fetch_numbers, befrolan_read_fetch_response(FETCH0, 29, v, T1, T2, T3), 1);
    LEAVES(fetch_numbers, befrolan_read_fetch_response(FETCH4, 61, v, T1, T2, T3), 1);
    WRITES_NOTHING(befrolan_write_api_versions_response(out(), 64, v, none, 0, response, no_cells, 0, no_cells, 0), 1);
    WRITES_NOTHING(befrolan_write_api_versions_request(out(), 64, v, none, 0, request, no_cells, 0), 1);
    WRITES_NOTHING(befrolan_write_metadata_request(out(), 64, v, none, 0, metadata, no_cells, 0), 1);
    WRITES_NOTHING(befrolan_write_fetch_request(out(), 64, v, none, 0, fetch, no_cells, 0, no_cells, 0), 1);
    LEAVES(request_frame_numbers, befrolan_read_request_frame(FRAME2, 19, v, T1), 1);
    LEAVES(response_frame_numbers, befrolan_read_response_frame(FRAME1, 12, v, T1), 1);
    WRITES_NOTHING(befrolan_write_request_frame(out(), 64, v, none, 0, request_header, no_cells, 0, none, 0), 1);
    WRITES_NOTHING(befrolan_write_response_frame(out(), 64, v, none, 0, response_header, no_cells, 0, none, 0), 1);
    /* before what a null slice is refused for */
    LEAVES(response_numbers, befrolan_read_api_versions_response(NULL, 0, v, 0, NULL, 0, NULL, 0), 1);
    LEAVES(metadata_numbers, befrolan_read_metadata_response(NULL, 0, v, NULL, 0, NULL, 0, NULL, 0, NULL, 0, NULL, 0), 1);
    LEAVES(fetch_numbers, befrolan_read_fetch_response(NULL, 0, v, NULL, 0, NULL, 0, NULL, 0), 1);
    LEAVES(request_frame_numbers, befrolan_read_request_frame(NULL, 0, v, NULL, 0), 1);
    LEAVES(response_frame_numbers, befrolan_read_response_frame(NULL, 0, v, NULL, 0), 1);
    IS(numbers, befrolan_write_request_frame(NULL, 0, v, NULL, 0, request_header, NULL, 0, NULL, 0), 1);
    IS(numbers, befrolan_write_response_frame(NULL, 0, v, NULL, 0, response_header, NULL, 0, NULL, 0), 1);
}

/* nothing but the version refuses them: each is taken at its own */
static void inside(void)
{
    lend();
    IS(response_numbers, befrolan_read_api_versions_response(E9, 12, 0, 1, T1, T2), 0, 0, 0, 12, 0, 1, 0, 0, -1);
    IS(response_numbers, befrolan_read_api_versions_response(E11, 15, 3, 1, T1, T2), 0, 0, 0, 15, 0, 1, 2);
    IS(request_numbers, befrolan_read_api_versions_request(B(1, 1, 0), 3, 0, T1), 0, 0, 0, 0, 0, 0, 0, 0, 0, 0, -1);
    IS(request_numbers, befrolan_read_api_versions_request(B(1, 1, 0), 3, 3, T1), 0, 0, 0, 3, 2, 1, 0, 2, 2, 0, 0);
    IS(metadata_numbers, befrolan_read_metadata_response(METADATA0, 54, 0, T1, T2, T3, T4, T5), 0, 0, 0, 54, 0, 0, 1, 0, 0, 0, 0, 0, 1);
    IS(metadata_numbers, befrolan_read_metadata_response(METADATA4, 67, 4, T1, T2, T3, T4, T5), 0, 0, 0, 67, 2, 0, 1, 1, 0, 0, 2, 1, 1);
    IS(host_numbers, befrolan_find_host(METADATA0, 54, 0, 1), 0, 0, 0, 1, 10, 1);
    IS(host_numbers, befrolan_find_host(METADATA4, 67, 4, 1), 0, 0, 0, 1, 14, 1);
    IS(fetch_numbers, befrolan_read_fetch_response(FETCH0, 29, 0, T1, T2, T3), 0, 0, 0, 29, 0, 0, 1);
    IS(fetch_numbers, befrolan_read_fetch_response(FETCH4, 61, 4, T1, T2, T3), 0, 0, 0, 61, 2, 0, 1);
    IS(request_frame_numbers, befrolan_read_request_frame(FRAME2, 19, 1, T1), 0, 0, 0, 19, 18, 3, 7, 2, 14, 1, -1, 15, 4);
    IS(request_frame_numbers, befrolan_read_request_frame(FRAME2, 19, 2, T1), 0, 0, 0, 19, 18, 3, 7, 2, 14, 1, 1, 19, 0);
    IS(response_frame_numbers, befrolan_read_response_frame(FRAME1, 12, 0, T1), 0, 0, 0, 12, 7, -1, 8, 4);
    IS(response_frame_numbers, befrolan_read_response_frame(FRAME1, 12, 1, T1), 0, 0, 0, 12, 7, 1, 12);
}

/* ---- slices of length 0 with a null pointer: answered as any other empty slice */

static void null_api_versions(void)
{
    for (int64_t v = 0; v < 4; v++)
        for (uint64_t w = 0; w < 2; w++)
            LEAVES(response_numbers, befrolan_read_api_versions_response(NULL, 0, v, w, NULL, 0, NULL, 0), 3);
    LEAVES(response_numbers, befrolan_read_api_versions_response(B(0, 0, 0, 0, 0, 0), 6, 0, 1, NULL, 0, NULL, 0), 0, 0, 0, 6, 0, 0, 0, 0, -1);
    LEAVES(response_numbers, befrolan_read_api_versions_response(E9, 12, 0, 1, NULL, 0, T2), 10, 0, 1);
    LEAVES(response_numbers, befrolan_read_api_versions_response(TAGGED, 21, 3, 1, T1, NULL, 0), 10, 0, 2);
    lend();
    IS(response_numbers, befrolan_read_api_versions_response(E9, 12, 0, 1, T1, NULL, 0), 0, 0, 0, 12, 0, 1, 0, 0, -1);
    CHECK(holds(first, C(18, 0, 3, -1), 4));
    for (int64_t v = 0; v < 3; v++)
        LEAVES(request_numbers, befrolan_read_api_versions_request(NULL, 0, v, NULL, 0), 0, 0, 0, 0, 0, 0, 0, 0, 0, 0, -1);
    LEAVES(request_numbers, befrolan_read_api_versions_request(NULL, 0, 3, NULL, 0), 3);
    LEAVES(request_numbers, befrolan_read_api_versions_request(NULL, 0, 3, T1), 3);
    LEAVES(request_numbers, befrolan_read_api_versions_request(B(1, 1, 0), 3, 3, NULL, 0), 0, 0, 0, 3, 2, 1, 0, 2, 2, 0, 0);
    LEAVES(request_numbers, befrolan_read_api_versions_request(B(1, 1, 1, 7, 0), 5, 3, NULL, 0), 10, 0, 1);

    IS(numbers, befrolan_write_api_versions_response(NULL, 0, 0, NULL, 0, response, NULL, 0, NULL, 0), 10, 0, 6);
    IS(numbers, befrolan_write_api_versions_response(NULL, 0, 2, NULL, 0, response, NULL, 0, NULL, 0), 10, 0, 10);
    IS(numbers, befrolan_write_api_versions_response(NULL, 0, 3, NULL, 0, response, NULL, 0, NULL, 0), 10, 0, 8);
    WRITES(befrolan_write_api_versions_response(out(), 64, 0, NULL, 0, response, NULL, 0, NULL, 0), 0, 0, 0, 0, 0, 0);
    WRITES(befrolan_write_api_versions_response(out(), 64, 3, NULL, 0, response, NULL, 0, NULL, 0), 0, 0, 1, 0, 0, 0, 0, 0);
    /* a tag without data is a part of lent bytes that there are not; one with data is none */
    WRITES(befrolan_write_api_versions_response(out(), 64, 3, NULL, 0, C(0, 0, 0, 0, 1), NULL, 0, C(7, 0, 0), 3), 0, 0, 1, 0, 0, 0, 0, 1, 7, 0);
    WRITES_NOTHING(befrolan_write_api_versions_response(out(), 64, 3, NULL, 0, C(0, 0, 0, 0, 1), NULL, 0, C(7, 0, 1), 3), 13);
    WRITES_NOTHING(befrolan_write_api_versions_response(out(), 64, 3, NULL, 0, C(0, 0, 0, 0, 1), NULL, 0, NULL, 0), 13);
    WRITES_NOTHING(befrolan_write_api_versions_response(out(), 64, 0, NULL, 0, C(0, 1, 0, 0, -1), NULL, 0, NULL, 0), 13);
    for (int64_t v = 0; v < 3; v++)
        IS(numbers, befrolan_write_api_versions_request(NULL, 0, v, NULL, 0, request, NULL, 0), 0);
    IS(numbers, befrolan_write_api_versions_request(NULL, 0, 3, NULL, 0, request, NULL, 0), 10, 0, 3);
    WRITES(befrolan_write_api_versions_request(out(), 64, 3, NULL, 0, request, NULL, 0), 1, 1, 0);
    WRITES(befrolan_write_api_versions_request(out(), 64, 3, NULL, 0, C(2, 0, 0, 2, 0, 0, 0), NULL, 0), 1, 1, 0);
    WRITES(befrolan_write_api_versions_request(out(), 64, 3, NULL, 0, C(0, 0, 0, 0, 0, 0, 1), C(7, 0, 0), 3), 1, 1, 1, 7, 0);
    WRITES_NOTHING(befrolan_write_api_versions_request(out(), 64, 3, NULL, 0, C(2, 0, 1, 0, 0, 0, 0), NULL, 0), 13);
    WRITES_NOTHING(befrolan_write_api_versions_request(out(), 64, 3, NULL, 0, C(0, 0, 0, 0, 0, 0, 1), NULL, 0), 13);

    befrolan_agree(NULL, 0, table(first));
    CHECK(holds(first, C(18, -1, -1, 3, -1, -1, 1, -1, -1), 9));
}

static void null_metadata(void)
{
    for (int64_t v = 0; v < 5; v++) {
        LEAVES(metadata_numbers, befrolan_read_metadata_response(NULL, 0, v, NULL, 0, NULL, 0, NULL, 0, NULL, 0, NULL, 0), 3);
        LEAVES(metadata_numbers, befrolan_read_metadata_response(NULL, 0, v, T1, T2, T3, T4, T5), 3);
        LEAVES(host_numbers, befrolan_find_host(NULL, 0, v, 1), 3);
    }
    LEAVES(metadata_numbers, befrolan_read_metadata_response(B(COUNT(0), COUNT(0)), 8, 0, NULL, 0, NULL, 0, NULL, 0, NULL, 0, NULL, 0), 0, 0, 0, 8);
    LEAVES(metadata_numbers, befrolan_read_metadata_response(METADATA0, 54, 0, NULL, 0, NULL, 0, NULL, 0, NULL, 0, NULL, 0), 10, 0, 1);
    LEAVES(metadata_numbers, befrolan_read_metadata_response(METADATA0, 54, 0, NULL, 0, T2, T3, T4, T5), 10, 0, 1);
    LEAVES(metadata_numbers, befrolan_read_metadata_response(METADATA0, 54, 0, T1, NULL, 0, T3, T4, T5), 10, 0, 1);
    LEAVES(metadata_numbers, befrolan_read_metadata_response(METADATA0, 54, 0, T1, T2, NULL, 0, T4, T5), 10, 0, 1);
    LEAVES(metadata_numbers, befrolan_read_metadata_response(METADATA4, 67, 4, T1, T2, T3, NULL, 0, T5), 10, 0, 1);
    LEAVES(metadata_numbers, befrolan_read_metadata_response(METADATA4, 67, 4, T1, T2, T3, T4, NULL, 0), 10, 0, 1);

    for (int64_t v = 0; v < 5; v++)
        IS(numbers, befrolan_write_metadata_request(NULL, 0, v, NULL, 0, metadata, NULL, 0), 10, 0, v < 4 ? 4 : 5);
    WRITES(befrolan_write_metadata_request(out(), 64, 0, NULL, 0, metadata, NULL, 0), COUNT(0));
    WRITES(befrolan_write_metadata_request(out(), 64, 4, NULL, 0, C(-1, 0, 0), NULL, 0), NONE, 1);
    WRITES(befrolan_write_metadata_request(out(), 64, 0, NULL, 0, C(1, 0, 0), C(0, 0), 2), COUNT(1), 0, 0);
    WRITES_NOTHING(befrolan_write_metadata_request(out(), 64, 0, NULL, 0, C(1, 0, 0), C(0, 1), 2), 13);
    WRITES_NOTHING(befrolan_write_metadata_request(out(), 64, 0, NULL, 0, C(1, 0, 0), NULL, 0), 13);
}

static void null_fetch(void)
{
    for (int64_t v = 0; v < 5; v++) {
        LEAVES(fetch_numbers, befrolan_read_fetch_response(NULL, 0, v, NULL, 0, NULL, 0, NULL, 0), 3);
        LEAVES(fetch_numbers, befrolan_read_fetch_response(NULL, 0, v, T1, T2, T3), 3);
    }
    LEAVES(fetch_numbers, befrolan_read_fetch_response(B(COUNT(0)), 4, 0, NULL, 0, NULL, 0, NULL, 0), 0, 0, 0, 4);
    LEAVES(fetch_numbers, befrolan_read_fetch_response(B(COUNT(0), COUNT(0)), 8, 4, NULL, 0, NULL, 0, NULL, 0), 0, 0, 0, 8, 2);
    LEAVES(fetch_numbers, befrolan_read_fetch_response(FETCH4, 61, 4, NULL, 0, NULL, 0, NULL, 0), 10, 0, 1);
    LEAVES(fetch_numbers, befrolan_read_fetch_response(FETCH4, 61, 4, NULL, 0, T2, T3), 10, 0, 1);
    LEAVES(fetch_numbers, befrolan_read_fetch_response(FETCH4, 61, 4, T1, NULL, 0, T3), 10, 0, 1);
    LEAVES(fetch_numbers, befrolan_read_fetch_response(FETCH4, 61, 4, T1, T2, NULL, 0), 10, 0, 1);
    lend();
    IS(fetch_numbers, befrolan_read_fetch_response(FETCH0, 29, 0, T1, T2, NULL, 0), 0, 0, 0, 29, 0, 0, 1);
    CHECK(holds(first, C(6, 1, 1), 3) && holds(second, C(0, 0, 5, -1, 0, 29, 0), 7));

    IS(numbers, befrolan_write_fetch_request(NULL, 0, 0, NULL, 0, fetch, NULL, 0, NULL, 0), 10, 0, 16);
    IS(numbers, befrolan_write_fetch_request(NULL, 0, 3, NULL, 0, fetch, NULL, 0, NULL, 0), 10, 0, 20);
    IS(numbers, befrolan_write_fetch_request(NULL, 0, 4, NULL, 0, fetch, NULL, 0, NULL, 0), 10, 0, 21);
    WRITES(befrolan_write_fetch_request(out(), 64, 0, NULL, 0, fetch, NULL, 0, NULL, 0), FETCH_HEAD, COUNT(0));
    WRITES(befrolan_write_fetch_request(out(), 64, 4, NULL, 0, C(-1, 500, 1, 0, 0, 0, 0, 1), C(0, 0, 0), 3, NULL, 0), FETCH_HEAD, MOST32, 0, COUNT(1), 0, 0, COUNT(0));
    WRITES(befrolan_write_fetch_request(out(), 64, 0, NULL, 0, C(-1, 500, 1, 0, 0, 0, 0, 1), C(0, 0, 1), 3, C(2, 5, 3), 3),
           FETCH_HEAD, COUNT(1), 0, 0, COUNT(1), COUNT(2), LONG(5), COUNT(3));
    WRITES_NOTHING(befrolan_write_fetch_request(out(), 64, 0, NULL, 0, C(-1, 500, 1, 0, 0, 0, 0, 1), NULL, 0, NULL, 0), 13);
    WRITES_NOTHING(befrolan_write_fetch_request(out(), 64, 0, NULL, 0, C(-1, 500, 1, 0, 0, 0, 0, 1), C(0, 0, 1), 3, NULL, 0), 13);
    WRITES_NOTHING(befrolan_write_fetch_request(out(), 64, 0, NULL, 0, C(-1, 500, 1, 0, 0, 0, 0, 1), C(0, 1, 0), 3, NULL, 0), 13);
}

static void null_frames(void)
{
    LEAVES(request_frame_numbers, befrolan_read_request_frame(NULL, 0, 1, NULL, 0), 3);
    LEAVES(request_frame_numbers, befrolan_read_request_frame(NULL, 0, 2, T1), 3);
    LEAVES(response_frame_numbers, befrolan_read_response_frame(NULL, 0, 0, NULL, 0), 3);
    LEAVES(response_frame_numbers, befrolan_read_response_frame(NULL, 0, 1, T1), 3);
    LEAVES(request_frame_numbers, befrolan_read_request_frame(FRAME2, 19, 1, NULL, 0), 0, 0, 0, 19, 18, 3, 7, 2, 14, 1, -1, 15, 4);
    LEAVES(request_frame_numbers, befrolan_read_request_frame(FRAME2, 19, 2, NULL, 0), 10, 0, 1);
    LEAVES(response_frame_numbers, befrolan_read_response_frame(FRAME1, 12, 1, NULL, 0), 10, 0, 1);
    IS(numbers, befrolan_write_request_frame(NULL, 0, 1, NULL, 0, request_header, NULL, 0, NULL, 0), 10, 0, 14);
    IS(numbers, befrolan_write_request_frame(NULL, 0, 2, NULL, 0, request_header, NULL, 0, NULL, 0), 10, 0, 15);
    IS(numbers, befrolan_write_response_frame(NULL, 0, 0, NULL, 0, response_header, NULL, 0, NULL, 0), 10, 0, 8);
    IS(numbers, befrolan_write_response_frame(NULL, 0, 1, NULL, 0, response_header, NULL, 0, NULL, 0), 10, 0, 9);
    WRITES(befrolan_write_request_frame(out(), 64, 1, NULL, 0, request_header, NULL, 0, NULL, 0), COUNT(10), 0, 18, 0, 3, COUNT(7), 0xff, 0xff);
    WRITES(befrolan_write_request_frame(out(), 64, 2, NULL, 0, C(18, 3, 7, 2, 0, 0, 1), C(5, 0, 0), 3, NULL, 0), COUNT(13), 0, 18, 0, 3, COUNT(7), 0, 0, 1, 5, 0);
    WRITES(befrolan_write_response_frame(out(), 64, 1, NULL, 0, response_header, NULL, 0, NULL, 0), COUNT(5), COUNT(7), 0);
    WRITES_NOTHING(befrolan_write_request_frame(out(), 64, 1, NULL, 0, C(18, 3, 7, 2, 0, 1, -1), NULL, 0, NULL, 0), 13);
    WRITES_NOTHING(befrolan_write_response_frame(out(), 64, 0, NULL, 0, C(7, 1), NULL, 0, NULL, 0), 13);
}

static void null_primitives(void)
{
    /* a 0, false, no items, or contents without bytes, of each kind: as many zeros, or a single 1 */
    static const uint8_t sizes[18] = {1, 2, 4, 8, 1, 1, 1, 1, 4, 0, 4, 4, 0, 4, 2, 2, 0, 0}, zeros[8] = {0};
    for (uint64_t k = 0; k < 18; k++) {
        size_t n = sizes[k];
        IS(primitive_numbers, befrolan_read_primitive(NULL, 0, k), 3);
        IS(numbers, befrolan_write_primitive(NULL, 0, k, 0, 0, NULL, 0), 10, 0, n == 0 ? 1 : (int64_t)n);
        IS(numbers, befrolan_write_primitive(out(), 64, k, 0, 0, NULL, 0), 0, 0, 0, n == 0 ? 1 : (int64_t)n);
        CHECK(n == 0 ? wrote(B(1), 1) : wrote(zeros, n));
    }
    IS(primitive_numbers, befrolan_read_primitive(NULL, 0, 18), 1);
    CHECK(befrolan_well_formed(NULL, 0) == 0);
    WRITES_NOTHING(befrolan_write_primitive(out(), 64, 18, 0, 0, NULL, 0), 1);
    WRITES(befrolan_write_primitive(out(), 64, BEFROLAN_NULLABLE_STRING, 1, 0, NULL, 0), 0xff, 0xff);
    WRITES(befrolan_write_primitive(out(), 64, BEFROLAN_NULLABLE_BYTES, 1, 0, NULL, 0), NONE);

    LEAVES(tags_numbers, befrolan_read_tagged_fields(NULL, 0, NULL, 0), 3);
    LEAVES(tags_numbers, befrolan_read_tagged_fields(NULL, 0, T1), 3);
    LEAVES(tags_numbers, befrolan_read_tagged_fields(B(0), 1, NULL, 0), 0, 0, 0, 1);
    LEAVES(tags_numbers, befrolan_read_tagged_fields(B(1, 5, 0), 3, NULL, 0), 10, 0, 1);
    IS(numbers, befrolan_write_tagged_fields(NULL, 0, NULL, 0, 0, NULL, 0), 10, 0, 1);
    WRITES(befrolan_write_tagged_fields(out(), 64, NULL, 0, 0, NULL, 0), 0);
    WRITES(befrolan_write_tagged_fields(out(), 64, NULL, 0, -1, NULL, 0), 0);
    WRITES(befrolan_write_tagged_fields(out(), 64, NULL, 0, 1, C(5, 0, 0), 3), 1, 5, 0);
    WRITES_NOTHING(befrolan_write_tagged_fields(out(), 64, NULL, 0, 1, C(5, 0, 1), 3), 13);
    WRITES_NOTHING(befrolan_write_tagged_fields(out(), 64, NULL, 0, 1, NULL, 0), 13);
}

void boundary(void)
{
    /* those whose low 8, 16 or 32 bits are a version, those that are one but for the sign bit, and the ends */
    static const int64_t versions[] = {65536, 65539, -1, -65536, INT64_C(4294967296), INT64_MIN, INT64_MAX,
                                       5, 256, 259, 260, 32768, 40000, 65540, -65533, INT64_C(4294967299), -INT64_C(4294967292), INT64_MIN + 3, INT64_MIN + 4};
    inside();
    for (size_t i = 0; i < sizeof versions / sizeof versions[0]; i++)
        outside(versions[i]);
    null_api_versions();
    null_metadata();
    null_fetch();
    null_frames();
    null_primitives();
}
