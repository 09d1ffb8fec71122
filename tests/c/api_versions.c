/* ApiVersions bodies, read and written, and the agreement on versions. */
#include "lent.h"

/* ---- ApiVersions responses, read */

static const uint8_t E10[] = {0, 0, 0, 0, 0, 1, 0, 18, 0, 0, 0, 3, 0, 0, 0, 0};
static const uint8_t E11[] = {0, 0, 2, 0, 18, 0, 0, 0, 3, 0, 0, 0, 0, 0, 0};
static const uint8_t E12[] = {0, 0, 0, 0, 0, 0, 0, 1, 5, 0};
/* an item (3, 0 to 4) with a tag 7 of two bytes, throttle 9, an own tag 1 of none */
static const uint8_t TAGGED[] = {0, 0, 2, 0, 3, 0, 0, 0, 4, 1, 7, 2, 0xaa, 0xbb, 0, 0, 0, 9, 1, 1, 0};

static befrolan_response_numbers response(const uint8_t *m, size_t n, int64_t v, uint64_t whole, size_t items, size_t tags)
{
    return befrolan_read_api_versions_response(m, n, v, whole, table(first), items, table(second), tags);
}

static int body(befrolan_response_numbers r, int64_t used, int64_t error, int64_t items, int64_t kind, int64_t throttle, int64_t tags)
{
    return USED(r, used) && r.error == error && r.items == items && r.throttle_kind == kind && r.throttle == throttle && r.tags == tags;
}

static int no_response(befrolan_response_numbers r, int64_t number, int64_t place, int64_t need)
{
    return REFUSED(r, number, place, need) && r.error == 0 && r.items == 0 && r.throttle_kind == 0 && r.throttle == 0 && r.tags == 0
           && holds(first, no_cells, 0) && holds(second, no_cells, 0);
}

static void responses_read(void)
{
    for (uint64_t w = 0; w < 3; w++) {
        CHECK(body(response(E9, 12, 0, w, 16, 12), 12, 0, 1, 0, 0, -1));
        CHECK(holds(first, C(18, 0, 3, -1), 4) && holds(second, no_cells, 0));
        CHECK(no_response(response(E9, 12, 1, w, 16, 12), 3, 12, 0));
        CHECK(no_response(response(E9, 12, 4, w, 16, 12), 1, 0, 0));
        CHECK(no_response(response(E9, 12, -1, w, 16, 12), 1, 0, 0));
        CHECK(no_response(response(E9, 12, 0, w, 3, 12), 10, 0, 1));
        CHECK(body(response(E9, 12, 0, w, 4, 0), 12, 0, 1, 0, 0, -1));
        for (int64_t v = 0; v < 4; v++)
            CHECK(no_response(response(none, 0, v, w, 16, 12), 3, 0, 0));
    }
    CHECK(no_response(response(E9, 12, 3, 1, 16, 12), 8, 2, 0));
    CHECK(body(response(E10, 16, 1, 1, 16, 12), 16, 0, 1, 2, 0, -1));
    CHECK(body(response(E10, 16, 2, 1, 16, 12), 16, 0, 1, 2, 0, -1));
    CHECK(no_response(response(E10, 16, 0, 1, 16, 12), 9, 12, 0));
    CHECK(no_response(response(E10, 16, 0, UINT64_C(1) << 63, 16, 12), 9, 12, 0));
    CHECK(body(response(E10, 16, 0, 0, 16, 12), 12, 0, 1, 0, 0, -1));
    CHECK(body(response(E11, 15, 3, 1, 16, 12), 15, 0, 1, 2, 0, 0));
    CHECK(holds(first, C(18, 0, 3, 0), 4) && holds(second, no_cells, 0));
    CHECK(no_response(response(E11, 15, 0, 1, 16, 12), 3, 14, 0));
    CHECK(body(response(E12, 10, 1, 1, 16, 12), 10, 0, 0, 2, 66816, -1));
    CHECK(body(response(E12, 10, 3, 0, 16, 12), 10, 0, 0, 2, 0, 1));
    CHECK(holds(first, no_cells, 0) && holds(second, C(5, 10, 0), 3));
    CHECK(no_response(response(E12, 10, 3, 0, 16, 2), 10, 0, 1));
    CHECK(no_response(response(E12, 10, 3, 1, 16, 12), 8, 2, 0));
    CHECK(body(response(B(0xff, 0xff, 0, 0, 0, 0), 6, 0, 1, 0, 0), 6, -1, 0, 0, 0, -1));
    CHECK(no_response(response(B(0, 0, 0xff, 0xff, 0xff, 0xfe), 6, 0, 0, 16, 12), 4, 2, 0));
    CHECK(body(response(TAGGED, 21, 3, 1, 4, 6), 21, 0, 1, 2, 9, 1));
    CHECK(holds(first, C(3, 0, 4, 1), 4) && holds(second, C(7, 12, 2, 1, 21, 0), 6));
    CHECK(no_response(response(TAGGED, 21, 3, 1, 4, 5), 10, 0, 2));
    CHECK(no_response(response(TAGGED, 21, 3, 1, 0, 0), 10, 0, 1));
    CHECK(no_response(response(TAGGED, 13, 3, 1, 4, 6), 3, 11, 0));
    CHECK(no_response(response(large, BEFROLAN_MOST + 1, 0, 0, 16, 12), 2, 0, 0));
    CHECK(no_response(response(large, BEFROLAN_MOST + 1, 4, 0, 16, 12), 1, 0, 0));
    CHECK(body(response(large, BEFROLAN_MOST, 0, 0, 16, 12), 6, 0, 0, 0, 0, -1));
    CHECK(no_response(response(large, BEFROLAN_MOST, 0, 1, 16, 12), 9, 6, 0));
}

/* ---- ApiVersions requests, read */

static befrolan_request_numbers request(const uint8_t *m, size_t n, int64_t v, size_t tags)
{
    return befrolan_read_api_versions_request(m, n, v, table(second), tags);
}

static int texts(befrolan_request_numbers r, int64_t used, int64_t kind, int64_t a, int64_t k, int64_t b, int64_t m, int64_t tags)
{
    return USED(r, used) && r.name_kind == kind && r.name_start == a && r.name_length == k && r.version_kind == kind && r.version_start == b && r.version_length == m && r.tags == tags;
}

static int no_request(befrolan_request_numbers r, int64_t number, int64_t place, int64_t need)
{
    return REFUSED(r, number, place, need) && r.name_kind == 0 && r.name_start == 0 && r.name_length == 0 && r.version_kind == 0 && r.version_start == 0 && r.version_length == 0
           && r.tags == 0 && holds(second, no_cells, 0);
}

static void requests_read(void)
{
    static const uint8_t m[] = {3, 'a', 'b', 4, '1', '.', '0', 1, 0x80, 1, 1, 0xff};
    for (int64_t v = 0; v < 3; v++) {
        CHECK(texts(request(none, 0, v, 12), 0, 0, 0, 0, 0, 0, -1));
        CHECK(texts(request(m, 12, v, 0), 0, 0, 0, 0, 0, 0, -1));
    }
    CHECK(texts(request(m, 12, 3, 3), 12, 2, 1, 2, 4, 3, 1));
    CHECK(holds(second, C(128, 11, 1), 3));
    CHECK(no_request(request(m, 12, 3, 2), 10, 0, 1));
    CHECK(no_request(request(m, 11, 3, 12), 3, 10, 0));
    CHECK(texts(request(B(1, 1, 0), 3, 3, 0), 3, 2, 1, 0, 2, 0, 0));
    CHECK(no_request(request(none, 0, 3, 12), 3, 0, 0));
    CHECK(no_request(request(B(0), 1, 3, 12), 6, 0, 0));
    CHECK(no_request(request(B(1, 0), 2, 3, 12), 6, 1, 0));
    CHECK(no_request(request(B(3, 0xc0, 0x80, 1, 0), 5, 3, 12), 7, 1, 0));
    CHECK(no_request(request(B(1, 3, 'a'), 3, 3, 12), 3, 1, 0));
    CHECK(no_request(request(m, 12, 4, 12), 1, 0, 0));
    CHECK(no_request(request(m, 12, -32768, 12), 1, 0, 0));
    CHECK(no_request(request(large, BEFROLAN_MOST + 1, 0, 12), 2, 0, 0));
}

/* ---- ApiVersions responses, written */

static befrolan_numbers put_response(size_t room, int64_t v, const uint8_t *lent, size_t size, const int64_t *row, const int64_t *items, size_t cells,
                                     const int64_t *tags, size_t tag_cells)
{
    return befrolan_write_api_versions_response(out(), room, v, lent, size, row, items, cells, tags, tag_cells);
}

static void responses_written(void)
{
    const int64_t *one = C(18, 0, 3, -1), *unset = C(0, 1, 0, 0, -1);
    CHECK(USED(put_response(12, 0, none, 0, unset, one, 4, no_cells, 0), 12) && wrote(E9, 12));
    CHECK(USED(put_response(64, 0, none, 0, unset, one, 4, no_cells, 0), 12) && wrote(E9, 12));
    CHECK(not_written(put_response(11, 0, none, 0, unset, one, 4, no_cells, 0), 10, 12));
    CHECK(USED(put_response(64, 1, none, 0, unset, one, 4, no_cells, 0), 16) && wrote(E10, 16));
    CHECK(USED(put_response(64, 3, none, 0, unset, one, 4, no_cells, 0), 15) && wrote(E11, 15));
    CHECK(USED(put_response(64, 1, none, 0, C(0, 0, 2, 66816, -1), no_cells, 0, no_cells, 0), 10) && wrote(E12, 10));
    CHECK(USED(put_response(64, 1, none, 0, C(0, 0, 7, 66816, -1), no_cells, 0, no_cells, 0), 10) && wrote(E12, 10));
    CHECK(USED(put_response(64, 1, none, 0, C(0, 0, 0, 66816, -1), no_cells, 0, no_cells, 0), 10) && wrote(B(0, 0, 0, 0, 0, 0, 0, 0, 0, 0), 10));
    CHECK(USED(put_response(64, 0, none, 0, C(-1, 0, 0, 0, -1), no_cells, 0, no_cells, 0), 6) && wrote(B(0xff, 0xff, 0, 0, 0, 0), 6));
    CHECK(not_written(put_response(64, 0, none, 0, C(32768, 1, 0, 0, -1), one, 4, no_cells, 0), 11, 0));
    CHECK(not_written(put_response(64, 0, none, 0, unset, C(18, 0, -32769, -1), 4, no_cells, 0), 11, 0));
    CHECK(not_written(put_response(64, 1, none, 0, C(0, 1, 2, INT64_C(2147483648), -1), one, 4, no_cells, 0), 11, 0));
    CHECK(USED(put_response(64, 0, none, 0, C(0, 1, 2, INT64_C(2147483648), -1), one, 4, no_cells, 0), 12) && wrote(E9, 12));
    CHECK(not_written(put_response(64, 0, none, 0, C(0, -1, 0, 0, -1), no_cells, 0, no_cells, 0), 13, 0));
    CHECK(not_written(put_response(64, 0, none, 0, C(0, 2, 0, 0, -1), one, 4, no_cells, 0), 13, 0));
    CHECK(not_written(put_response(64, 0, none, 0, C(32768, 2, 0, 0, -1), one, 4, no_cells, 0), 13, 0));
    CHECK(not_written(put_response(64, 4, none, 0, C(32768, 2, 0, 0, -1), one, 4, no_cells, 0), 1, 0));
    CHECK(not_written(put_response(64, -1, none, 0, unset, one, 4, no_cells, 0), 1, 0));

    const int64_t *row = C(0, 1, 2, 9, 1), *item = C(3, 0, 4, 1), *tags = C(7, 12, 2, 1, 21, 0);
    CHECK(USED(put_response(21, 3, TAGGED, 21, row, item, 4, tags, 6), 21) && wrote(TAGGED, 21));
    CHECK(not_written(put_response(20, 3, TAGGED, 21, row, item, 4, tags, 6), 10, 21));
    CHECK(USED(put_response(64, 0, TAGGED, 21, row, item, 4, tags, 6), 12) && wrote(B(0, 0, 0, 0, 0, 1, 0, 3, 0, 0, 0, 4), 12));
    CHECK(not_written(put_response(64, 0, TAGGED, 20, row, item, 4, tags, 6), 13, 0));
    CHECK(not_written(put_response(64, 3, TAGGED, 21, row, item, 4, tags, 3), 13, 0));
}

/* ---- ApiVersions requests, written */

static befrolan_numbers put_request(size_t room, int64_t v, const uint8_t *lent, size_t size, const int64_t *row, const int64_t *tags, size_t cells)
{
    return befrolan_write_api_versions_request(out(), room, v, lent, size, row, tags, cells);
}

static void requests_written(void)
{
    static const uint8_t lent[] = {'a', 'b', '1', '.', '0', 0xff};
    static const uint8_t m[] = {3, 'a', 'b', 4, '1', '.', '0', 1, 0x80, 1, 1, 0xff};
    const int64_t *row = C(2, 0, 2, 2, 2, 3, 1), *tag = C(128, 5, 1);
    CHECK(USED(put_request(12, 3, lent, 6, row, tag, 3), 12) && wrote(m, 12));
    CHECK(USED(put_request(12, 3, lent, 6, C(1, 0, 2, -1, 2, 3, 1), tag, 3), 12) && wrote(m, 12));
    CHECK(not_written(put_request(11, 3, lent, 6, row, tag, 3), 10, 12));
    for (int64_t v = 0; v < 3; v++)
        CHECK(USED(put_request(0, v, lent, 6, row, tag, 3), 0) && wrote(none, 0));
    CHECK(USED(put_request(64, 3, lent, 6, C(0, 9, 9, 0, 9, 9, -1), no_cells, 0), 3) && wrote(B(1, 1, 0), 3));
    CHECK(not_written(put_request(64, 3, lent, 6, C(2, 4, 3, 0, 0, 0, -1), no_cells, 0), 13, 0));
    CHECK(not_written(put_request(64, 0, lent, 6, C(0, 0, 0, 2, 4, 3, -1), no_cells, 0), 13, 0));
    CHECK(not_written(put_request(64, 3, lent, 6, C(0, 0, 0, 0, 0, 0, 1), no_cells, 0), 13, 0));
    CHECK(not_written(put_request(64, 3, lent, 6, C(2, 5, 1, 0, 0, 0, 0), no_cells, 0), 7, 0));
    CHECK(USED(put_request(64, 0, lent, 6, C(2, 5, 1, 0, 0, 0, 0), no_cells, 0), 0) && wrote(none, 0));
    CHECK(not_written(put_request(64, 4, lent, 6, row, tag, 3), 1, 0));
}

/* ---- agreement */

static int agree(const int64_t *items, size_t n, const int64_t *expected)
{
    befrolan_agree(items, n, table(first));
    return holds(first, expected, 9);
}

static void agreements(void)
{
    CHECK(agree(no_cells, 0, C(18, -1, -1, 3, -1, -1, 1, -1, -1)));
    CHECK(agree(C(18, 0, 3, -1), 4, C(18, 3, 3, 3, -1, -1, 1, -1, -1)));
    CHECK(agree(C(18, 0, 3, -1), 3, C(18, -1, -1, 3, -1, -1, 1, -1, -1)));
    CHECK(agree(C(1, 0, 11, -1, 3, 1, 9, -1, 18, 0, 2, -1), 12, C(18, 2, 2, 3, 4, 9, 1, 4, 11)));
    CHECK(agree(C(1, 5, 11, -1, 3, 5, 6, -1, 3, 0, 4, -1), 12, C(18, -1, -1, 3, -1, 6, 1, -1, 11)));
    CHECK(agree(C(18, -1, 0, 0, 3, -5, -1, 0, 1, 4, 4, 0), 12, C(18, 0, 0, 3, -1, -1, 1, 4, 4)));
    CHECK(agree(C(18, 4, 9, 0, 1, 0, 3, 0), 8, C(18, -1, 9, 3, -1, -1, 1, -1, 3)));
}

void api_versions(void)
{
    responses_read();
    requests_read();
    responses_written();
    requests_written();
    agreements();
}
