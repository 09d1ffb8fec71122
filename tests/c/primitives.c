/* The text check; and the primitives and tagged fields, each by itself, read and written. */
#include "lent.h"

#include <stdio.h>
#include <stdlib.h>

/* ---- texts */

#define GOOD(n, ...) CHECK(befrolan_well_formed(B(__VA_ARGS__), LEN(__VA_ARGS__)) == (n))

static void texts(void)
{
    CHECK(befrolan_well_formed(none, 0) == 0);
    GOOD(1, 'a');
    GOOD(0, 0x80);
    GOOD(3, 'a', 0xc3, 0xa9);
    GOOD(1, 'a', 0xc3);
    GOOD(1, 'a', 0xc3, 'b', 'c');
    GOOD(0, 0xc0, 0x80);
    GOOD(0, 0xc1, 0xbf);
    GOOD(2, 0xc2, 0x80);
    GOOD(0, 0xe0, 0x9f, 0xbf);
    GOOD(3, 0xe0, 0xa0, 0x80);
    GOOD(3, 0xed, 0x9f, 0xbf);
    GOOD(0, 0xed, 0xa0, 0x80);
    GOOD(3, 0xee, 0x80, 0x80, 0xff);
    GOOD(0, 0xf0, 0x8f, 0xbf, 0xbf);
    GOOD(4, 0xf0, 0x90, 0x80, 0x80);
    GOOD(4, 0xf4, 0x8f, 0xbf, 0xbf);
    GOOD(0, 0xf4, 0x90, 0x80, 0x80);
    GOOD(0, 0xf5, 0x80, 0x80, 0x80);
    /* seven and more letters before what is wrong, since letters are looked at by eights */
    GOOD(7, 'a', 'b', 'c', 'd', 'e', 'f', 'g', 0xff);
    GOOD(9, 'a', 'b', 'c', 'd', 'e', 'f', 'g', 'h', 'i', 0xff, 'k');
    /* no limit: NUL is a character, and there is one byte more than a message may have */
    CHECK(befrolan_well_formed(large, BEFROLAN_MOST + 1) == BEFROLAN_MOST + 1);
}

/* ---- primitives, read */

static int took(uint64_t kind, const uint8_t *m, size_t n, int64_t used, int64_t form, int64_t value, int64_t length)
{
    befrolan_primitive_numbers r = befrolan_read_primitive(m, n, kind);
    return USED(r, used) && r.form == form && r.value == value && r.length == length;
}

static int no_primitive_at(uint64_t kind, const uint8_t *m, size_t n, int64_t number, int64_t place)
{
    befrolan_primitive_numbers r = befrolan_read_primitive(m, n, kind);
    return REFUSED(r, number, place, 0) && r.form == 0 && r.value == 0 && r.length == 0;
}

static int no_primitive(uint64_t kind, const uint8_t *m, size_t n, int64_t number)
{
    return no_primitive_at(kind, m, n, number, 0);
}

#define TOOK(kind, used, form, value, length, ...) CHECK(took(kind, B(__VA_ARGS__), LEN(__VA_ARGS__), used, form, value, length))
#define NOT(kind, number, ...) CHECK(no_primitive(kind, B(__VA_ARGS__), LEN(__VA_ARGS__), number))
#define NO_TEXT(kind, place, ...) CHECK(no_primitive_at(kind, B(__VA_ARGS__), LEN(__VA_ARGS__), BEFROLAN_NOT_TEXT, place))

static void primitives_read(void)
{
    for (uint64_t k = 0; k < 18; k++) {
        CHECK(no_primitive(k, none, 0, 3));
        CHECK(no_primitive(k, large, BEFROLAN_MOST + 1, 2));
    }
    CHECK(no_primitive(18, E9, 12, 1));
    CHECK(no_primitive(UINT64_MAX, E9, 12, 1));
    CHECK(no_primitive(18, large, BEFROLAN_MOST + 1, 1));
    TOOK(BEFROLAN_INT8, 1, 2, -1, 0, 0xff, 0);
    TOOK(BEFROLAN_INT8, 1, 2, -128, 0, 0x80);
    TOOK(BEFROLAN_INT8, 1, 2, 127, 0, 0x7f);
    TOOK(BEFROLAN_INT16, 2, 2, -32768, 0, 0x80, 0, 1);
    TOOK(BEFROLAN_INT16, 2, 2, 258, 0, 1, 2);
    NOT(BEFROLAN_INT16, 3, 1);
    TOOK(BEFROLAN_INT32, 4, 2, 2147483647, 0, 0x7f, 0xff, 0xff, 0xff);
    TOOK(BEFROLAN_INT32, 4, 2, -2, 0, 0xff, 0xff, 0xff, 0xfe);
    NOT(BEFROLAN_INT32, 3, 1, 2, 3);
    TOOK(BEFROLAN_INT64, 8, 2, INT64_MIN, 0, 0x80, 0, 0, 0, 0, 0, 0, 0, 9);
    TOOK(BEFROLAN_INT64, 8, 2, INT64_C(72623859790382856), 0, 1, 2, 3, 4, 5, 6, 7, 8);
    NOT(BEFROLAN_INT64, 3, 1, 2, 3, 4, 5, 6, 7);
    TOOK(BEFROLAN_BOOLEAN, 1, 2, 0, 0, 0);
    TOOK(BEFROLAN_BOOLEAN, 1, 2, 1, 0, 2);
    TOOK(BEFROLAN_UNSIGNED_VARINT, 2, 2, 300, 0, 0xac, 2);
    TOOK(BEFROLAN_UNSIGNED_VARINT, 10, 2, -1, 0, 0xff, 0xff, 0xff, 0xff, 0xff, 0xff, 0xff, 0xff, 0xff, 1);
    TOOK(BEFROLAN_UNSIGNED_VARINT, 10, 2, -1, 0, 0xff, 0xff, 0xff, 0xff, 0xff, 0xff, 0xff, 0xff, 0xff, 0x7f);
    NOT(BEFROLAN_UNSIGNED_VARINT, 5, 0x80, 0x80, 0x80, 0x80, 0x80, 0x80, 0x80, 0x80, 0x80, 0x80);
    TOOK(BEFROLAN_VARINT, 1, 2, -1, 0, 1);
    TOOK(BEFROLAN_VARINT, 5, 2, -INT64_C(2147483648), 0, 0xff, 0xff, 0xff, 0xff, 0xf);
    NOT(BEFROLAN_VARINT, 11, 0x80, 0x80, 0x80, 0x80, 0x10);
    TOOK(BEFROLAN_VARLONG, 5, 2, INT64_C(2147483648), 0, 0x80, 0x80, 0x80, 0x80, 0x10);
    TOOK(BEFROLAN_VARLONG, 10, 2, INT64_MIN, 0, 0xff, 0xff, 0xff, 0xff, 0xff, 0xff, 0xff, 0xff, 0xff, 1);
    TOOK(BEFROLAN_ARRAY, 4, 2, 2, 0, 0, 0, 0, 2);
    TOOK(BEFROLAN_ARRAY, 4, 1, 0, 0, 0xff, 0xff, 0xff, 0xff);
    NOT(BEFROLAN_ARRAY, 4, 0xff, 0xff, 0xff, 0xfe);
    TOOK(BEFROLAN_COMPACT_ARRAY, 1, 1, 0, 0, 0);
    TOOK(BEFROLAN_COMPACT_ARRAY, 1, 2, 0, 0, 1);
    TOOK(BEFROLAN_COMPACT_ARRAY, 2, 2, 299, 0, 0xac, 2);
    TOOK(BEFROLAN_BYTES, 6, 2, 4, 2, 0, 0, 0, 2, 0xaa, 0xbb, 0xcc);
    NOT(BEFROLAN_BYTES, 4, 0xff, 0xff, 0xff, 0xff);
    NOT(BEFROLAN_BYTES, 3, 0, 0, 0, 2, 0xaa);
    TOOK(BEFROLAN_NULLABLE_BYTES, 4, 1, 0, 0, 0xff, 0xff, 0xff, 0xff);
    TOOK(BEFROLAN_NULLABLE_BYTES, 5, 2, 4, 1, 0, 0, 0, 1, 0xaa);
    NOT(BEFROLAN_NULLABLE_BYTES, 4, 0xff, 0xff, 0xff, 0xfe);
    TOOK(BEFROLAN_COMPACT_BYTES, 3, 2, 1, 2, 3, 0xaa, 0xbb);
    NOT(BEFROLAN_COMPACT_BYTES, 6, 0);
    TOOK(BEFROLAN_RECORDS, 4, 2, 4, 0, 0xff, 0xff, 0xff, 0xff);
    TOOK(BEFROLAN_RECORDS, 5, 2, 4, 1, 0, 0, 0, 1, 0xc0);
    TOOK(BEFROLAN_STRING, 4, 2, 2, 2, 0, 2, 'a', 'b');
    TOOK(BEFROLAN_STRING, 6, 2, 2, 4, 0, 4, 0xf4, 0x8f, 0xbf, 0xbf);
    NO_TEXT(BEFROLAN_STRING, 2, 0, 4, 0xf4, 0x90, 0x80, 0x80);
    NO_TEXT(BEFROLAN_STRING, 2, 0, 2, 0xc0, 0x80);
    NO_TEXT(BEFROLAN_STRING, 2, 0, 3, 0xed, 0xa0, 0x80);
    NO_TEXT(BEFROLAN_STRING, 3, 0, 3, 'a', 0xc3, 0x28);
    NO_TEXT(BEFROLAN_NULLABLE_STRING, 4, 0, 4, 0xc3, 0xa9, 0xe2, 0x82);
    NO_TEXT(BEFROLAN_COMPACT_STRING, 3, 4, 'a', 'b', 0xbf);
    NO_TEXT(BEFROLAN_COMPACT_NULLABLE_STRING, 2, 0x82, 0, 0xff);
    NOT(BEFROLAN_STRING, 4, 0xff, 0xff);
    TOOK(BEFROLAN_NULLABLE_STRING, 2, 1, 0, 0, 0xff, 0xff);
    TOOK(BEFROLAN_NULLABLE_STRING, 2, 2, 2, 0, 0, 0);
    NOT(BEFROLAN_NULLABLE_STRING, 4, 0xff, 0xfe);
    TOOK(BEFROLAN_COMPACT_STRING, 1, 2, 1, 0, 1);
    TOOK(BEFROLAN_COMPACT_STRING, 3, 2, 1, 2, 3, 'a', 'b');
    NOT(BEFROLAN_COMPACT_STRING, 6, 0);
    TOOK(BEFROLAN_COMPACT_NULLABLE_STRING, 1, 1, 0, 0, 0);
    TOOK(BEFROLAN_COMPACT_NULLABLE_STRING, 2, 2, 1, 1, 2, 'a');
    NO_TEXT(BEFROLAN_COMPACT_NULLABLE_STRING, 1, 2, 0xff);
}

/* ---- primitives, written */

static befrolan_numbers put(size_t room, uint64_t kind, uint64_t null, int64_t value, const uint8_t *content, size_t n)
{
    return befrolan_write_primitive(out(), room, kind, null, value, content, n);
}

#define PUT(kind, null, value, content, n, ...) \
    CHECK(USED(put(LEN(__VA_ARGS__), kind, null, value, content, n), (int64_t)LEN(__VA_ARGS__)) && wrote(B(__VA_ARGS__), LEN(__VA_ARGS__))); \
    CHECK(not_written(put(LEN(__VA_ARGS__) - 1, kind, null, value, content, n), 10, (int64_t)LEN(__VA_ARGS__)))

static void numbers_written(void)
{
    PUT(BEFROLAN_INT8, 0, -1, none, 0, 0xff);
    PUT(BEFROLAN_INT8, 1, -128, E9, 12, 0x80);
    CHECK(not_written(put(64, BEFROLAN_INT8, 0, 128, none, 0), 11, 0));
    CHECK(not_written(put(64, BEFROLAN_INT8, 0, -129, none, 0), 11, 0));
    PUT(BEFROLAN_INT16, 0, 32767, none, 0, 0x7f, 0xff);
    CHECK(not_written(put(64, BEFROLAN_INT16, 0, 32768, none, 0), 11, 0));
    PUT(BEFROLAN_INT32, 0, -INT64_C(2147483648), none, 0, 0x80, 0, 0, 0);
    CHECK(not_written(put(64, BEFROLAN_INT32, 0, INT64_C(2147483648), none, 0), 11, 0));
    PUT(BEFROLAN_INT64, 0, INT64_C(72623859790382856), none, 0, 1, 2, 3, 4, 5, 6, 7, 8);
    PUT(BEFROLAN_INT64, 0, -2, none, 0, 0xff, 0xff, 0xff, 0xff, 0xff, 0xff, 0xff, 0xfe);
    PUT(BEFROLAN_BOOLEAN, 0, 7, none, 0, 1);
    PUT(BEFROLAN_BOOLEAN, 0, 0, none, 0, 0);
    PUT(BEFROLAN_UNSIGNED_VARINT, 0, 300, none, 0, 0xac, 2);
    PUT(BEFROLAN_UNSIGNED_VARINT, 0, -1, none, 0, 0xff, 0xff, 0xff, 0xff, 0xff, 0xff, 0xff, 0xff, 0xff, 1);
    PUT(BEFROLAN_VARINT, 0, -1, none, 0, 1);
    PUT(BEFROLAN_VARINT, 0, -INT64_C(2147483648), none, 0, 0xff, 0xff, 0xff, 0xff, 0xf);
    CHECK(not_written(put(64, BEFROLAN_VARINT, 0, INT64_C(2147483648), none, 0), 11, 0));
    PUT(BEFROLAN_VARLONG, 0, INT64_MIN, none, 0, 0xff, 0xff, 0xff, 0xff, 0xff, 0xff, 0xff, 0xff, 0xff, 1);
    PUT(BEFROLAN_ARRAY, 0, 3, none, 0, 0, 0, 0, 3);
    PUT(BEFROLAN_ARRAY, 1, 3, none, 0, 0xff, 0xff, 0xff, 0xff);
    PUT(BEFROLAN_ARRAY, 0, 2147483647, none, 0, MOST32);
    CHECK(not_written(put(64, BEFROLAN_ARRAY, 0, INT64_C(2147483648), none, 0), 2, 0));
    CHECK(not_written(put(64, BEFROLAN_ARRAY, 0, INT64_C(4294967296), none, 0), 2, 0));
    CHECK(not_written(put(64, BEFROLAN_ARRAY, 0, -1, none, 0), 2, 0));
    PUT(BEFROLAN_COMPACT_ARRAY, 0, 299, none, 0, 0xac, 2);
    PUT(BEFROLAN_COMPACT_ARRAY, 0, INT64_C(2147483648), none, 0, 0x81, 0x80, 0x80, 0x80, 8);
    PUT(BEFROLAN_COMPACT_ARRAY, 0, -2, none, 0, 0xff, 0xff, 0xff, 0xff, 0xff, 0xff, 0xff, 0xff, 0xff, 1);
    CHECK(not_written(put(64, BEFROLAN_COMPACT_ARRAY, 0, -1, none, 0), 2, 0));
    PUT(BEFROLAN_COMPACT_ARRAY, UINT64_C(1) << 63, 2, none, 0, 0);
    CHECK(not_written(put(64, 18, 0, 0, none, 0), 1, 0));
    CHECK(not_written(put(64, UINT64_MAX, 0, 0, none, 0), 1, 0));
}

/* Data of 2^31 bytes, which an Int32 length cannot carry: over the limit, and not looked at. */
static void huge_data(void)
{
    const size_t n = (size_t)1 << 31;
    uint8_t *data = calloc(n, 1);
    if (data == NULL) {
        puts("calls: 2^31 bytes cannot be had here; four checks are left out");
        return;
    }
    CHECK(not_written(put(64, BEFROLAN_BYTES, 0, 0, data, n), 2, 0));
    CHECK(not_written(put(64, BEFROLAN_NULLABLE_BYTES, 0, 0, data, n), 2, 0));
    CHECK(not_written(put(64, BEFROLAN_RECORDS, 0, 0, data, n), 2, 0));
    CHECK(not_written(put(64, BEFROLAN_COMPACT_BYTES, 0, 0, data, n), 2, 0));
    free(data);
}

static void parts_written(void)
{
    const uint8_t *ab = B('a', 'b'), *bad = B(0xc0, 0x80);
    PUT(BEFROLAN_BYTES, 1, 9, bad, 2, 0, 0, 0, 2, 0xc0, 0x80);
    PUT(BEFROLAN_NULLABLE_BYTES, 0, 0, ab, 2, 0, 0, 0, 2, 'a', 'b');
    PUT(BEFROLAN_NULLABLE_BYTES, 1, 0, ab, 2, 0xff, 0xff, 0xff, 0xff);
    PUT(BEFROLAN_COMPACT_BYTES, 0, 0, bad, 2, 3, 0xc0, 0x80);
    PUT(BEFROLAN_RECORDS, 1, 0, none, 0, 0, 0, 0, 0);
    PUT(BEFROLAN_STRING, 1, 0, ab, 2, 0, 2, 'a', 'b');
    PUT(BEFROLAN_NULLABLE_STRING, 0, 0, ab, 2, 0, 2, 'a', 'b');
    PUT(BEFROLAN_NULLABLE_STRING, 2, 0, bad, 2, 0xff, 0xff);
    PUT(BEFROLAN_COMPACT_STRING, 0, 0, ab, 2, 3, 'a', 'b');
    PUT(BEFROLAN_COMPACT_STRING, 0, 0, none, 0, 1);
    PUT(BEFROLAN_COMPACT_NULLABLE_STRING, 0, 0, ab, 2, 3, 'a', 'b');
    PUT(BEFROLAN_COMPACT_NULLABLE_STRING, 1, 0, ab, 2, 0);
    for (uint64_t k = BEFROLAN_STRING; k <= BEFROLAN_COMPACT_NULLABLE_STRING; k++)
        CHECK(not_written(put(64, k, 0, 0, bad, 2), 7, 0));
    CHECK(USED(put(BYTES, BEFROLAN_STRING, 0, 0, large, 32767), 32769));
    CHECK(not_written(put(BYTES, BEFROLAN_STRING, 0, 0, large, 32768), 11, 0));
    CHECK(not_written(put(BYTES, BEFROLAN_NULLABLE_STRING, 0, 0, large, 32768), 11, 0));
    CHECK(USED(put(BEFROLAN_MOST, BEFROLAN_BYTES, 0, 0, large, BEFROLAN_MOST - 4), BEFROLAN_MOST));
    CHECK(not_written(put(BYTES, BEFROLAN_BYTES, 0, 0, large, BEFROLAN_MOST - 3), 2, 0));
    CHECK(not_written(put(0, BEFROLAN_BYTES, 0, 0, large, BEFROLAN_MOST - 3), 2, 0));
}

/* ---- tagged fields */

static int tags(const uint8_t *m, size_t n, size_t room, int64_t used, int64_t count, const int64_t *cells, int k)
{
    befrolan_tags_numbers r = befrolan_read_tagged_fields(m, n, table(first), room);
    return USED(r, used) && r.tags == count && holds(first, cells, k);
}

static int no_tags(const uint8_t *m, size_t n, size_t room, int64_t number, int64_t place, int64_t need)
{
    befrolan_tags_numbers r = befrolan_read_tagged_fields(m, n, table(first), room);
    return REFUSED(r, number, place, need) && r.tags == 0 && holds(first, no_cells, 0);
}

static befrolan_numbers put_tags(size_t room, const uint8_t *lent, size_t size, int64_t count, const int64_t *cells, size_t n)
{
    return befrolan_write_tagged_fields(out(), room, lent, size, count, cells, n);
}

static void tagged_fields(void)
{
    static const uint8_t m[] = {3, 5, 1, 0xaa, 6, 0, 5, 1, 0xaa};
    CHECK(tags(B(0), 1, 0, 1, 0, no_cells, 0));
    CHECK(tags(m, 9, 9, 9, 3, C(5, 3, 1, 6, 6, 0, 5, 8, 1), 9));
    CHECK(no_tags(m, 9, 8, 10, 0, 3));
    CHECK(no_tags(m, 8, 9, 3, 7, 0));
    CHECK(no_tags(m, 7, 9, 3, 7, 0));
    CHECK(no_tags(none, 0, 9, 3, 0, 0));
    CHECK(no_tags(B(0x80, 0x80, 0x80, 0x80, 0x80, 0x80, 0x80, 0x80, 0x80, 0x80), 10, 9, 5, 0, 0));
    CHECK(no_tags(large, BEFROLAN_MOST + 1, 9, 2, 0, 0));

    const uint8_t *lent = B(0xaa);
    const int64_t *rows = C(5, 0, 1, 6, 1, 0, 5, 0, 1);
    CHECK(USED(put_tags(9, lent, 1, 3, rows, 9), 9) && wrote(m, 9));
    CHECK(not_written(put_tags(8, lent, 1, 3, rows, 9), 10, 9));
    CHECK(USED(put_tags(64, lent, 1, -1, no_cells, 0), 1) && wrote(B(0), 1));
    CHECK(USED(put_tags(64, lent, 1, 0, rows, 2), 1) && wrote(B(0), 1));
    CHECK(not_written(put_tags(64, lent, 1, 2, rows, 9), 13, 0));
    CHECK(not_written(put_tags(64, lent, 1, -2, no_cells, 0), 13, 0));
    CHECK(not_written(put_tags(64, lent, 1, 1, C(5, 0, 2), 3), 13, 0));
    CHECK(not_written(put_tags(64, lent, 1, 1, C(5, -1, 1), 3), 13, 0));
    CHECK(USED(put_tags(64, lent, 1, 1, C(-1, 1, 0), 3), 12) && wrote(B(1, 0xff, 0xff, 0xff, 0xff, 0xff, 0xff, 0xff, 0xff, 0xff, 1, 0), 12));
}

void primitives(void)
{
    texts();
    primitives_read();
    numbers_written();
    parts_written();
    huge_data();
    tagged_fields();
}
