/* Frames, read and written, and which header a message has. */
#include "lent.h"

/* the two kinds of header, with the numbers that each has */
typedef enum { REQUEST, RESPONSE } side;

static const int64_t headers[2][2] = {{1, 2}, {0, 1}};
/* where the body starts where all bytes are 0: after no client's name, and after no tags */
static const int64_t bodies[2][2] = {{14, 15}, {8, 9}};

/* Answered with these numbers: 13 of a request, 8 of a response. The tags are in `first`. */
static int says(side s, const uint8_t *m, size_t n, int64_t header, size_t cells, const int64_t *numbers)
{
    if (s == RESPONSE) {
        befrolan_response_frame_numbers r = befrolan_read_response_frame(m, n, header, table(first), cells);
        return memcmp(&r, numbers, sizeof r) == 0;
    }
    befrolan_request_frame_numbers r = befrolan_read_request_frame(m, n, header, table(first), cells);
    return memcmp(&r, numbers, sizeof r) == 0;
}

static int refuses(side s, const uint8_t *m, size_t n, int64_t header, size_t cells, int64_t number, int64_t place, int64_t need)
{
    const int64_t numbers[13] = {number, place, need};
    return says(s, m, n, header, cells, numbers) && holds(first, no_cells, 0);
}

/* bytes that are refused, with room and without any; and with more bytes after them */
static void denies(int line, side s, int64_t header, int64_t number, int64_t place, const uint8_t *m, size_t n)
{
    uint8_t more[128];
    memset(more, 0xff, sizeof more);
    memcpy(more, m, n);
    check(__FILE__, line, "with room", refuses(s, m, n, header, CELLS, number, place, 0));
    check(__FILE__, line, "without any", refuses(s, m, n, header, 0, number, place, 0));
    check(__FILE__, line, "with more bytes after them", refuses(s, more, sizeof more, header, CELLS, number, place, 0));
}

#define DENIES(s, header, number, place, ...) denies(__LINE__, s, header, number, place, B(__VA_ARGS__), LEN(__VA_ARGS__))

/* ---- sizes */

/* zeros after the size: numbers of 0, an empty client's name, no tags */
static uint8_t longest[4 + BEFROLAN_MOST + 64];

static void put_size(uint8_t *at, uint32_t size)
{
    for (int i = 0; i < 4; i++)
        at[i] = (uint8_t)(size >> (24 - 8 * i));
}

/* a size that is refused, whatever follows it */
static void bad_size(uint32_t size)
{
    static const size_t lengths[] = {4, 5, 7, 8, 64, BEFROLAN_MOST + 3, BEFROLAN_MOST + 4, BEFROLAN_MOST + 5, sizeof longest};
    put_size(longest, size);
    for (side s = REQUEST; s <= RESPONSE; s++)
        for (int h = 0; h < 2; h++) {
            for (size_t i = 0; i < sizeof lengths / sizeof lengths[0]; i++)
                CHECK(refuses(s, longest, lengths[i], headers[s][h], 0, 14, 0, 0));
            for (size_t n = 0; n < 4; n++)
                CHECK(refuses(s, longest, n, headers[s][h], CELLS, 3, 0, 0));
        }
}

/* One that is too small for a header: 3 at 0 up to the last byte that it counts, then 3 at the field that the frame cuts. */
static void short_size(uint32_t size, int64_t request_cut, int64_t response_cut)
{
    put_size(longest, size);
    for (side s = REQUEST; s <= RESPONSE; s++)
        for (int h = 0; h < 2; h++) {
            int64_t cut = s == REQUEST ? request_cut : response_cut;
            for (size_t n = 0; n < 4 + size; n++)
                CHECK(refuses(s, longest, n, headers[s][h], CELLS, 3, 0, 0));
            CHECK(refuses(s, longest, 4 + size, headers[s][h], CELLS, 3, cut, 0));
            CHECK(refuses(s, longest, 5 + size, headers[s][h], CELLS, 3, cut, 0));
            CHECK(refuses(s, longest, sizeof longest, headers[s][h], 0, 3, cut, 0));
        }
}

/* the longest frame, with as many bytes as it has and with more; with fewer it is 3 at 0 */
static void most_size(void)
{
    put_size(longest, BEFROLAN_MOST);
    for (side s = REQUEST; s <= RESPONSE; s++)
        for (int h = 0; h < 2; h++) {
            int64_t start = bodies[s][h], length = BEFROLAN_MOST + 4 - start, tags = h == 0 ? -1 : 0;
            const int64_t *numbers = s == REQUEST ? C(0, 0, 0, BEFROLAN_MOST + 4, 0, 0, 0, 2, 14, 0, tags, start, length)
                                                  : C(0, 0, 0, BEFROLAN_MOST + 4, 0, tags, start, length);
            CHECK(says(s, longest, BEFROLAN_MOST + 4, headers[s][h], 0, numbers) && holds(first, no_cells, 0));
            CHECK(says(s, longest, BEFROLAN_MOST + 5, headers[s][h], CELLS, numbers) && holds(first, no_cells, 0));
            CHECK(says(s, longest, sizeof longest, headers[s][h], 0, numbers));
            CHECK(refuses(s, longest, BEFROLAN_MOST + 3, headers[s][h], CELLS, 3, 0, 0));
            CHECK(refuses(s, longest, 64, headers[s][h], CELLS, 3, 0, 0));
            CHECK(refuses(s, longest, 4, headers[s][h], 0, 3, 0, 0));
        }
}

/* header numbers that there are not: before everything else */
static void no_header(side s, int64_t header)
{
    static const uint32_t sizes[] = {0, 3, 20, BEFROLAN_MOST, BEFROLAN_MOST + 1, UINT32_MAX};
    for (size_t i = 0; i < sizeof sizes / sizeof sizes[0]; i++) {
        put_size(longest, sizes[i]);
        for (size_t n = 0; n < 32; n++)
            CHECK(refuses(s, longest, n, header, CELLS, 1, 0, 0));
        CHECK(refuses(s, longest, sizeof longest, header, 0, 1, 0, 0));
    }
}

static void sizes(void)
{
    static const int64_t others[] = {-1, 3, 4, 256, 257, 65536, 65537, 65538, -65535, INT64_C(4294967296), INT64_C(4294967297), INT64_MIN, INT64_MIN + 1, INT64_MAX};
    bad_size(UINT32_MAX);
    bad_size(UINT32_C(0x80000000));
    bad_size(BEFROLAN_MOST + 1);
    bad_size(INT32_MAX);
    short_size(0, 4, 4);
    short_size(3, 6, 4);
    most_size();
    for (size_t i = 0; i < sizeof others / sizeof others[0]; i++) {
        no_header(REQUEST, others[i]);
        no_header(RESPONSE, others[i]);
    }
    no_header(REQUEST, 0);
    no_header(RESPONSE, 2);
}

/* ---- frames with tags, and cuts of them */

/* API key 18, version 3, correlation number 7, client's name "g", one tag 5 with the data "A"; a body of one byte */
static const uint8_t TAGGED2[20] = {COUNT(16), 0, 18, 0, 3, COUNT(7), 0, 1, 'g', 1, 5, 1, 'A', 0xff};
/* correlation number 7 and the same tag and body */
static const uint8_t TAGGED1[13] = {COUNT(9), COUNT(7), 1, 5, 1, 'A', 0xff};

static const uint8_t request_starts[] = {4, 6, 8, 12, 15, 16, 17, 19}, response_starts[] = {4, 8, 9, 10, 12};

static void tagged_read(void)
{
    CHECK(says(REQUEST, TAGGED2, 20, 2, 3, C(0, 0, 0, 20, 18, 3, 7, 2, 14, 1, 1, 19, 1)) && holds(first, C(5, 18, 1), 3));
    CHECK(says(REQUEST, TAGGED2, 20, 2, CELLS, C(0, 0, 0, 20, 18, 3, 7, 2, 14, 1, 1, 19, 1)) && holds(first, C(5, 18, 1), 3));
    /* with header 1 what tags are with 2 is the body's */
    CHECK(says(REQUEST, TAGGED2, 20, 1, CELLS, C(0, 0, 0, 20, 18, 3, 7, 2, 14, 1, -1, 15, 5)) && holds(first, no_cells, 0));
    CHECK(says(RESPONSE, TAGGED1, 13, 1, 3, C(0, 0, 0, 13, 7, 1, 12, 1)) && holds(first, C(5, 11, 1), 3));
    CHECK(says(RESPONSE, TAGGED1, 13, 0, CELLS, C(0, 0, 0, 13, 7, -1, 8, 5)) && holds(first, no_cells, 0));
    /* a row of tags is needed, and a cut row is none; a header without tags needs none */
    for (size_t cells = 0; cells < 3; cells++) {
        CHECK(refuses(REQUEST, TAGGED2, 20, 2, cells, 10, 0, 1));
        CHECK(refuses(RESPONSE, TAGGED1, 13, 1, cells, 10, 0, 1));
        CHECK(says(REQUEST, TAGGED2, 20, 1, cells, C(0, 0, 0, 20, 18, 3, 7, 2, 14, 1, -1, 15, 5)) && holds(first, no_cells, 0));
    }
}

/* Fewer bytes than the frame has: 3 at 0. A lower size: the frame ends in a field, while all bytes are lent, or just its own. */
static void cut(side s, int64_t header, const uint8_t *m, size_t n, const uint8_t *starts, size_t primitives)
{
    uint8_t bytes[32];
    memcpy(bytes, m, n);
    for (size_t k = 0; k < n; k++)
        CHECK(refuses(s, m, k, header, CELLS, 3, 0, 0));
    for (size_t i = 0; i + 1 < primitives; i++)
        for (size_t end = starts[i]; end < starts[i + 1]; end++) {
            bytes[3] = (uint8_t)(end - 4);
            CHECK(refuses(s, bytes, n, header, CELLS, 3, starts[i], 0));
            CHECK(refuses(s, bytes, end, header, CELLS, 3, starts[i], 0));
            CHECK(refuses(s, bytes, end, header, 0, 3, starts[i], 0));
        }
}

static void cuts(void)
{
    cut(REQUEST, 2, TAGGED2, 20, request_starts, sizeof request_starts);
    cut(REQUEST, 1, TAGGED2, 20, request_starts, 5);
    cut(RESPONSE, 1, TAGGED1, 13, response_starts, sizeof response_starts);
    cut(RESPONSE, 0, TAGGED1, 13, response_starts, 2);
    /* just the header: a body of no bytes, which starts at the frame's end */
    uint8_t bytes[20];
    memcpy(bytes, TAGGED2, 20);
    bytes[3] = 15;
    CHECK(says(REQUEST, bytes, 20, 2, 3, C(0, 0, 0, 19, 18, 3, 7, 2, 14, 1, 1, 19, 0)) && holds(first, C(5, 18, 1), 3));
    bytes[3] = 11;
    CHECK(says(REQUEST, bytes, 15, 1, 0, C(0, 0, 0, 15, 18, 3, 7, 2, 14, 1, -1, 15, 0)));
    memcpy(bytes, TAGGED1, 13);
    bytes[3] = 4;
    CHECK(says(RESPONSE, bytes, 8, 0, 0, C(0, 0, 0, 8, 7, -1, 8, 0)));
}

/* ---- what follows a frame */

static void two_frames(void)
{
    /* a request with tags, one without a client's name and without tags, and the front of a third */
    static const uint8_t stream[38] = {COUNT(16), 0, 18, 0, 3, COUNT(7), 0, 1, 'g', 1, 5, 1, 'A', 0xff, COUNT(12), 0, 3, 0, 1, COUNT(8), 0xff, 0xff, 'm', 'n', 0, 0};
    befrolan_request_frame_numbers r = befrolan_read_request_frame(stream, 38, 2, table(first), CELLS);
    CHECK(USED(r, 20) && r.request_api_key == 18 && r.correlation_id == 7 && r.body_start == 19 && r.body_length == 1 && stream[r.body_start] == 0xff);
    CHECK(holds(first, C(5, 18, 1), 3));
    size_t at = (size_t)r.used;
    CHECK(says(REQUEST, stream + at, 38 - at, 1, CELLS, C(0, 0, 0, 16, 3, 1, 8, 1, 0, 0, -1, 14, 2)) && holds(first, no_cells, 0));
    CHECK(refuses(REQUEST, stream + at + 16, 2, 1, CELLS, 3, 0, 0));
    /* responses: the second starts where the first ends, and its first byte is no part of the first */
    static const uint8_t answers[23] = {COUNT(6), COUNT(7), 0xab, 0xcd, COUNT(9), COUNT(8), 1, 5, 1, 'A', 0xff};
    for (size_t n = 10; n < 24; n++)
        CHECK(says(RESPONSE, answers, n, 0, 0, C(0, 0, 0, 10, 7, -1, 8, 2)));
    CHECK(says(RESPONSE, answers + 10, 13, 1, 3, C(0, 0, 0, 13, 8, 1, 12, 1)) && holds(first, C(5, 11, 1), 3));
    /* more bytes than any message may have */
    memset(longest, 0xff, sizeof longest);
    memcpy(longest, answers, 10);
    CHECK(says(RESPONSE, longest, sizeof longest, 0, 0, C(0, 0, 0, 10, 7, -1, 8, 2)));
    memset(longest, 0, sizeof longest);
}

/* a field that goes on after its frame, while the bytes that it would take are lent */
static void overruns(void)
{
    DENIES(REQUEST, 1, 3, 12, COUNT(12), 0, 18, 0, 3, COUNT(7), 0, 3, 'a', 'b', 'c', 'd');
    DENIES(REQUEST, 2, 3, 12, COUNT(12), 0, 18, 0, 3, COUNT(7), 0x7f, 0xff, 'a', 'b', 'c', 'd');
    DENIES(REQUEST, 2, 3, 14, COUNT(11), 0, 18, 0, 3, COUNT(7), 0xff, 0xff, 0x80, 1, 0);
    DENIES(REQUEST, 2, 3, 16, COUNT(14), 0, 18, 0, 3, COUNT(7), 0xff, 0xff, 1, 5, 2, 'a', 'b', 'c');
    DENIES(RESPONSE, 0, 3, 4, COUNT(3), COUNT(7), COUNT(7));
    DENIES(RESPONSE, 1, 3, 8, COUNT(4), COUNT(7), 0, 0, 0, 0);
    DENIES(RESPONSE, 1, 3, 9, COUNT(5), COUNT(7), 1, 0, 0, 0);
    DENIES(RESPONSE, 1, 3, 10, COUNT(8), COUNT(7), 1, 5, 3, 'a', 'b', 'c');
}

/* ---- what a header is refused for */

#define CONTINUES 0x80, 0x80, 0x80, 0x80, 0x80, 0x80, 0x80, 0x80, 0x80, 0x80
#define FRONT(size) COUNT(size), 0, 18, 0, 3, COUNT(7)

static void headers_refused(void)
{
    for (int64_t h = 1; h < 3; h++) {
        DENIES(REQUEST, h, 4, 12, FRONT(12), 0xff, 0xfe, 0, 0);
        DENIES(REQUEST, h, 4, 12, FRONT(12), 0x80, 0, 0, 0);
        DENIES(REQUEST, h, 7, 14, FRONT(13), 0, 2, 0xc0, 0x80, 0);
        DENIES(REQUEST, h, 7, 16, FRONT(14), 0, 3, 'a', 'b', 0xff, 0);
        DENIES(REQUEST, h, 7, 15, FRONT(13), 0, 2, 'a', 0xc3, 0);
        /* contents cut short come before those that are no text */
        DENIES(REQUEST, h, 3, 12, FRONT(12), 0, 3, 0xff, 0xff);
    }
    DENIES(REQUEST, 2, 5, 14, FRONT(20), 0xff, 0xff, CONTINUES);
    DENIES(REQUEST, 2, 5, 15, FRONT(21), 0xff, 0xff, 1, CONTINUES);
    DENIES(REQUEST, 2, 5, 16, FRONT(22), 0xff, 0xff, 1, 5, CONTINUES);
    DENIES(RESPONSE, 1, 5, 8, COUNT(14), COUNT(7), CONTINUES);
    DENIES(RESPONSE, 1, 5, 9, COUNT(15), COUNT(7), 1, CONTINUES);
    /* a count of 2^64 - 1: the first tag is cut */
    DENIES(RESPONSE, 1, 3, 18, COUNT(14), COUNT(7), 0xff, 0xff, 0xff, 0xff, 0xff, 0xff, 0xff, 0xff, 0xff, 1);
    /* two tags: the second is cut, and the first is not stored */
    DENIES(RESPONSE, 1, 3, 13, COUNT(9), COUNT(7), 2, 5, 1, 'A', 6);
    /* a client's name is no compact one, also with header 2: 1 and 2 in two bytes are a length of 258 */
    DENIES(REQUEST, 2, 3, 12, FRONT(12), 1, 2, 'a', 0);

    /* the widest and the lowest numbers; a null client's name; a tag of 64 bits, and one that comes twice */
    CHECK(says(REQUEST, B(COUNT(11), 0x7f, 0xff, 0x80, 0, MOST32, 0xff, 0xff, 0), 15, 2, 0, C(0, 0, 0, 15, 32767, -32768, 2147483647, 1, 0, 0, 0, 15, 0)));
    CHECK(says(REQUEST, B(COUNT(10), 0x80, 0, 0x7f, 0xff, LEAST32, 0, 0), 14, 1, 0, C(0, 0, 0, 14, -32768, 32767, -INT64_C(2147483648), 2, 14, 0, -1, 14, 0)));
    CHECK(says(RESPONSE, B(COUNT(20), NONE, 2, 0xff, 0xff, 0xff, 0xff, 0xff, 0xff, 0xff, 0xff, 0xff, 1, 0, 5, 1, 'x', 'y'), 24, 1, 6, C(0, 0, 0, 24, -1, 2, 23, 1)));
    CHECK(holds(first, C(-1, 20, 0, 5, 22, 1), 6));
    CHECK(refuses(RESPONSE, B(COUNT(9), COUNT(7), 2, 5, 0, 5, 0), 13, 1, 5, 10, 0, 2));
    CHECK(says(RESPONSE, B(COUNT(9), COUNT(7), 2, 5, 0, 5, 0), 13, 1, 6, C(0, 0, 0, 13, 7, 2, 13, 0)) && holds(first, C(5, 11, 0, 5, 13, 0), 6));
}

/* ---- frames, written */

/* what is lent for a frame; of a response the row has two cells */
typedef struct {
    side s;
    int64_t header;
    const uint8_t *lent;
    size_t size;
    const int64_t *row, *tags;
    size_t cells;
    const uint8_t *body;
    size_t length;
} given;

static befrolan_numbers put(size_t room, given g)
{
    if (g.s == REQUEST)
        return befrolan_write_request_frame(out(), room, g.header, g.lent, g.size, g.row, g.tags, g.cells, g.body, g.length);
    return befrolan_write_response_frame(out(), room, g.header, g.lent, g.size, g.row, g.tags, g.cells, g.body, g.length);
}

/* `n` bytes at the front of the output: in more room, in just enough; refused in a byte less, in what the size alone would say, and in none */
static void writes(int line, given g, const uint8_t *bytes, size_t n)
{
    check(__FILE__, line, "in more room", USED(put(n + 32, g), (int64_t)n) && wrote(bytes, n));
    check(__FILE__, line, "in just enough", USED(put(n, g), (int64_t)n) && wrote(bytes, n));
    check(__FILE__, line, "in a byte less", not_written(put(n - 1, g), 10, (int64_t)n));
    check(__FILE__, line, "in four less", not_written(put(n - 4, g), 10, (int64_t)n));
    check(__FILE__, line, "in no room", not_written(put(0, g), 10, (int64_t)n));
}

/* refused with `number`, in room and without any */
static void denied(int line, given g, int64_t number)
{
    check(__FILE__, line, "in room", not_written(put(BYTES, g), number, 0));
    check(__FILE__, line, "in no room", not_written(put(0, g), number, 0));
}

/* Lent: "g", "me", U+00E9, data of three bytes; from 8 on what is no text. The body: three bytes. */
static const uint8_t lent[10] = {'g', 'm', 'e', 0xc3, 0xa9, 'A', 0, 0xff, 0xc0, 0x80};
static const uint8_t body[3] = {0, 0xab, 0xff};
#define BODY 0, 0xab, 0xff

#define GIVEN(s, header, row, tags, cells) ((given){s, header, lent, sizeof lent, row, tags, cells, body, 3})
#define WRITES(s, header, row, tags, cells, ...) writes(__LINE__, GIVEN(s, header, row, tags, cells), B(__VA_ARGS__), LEN(__VA_ARGS__))
#define DENIED(s, header, number, row, tags, cells) denied(__LINE__, GIVEN(s, header, row, tags, cells), number)

static void requests_written(void)
{
    /* the examples of the rules: no client's name, no body */
    writes(__LINE__, (given){REQUEST, 1, none, 0, C(18, 3, 7, 1, 0, 0, -1), no_cells, 0, none, 0}, B(COUNT(10), 0, 18, 0, 3, COUNT(7), 0xff, 0xff), 14);
    writes(__LINE__, (given){RESPONSE, 1, B('A'), 1, C(7, 1), C(5, 0, 1), 3, B(0xab), 1}, B(COUNT(9), COUNT(7), 1, 5, 1, 'A', 0xab), 13);

    WRITES(REQUEST, 1, C(18, 3, 7, 2, 1, 2, -1), no_cells, 0, COUNT(15), 0, 18, 0, 3, COUNT(7), 0, 2, 'm', 'e', BODY);
    WRITES(REQUEST, 2, C(18, 3, 7, 2, 1, 2, -1), no_cells, 0, COUNT(16), 0, 18, 0, 3, COUNT(7), 0, 2, 'm', 'e', 0, BODY);
    WRITES(REQUEST, 2, C(18, 3, 7, 2, 1, 2, 0), no_cells, 0, COUNT(16), 0, 18, 0, 3, COUNT(7), 0, 2, 'm', 'e', 0, BODY);
    /* kinds: unset and null are null, and their cells are not read; any other is there; an empty name is no null */
    WRITES(REQUEST, 2, C(18, 3, 7, 0, -9, 777, -1), no_cells, 0, COUNT(14), 0, 18, 0, 3, COUNT(7), 0xff, 0xff, 0, BODY);
    WRITES(REQUEST, 2, C(18, 3, 7, 1, -9, 777, -1), no_cells, 0, COUNT(14), 0, 18, 0, 3, COUNT(7), 0xff, 0xff, 0, BODY);
    WRITES(REQUEST, 1, C(18, 3, 7, 3, 3, 2, -1), no_cells, 0, COUNT(15), 0, 18, 0, 3, COUNT(7), 0, 2, 0xc3, 0xa9, BODY);
    WRITES(REQUEST, 1, C(18, 3, 7, -1, 3, 2, -1), no_cells, 0, COUNT(15), 0, 18, 0, 3, COUNT(7), 0, 2, 0xc3, 0xa9, BODY);
    WRITES(REQUEST, 1, C(18, 3, 7, 2, 10, 0, -1), no_cells, 0, COUNT(13), 0, 18, 0, 3, COUNT(7), 0, 0, BODY);
    /* the ends of the numbers' fields */
    WRITES(REQUEST, 1, C(32767, -32768, 2147483647, 0, 0, 0, -1), no_cells, 0, COUNT(13), 0x7f, 0xff, 0x80, 0, MOST32, 0xff, 0xff, BODY);
    WRITES(REQUEST, 2, C(-32768, 32767, -INT64_C(2147483648), 0, 0, 0, -1), no_cells, 0, COUNT(14), 0x80, 0, 0x7f, 0xff, LEAST32, 0xff, 0xff, 0, BODY);
    /* tags: in the order of the rows, and in the shortest form; with header 1 they are left out; cells at the end that are no row count nothing */
    WRITES(REQUEST, 2, C(18, 3, 7, 2, 0, 1, 2), C(300, 5, 3, 5, 10, 0), 6,
           COUNT(23), 0, 18, 0, 3, COUNT(7), 0, 1, 'g', 2, 0xac, 2, 3, 'A', 0, 0xff, 5, 0, BODY);
    WRITES(REQUEST, 1, C(18, 3, 7, 2, 0, 1, 2), C(300, 5, 3, 5, 10, 0), 6, COUNT(14), 0, 18, 0, 3, COUNT(7), 0, 1, 'g', BODY);
    WRITES(REQUEST, 2, C(18, 3, 7, 0, 0, 0, 1), C(-1, 5, 1, 9, 9), 5,
           COUNT(26), 0, 18, 0, 3, COUNT(7), 0xff, 0xff, 1, 0xff, 0xff, 0xff, 0xff, 0xff, 0xff, 0xff, 0xff, 0xff, 1, 1, 'A', BODY);

    /* 11: each number too wide by one, at both ends */
    DENIED(REQUEST, 1, 11, C(32768, 3, 7, 0, 0, 0, -1), no_cells, 0);
    DENIED(REQUEST, 2, 11, C(-32769, 3, 7, 0, 0, 0, -1), no_cells, 0);
    DENIED(REQUEST, 1, 11, C(18, 32768, 7, 0, 0, 0, -1), no_cells, 0);
    DENIED(REQUEST, 2, 11, C(18, -32769, 7, 0, 0, 0, -1), no_cells, 0);
    DENIED(REQUEST, 1, 11, C(18, 3, INT64_C(2147483648), 0, 0, 0, -1), no_cells, 0);
    DENIED(REQUEST, 2, 11, C(18, 3, -INT64_C(2147483649), 0, 0, 0, -1), no_cells, 0);
    DENIED(REQUEST, 2, 11, C(65536 + 18, 3, 7, 0, 0, 0, -1), no_cells, 0);
    /* 7 after 11 of the numbers */
    DENIED(REQUEST, 1, 7, C(18, 3, 7, 2, 8, 2, -1), no_cells, 0);
    DENIED(REQUEST, 2, 7, C(18, 3, 7, 2, 3, 1, -1), no_cells, 0);
    DENIED(REQUEST, 2, 11, C(18, 3, INT64_C(2147483648), 2, 8, 2, -1), no_cells, 0);
    /* 13 before both: a name outside what is lent, tags that are too few, too many, below -1, or whose data is outside; with header 1 alike */
    for (int64_t h = 1; h < 3; h++) {
        DENIED(REQUEST, h, 13, C(32768, 3, 7, 2, 9, 2, -1), no_cells, 0);
        DENIED(REQUEST, h, 13, C(18, 3, 7, 2, -1, 1, -1), no_cells, 0);
        DENIED(REQUEST, h, 13, C(18, 3, 7, 2, 1, -1, -1), no_cells, 0);
        DENIED(REQUEST, h, 13, C(18, 3, 7, 2, 11, 0, -1), no_cells, 0);
        DENIED(REQUEST, h, 13, C(18, 3, 7, 2, INT64_MAX, INT64_MAX, -1), no_cells, 0);
        DENIED(REQUEST, h, 13, C(32768, 3, 7, 0, 0, 0, 1), no_cells, 0);
        DENIED(REQUEST, h, 13, C(18, 3, 7, 2, 8, 2, -1), C(5, 0, 0), 3);
        DENIED(REQUEST, h, 13, C(18, 3, 7, 0, 0, 0, 0), C(5, 0, 0), 3);
        DENIED(REQUEST, h, 13, C(18, 3, 7, 0, 0, 0, -2), no_cells, 0);
        DENIED(REQUEST, h, 13, C(18, 3, 7, 0, 0, 0, 1), C(5, 0, 11), 3);
        DENIED(REQUEST, h, 13, C(18, 3, 7, 0, 0, 0, 2), C(5, 0, 1, 6, 10, 1), 6);
    }
    /* 1 before everything */
    static const int64_t others[] = {-1, 0, 3, 65537, 65538, INT64_MIN + 1, INT64_MAX};
    for (size_t i = 0; i < sizeof others / sizeof others[0]; i++) {
        DENIED(REQUEST, others[i], 1, C(18, 3, 7, 0, 0, 0, -1), no_cells, 0);
        DENIED(REQUEST, others[i], 1, C(32768, 3, 7, 2, 9, 2, 4), no_cells, 0);
    }
}

static void responses_written(void)
{
    WRITES(RESPONSE, 0, C(7, -1), no_cells, 0, COUNT(7), COUNT(7), BODY);
    WRITES(RESPONSE, 0, C(-1, 0), no_cells, 0, COUNT(7), NONE, BODY);
    WRITES(RESPONSE, 1, C(7, -1), no_cells, 0, COUNT(8), COUNT(7), 0, BODY);
    WRITES(RESPONSE, 1, C(2147483647, 2), C(300, 5, 3, 5, 0, 0), 6, COUNT(16), MOST32, 2, 0xac, 2, 3, 'A', 0, 0xff, 5, 0, BODY);
    WRITES(RESPONSE, 0, C(-INT64_C(2147483648), 2), C(300, 5, 3, 5, 0, 0), 6, COUNT(7), LEAST32, BODY);
    for (int64_t h = 0; h < 2; h++) {
        DENIED(RESPONSE, h, 11, C(INT64_C(2147483648), -1), no_cells, 0);
        DENIED(RESPONSE, h, 11, C(-INT64_C(2147483649), -1), no_cells, 0);
        DENIED(RESPONSE, h, 13, C(INT64_C(2147483648), 1), no_cells, 0);
        DENIED(RESPONSE, h, 13, C(7, 1), C(5, 0, 11), 3);
        DENIED(RESPONSE, h, 13, C(7, -2), no_cells, 0);
    }
    static const int64_t others[] = {-1, 2, 65536, 65537, INT64_MIN, INT64_MIN + 1, INT64_MAX};
    for (size_t i = 0; i < sizeof others / sizeof others[0]; i++) {
        DENIED(RESPONSE, others[i], 1, C(7, -1), no_cells, 0);
        DENIED(RESPONSE, others[i], 1, C(INT64_C(2147483648), 4), no_cells, 0);
    }
}

/* header and body together of the most bytes, and one more; a name of the most bytes, and one more; 2 after 13, 11 and 7, and before 10 */
static void longest_written(void)
{
    static uint8_t expected[BEFROLAN_MOST + 4];
    put_size(expected, BEFROLAN_MOST);
    memcpy(expected + 4, B(0, 18, 0, 3, COUNT(7), 0, 1, 'g', 1, 5, 1, 'A'), 15);
    given g = {REQUEST, 2, B('g', 'A', 0xff), 3, C(18, 3, 7, 2, 0, 1, 1), C(5, 1, 1), 3, large, BEFROLAN_MOST - 15};
    writes(__LINE__, g, expected, sizeof expected);
    for (g.length = BEFROLAN_MOST - 14; g.length <= BEFROLAN_MOST + 1; g.length += 5)
        denied(__LINE__, g, 2);
    g.row = C(18, 3, 7, 2, 2, 1, 1);
    denied(__LINE__, g, 7);
    g.row = C(18, 3, INT64_C(2147483648), 2, 2, 1, 1);
    denied(__LINE__, g, 11);
    g.row = C(18, 3, 7, 2, 3, 1, 1);
    denied(__LINE__, g, 13);
    g.header = 3;
    denied(__LINE__, g, 1);

    put_size(expected, BEFROLAN_MOST);
    memset(expected + 4, 0, sizeof expected - 4);
    g = (given){RESPONSE, 0, none, 0, C(0, -1), no_cells, 0, large, BEFROLAN_MOST - 4};
    writes(__LINE__, g, expected, sizeof expected);
    g.length++;
    denied(__LINE__, g, 2);
    g.length = BEFROLAN_MOST + 1;
    denied(__LINE__, g, 2);
    g.header = 1;
    g.length = BEFROLAN_MOST - 5;
    writes(__LINE__, g, expected, sizeof expected);
    g.length++;
    denied(__LINE__, g, 2);

    put_size(expected, 32777);
    memcpy(expected + 4, B(0, 18, 0, 3, COUNT(7), 0x7f, 0xff), 10);
    g = (given){REQUEST, 1, large, 32768, C(18, 3, 7, 2, 0, 32767, -1), no_cells, 0, none, 0};
    writes(__LINE__, g, expected, 32781);
    g.row = C(18, 3, 7, 2, 0, 32768, -1);
    denied(__LINE__, g, 11);
    /* 11 of a name that is too long comes before 7 */
    large[0] = 0xff;
    denied(__LINE__, g, 11);
    g.row = C(18, 3, 7, 2, 0, 32767, -1);
    denied(__LINE__, g, 7);
    large[0] = 0;
}

/* ---- written, and read back */

static void come_back(void)
{
    uint8_t kept[64];
    for (int64_t h = 1; h < 3; h++) {
        memset(kept, 0xff, sizeof kept);
        befrolan_numbers w = befrolan_write_request_frame(kept, 64, h, lent, sizeof lent, C(18, 3, 7, 2, 1, 2, 1), C(5, 5, 3), 3, body, 3);
        befrolan_request_frame_numbers r = befrolan_read_request_frame(kept, 64, h, table(first), 3);
        CHECK(USED(r, w.used) && r.request_api_key == 18 && r.request_api_version == 3 && r.correlation_id == 7 && r.client_id_kind == 2 && r.tags == (h == 2 ? 1 : -1));
        CHECK(r.client_id_length == 2 && memcmp(kept + r.client_id_start, "me", 2) == 0);
        CHECK(r.body_length == 3 && memcmp(kept + r.body_start, body, 3) == 0 && r.body_start + 3 == r.used);
        if (h == 2)
            CHECK(first[GUARD] == 5 && first[GUARD + 2] == 3 && memcmp(kept + first[GUARD + 1], "A\0\xff", 3) == 0);
        /* an unset name comes back as null, unset tags as none */
        w = befrolan_write_request_frame(kept, 64, h, NULL, 0, C(3, 1, -9, 0, 0, 0, -1), NULL, 0, NULL, 0);
        r = befrolan_read_request_frame(kept, 64, h, NULL, 0);
        CHECK(USED(r, w.used) && r.correlation_id == -9 && r.client_id_kind == 1 && r.client_id_start == 0 && r.client_id_length == 0 && r.tags == (h == 2 ? 0 : -1) && r.body_length == 0);
    }
    for (int64_t h = 0; h < 2; h++) {
        befrolan_numbers w = befrolan_write_response_frame(kept, 64, h, lent, sizeof lent, C(7, 1), C(5, 5, 3), 3, body, 3);
        befrolan_response_frame_numbers r = befrolan_read_response_frame(kept, 64, h, table(first), 3);
        CHECK(USED(r, w.used) && r.correlation_id == 7 && r.tags == (h == 1 ? 1 : -1));
        CHECK(r.body_length == 3 && memcmp(kept + r.body_start, body, 3) == 0 && r.body_start + 3 == r.used);
        w = befrolan_write_response_frame(kept, 64, h, NULL, 0, C(7, -1), NULL, 0, NULL, 0);
        r = befrolan_read_response_frame(kept, 64, h, NULL, 0);
        CHECK(USED(r, w.used) && r.correlation_id == 7 && r.tags == (h == 1 ? 0 : -1) && r.body_length == 0);
    }
}

/* ---- which header */

static void header_numbers(void)
{
    static const int64_t wide[] = {INT64_MIN, -32768, -1, 0, 1, 2, 3, 4, 17, 18, 19, 32767, 65536 + 18, INT64_C(4294967296) + 18, INT64_MAX};
    for (size_t k = 0; k < sizeof wide / sizeof wide[0]; k++)
        for (size_t v = 0; v < sizeof wide / sizeof wide[0]; v++) {
            CHECK(befrolan_request_number(wide[k], wide[v]) == (wide[k] == 18 && wide[v] >= 3 ? 2 : 1));
            CHECK(befrolan_response_number(wide[k], wide[v]) == 0);
        }
}

void frames(void)
{
    sizes();
    tagged_read();
    cuts();
    two_frames();
    overruns();
    headers_refused();
    requests_written();
    responses_written();
    longest_written();
    come_back();
    header_numbers();
}
