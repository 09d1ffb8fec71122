/* The calls that write. */
#include "answers.h"

static void say_written(befrolan_numbers r)
{
    if (ACCEPTED(r))
        say_number(r.used);
}

/* of what a caller may leave unset, or give as null */
static int64_t kind(struct word w)
{
    if (w.null)
        return BEFROLAN_NULL;
    return w.nothing ? BEFROLAN_ABSENT : BEFROLAN_PRESENT;
}

/* Where something is unset, what a call must then not look at is there all the same: the length of a part, and a flag that is not
 * the one which is written for an unset one. */
static int64_t length(struct word w)
{
    return w.nothing ? FILL : (int64_t)w.size;
}

static int64_t flag(struct word w)
{
    return w.nothing ? 0 : w.cell;
}

void ask_write_primitive(const struct word *w, uint64_t kind)
{
    say_written(befrolan_write_primitive(
        lend_output(w[0].size), w[0].size, kind, w[1].nothing, w[1].cell, w[1].bytes, w[1].size));
}

void ask_write_tagged_fields(const struct word *w, uint64_t number)
{
    (void)number;
    say_written(befrolan_write_tagged_fields(
        lend_output(w[0].size), w[0].size, w[1].bytes, w[1].size, w[2].cell, w[3].cells, w[3].size));
}

void ask_write_response(const struct word *w, uint64_t number)
{
    (void)number;
    const int64_t body[5] = {w[3].cell, w[4].cell, kind(w[5]), w[5].cell, w[6].cell};
    say_written(befrolan_write_api_versions_response(
        lend_output(w[0].size), w[0].size, w[1].cell, w[2].bytes, w[2].size, body, w[7].cells, w[7].size, w[8].cells, w[8].size));
}

void ask_write_request(const struct word *w, uint64_t number)
{
    (void)number;
    const int64_t body[7] = {kind(w[3]), w[3].cell, length(w[3]), kind(w[4]), w[4].cell, length(w[4]), w[5].cell};
    say_written(befrolan_write_api_versions_request(
        lend_output(w[0].size), w[0].size, w[1].cell, w[2].bytes, w[2].size, body, w[6].cells, w[6].size));
}

void ask_write_metadata(const struct word *w, uint64_t number)
{
    (void)number;
    const int64_t body[3] = {w[3].cell, kind(w[4]), flag(w[4])};
    say_written(befrolan_write_metadata_request(
        lend_output(w[0].size), w[0].size, w[1].cell, w[2].bytes, w[2].size, body, w[5].cells, w[5].size));
}

void ask_write_fetch(const struct word *w, uint64_t number)
{
    (void)number;
    const int64_t body[8] = {w[3].cell, w[4].cell, w[5].cell, kind(w[6]), w[6].cell, kind(w[7]), w[7].cell, w[8].cell};
    say_written(befrolan_write_fetch_request(
        lend_output(w[0].size), w[0].size, w[1].cell, w[2].bytes, w[2].size, body, w[9].cells, w[9].size, w[10].cells, w[10].size));
}

void ask_write_request_frame(const struct word *w, uint64_t number)
{
    (void)number;
    const int64_t row[7] = {w[3].cell, w[4].cell, w[5].cell, kind(w[6]), w[6].cell, length(w[6]), w[7].cell};
    say_written(befrolan_write_request_frame(
        lend_output(w[0].size), w[0].size, w[1].cell, w[2].bytes, w[2].size, row, w[8].cells, w[8].size, w[9].bytes, w[9].size));
}

void ask_write_response_frame(const struct word *w, uint64_t number)
{
    (void)number;
    const int64_t row[2] = {w[3].cell, w[4].cell};
    say_written(befrolan_write_response_frame(
        lend_output(w[0].size), w[0].size, w[1].cell, w[2].bytes, w[2].size, row, w[5].cells, w[5].size, w[6].bytes, w[6].size));
}
