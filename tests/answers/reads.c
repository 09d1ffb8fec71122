/* The calls that read: texts, primitives, bodies, what is found in them, and frames. */
#include "answers.h"

/* ---- texts and primitives */

void ask_well_formed(const struct word *w, uint64_t number)
{
    (void)number;
    say("ok");
    say_number((int64_t)befrolan_well_formed(w[0].bytes, w[0].size));
}

/* a text is one where all of it is well-formed */
void ask_is_text(const struct word *w, uint64_t number)
{
    (void)number;
    say("ok");
    say_number(befrolan_well_formed(w[0].bytes, w[0].size) == w[0].size);
}

static bool is_signed(uint64_t kind)
{
    return kind <= BEFROLAN_INT64 || kind == BEFROLAN_VARINT || kind == BEFROLAN_VARLONG;
}

void ask_primitive(const struct word *w, uint64_t kind)
{
    befrolan_primitive_numbers r = befrolan_read_primitive(w[0].bytes, w[0].size, kind);
    if (!ACCEPTED(r))
        return;
    say_number(r.used);
    if (r.form == BEFROLAN_NULL || kind >= BEFROLAN_BYTES) {
        note(r.form != BEFROLAN_ABSENT);
        say_part(r.form, &w[0], r.value, r.length);
        return;
    }
    note(r.form == BEFROLAN_VALUE && r.length == 0);
    if (is_signed(kind))
        say_signed(r.value);
    else
        say_number(r.value);
}

void ask_tagged_fields(const struct word *w, uint64_t number)
{
    (void)number;
    befrolan_tags_numbers r = befrolan_read_tagged_fields(w[1].bytes, w[1].size, lend_table(w[0].size), w[0].size);
    if (!ACCEPTED(r))
        return;
    say_number(r.used);
    say_number(r.tags);
}

/* ---- ApiVersions */

void ask_response(const struct word *w, uint64_t whole)
{
    int64_t *items = lend_table(w[1].size), *tags = lend_table(w[2].size);
    befrolan_response_numbers r = befrolan_read_api_versions_response(
        w[3].bytes, w[3].size, w[0].cell, whole, items, w[1].size, tags, w[2].size);
    if (!ACCEPTED(r))
        return;
    say_number(r.used);
    say_signed(r.error);
    say_signed(r.items);
    say_optional(r.throttle_kind, r.throttle);
    say_signed(r.tags);
}

void ask_request(const struct word *w, uint64_t number)
{
    (void)number;
    befrolan_request_numbers r = befrolan_read_api_versions_request(
        w[2].bytes, w[2].size, w[0].cell, lend_table(w[1].size), w[1].size);
    if (!ACCEPTED(r))
        return;
    say_number(r.used);
    note(r.name_kind != BEFROLAN_NULL && r.version_kind != BEFROLAN_NULL);
    say_part(r.name_kind, &w[2], r.name_start, r.name_length);
    say_part(r.version_kind, &w[2], r.version_start, r.version_length);
    say_signed(r.tags);
}

void ask_agree(const struct word *w, uint64_t number)
{
    (void)number;
    int64_t *rows = lend_numbers(9);
    befrolan_agree(w[0].cells, w[0].size, rows);
    say("ok");
    for (size_t i = 0; i < 9; i++)
        say_signed(rows[i]);
}

/* ---- Metadata */

void ask_metadata(const struct word *w, uint64_t number)
{
    (void)number;
    int64_t *table[5];
    for (size_t k = 0; k < 5; k++)
        table[k] = lend_table(w[1 + k].size);
    befrolan_metadata_numbers r = befrolan_read_metadata_response(
        w[6].bytes, w[6].size, w[0].cell,
        table[0], w[1].size, table[1], w[2].size, table[2], w[3].size, table[3], w[4].size, table[4], w[5].size);
    if (!ACCEPTED(r))
        return;
    say_number(r.used);
    say_optional(r.throttle_kind, r.throttle);
    say_signed(r.brokers);
    say_part(r.cluster_kind, &w[6], r.cluster_start, r.cluster_length);
    say_optional(r.controller_kind, r.controller);
    say_signed(r.topics);
}

void ask_host(const struct word *w, uint64_t number)
{
    (void)number;
    befrolan_host_numbers r = befrolan_find_host(w[2].bytes, w[2].size, w[0].cell, w[1].cell);
    if (!ACCEPTED(r))
        return;
    if (r.found == 0) {
        note(r.start == 0 && r.length == 0);
        say(" none");
        return;
    }
    note(r.found == 1);
    say_part(BEFROLAN_PRESENT, &w[2], r.start, r.length);
}

/* ---- Fetch */

void ask_fetch(const struct word *w, uint64_t number)
{
    (void)number;
    int64_t *topics = lend_table(w[1].size), *partitions = lend_table(w[2].size), *aborted = lend_table(w[3].size);
    befrolan_fetch_numbers r = befrolan_read_fetch_response(
        w[4].bytes, w[4].size, w[0].cell, topics, w[1].size, partitions, w[2].size, aborted, w[3].size);
    if (!ACCEPTED(r))
        return;
    say_number(r.used);
    say_optional(r.throttle_kind, r.throttle);
    say_signed(r.topics);
}

/* ---- frames */

void ask_request_frame(const struct word *w, uint64_t number)
{
    (void)number;
    befrolan_request_frame_numbers r = befrolan_read_request_frame(
        w[2].bytes, w[2].size, w[0].cell, lend_table(w[1].size), w[1].size);
    if (!ACCEPTED(r))
        return;
    say_number(r.used);
    say_signed(r.request_api_key);
    say_signed(r.request_api_version);
    say_signed(r.correlation_id);
    note(r.client_id_kind != BEFROLAN_ABSENT);
    say_part(r.client_id_kind, &w[2], r.client_id_start, r.client_id_length);
    say_signed(r.tags);
    say_part(BEFROLAN_PRESENT, &w[2], r.body_start, r.body_length);
}

void ask_response_frame(const struct word *w, uint64_t number)
{
    (void)number;
    befrolan_response_frame_numbers r = befrolan_read_response_frame(
        w[2].bytes, w[2].size, w[0].cell, lend_table(w[1].size), w[1].size);
    if (!ACCEPTED(r))
        return;
    say_number(r.used);
    say_signed(r.correlation_id);
    say_signed(r.tags);
    say_part(BEFROLAN_PRESENT, &w[2], r.body_start, r.body_length);
}

void ask_request_number(const struct word *w, uint64_t number)
{
    (void)number;
    say("ok");
    say_signed(befrolan_request_number(w[0].cell, w[1].cell));
}

void ask_response_number(const struct word *w, uint64_t number)
{
    (void)number;
    say("ok");
    say_signed(befrolan_response_number(w[0].cell, w[1].cell));
}
