/* The calls, and how a line is put to one of them. */
#include "answers.h"

#include <string.h>

/* A call: its name, the kinds of its words, a letter each (answers.h), its function, and a number for that, where it has more than one row. */
static const struct call {
    const char *name, *kinds;
    asking *ask;
    uint64_t number;
} calls[] = {
    {"well_formed", "B", ask_well_formed, 0},
    {"is_text", "B", ask_is_text, 0},

    {"int8", "B", ask_primitive, BEFROLAN_INT8},
    {"int16", "B", ask_primitive, BEFROLAN_INT16},
    {"int32", "B", ask_primitive, BEFROLAN_INT32},
    {"int64", "B", ask_primitive, BEFROLAN_INT64},
    {"boolean", "B", ask_primitive, BEFROLAN_BOOLEAN},
    {"unsigned_varint", "B", ask_primitive, BEFROLAN_UNSIGNED_VARINT},
    {"varint", "B", ask_primitive, BEFROLAN_VARINT},
    {"varlong", "B", ask_primitive, BEFROLAN_VARLONG},
    {"array_count", "B", ask_primitive, BEFROLAN_ARRAY},
    {"compact_array_count", "B", ask_primitive, BEFROLAN_COMPACT_ARRAY},
    {"bytes", "B", ask_primitive, BEFROLAN_BYTES},
    {"nullable_bytes", "B", ask_primitive, BEFROLAN_NULLABLE_BYTES},
    {"compact_bytes", "B", ask_primitive, BEFROLAN_COMPACT_BYTES},
    {"records", "B", ask_primitive, BEFROLAN_RECORDS},
    {"string", "B", ask_primitive, BEFROLAN_STRING},
    {"nullable_string", "B", ask_primitive, BEFROLAN_NULLABLE_STRING},
    {"compact_string", "B", ask_primitive, BEFROLAN_COMPACT_STRING},
    {"compact_nullable_string", "B", ask_primitive, BEFROLAN_COMPACT_NULLABLE_STRING},
    {"tagged_fields", "RB", ask_tagged_fields, 0},

    {"write_int8", "ON", ask_write_primitive, BEFROLAN_INT8},
    {"write_int16", "ON", ask_write_primitive, BEFROLAN_INT16},
    {"write_int32", "ON", ask_write_primitive, BEFROLAN_INT32},
    {"write_int64", "ON", ask_write_primitive, BEFROLAN_INT64},
    {"write_boolean", "OF", ask_write_primitive, BEFROLAN_BOOLEAN},
    {"write_unsigned_varint", "ON", ask_write_primitive, BEFROLAN_UNSIGNED_VARINT},
    {"write_varint", "ON", ask_write_primitive, BEFROLAN_VARINT},
    {"write_varlong", "ON", ask_write_primitive, BEFROLAN_VARLONG},
    {"write_array_count", "OZ", ask_write_primitive, BEFROLAN_ARRAY},
    {"write_compact_array_count", "OZ", ask_write_primitive, BEFROLAN_COMPACT_ARRAY},
    {"write_bytes", "OB", ask_write_primitive, BEFROLAN_BYTES},
    {"write_nullable_bytes", "OY", ask_write_primitive, BEFROLAN_NULLABLE_BYTES},
    {"write_compact_bytes", "OB", ask_write_primitive, BEFROLAN_COMPACT_BYTES},
    {"write_records", "OB", ask_write_primitive, BEFROLAN_RECORDS},
    {"write_string", "OB", ask_write_primitive, BEFROLAN_STRING},
    {"write_nullable_string", "OY", ask_write_primitive, BEFROLAN_NULLABLE_STRING},
    {"write_compact_string", "OB", ask_write_primitive, BEFROLAN_COMPACT_STRING},
    {"write_compact_nullable_string", "OY", ask_write_primitive, BEFROLAN_COMPACT_NULLABLE_STRING},
    {"write_tagged_fields", "OBNC", ask_write_tagged_fields, 0},

    {"response_read", "VRRB", ask_response, 0},
    {"response_read_whole", "VRRB", ask_response, 1},
    {"response_read_answer", "VRRB", ask_response, 1},
    {"request_read", "VRB", ask_request, 0},
    {"response_write", "OVBNNTNCC", ask_write_response, 0},
    {"request_write", "OVBPPNC", ask_write_request, 0},
    {"agree", "C", ask_agree, 0},

    {"metadata_read", "VRRRRRB", ask_metadata, 0},
    {"metadata_request_write", "OVBNAC", ask_write_metadata, 0},
    {"host", "VNB", ask_host, 0},

    {"fetch_read", "VRRRB", ask_fetch, 0},
    {"fetch_request_write", "OVBNNNTTNCC", ask_write_fetch, 0},

    {"request_frame_read", "VRB", ask_request_frame, 0},
    {"response_frame_read", "VRB", ask_response_frame, 0},
    {"request_frame_write", "OVBNNNXNCB", ask_write_request_frame, 0},
    {"response_frame_write", "OVBNNCB", ask_write_response_frame, 0},
    {"request_number", "VV", ask_request_number, 0},
    {"response_number", "VV", ask_response_number, 0},
};

/* Cases come in rows of one call, so the one that was asked last is looked at first. */
static const struct call *named(struct text name)
{
    static const struct call *last = calls;
    if (is(name, last->name))
        return last;
    for (const struct call *c = calls; c < calls + sizeof calls / sizeof *calls; c++)
        if (is(name, c->name))
            return last = c;
    return NULL;
}

/* As many words as the call has kinds, each of its kind. */
static bool take_words(const char *kinds, struct text left, struct word *words)
{
    if (strlen(kinds) > MOST_WORDS)
        give_up("a row of the table has more words than there are places for");
    for (size_t k = 0; kinds[k] != '\0'; k++)
        if (left.at == NULL || !take(kinds[k], front(left, ' ', &left), k, &words[k]))
            return false;
    return left.at == NULL;
}

void answer(struct text line)
{
    struct word words[MOST_WORDS];
    struct text left;
    const struct call *call = named(front(line, ' ', &left));
    if (call == NULL || !take_words(call->kinds, left, words)) {
        say("bad case\n");
        return;
    }
    lend_nothing();
    call->ask(words, call->number);
    say_lent();
    say_stray();
    end_line();
}
