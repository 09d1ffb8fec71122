/* Befrolan: bodies of Kafka messages, and the frames that they come in, read from bytes and written to bytes. The C interface.
 *
 * The functions hold no state, allocate nothing and keep no pointer. Every answer is numbers, in a struct where there are
 * several. Each function's promise, which the prover has checked, stands at its definition, in the crates whose names begin
 * with `gateway_`. All of them are linked from target/staticlib/libbefrolan.a, which tools/staticlib makes.
 *
 * Slices. A slice is two parameters: a pointer, and how many elements there are. Where the length is 0 the pointer may be
 * null: nothing is read or written through it.
 *
 * Versions. A version is a number of 64 bits, and every one that the message does not have is BEFROLAN_NO_VERSION: those
 * below 0, and those far above, whatever their low bits are.
 *
 * Headers. The number of a frame's header is treated as a version is: every one that there is not is BEFROLAN_NO_VERSION.
 *
 * Cells. Numbers in tables and answers are cells: 64 bits, two's complement. They are declared as int64_t.
 *
 * Tables. A table is a slice of cells, row behind row; a cut row at its end is no row. Rows are filled from the
 * front. Cells behind the rows filled, and bytes behind those written, stay as they were. After a refusal
 * everything that was lent is as it was.
 *
 * Texts and data are parts: a start and a length, counted in bytes from the front of the message or frame that was read,
 * or of `lent`, the bytes beside what is written.
 *
 * What the caller owes. A call judges every number that it is given, and every byte and cell; it cannot judge these, and
 * promises nothing where one of them is not so:
 * - A slice whose length is not 0 has a pointer that is not null, to at least as many elements as the length says.
 * - `body`, `row` and `rows`, where they have no length beside them, point to as many cells as their declaration says.
 * - A pointer to cells is aligned for them, as one to an int64_t is.
 * - What is lent to be written to (its pointer is not to const) overlaps nothing else that is lent to the same call. What is
 *   only read may overlap.
 * - Until the call returns nobody else writes to what is lent, or reads what is lent to be written to: no other thread, and
 *   no signal handler.
 */
#ifndef BEFROLAN_H
#define BEFROLAN_H

#include <stddef.h>
#include <stdint.h>

#ifdef __cplusplus
extern "C" {
#endif

/* ---- refusals: `number` of an answer. The place is a byte of the message or of the frame; on writing it is always 0. */

enum {
    BEFROLAN_ACCEPTED = 0,
    BEFROLAN_NO_VERSION = 1,        /* the message has no such version; there is no such kind, or no such header. Place 0 */
    BEFROLAN_TOO_LONG = 2,          /* message, or what would be written, over BEFROLAN_MOST bytes; of a frame to write, header
                                       and body together. Place 0 */
    BEFROLAN_BYTES_END = 3,         /* the bytes end inside a primitive. Its start. Or before the end of a frame. Place 0 */
    BEFROLAN_LENGTH_BELOW = 4,      /* a length or count below what is allowed. Its start */
    BEFROLAN_VARINT_CONTINUES = 5,  /* the tenth byte of a varint continues. The varint's start */
    BEFROLAN_LENGTH_ZERO = 6,       /* length 0 in a compact string or compact bytes. Its start */
    BEFROLAN_NOT_TEXT = 7,          /* a text that is not UTF-8. The first byte of its first sequence that is ill-formed or
                                       cut: what is before that in the text is well-formed */
    BEFROLAN_NULL_ITEMS = 8,        /* null items in a whole read. The count's start */
    BEFROLAN_BYTES_LEFT = 9,        /* bytes left over in a whole read. The first of them */
    BEFROLAN_NO_ROOM = 10,          /* a table or the output is too small; `need` tells the rows or bytes needed. Place 0 */
    BEFROLAN_TOO_WIDE = 11,         /* a number that its type cannot hold; a STRING or NULLABLE_STRING to write over 32,767
                                       bytes; an isolation level other than 0 or 1. Its start */
    BEFROLAN_GROUP_TOO_WIDE = 12,   /* kept from the ported code; no call gives it */
    BEFROLAN_BAD_TABLES = 13,       /* counts that do not add up to the rows, or below -1, or -1 where there is neither
                                       null nor unset; a part outside the lent bytes. Place 0 */
    BEFROLAN_BAD_SIZE = 14          /* the size before a frame is below 0 or over BEFROLAN_MOST. Place 0 */
};

/* No message and no written body has more bytes, and no frame more without its size: with it, 4 more. */
#define BEFROLAN_MOST 1048576

/* ---- rows of tables */

/* An item of an ApiVersions response: API key, minimum version, maximum version, number of its tags
 * (BEFROLAN_UNSET where the version has none, or where they are unset). */
#define BEFROLAN_ITEM_CELLS 4

/* A tag, of a body or of a frame's header: the tag, and start and length of its data. */
#define BEFROLAN_TAG_CELLS 3

/* The number of tags where they are absent in the version or unset. */
#define BEFROLAN_UNSET (-1)

/* A broker of a Metadata response: node, start and length of its host, port, and kind, start and length of its rack
 * (BEFROLAN_ABSENT at version 0, BEFROLAN_NULL or BEFROLAN_PRESENT from 1 on). */
#define BEFROLAN_BROKER_CELLS 7

/* A topic of a Metadata response: error, start and length of its name, whether it is internal (1 or 0; -1 at version 0,
 * which does not tell), number of its partitions. */
#define BEFROLAN_TOPIC_CELLS 5

/* A partition of a Metadata response: error, index, node of its leader, number of its replicas, number of those in sync
 * (each BEFROLAN_NULL_COUNT where the array is null). */
#define BEFROLAN_PARTITION_CELLS 5

/* A replica, and one in sync: its node. */
#define BEFROLAN_REPLICA_CELLS 1

/* A topic of a Metadata request: start and length of its name. */
#define BEFROLAN_NAME_CELLS 2

/* The number of replicas, of those in sync, and of a request's topics, where the array is null and not just empty. */
#define BEFROLAN_NULL_COUNT (-1)

/* A topic of a Fetch response: start and length of its name, number of its partitions. */
#define BEFROLAN_FETCH_TOPIC_CELLS 3

/* A partition of a Fetch response: index, error, high watermark, last stable offset (-1 below version 4, which does not
 * tell it), number of its aborted transactions (0 below version 4), start and length of its records (a null field is
 * shown as an empty part). */
#define BEFROLAN_FETCH_PARTITION_CELLS 7

/* An aborted transaction of a Fetch response: producer, first offset. */
#define BEFROLAN_ABORTED_CELLS 2

/* A topic of a Fetch request: start and length of its name, number of its partitions. */
#define BEFROLAN_WANTED_TOPIC_CELLS 3

/* A partition of a Fetch request: index, offset to fetch from, most bytes. */
#define BEFROLAN_WANTED_PARTITION_CELLS 3

/* Kinds. Of a throttle time, a controller, a request's text, a request's auto-creation, and a Fetch request's max bytes
 * and isolation level: absent in the version or unset, or there. Of a rack and a cluster: absent in the version, BEFROLAN_NULL (1), or there.
 * Of the client's name in a frame: BEFROLAN_NULL, or there. To a writer any kind but 0 means that it is there; of the client's
 * name in a frame, any but 0 and BEFROLAN_NULL. */
#define BEFROLAN_ABSENT 0
#define BEFROLAN_PRESENT 2

/* ---- answers. Where `number` is 0 the call accepted, and `place` and `need` are 0. Else it refused, `place` and
 * `need` say more, and every other number is 0. */

/* Of a writer: `used` bytes were written, at the front of the output. */
typedef struct {
    int64_t number, place, need, used;
} befrolan_numbers;

/* Of tagged fields that were read: the bytes used, and how many tags there are. */
typedef struct {
    int64_t number, place, need, used;
    int64_t tags;
} befrolan_tags_numbers;

/* Of a primitive that was read. */
typedef struct {
    int64_t number, place, need, used;
    int64_t form;   /* BEFROLAN_VALUE or BEFROLAN_NULL */
    int64_t value;  /* the number, the count, or the start of the part; a BOOLEAN is 0 or 1 */
    int64_t length; /* of a part; else 0 */
} befrolan_primitive_numbers;

#define BEFROLAN_NULL 1
#define BEFROLAN_VALUE 2

/* Of an ApiVersions response that was read. */
typedef struct {
    int64_t number, place, need, used;
    int64_t error;
    int64_t items;         /* how many; null items of a prefix read are none */
    int64_t throttle_kind; /* BEFROLAN_ABSENT or BEFROLAN_PRESENT */
    int64_t throttle;
    int64_t tags;          /* the body's own, behind those of the items; BEFROLAN_UNSET where the version has none */
} befrolan_response_numbers;

/* Of a Metadata response that was read. What is absent or null has 0 behind its kind. */
typedef struct {
    int64_t number, place, need, used;
    int64_t throttle_kind;   /* BEFROLAN_ABSENT or BEFROLAN_PRESENT */
    int64_t throttle;
    int64_t brokers;         /* how many; a null array is none */
    int64_t cluster_kind;    /* BEFROLAN_ABSENT, BEFROLAN_NULL or BEFROLAN_PRESENT */
    int64_t cluster_start, cluster_length;
    int64_t controller_kind; /* BEFROLAN_ABSENT or BEFROLAN_PRESENT */
    int64_t controller;      /* a node */
    int64_t topics;          /* how many; a null array is none */
} befrolan_metadata_numbers;

/* Of a Fetch response that was read. */
typedef struct {
    int64_t number, place, need, used;
    int64_t throttle_kind; /* BEFROLAN_ABSENT or BEFROLAN_PRESENT */
    int64_t throttle;
    int64_t topics;        /* how many; a null array is none */
} befrolan_fetch_numbers;

/* Of the lookup of a host. `found` is 1 where a broker has the node, also where its host is empty, and 0 where none has. */
typedef struct {
    int64_t number, place, need;
    int64_t found;
    int64_t start, length; /* of the host, a part of the message */
} befrolan_host_numbers;

/* Of an ApiVersions request that was read: the client's name and its version, each with kind, start and length. */
typedef struct {
    int64_t number, place, need, used;
    int64_t name_kind, name_start, name_length;
    int64_t version_kind, version_start, version_length;
    int64_t tags;
} befrolan_request_numbers;

/* Of a frame with a request header that was read. `used` is the whole frame, its size and the 4 bytes of that: there the next
 * one starts. Starts, also those of the tags' data, count from the frame's first byte. */
typedef struct {
    int64_t number, place, need, used;
    int64_t request_api_key, request_api_version, correlation_id;
    int64_t client_id_kind;          /* of the client's name: BEFROLAN_NULL or BEFROLAN_PRESENT */
    int64_t client_id_start, client_id_length;
    int64_t tags;                    /* how many; BEFROLAN_UNSET where the header has none */
    int64_t body_start, body_length; /* what is left of the frame after the header; the body is not read */
} befrolan_request_frame_numbers;

/* Of a frame with a response header that was read. */
typedef struct {
    int64_t number, place, need, used;
    int64_t correlation_id;
    int64_t tags;
    int64_t body_start, body_length;
} befrolan_response_frame_numbers;

/* ---- frames
 *
 * A frame is a size of 4 bytes, a header, and a body. The size counts header and body, and not itself. Request headers are 1
 * (API key, version, correlation number, client's name) and 2 (the same, and tagged fields). Response headers are 0
 * (correlation number) and 1 (the same, and tagged fields). Every other number is BEFROLAN_NO_VERSION: request header 0 too. */

/* The number of the header that a request has, and of the one that a response has, by API key and version. Requests: 2 for key
 * 18 (ApiVersions) from version 3 on, else 1. Responses: 0, also those of ApiVersions, at every version. Neither call refuses. */
int64_t befrolan_request_number(int64_t key, int64_t version);
int64_t befrolan_response_number(int64_t key, int64_t version);

/* Reads the frame at the front of the message, with the header of that number. The body is shown as a part of the message, for
 * the call that reads it. Bytes after the frame are the next frame's and have no part in the reply, however many there are: there
 * is no BEFROLAN_TOO_LONG. The header is read from the frame's bytes alone: where it goes on after them it is
 * BEFROLAN_BYTES_END, although more bytes are lent.
 * The order of refusals: BEFROLAN_NO_VERSION; BEFROLAN_BYTES_END at 0, for fewer than 4 bytes; BEFROLAN_BAD_SIZE;
 * BEFROLAN_BYTES_END at 0, for fewer bytes than the size says; what the header is refused for, at 4 or after;
 * BEFROLAN_NO_ROOM, with the rows of tags in `need`. More bytes help with BEFROLAN_BYTES_END at 0, and with no other. */
befrolan_request_frame_numbers befrolan_read_request_frame(
    const uint8_t *msg, size_t msg_len,
    int64_t header,
    int64_t *tags, size_t tags_len);

befrolan_response_frame_numbers befrolan_read_response_frame(
    const uint8_t *msg, size_t msg_len,
    int64_t header,
    int64_t *tags, size_t tags_len);

/* Writes a frame: the size, the header of that number, and `body` as it is: it is not read, and may be empty. `row` of a
 * request: API key, version, correlation number; kind, start and length of the client's name; number of tags. `row` of a
 * response: correlation number, number of tags. The client's name is a part of `lent`; of kind 0, unset, and of kind
 * BEFROLAN_NULL it is written as null. The number of tags is BEFROLAN_UNSET for unset ones, which are written as none. Tags that
 * are lent with a header that has none are checked (BEFROLAN_BAD_TABLES) and left out.
 * The order of refusals: BEFROLAN_NO_VERSION; BEFROLAN_BAD_TABLES; BEFROLAN_TOO_WIDE and BEFROLAN_NOT_TEXT, in the order of
 * the fields; BEFROLAN_TOO_LONG, for header and body together over BEFROLAN_MOST; BEFROLAN_NO_ROOM, with the bytes of the whole
 * frame in `need`. Up to BEFROLAN_MOST + 4 bytes may be written. */
befrolan_numbers befrolan_write_request_frame(
    uint8_t *out, size_t out_len,
    int64_t header,
    const uint8_t *lent, size_t lent_len,
    const int64_t row[7],
    const int64_t *tags, size_t tags_len,
    const uint8_t *body, size_t body_len);

befrolan_numbers befrolan_write_response_frame(
    uint8_t *out, size_t out_len,
    int64_t header,
    const uint8_t *lent, size_t lent_len,
    const int64_t row[2],
    const int64_t *tags, size_t tags_len,
    const uint8_t *body, size_t body_len);

/* ---- ApiVersions, versions 0 to 3 */

/* Reads a response. `whole` 0: a prefix read, which takes what stands at the front of the message, and null items as
 * none. Any other: a whole read, which refuses null items and bytes left over. */
befrolan_response_numbers befrolan_read_api_versions_response(
    const uint8_t *msg, size_t msg_len,
    int64_t version,
    uint64_t whole,
    int64_t *items, size_t items_len,
    int64_t *tags, size_t tags_len);

/* Reads a request at the front of the message. */
befrolan_request_numbers befrolan_read_api_versions_request(
    const uint8_t *msg, size_t msg_len,
    int64_t version,
    int64_t *tags, size_t tags_len);

/* Writes a response. `body`: error, number of items, kind of the throttle time, throttle time, number of own tags.
 * What the version lacks is dropped. An unset throttle time is written as 0, unset tags as none. */
befrolan_numbers befrolan_write_api_versions_response(
    uint8_t *out, size_t out_len,
    int64_t version,
    const uint8_t *lent, size_t lent_len,
    const int64_t body[5],
    const int64_t *items, size_t items_len,
    const int64_t *tags, size_t tags_len);

/* Writes a request. `body`: kind, start and length of the client's name, the same of its version, number of tags.
 * Unset texts are written as empty ones. */
befrolan_numbers befrolan_write_api_versions_request(
    uint8_t *out, size_t out_len,
    int64_t version,
    const uint8_t *lent, size_t lent_len,
    const int64_t body[7],
    const int64_t *tags, size_t tags_len);

/* Agreement on versions with a broker, from the item rows of its response: three rows of three numbers, API key,
 * chosen version and broker's maximum, for ApiVersions (18), Metadata (3) and Fetch (1). The first row of a key
 * decides. The choice is the highest common version, -1 if there is none; a key that is not listed has the maximum -1. */
void befrolan_agree(const int64_t *items, size_t items_len, int64_t rows[9]);

/* ---- Metadata, versions 0 to 4 */

/* Reads a response at the front of the message. Rows stand as in the body: the partitions of the first topic, then those
 * of the second; so too the replicas of each partition, and those in sync, which have a table each. Where tables are too
 * small, `need` is the rows of the first of them, in the order of the parameters. */
befrolan_metadata_numbers befrolan_read_metadata_response(
    const uint8_t *msg, size_t msg_len,
    int64_t version,
    int64_t *brokers, size_t brokers_len,
    int64_t *topics, size_t topics_len,
    int64_t *partitions, size_t partitions_len,
    int64_t *replicas, size_t replicas_len,
    int64_t *in_sync, size_t in_sync_len);

/* Writes a request. `body`: number of topics, or BEFROLAN_NULL_COUNT for null, which brokers take as all topics from
 * version 1 on; kind of the auto-creation of topics (0 unset, any other set); its flag (0 false, any other true).
 * Below version 4 auto-creation is dropped; unset it is written as true. `topics` has a row for each name, a part of
 * `lent`. */
befrolan_numbers befrolan_write_metadata_request(
    uint8_t *out, size_t out_len,
    int64_t version,
    const uint8_t *lent, size_t lent_len,
    const int64_t body[3],
    const int64_t *topics, size_t topics_len);

/* Finds the host of a node, in a message that is read as a Metadata response: that of the first broker with the node.
 * What befrolan_read_metadata_response refuses is refused alike, but with no tables there is no BEFROLAN_NO_ROOM. */
befrolan_host_numbers befrolan_find_host(
    const uint8_t *msg, size_t msg_len,
    int64_t version,
    int64_t node);

/* ---- Fetch, versions 0 to 4 */

/* Reads a response at the front of the message. Rows stand as in the body: the partitions of the first topic, then those
 * of the second; so too the aborted transactions of each partition. Records are shown as parts of the message and not
 * looked into. Where tables are too small, `need` is the rows of the first of them, in the order of the parameters. */
befrolan_fetch_numbers befrolan_read_fetch_response(
    const uint8_t *msg, size_t msg_len,
    int64_t version,
    int64_t *topics, size_t topics_len,
    int64_t *partitions, size_t partitions_len,
    int64_t *aborted, size_t aborted_len);

/* Writes a request. `body`: replica (-1 for a client), max wait in milliseconds, min bytes, kind of max bytes and max bytes
 * (from version 3 on; unset it is written as 2147483647), kind of the isolation level and the level, 0 or 1 (in version 4;
 * unset it is written as 0), number of topics. `topics` and `partitions` have a row each, the partitions of the first topic
 * first; names are parts of `lent`. */
befrolan_numbers befrolan_write_fetch_request(
    uint8_t *out, size_t out_len,
    int64_t version,
    const uint8_t *lent, size_t lent_len,
    const int64_t body[8],
    const int64_t *topics, size_t topics_len,
    const int64_t *partitions, size_t partitions_len);

/* ---- primitives, each by itself */

enum {
    BEFROLAN_INT8 = 0,
    BEFROLAN_INT16 = 1,
    BEFROLAN_INT32 = 2,
    BEFROLAN_INT64 = 3,
    BEFROLAN_BOOLEAN = 4,
    BEFROLAN_UNSIGNED_VARINT = 5,
    BEFROLAN_VARINT = 6,
    BEFROLAN_VARLONG = 7,
    BEFROLAN_ARRAY = 8,         /* the count of an ARRAY */
    BEFROLAN_COMPACT_ARRAY = 9, /* the count of a COMPACT_ARRAY */
    BEFROLAN_BYTES = 10,
    BEFROLAN_NULLABLE_BYTES = 11,
    BEFROLAN_COMPACT_BYTES = 12,
    BEFROLAN_RECORDS = 13,      /* null reads as empty, and none is written */
    BEFROLAN_STRING = 14,
    BEFROLAN_NULLABLE_STRING = 15,
    BEFROLAN_COMPACT_STRING = 16,
    BEFROLAN_COMPACT_NULLABLE_STRING = 17
};

/* Reads the primitive at the front of the message. A kind that is not listed is refused with BEFROLAN_NO_VERSION. */
befrolan_primitive_numbers befrolan_read_primitive(const uint8_t *msg, size_t msg_len, uint64_t kind);

/* Writes a primitive at the front of the output. `value` is the number or the count, of a BOOLEAN 0 or any other;
 * `content` is the text or data; `null` is not 0 for null, in the nullable kinds and the counts. What the kind does
 * not take is not looked at. An UNSIGNED_VARINT is the cell as a number from 0 to 2^64 - 1, and so is a count. */
befrolan_numbers befrolan_write_primitive(
    uint8_t *out, size_t out_len,
    uint64_t kind,
    uint64_t null,
    int64_t value,
    const uint8_t *content, size_t content_len);

/* ---- texts */

/* How many bytes at the front of the text are well-formed UTF-8, as RFC 3629 has it: whole characters, up to the first that is
 * ill-formed or cut. It is text where that is all of it. Nothing is refused, and there is no BEFROLAN_MOST. */
uint64_t befrolan_well_formed(const uint8_t *text, size_t text_len);

/* ---- tagged fields, by themselves */

/* Reads them from the front of the message into rows of tag, start, length. */
befrolan_tags_numbers befrolan_read_tagged_fields(
    const uint8_t *msg, size_t msg_len,
    int64_t *table, size_t table_len);

/* Writes `count` of them, BEFROLAN_UNSET for unset ones. */
befrolan_numbers befrolan_write_tagged_fields(
    uint8_t *out, size_t out_len,
    const uint8_t *lent, size_t lent_len,
    int64_t count,
    const int64_t *table, size_t table_len);

#ifdef __cplusplus
}
#endif

#endif
