/* Reads the ApiVersions response that a broker sent at version 0, agrees on versions, and writes the response back. Then
 * asks for a topic at the version agreed on, in a frame as it is sent, reads the answer out of the frame that it comes in, and
 * finds the host of the node that leads its partition. Last, asks for what stands in that partition, and shows its records.
 * Exits with 1 where anything is not as it should be.
 *
 *     tools/staticlib
 *     gcc include/example.c target/staticlib/libbefrolan.a -o example && ./example
 */
#include "befrolan.h"

#include <stdio.h>
#include <string.h>

/* error 0, three items: ApiVersions (18), versions 0 to 3; Metadata (3), versions 0 and 1; Fetch (1), versions 0 to 4 */
static const uint8_t offer[24] = {0, 0, 0, 0, 0, 3, 0, 18, 0, 0, 0, 3, 0, 3, 0, 0, 0, 1, 0, 1, 0, 0, 0, 4};

/* A frame: 65 bytes follow its size; correlation number 9. Then at version 1: broker 1 with host "h", port 9092 and no rack;
 * controller 1; topic "t", whose partition 0 is led by broker 1, with replicas 1 and 2, and null for those in sync. After the
 * frame the first byte of the next one. */
static const uint8_t received[70] = {
    0, 0, 0, 65, 0, 0, 0, 9,
    0, 0, 0, 1, 0, 0, 0, 1, 0, 1, 'h', 0, 0, 0x23, 0x84, 0xff, 0xff,
    0, 0, 0, 1,
    0, 0, 0, 1, 0, 0, 0, 1, 't', 0, 0, 0, 0, 1,
    0, 0, 0, 0, 0, 0, 0, 0, 0, 1, 0, 0, 0, 2, 0, 0, 0, 1, 0, 0, 0, 2, 0xff, 0xff, 0xff, 0xff,
    0};

/* API keys */
enum { METADATA = 3 };

/* at version 4: no throttle time; topic "t", whose partition 0 has no error, the offsets 9 and 9, no aborted transactions,
 * and three bytes of records */
static const uint8_t fetched[48] = {
    0, 0, 0, 0, 0, 0, 0, 1, 0, 1, 't', 0, 0, 0, 1,
    0, 0, 0, 0, 0, 0, 0, 0, 0, 0, 0, 0, 0, 9, 0, 0, 0, 0, 0, 0, 0, 9, 0, 0, 0, 0, 0, 0, 0, 3, 'a', 'b', 'c'};

/* the rows agreed on; 0 where anything is wrong */
static int agreed(int64_t rows[9])
{
    int64_t items[4 * BEFROLAN_ITEM_CELLS];
    int64_t tags[4 * BEFROLAN_TAG_CELLS];

    befrolan_response_numbers r =
        befrolan_read_api_versions_response(offer, sizeof offer, 0, 1, items, 16, tags, 12);
    if (r.number != BEFROLAN_ACCEPTED) {
        printf("refused with %lld at %lld\n", (long long)r.number, (long long)r.place);
        return 0;
    }
    for (int64_t i = 0; i < r.items; i++)
        printf("API %lld: versions %lld to %lld\n", (long long)items[4 * i], (long long)items[4 * i + 1],
               (long long)items[4 * i + 2]);
    if (r.used != 24 || r.error != 0 || r.items != 3 || r.throttle_kind != BEFROLAN_ABSENT || r.tags != BEFROLAN_UNSET)
        return 0;
    static const int64_t listed[12] = {18, 0, 3, BEFROLAN_UNSET, 3, 0, 1, BEFROLAN_UNSET, 1, 0, 4, BEFROLAN_UNSET};
    if (memcmp(items, listed, sizeof listed) != 0)
        return 0;

    befrolan_agree(items, (size_t)r.items * BEFROLAN_ITEM_CELLS, rows);
    for (int i = 0; i < 3; i++)
        printf("API %lld: we speak %lld, the broker up to %lld\n", (long long)rows[3 * i], (long long)rows[3 * i + 1],
               (long long)rows[3 * i + 2]);
    static const int64_t spoken[9] = {18, 3, 3, 3, 1, 1, 1, 4, 4};
    if (memcmp(rows, spoken, sizeof spoken) != 0)
        return 0;

    /* the own row, as it was read; no data are lent and there are no tags, so two empty slices, which need no pointer */
    int64_t body[5] = {r.error, r.items, r.throttle_kind, r.throttle, r.tags};
    uint8_t out[64];
    befrolan_numbers w = befrolan_write_api_versions_response(out, sizeof out, 0, NULL, 0, body, items,
                                                              3 * BEFROLAN_ITEM_CELLS, NULL, 0);
    if (w.number != BEFROLAN_ACCEPTED || w.used != (int64_t)sizeof offer || memcmp(out, offer, sizeof offer) != 0)
        return 0;
    printf("written back: %lld bytes, the same\n", (long long)w.used);
    return 1;
}

/* the frame that is sent: a header with correlation number 9 and the client's name "gw", which has no tags, and the body */
static int framed(int64_t version, const uint8_t *body, size_t length)
{
    static const uint8_t name[2] = {'g', 'w'};
    static const uint8_t frame[23] = {0, 0, 0, 19, 0, 3, 0, 1, 0, 0, 0, 9, 0, 2, 'g', 'w', 0, 0, 0, 1, 0, 1, 't'};
    int64_t row[7] = {METADATA, version, 9, BEFROLAN_PRESENT, 0, 2, BEFROLAN_UNSET};
    uint8_t out[64];
    befrolan_numbers w = befrolan_write_request_frame(out, sizeof out, befrolan_request_number(METADATA, version), name,
                                                      sizeof name, row, NULL, 0, body, length);
    return w.number == BEFROLAN_ACCEPTED && w.used == 23 && memcmp(out, frame, sizeof frame) == 0;
}

/* asks for the topic "t"; auto-creation is unset */
static int asked(int64_t version)
{
    static const uint8_t name[1] = {'t'}, request[7] = {0, 0, 0, 1, 0, 1, 't'};
    static const int64_t body[3] = {1, BEFROLAN_ABSENT, 0}, topics[BEFROLAN_NAME_CELLS] = {0, 1};
    uint8_t out[64];
    befrolan_numbers w = befrolan_write_metadata_request(out, sizeof out, version, name, sizeof name, body, topics,
                                                         BEFROLAN_NAME_CELLS);
    return w.number == BEFROLAN_ACCEPTED && w.used == 7 && memcmp(out, request, sizeof request) == 0
           && framed(version, out, (size_t)w.used);
}

/* Where the body of the answer is, in what was received. More bytes are to be received where number and place are
 * BEFROLAN_BYTES_END and 0; the next frame starts at `used`. */
static const uint8_t *unframed(int64_t version, size_t *length)
{
    int64_t header = befrolan_response_number(METADATA, version);
    befrolan_response_frame_numbers r = befrolan_read_response_frame(received, 68, header, NULL, 0);
    if (r.number != BEFROLAN_BYTES_END || r.place != 0)
        return NULL;
    r = befrolan_read_response_frame(received, sizeof received, header, NULL, 0);
    if (r.number != BEFROLAN_ACCEPTED || r.used != 69 || r.correlation_id != 9 || r.tags != BEFROLAN_UNSET)
        return NULL;
    *length = (size_t)r.body_length;
    return received + r.body_start;
}

/* finds the host of the node that leads the first partition */
static int found(int64_t version)
{
    size_t length;
    const uint8_t *answer = unframed(version, &length);
    if (answer == NULL || length != 61)
        return 0;
    int64_t brokers[4 * BEFROLAN_BROKER_CELLS], topics[4 * BEFROLAN_TOPIC_CELLS];
    int64_t partitions[4 * BEFROLAN_PARTITION_CELLS], replicas[8], in_sync[8];

    befrolan_metadata_numbers r = befrolan_read_metadata_response(answer, length, version, brokers, 28, topics, 20,
                                                                  partitions, 20, replicas, 8, in_sync, 8);
    if (r.number != BEFROLAN_ACCEPTED) {
        printf("refused with %lld at %lld\n", (long long)r.number, (long long)r.place);
        return 0;
    }
    if (r.used != 61 || r.brokers != 1 || r.topics != 1 || topics[4] != 1 || partitions[2] != 1)
        return 0;
    befrolan_host_numbers h = befrolan_find_host(answer, length, version, partitions[2]);
    if (h.number != BEFROLAN_ACCEPTED || h.found != 1 || h.start != 10 || h.length != 1)
        return 0;
    printf("partition %lld is led by node %lld, at %.*s\n", (long long)partitions[1], (long long)partitions[2],
           (int)h.length, (const char *)answer + h.start);
    return 1;
}

/* asks for partition 0 of the topic "t" from offset 7 on: as a client, within half a second, at least a byte; max bytes
 * and isolation level are unset */
static int wanted(int64_t version)
{
    static const uint8_t name[1] = {'t'};
    static const uint8_t request[44] = {
        0xff, 0xff, 0xff, 0xff, 0, 0, 1, 0xf4, 0, 0, 0, 1, 0x7f, 0xff, 0xff, 0xff, 0,
        0, 0, 0, 1, 0, 1, 't', 0, 0, 0, 1, 0, 0, 0, 0, 0, 0, 0, 0, 0, 0, 0, 7, 0, 0x10, 0, 0};
    static const int64_t body[8] = {-1, 500, 1, BEFROLAN_ABSENT, 0, BEFROLAN_ABSENT, 0, 1};
    static const int64_t topics[BEFROLAN_WANTED_TOPIC_CELLS] = {0, 1, 1};
    static const int64_t partitions[BEFROLAN_WANTED_PARTITION_CELLS] = {0, 7, 1048576};
    uint8_t out[64];
    befrolan_numbers w = befrolan_write_fetch_request(out, sizeof out, version, name, sizeof name, body, topics,
                                                      BEFROLAN_WANTED_TOPIC_CELLS, partitions, BEFROLAN_WANTED_PARTITION_CELLS);
    return w.number == BEFROLAN_ACCEPTED && w.used == 44 && memcmp(out, request, sizeof request) == 0;
}

/* shows the records of the first partition: they are a part of the message, and not copied */
static int shown(int64_t version)
{
    int64_t topics[4 * BEFROLAN_FETCH_TOPIC_CELLS], partitions[4 * BEFROLAN_FETCH_PARTITION_CELLS];
    int64_t aborted[4 * BEFROLAN_ABORTED_CELLS];

    befrolan_fetch_numbers r =
        befrolan_read_fetch_response(fetched, sizeof fetched, version, topics, 12, partitions, 28, aborted, 8);
    if (r.number != BEFROLAN_ACCEPTED) {
        printf("refused with %lld at %lld\n", (long long)r.number, (long long)r.place);
        return 0;
    }
    static const int64_t row[BEFROLAN_FETCH_PARTITION_CELLS] = {0, 0, 9, 9, 0, 45, 3};
    if (r.used != 48 || r.topics != 1 || topics[2] != 1 || memcmp(partitions, row, sizeof row) != 0)
        return 0;
    printf("partition %lld has records up to %lld: %.*s\n", (long long)partitions[0], (long long)partitions[2],
           (int)partitions[6], (const char *)fetched + partitions[5]);
    return 1;
}

int main(void)
{
    int64_t rows[9];
    if (!agreed(rows) || rows[4] != 1 || rows[7] != 4)
        return 1;
    int64_t metadata = rows[4], fetch = rows[7];
    return asked(metadata) && found(metadata) && wanted(fetch) && shown(fetch) ? 0 : 1;
}
