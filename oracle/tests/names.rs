//! What refusals speak of: message, row and field. All are worked out by hand from the field lists of docs/RULES.md, sections 4
//! and 14. Messages: 0 a primitive, or tagged fields, by themselves; 1 and 2 ApiVersions, 3 and 4 Metadata, 5 and 6 Fetch, each
//! request and response; 7 and 8 the headers of requests and of responses.
use oracle::calls::RESPONSE_READS;
use oracle::case::Case;
use oracle::judge::judge;
use oracle::line::Refusal;
use oracle::make::{self, reads, rng::Rng};

/// Message, row, field.
type Names = [i64; 3];

fn refusal(line: &str) -> Option<Refusal> {
    let case = Case::parse(line.as_bytes()).unwrap_or_else(|| panic!("{line}"));
    judge(&case).answer.reply.err()
}

/// Each line is refused with this number, and the refusal speaks of this.
fn named(cases: &[(&str, u8, Names)]) {
    for (line, number, names) in cases {
        let no = refusal(line).unwrap_or_else(|| panic!("{line}"));
        assert_eq!((no.number, [no.message.into(), no.row, no.field]), (*number, *names), "{line}");
    }
}

fn accepted(lines: &[&str]) {
    lines.iter().for_each(|line| assert_eq!(refusal(line), None, "{line}"));
}

/// The fields of a body without rows, as the version has them. Where the message ends inside one, its position is named.
fn each_is_cut(call: &str, message: i64, fields: &[&str]) {
    for position in 0..fields.len() {
        let hexadecimal = fields[..=position].concat();
        let cut = &hexadecimal[..hexadecimal.len() - 2];
        let cut = if cut.is_empty() { "-" } else { cut };
        named(&[(&format!("{call} {cut}"), 3, [message, -1, position as i64])]);
    }
}

/// Cut after each byte, a body is refused with 3 at the primitive that is cut. Each has its place, and its row and field.
fn cut_everywhere(call: &str, message: i64, hexadecimal: &str, primitives: &[(usize, i64, i64)]) {
    for length in 0..hexadecimal.len() / 2 {
        let cut = if length == 0 { "-" } else { &hexadecimal[..2 * length] };
        let no = refusal(&format!("{call} {cut}")).unwrap_or_else(|| panic!("{call} {cut}"));
        let (place, row, field) = primitives.iter().rfind(|(place, ..)| *place <= length).unwrap();
        assert_eq!((no.number, no.place), (3, *place), "{length}");
        assert_eq!([no.message.into(), no.row, no.field], [message, *row, *field], "{length}");
    }
}

#[test]
fn primitives_have_neither_row_nor_field() {
    let nothing = [0, -1, -1];
    named(&[
        ("int16 00", 3, nothing),
        ("string 0002c328", 7, nothing),
        ("nullable_string fffe", 4, nothing),
        ("compact_bytes 00", 6, nothing),
        ("unsigned_varint 80*10", 5, nothing),
        ("varint 8080808010", 11, nothing),
        ("int16 00*1048577", 2, nothing),
        ("write_int16 9 70000", 11, nothing),
        ("write_string 9 ff", 7, nothing),
        ("write_array_count 9 4294967296", 2, nothing),
        ("write_int16 1 7", 10, nothing),
        // Nor have tagged fields, though they have rows.
        ("tagged_fields 6 02,0500,06", 3, nothing),
        ("tagged_fields 0 01,0500", 10, nothing),
        ("write_tagged_fields 9 - 1 -", 13, nothing),
    ]);
}

#[test]
fn api_versions_responses_read() {
    each_is_cut("response_read 0 0 0", 2, &["0000", "00000000"]);
    for version in [1, 2] {
        each_is_cut(&format!("response_read {version} 0 0"), 2, &["0000", "00000000", "00000000"]);
    }
    each_is_cut("response_read_whole 3 0 0", 2, &["0000", "01", "00000000", "00"]);
    named(&[
        // E9 at 1: after error and items the throttle is field 2.
        ("response_read_whole 1 8 3 000000000001001200000003", 3, [2, -1, 2]),
        // The data of tag 5 are cut: length with data, in the first tag row.
        ("response_read 3 4 3 00000200120000000301050900", 3, [2, 0, 1]),
        // E11 at 0: the minimum of the second item.
        ("response_read_whole 0 8 3 000002001200000003000000000000", 3, [2, 1, 1]),
        // A count is of the field that has the array, here in the body.
        ("response_read 0 0 0 0000,fffffffe", 4, [2, -1, 1]),
        ("response_read 3 0 0 0000,80*10", 5, [2, -1, 1]),
        // Null items: the count again. A prefix read goes on to the throttle.
        ("response_read_whole 3 0 0 0000,00", 8, [2, -1, 1]),
        ("response_read_answer 0 0 0 0000,ffffffff", 8, [2, -1, 1]),
        ("response_read 3 0 0 0000,00", 3, [2, -1, 2]),
        // A count of tags is of the item that has them, after key, minimum and maximum.
        ("response_read 3 0 0 0000,02,001200000003", 3, [2, 0, 3]),
        ("response_read 3 0 0 0000,03,001200000003,02,0500,0600,000300000004,80*10", 5, [2, 1, 3]),
        // The second item's first tag, after two tags of the first item.
        ("response_read 3 0 0 0000,03,001200000003,02,0500,0600,000300000004,01,80*10", 5, [2, 2, 0]),
        ("response_read 3 0 0 0000,03,001200000003,02,0500,0600,000300000004,01,07,05,61", 3, [2, 2, 1]),
        // The body's own tags come after those of items, in the same table.
        ("response_read 3 0 0 0000,02,001200000003,01,0500,00000000,01,80*10", 5, [2, 1, 0]),
        ("response_read 3 0 0 0000,01,00000000,02,0500,0603,61", 3, [2, 1, 1]),
        // Bytes left, version, size and room are of no field.
        ("response_read_whole 0 0 0 0000,00000000,00", 9, [2, -1, -1]),
        ("response_read 4 0 0 -", 1, [2, -1, -1]),
        ("response_read_answer -1 0 0 -", 1, [2, -1, -1]),
        ("response_read 0 0 0 00*1048577", 2, [2, -1, -1]),
        ("response_read 0 3 0 0000,00000001,001200000003", 10, [2, -1, -1]),
    ]);
}

#[test]
fn api_versions_responses_written() {
    named(&[
        ("response_write 99 0 - 70000 0 absent -1 - -", 11, [2, -1, 0]),
        // The maximum of the second item.
        ("response_write 99 0 - 0 2 absent -1 18,0,3,-1,3,0,70000,-1 -", 11, [2, 1, 2]),
        // The key of the second item, after one with two tags: tags have a table of their own.
        ("response_write 99 3 61 0 2 absent -1 18,0,3,2,70000,0,4,-1 5,0,1,6,0,1", 11, [2, 1, 0]),
        // The throttle, without rows before it and with some.
        ("response_write 99 1 - 0 0 2147483648 -1 - -", 11, [2, -1, 2]),
        ("response_write 99 3 61 0 1 2147483648 1 18,0,3,1 5,0,1,6,0,1", 11, [2, -1, 2]),
        // The first fault in the order of the bytes: an item is before the throttle and before the next item.
        ("response_write 99 1 - 0 1 2147483648 -1 0,32768,0,-1 -", 11, [2, 0, 1]),
        ("response_write 99 0 - 0 2 absent -1 0,0,-32769,-1,70000,0,0,-1 -", 11, [2, 0, 2]),
        // Version, tables that do not agree, size and room are of no field.
        ("response_write 99 4 - 70000 0 absent -1 - -", 1, [2, -1, -1]),
        ("response_write 99 0 - 70000 1 absent -1 - -", 13, [2, -1, -1]),
        ("response_write 99 3 00*1048570 0 0 absent 1 - 5,0,1048565", 2, [2, -1, -1]),
        ("response_write 11 0 - 0 1 absent -1 18,0,3,-1 -", 10, [2, -1, -1]),
    ]);
    // A throttle that the version lacks is dropped; unset throttle and tags have no fault.
    accepted(&["response_write 99 0 - 0 0 2147483648 -1 - -", "response_write 99 3 - 0 1 absent -1 18,0,3,-1 -"]);
}

#[test]
fn api_versions_requests() {
    each_is_cut("request_read 3 0", 1, &["01", "01", "00"]);
    named(&[
        // Name and software version, as texts.
        ("request_read 3 0 00", 6, [1, -1, 0]),
        ("request_read 3 0 02ff,01,00", 7, [1, -1, 0]),
        ("request_read 3 0 01,03c328,00", 7, [1, -1, 1]),
        // The second tag, and the length of its data.
        ("request_read 3 0 01,01,02,0500,80*10", 5, [1, 1, 0]),
        ("request_read 3 0 01,01,02,0500,06", 3, [1, 1, 1]),
        ("request_read 4 0 -", 1, [1, -1, -1]),
        ("request_read 0 0 00*1048577", 2, [1, -1, -1]),
        ("request_read 3 0 01,01,01,0500", 10, [1, -1, -1]),
        // An unset name is a field all the same.
        ("request_write 9 3 61ff 1:1 1:1 -1 -", 7, [1, -1, 0]),
        ("request_write 9 3 61ff absent 1:1 -1 -", 7, [1, -1, 1]),
        // A range outside, at a version that drops the field.
        ("request_write 9 0 61 0:2 absent -1 -", 13, [1, -1, -1]),
        ("request_write 9 4 - absent absent -1 -", 1, [1, -1, -1]),
        ("request_write 2 3 - absent absent -1 -", 10, [1, -1, -1]),
    ]);
    // Below 3 there are no fields.
    accepted(&["request_write 9 2 61ff 1:1 1:1 -1 -", "request_read 2 0 00"]);
}

#[test]
fn metadata_requests() {
    named(&[
        // Each topic is a row, and its name field 0.
        ("metadata_request_write 8 0 61ff 2 absent 0,1,1,1", 7, [3, 1, 0]),
        ("metadata_request_write 9 4 61*32768 3 0 0,1,0,0,0,32768", 11, [3, 2, 0]),
        ("metadata_request_write 9 5 ff 1 absent 0,1", 1, [3, -1, -1]),
        ("metadata_request_write 9 4 ff 2 absent 0,1", 13, [3, -1, -1]),
        // Null topics.
        ("metadata_request_write 3 0 - -1 absent -", 10, [3, -1, -1]),
        (&format!("metadata_request_write 9 0 61*32767 33 absent {}", ["0,32767"; 33].join(",")), 2, [3, -1, -1]),
    ]);
    accepted(&["metadata_request_write 9 4 - -1 absent -", "metadata_request_write 9 4 61 1 0 0,1"]);
}

#[test]
fn metadata_responses() {
    let number = "00000000";
    for (call, rooms) in [("metadata_read", " 0 0 0 0 0"), ("host", " 7")] {
        let cut = |version: i16, fields: &[&str]| each_is_cut(&format!("{call} {version}{rooms}"), 4, fields);
        // Brokers and topics.
        cut(0, &[number, number]);
        // Brokers, controller, topics.
        cut(1, &[number, number, number]);
        // Brokers, cluster, controller, topics.
        cut(2, &[number, "ffff", number, number]);
        // And a throttle before them.
        cut(3, &[number, number, "ffff", number, number]);
        cut(4, &[number, number, "ffff", number, number]);
    }
    named(&[
        ("metadata_read 3 0 0 0 0 0 00000009,fffffffe", 4, [4, -1, 1]),
        // The cluster, after brokers at 2, and after throttle and brokers at 4.
        ("metadata_read 2 0 0 0 0 0 00000000,0001ff", 7, [4, -1, 1]),
        ("metadata_read 4 0 0 0 0 0 00000000,00000000,0001ff", 7, [4, -1, 2]),
        ("metadata_read 5 0 0 0 0 0 -", 1, [4, -1, -1]),
        ("metadata_read 0 0 0 0 0 0 00*1048577", 2, [4, -1, -1]),
        ("metadata_read 0 6 0 0 0 0 00000001,00000001,000168,00002384,00000000", 10, [4, -1, -1]),
        ("host -1 7 00", 1, [4, -1, -1]),
        ("host 4 7 00*1048577", 2, [4, -1, -1]),
    ]);
}

#[test]
fn brokers_and_topics_of_metadata() {
    named(&[
        // A broker: node, host, port, and from 1 on a rack.
        ("metadata_read 0 0 0 0 0 0 00000001,00000001,ffff", 4, [4, 0, 1]),
        ("metadata_read 0 0 0 0 0 0 00000001,00000001,000168,0000", 3, [4, 0, 2]),
        // At 0 the second broker follows the port.
        ("metadata_read 0 0 0 0 0 0 00000002,00000001,000168,00002384,0000", 3, [4, 1, 0]),
        (
            "metadata_read 1 0 0 0 0 0 00000002,00000001,000168,00002384,ffff,00000002,000169,00002384,fffe",
            4,
            [4, 1, 3],
        ),
        // The lookup: the second broker's host, and a topic after the broker that was found.
        ("host 0 7 00000002,00000001,0000,00002384,00000002,0001ff,00002384,00000000", 7, [4, 1, 1]),
        ("host 0 1 00000001,00000001,000168,00002384,00000001,0000,000174,fffffffe", 4, [4, 0, 2]),
        // A topic: error, name, and partitions at 0; from 1 on a flag before these.
        ("metadata_read 0 0 0 0 0 0 00000000,00000001,0000,000174,0000", 3, [4, 0, 2]),
        ("metadata_read 1 0 0 0 0 0 00000000,00000007,00000001,0000,000174", 3, [4, 0, 2]),
        ("metadata_read 1 0 0 0 0 0 00000000,00000007,00000001,0000,000174,01,fffffffe", 4, [4, 0, 3]),
        // The second topic's name, after a topic whose partitions are null.
        ("metadata_read 0 0 0 0 0 0 00000000,00000002,0000,000174,ffffffff,0000,0002c328", 7, [4, 1, 1]),
    ]);
}

/// A Metadata response at 0 without brokers and with so many topics, "t" with its partitions first.
fn topics(count: u8, rest: &[&str]) -> String {
    format!("metadata_read 0 0 0 0 0 0 00000000,000000{count:02x},0000,000174,{}", rest.join(","))
}

#[test]
fn partitions_of_metadata() {
    // Error, index, leader, and counts of 0.
    let bare = "0000,00000000,00000001,00000000,00000000";
    // Two replicas, and three in sync.
    let full = "0000,00000000,00000001,00000002,00000001,00000002,00000003,00000001,00000002,00000003";
    // Two replicas, and null.
    let null = "0000,00000000,00000001,00000002,00000001,00000002,ffffffff";
    // What a second topic has before its partitions: error, name, a count of 1.
    let second = "0000,000175,00000001";
    let front = "0000,00000000,00000001";
    named(&[
        // The leader in the second topic's only partition, after two of the first topic: rows are counted over the body.
        (&topics(2, &["00000002", bare, bare, second, "0000,00000000,0000"]), 3, [4, 2, 2]),
        // The count of replicas, and that in sync, in the second partition.
        (&topics(1, &["00000002", full, front, "fffffffe"]), 4, [4, 1, 3]),
        (&topics(1, &["00000002", full, front, "00000000,fffffffe"]), 4, [4, 1, 4]),
        // The second replica of the first partition: numbers are rows with one field.
        (&topics(1, &["00000001", front, "00000002,00000001,0000"]), 3, [4, 1, 0]),
        // The first replica of the second topic, after two of the first.
        (&topics(2, &["00000001", null, second, front, "00000001,00"]), 3, [4, 2, 0]),
        // The second in sync of the second partition, after three; the replicas before them have another table.
        (&topics(1, &["00000002", full, front, "00000001,00000001,00000002,00000001,00"]), 3, [4, 4, 0]),
        // The first in sync of the second partition: null has no rows.
        (&topics(1, &["00000002", null, front, "00000000,00000001,00"]), 3, [4, 0, 0]),
        // After all partitions the second topic goes on where it was: its error.
        (&topics(2, &["00000002", full, null, "00"]), 3, [4, 1, 0]),
    ]);
}

#[test]
fn fetch_responses() {
    each_is_cut("fetch_read 0 0 0 0", 6, &["00000000"]);
    for version in 1..=4 {
        each_is_cut(&format!("fetch_read {version} 0 0 0"), 6, &["00000000", "00000000"]);
    }
    // A partition with null records: index, error, watermark, records; at 4 two fields more before the records.
    let at_0 = "00000000,0000,00*8,ffffffff";
    let front = "00000000,0000,00*8";
    let one = "00000000,00000001,000174,00000001";
    named(&[
        // Topics are after the throttle, which 0 lacks.
        ("fetch_read 0 0 0 0 fffffffe", 4, [6, -1, 0]),
        ("fetch_read 4 0 0 0 00000000,fffffffe", 4, [6, -1, 1]),
        // A topic: name, partitions.
        ("fetch_read 1 0 0 0 00000000,00000002,000174,00000000,0001ff", 7, [6, 1, 0]),
        ("fetch_read 0 0 0 0 00000001,000174,fffffffe", 4, [6, 0, 1]),
        // Records are field 3, and field 5 at 4: a length below null, and contents that are cut.
        (&format!("fetch_read 3 0 0 0 {one},{front},fffffffe"), 4, [6, 0, 3]),
        (&format!("fetch_read 3 0 0 0 {one},{front},00000005,61"), 3, [6, 0, 3]),
        (&format!("fetch_read 4 0 0 0 {one},{front},00*8,00000000,fffffffe"), 4, [6, 0, 5]),
        // At 4 field 3 is the stable offset, and field 4 has the aborted transactions.
        (&format!("fetch_read 4 0 0 0 {one},{front},00"), 3, [6, 0, 3]),
        (&format!("fetch_read 4 0 0 0 {one},{front},00*8,fffffffe"), 4, [6, 0, 4]),
        // The first offset of the second pair.
        (&format!("fetch_read 4 0 0 0 {one},{front},00*8,00000002,00*24,00"), 3, [6, 1, 1]),
        // The records after two pairs: the partition goes on.
        (&format!("fetch_read 4 0 0 0 {one},{front},00*8,00000002,00*32,ff"), 3, [6, 0, 5]),
        // The producer of the second topic's pair, after two of the first.
        (
            &format!(
                "fetch_read 4 0 0 0 00000000,00000002,000174,00000001,{front},00*8,00000002,00*32,ffffffff,\
                 000175,00000001,{front},00*8,00000001,00"
            ),
            3,
            [6, 2, 0],
        ),
        // The error of the second topic's second partition, after two of the first topic.
        (
            &format!("fetch_read 0 0 0 0 00000002,000174,00000002,{at_0},{at_0},000175,00000002,{at_0},00000000,00"),
            3,
            [6, 3, 1],
        ),
        ("fetch_read 5 0 0 0 -", 1, [6, -1, -1]),
        ("fetch_read 0 0 0 0 00*1048577", 2, [6, -1, -1]),
        ("fetch_read 0 2 0 0 00000001,000174,00000000", 10, [6, -1, -1]),
    ]);
}

#[test]
fn fetch_requests() {
    named(&[
        // Replica, wait, fewest bytes; most bytes from 3 on, isolation at 4.
        ("fetch_request_write 99 0 - 2147483648 0 0 absent absent 0 - -", 11, [5, -1, 0]),
        ("fetch_request_write 99 0 - 0 2147483648 0 absent absent 0 - -", 11, [5, -1, 1]),
        ("fetch_request_write 99 0 - 0 0 2147483648 absent absent 0 - -", 11, [5, -1, 2]),
        ("fetch_request_write 99 3 - 0 0 0 2147483648 absent 0 - -", 11, [5, -1, 3]),
        ("fetch_request_write 99 4 - 0 0 0 absent 2 0 - -", 11, [5, -1, 4]),
        ("fetch_request_write 99 4 - 0 0 0 absent 300 0 - -", 11, [5, -1, 4]),
        // The second topic's name, at the first and at the last version.
        ("fetch_request_write 99 0 61ff 0 0 0 absent absent 2 0,1,0,1,1,0 -", 7, [5, 1, 0]),
        ("fetch_request_write 99 4 61ff 0 0 0 absent absent 2 0,1,0,1,1,0 -", 7, [5, 1, 0]),
        ("fetch_request_write 99 4 ff*32768 0 0 0 absent absent 1 0,32768,0 -", 11, [5, 0, 0]),
        // Index and most bytes of the second topic's partition, after two of the first.
        ("fetch_request_write 99 4 61 0 0 0 absent absent 2 0,1,2,0,1,1 0,0,0,1,0,0,-2147483649,0,0", 11, [5, 2, 0]),
        ("fetch_request_write 99 4 61 0 0 0 absent absent 2 0,1,2,0,1,1 0,0,0,1,0,0,2,0,2147483648", 11, [5, 2, 2]),
        // A partition of the first topic is before the second topic's name.
        ("fetch_request_write 99 0 61ff 0 0 0 absent absent 2 0,1,1,1,1,0 0,0,2147483648", 11, [5, 0, 2]),
        // The second topic's name, after partitions of the first: the topics go on.
        ("fetch_request_write 99 0 61ff 0 0 0 absent absent 2 0,1,2,1,1,0 0,0,0,1,0,0", 7, [5, 1, 0]),
        ("fetch_request_write 99 5 - 0 0 0 absent absent 0 - -", 1, [5, -1, -1]),
        ("fetch_request_write 99 4 61 0 0 0 absent 2 1 0,1,2 0,0,0", 13, [5, -1, -1]),
        ("fetch_request_write 20 4 - 0 0 0 absent absent 0 - -", 10, [5, -1, -1]),
        (
            &format!("fetch_request_write 9 0 61*32767 0 0 0 absent absent 33 {} -", ["0,32767,0"; 33].join(",")),
            2,
            [5, -1, -1],
        ),
    ]);
    accepted(&[
        // What the version lacks is not looked at.
        "fetch_request_write 99 3 - 0 0 0 absent 2 0 - -",
        "fetch_request_write 99 2 - 0 0 0 2147483648 absent 0 - -",
        "fetch_request_write 99 4 - 0 0 0 absent absent 0 - -",
    ]);
}

#[test]
fn request_headers() {
    named(&[
        // The size is no field: it is cut, the bytes are fewer than it says, or it is wrong.
        ("request_frame_read 1 0 000000", 3, [7, -1, -1]),
        ("request_frame_read 2 0 00000004,0012", 3, [7, -1, -1]),
        ("request_frame_read 1 0 ffffffff", 14, [7, -1, -1]),
        ("request_frame_read 0 0 000000", 1, [7, -1, -1]),
        // API key, version, correlation number and client, each cut by the frame's end.
        ("request_frame_read 1 0 00000000", 3, [7, -1, 0]),
        ("request_frame_read 1 0 00000003,001200", 3, [7, -1, 1]),
        ("request_frame_read 2 0 00000005,0012000300", 3, [7, -1, 2]),
        ("request_frame_read 1 0 00000009,0012,0003,00000007,00", 3, [7, -1, 3]),
        // The same while more bytes are lent.
        ("request_frame_read 1 0 00000002,0012,0003,00000007,ffff", 3, [7, -1, 1]),
        ("request_frame_read 1 0 0000000a,0012,0003,00000007,fffe", 4, [7, -1, 3]),
        ("request_frame_read 2 0 0000000b,0012,0003,00000007,0001ff", 7, [7, -1, 3]),
        // The count of tags, the first tag, and the second one's data.
        ("request_frame_read 2 0 0000000a,0012,0003,00000007,ffff", 3, [7, -1, 4]),
        ("request_frame_read 2 0 00000015,0012,0003,00000007,ffff,01,80*10", 5, [7, 0, 0]),
        ("request_frame_read 2 0 00000010,0012,0003,00000007,ffff,02,0500,0603,61", 3, [7, 1, 1]),
        ("request_frame_read 2 0 0000000d,0012,0003,00000007,ffff,01,0500", 10, [7, -1, -1]),
        ("request_frame_write 99 1 - 70000 0 0 null -1 - -", 11, [7, -1, 0]),
        ("request_frame_write 99 1 - 18 -32769 0 null -1 - -", 11, [7, -1, 1]),
        ("request_frame_write 99 2 61 18 3 2147483648 0:1 1 5,0,1 -", 11, [7, -1, 2]),
        ("request_frame_write 99 2 ff 18 3 7 0:1 -1 - -", 7, [7, -1, 3]),
        ("request_frame_write 99 1 61*32768 18 3 7 0:32768 -1 - -", 11, [7, -1, 3]),
        ("request_frame_write 99 0 - 70000 3 7 null -1 - -", 1, [7, -1, -1]),
        ("request_frame_write 99 1 - 70000 3 7 null 1 - -", 13, [7, -1, -1]),
        ("request_frame_write 13 1 - 18 3 7 absent -1 - -", 10, [7, -1, -1]),
    ]);
    accepted(&["request_frame_write 99 2 - 18 3 7 absent -1 - -"]);
}

#[test]
fn response_headers() {
    named(&[
        ("response_frame_read 0 0 -", 3, [8, -1, -1]),
        ("response_frame_read 1 0 00000006,00000007", 3, [8, -1, -1]),
        ("response_frame_read 1 0 00100001", 14, [8, -1, -1]),
        ("response_frame_read 2 0 00000000", 1, [8, -1, -1]),
        // Correlation number and, in header 1, tags.
        ("response_frame_read 0 0 00000003,000000", 3, [8, -1, 0]),
        ("response_frame_read 1 0 00000004,00000007", 3, [8, -1, 1]),
        ("response_frame_read 1 0 00000005,00000007,01", 3, [8, 0, 0]),
        ("response_frame_read 1 0 00000008,00000007,02,0500,06", 3, [8, 1, 1]),
        ("response_frame_read 1 0 00000007,00000007,01,0500", 10, [8, -1, -1]),
        ("response_frame_write 99 0 - -2147483649 -1 - -", 11, [8, -1, 0]),
        ("response_frame_write 99 1 61 2147483648 1 5,0,1 -", 11, [8, -1, 0]),
        ("response_frame_write 99 -1 - 2147483648 -1 - -", 1, [8, -1, -1]),
        // Tags are lent and not counted, with a header that has none.
        ("response_frame_write 99 0 61 7 -1 5,0,1 -", 13, [8, -1, -1]),
        ("response_frame_write 99 0 - 7 -1 - 62*1048573", 2, [8, -1, -1]),
        ("response_frame_write 7 0 - 7 -1 - -", 10, [8, -1, -1]),
    ]);
}

/// Two items with two tags and one, and one of the body.
#[test]
fn an_api_versions_response_cut_everywhere() {
    let bytes = "0000,03,0012,0000,0003,02,050161,0600,0003,0000,0004,01,07026162,00000000,01,080163";
    let primitives = [
        // Error, items.
        (0, -1, 0),
        (2, -1, 1),
        // The first item's numbers and count of tags, and its two tags.
        (3, 0, 0),
        (5, 0, 1),
        (7, 0, 2),
        (9, 0, 3),
        (10, 0, 0),
        (11, 0, 1),
        (13, 1, 0),
        (14, 1, 1),
        // The second item's, and its tag.
        (15, 1, 0),
        (17, 1, 1),
        (19, 1, 2),
        (21, 1, 3),
        (22, 2, 0),
        (23, 2, 1),
        // Throttle, count of tags, the body's own tag.
        (26, -1, 2),
        (30, -1, 3),
        (31, 3, 0),
        (32, 3, 1),
    ];
    for call in ["response_read 3 0 0", "response_read_whole 3 0 0"] {
        cut_everywhere(call, 2, &bytes.replace(',', ""), &primitives);
    }
}

/// The worked example of docs/RULES.md at 1.
#[test]
fn a_metadata_response_cut_everywhere() {
    let bytes = "00000001,00000001,000168,00002384,ffff,00000001,00000001,0000,000174,01,00000001,\
                 0000,00000000,00000001,00000002,00000001,00000002,ffffffff";
    let primitives = [
        (0, -1, 0),
        // Node, host, port, rack.
        (4, 0, 0),
        (8, 0, 1),
        (11, 0, 2),
        (15, 0, 3),
        // Controller, topics.
        (17, -1, 1),
        (21, -1, 2),
        // Error, name, flag, partitions.
        (25, 0, 0),
        (27, 0, 1),
        (30, 0, 2),
        (31, 0, 3),
        // Error, index, leader, replicas, and two of these; then those in sync.
        (35, 0, 0),
        (37, 0, 1),
        (41, 0, 2),
        (45, 0, 3),
        (49, 0, 0),
        (53, 1, 0),
        (57, 0, 4),
    ];
    for call in ["metadata_read 1 0 0 0 0 0", "host 1 1"] {
        cut_everywhere(call, 4, &bytes.replace(',', ""), &primitives);
    }
}

/// The worked example of docs/RULES.md at 4.
#[test]
fn a_fetch_response_cut_everywhere() {
    let bytes = "00000009,00000001,000161,00000001,00000002,0000,0000000000000005,0000000000000004,\
                 00000001,0000000000000006,0000000000000003,ffffffff";
    let primitives = [
        // Throttle, topics.
        (0, -1, 0),
        (4, -1, 1),
        // Name, partitions.
        (8, 0, 0),
        (11, 0, 1),
        // Index, error, watermark, stable offset, aborted transactions, and one of these; then records.
        (15, 0, 0),
        (19, 0, 1),
        (21, 0, 2),
        (29, 0, 3),
        (37, 0, 4),
        (41, 0, 0),
        (49, 0, 1),
        (57, 0, 5),
    ];
    cut_everywhere("fetch_read 4 0 0 0", 6, &bytes.replace(',', ""), &primitives);
}

/// By the call's name.
fn message(call: &str) -> u8 {
    match call {
        "request_read" | "request_write" => 1,
        "response_read" | "response_read_whole" | "response_read_answer" | "response_write" => 2,
        "metadata_request_write" => 3,
        "metadata_read" | "host" => 4,
        "fetch_request_write" => 5,
        "fetch_read" => 6,
        "request_frame_read" | "request_frame_write" => 7,
        "response_frame_read" | "response_frame_write" => 8,
        _ => 0,
    }
}

#[test]
fn each_refusal_names_its_message_and_a_field_where_there_is_one() {
    let fixed = make::short(19, 0).err().expect("the fixed part has inputs");
    let sections = make::short(19, fixed + 100_000).unwrap();
    let mut seen = [0; 9];
    for case in sections.last().unwrap().part(0, 1) {
        let Err(no) = judge(&case).answer.reply else { continue };
        let message = message(case.name());
        let is_size = message >= 7 && no.number == 3 && no.place < 4;
        let has_none = message == 0 || is_size || [1, 2, 9, 10, 13, 14].contains(&no.number);
        assert_eq!((no.message, no.field == -1), (message, has_none), "{} {no:?}", case.name());
        assert!(no.row == -1 || !has_none, "{} {no:?}", case.name());
        seen[message as usize] += 1;
    }
    assert!(seen.iter().all(|seen| *seen > 200), "{seen:?}");
}

/// Of one body at one version: a prefix read and a whole read that refuse alike name the same row and field.
#[test]
fn prefix_and_whole_reads_name_the_same() {
    let mut seen = 0;
    for index in 0..20_000 {
        let rng = &mut Rng::new(20, index);
        let version = rng.below(4) as i16;
        let message = reads::response_bytes(rng, version);
        let [prefix, whole] = [0, 1].map(|way| {
            let case =
                Case::ReadBody { call: &RESPONSE_READS[way], version, rooms: vec![64, 64], message: message.clone() };
            judge(&case).answer.reply.err()
        });
        let (Some(prefix), Some(whole)) = (prefix, whole) else { continue };
        if (prefix.number, prefix.place) == (whole.number, whole.place) {
            assert_eq!(prefix, whole);
            seen += 1;
        }
    }
    assert!(seen > 1_000, "{seen}");
}
