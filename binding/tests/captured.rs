//! Frames of other makers: what kcat 1.7.1 (librdkafka 2.0.2) and kafka-python 2.0.2 sent to a listener on loopback, byte for
//! byte. They are read here, and written again from what was read.

use befrolan::{
    append_request_frame, read_api_versions_request, request_header_number, write_api_versions_request,
    write_metadata_request, ApiVersionsTables, FrameReader, RequestHeader,
};

/// `kcat -L -X client.id=depot-7`: ApiVersions 3, then Metadata 4 without topics, then Metadata 4 with all of them.
const KCAT: [&str; 3] = [
    "00000024001200030000000100076465706f742d37000b6c696272646b61666b6106322e302e3200",
    "00000016000300040000000200076465706f742d370000000000",
    "00000016000300040000000300076465706f742d37ffffffff01",
];

/// `KafkaConsumer(client_id='depot')` and its list of topics: ApiVersions 0, then Metadata 0 and 1 with all of them, which at 0
/// is an array of none and at 1 null.
const PYTHON: [&str; 3] = [
    "0000000f001200000000000100056465706f74",
    "00000013000300000000000200056465706f7400000000",
    "00000013000300010000000300056465706f74ffffffff",
];

fn bytes(hex: &str) -> Vec<u8> {
    (0..hex.len() / 2).map(|i| u8::from_str_radix(&hex[2 * i..2 * i + 2], 16).unwrap()).collect()
}

/// Each frame: what its header says, and the body. All of them come as one stream, in pieces of `step` bytes.
fn read(stream: &[&str], step: usize) -> Vec<(i16, i16, i32, String, Vec<u8>)> {
    let mut frames = FrameReader::new();
    let mut found = Vec::new();
    for piece in bytes(&stream.concat()).chunks(step) {
        frames.push(piece).unwrap();
        while let Some(r) = frames.request().unwrap() {
            assert_eq!(r.tags.map(|t| t.count()), (r.request_api_key == 18 && r.request_api_version >= 3).then_some(0));
            let client = r.client_id.unwrap().to_string();
            found.push((r.request_api_key, r.request_api_version, r.correlation_id, client, r.body.to_vec()));
        }
    }
    assert_eq!(frames.held(), []);
    found
}

#[test]
fn frames_of_librdkafka_are_read() {
    let api_versions = bytes("0b6c696272646b61666b6106322e302e3200");
    for step in [1, 3, 1000] {
        let found = read(&KCAT, step);
        assert_eq!(found[0], (18, 3, 1, "depot-7".into(), api_versions.clone()));
        assert_eq!(found[1], (3, 4, 2, "depot-7".into(), bytes("0000000000")));
        assert_eq!(found[2], (3, 4, 3, "depot-7".into(), bytes("ffffffff01")));
    }
    let mut tables = ApiVersionsTables::default();
    let asks = read_api_versions_request(&api_versions, 3, &mut tables).unwrap();
    assert_eq!((asks.client_software_name, asks.client_software_version), (Some("librdkafka"), Some("2.0.2")));
}

#[test]
fn frames_of_kafka_python_are_read() {
    for step in [1, 3, 1000] {
        let found = read(&PYTHON, step);
        assert_eq!(found[0], (18, 0, 1, "depot".into(), vec![]));
        assert_eq!(found[1], (3, 0, 2, "depot".into(), bytes("00000000")));
        assert_eq!(found[2], (3, 1, 3, "depot".into(), bytes("ffffffff")));
    }
}

/// A body is written, put into a frame, and has to be the frame that the client sent.
fn same(frame: &str, header: RequestHeader<'_>, body: &[u8]) {
    let mut out = Vec::new();
    let number = request_header_number(header.request_api_key, header.request_api_version);
    append_request_frame(&mut out, number, &header, body).unwrap();
    assert_eq!(out, bytes(frame));
}

#[test]
fn the_same_frames_are_written() {
    let header = |request_api_key, request_api_version, correlation_id, client_id| RequestHeader {
        request_api_key,
        request_api_version,
        correlation_id,
        client_id: Some(client_id),
        tags: &[],
    };
    let mut body = [0; 64];
    let n = write_api_versions_request(&mut body, 3, "librdkafka", "2.0.2").unwrap();
    same(KCAT[0], header(18, 3, 1, "depot-7"), &body[..n]);
    let n = write_metadata_request(&mut body, 4, Some(&[]), Some(false)).unwrap();
    same(KCAT[1], header(3, 4, 2, "depot-7"), &body[..n]);
    let n = write_metadata_request(&mut body, 4, None, None).unwrap();
    same(KCAT[2], header(3, 4, 3, "depot-7"), &body[..n]);

    let n = write_api_versions_request(&mut body, 0, "", "").unwrap();
    same(PYTHON[0], header(18, 0, 1, "depot"), &body[..n]);
    let n = write_metadata_request(&mut body, 0, Some(&[]), None).unwrap();
    same(PYTHON[1], header(3, 0, 2, "depot"), &body[..n]);
    let n = write_metadata_request(&mut body, 1, None, None).unwrap();
    same(PYTHON[2], header(3, 1, 3, "depot"), &body[..n]);
}
