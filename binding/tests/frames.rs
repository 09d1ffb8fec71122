//! Frames worked out by hand from the rules (docs/RULES.md): read at once and from streams, and written.

use befrolan::*;
use std::io::{self, ErrorKind, Write};
use std::net::{TcpListener, TcpStream};

fn hex(s: &str) -> Vec<u8> {
    let digits: Vec<u8> = s.bytes().filter(|b| !b.is_ascii_whitespace()).collect();
    digits.chunks(2).map(|d| u8::from_str_radix(std::str::from_utf8(d).unwrap(), 16).unwrap()).collect()
}

/// Request header 2: ApiVersions 3, correlation id 7, client "g", tag 5 with the data "A"; a body of one byte.
const TAGGED: &str = "00000010 0012 0003 00000007 0001 67 01 05 01 41 ff";

const MOST: usize = 1_048_576;

#[test]
fn a_header_is_chosen_by_api_and_version() {
    for (key, version, number) in [(18, 3, 2), (18, 4, 2), (18, 2, 1), (18, 0, 1), (3, 4, 1), (1, 4, 1), (0, 9, 1)] {
        assert_eq!(request_header_number(key, version), number, "{key} at {version}");
        assert_eq!(response_header_number(key, version), 0, "{key} at {version}");
    }
    assert_eq!(request_header_number(65_536 + 18, 3), 1);
    assert_eq!(request_header_number(18_i16, 3_i16), 2);
}

#[test]
fn a_request_frame_shows_header_and_body() {
    let bytes = hex(TAGGED);
    let mut tables = HeaderTables::default();
    let frame = read_request_frame(&bytes, 2, &mut tables).unwrap();
    assert_eq!((frame.request_api_key, frame.request_api_version, frame.correlation_id), (18, 3, 7));
    assert_eq!((frame.client_id, frame.body, frame.used), (Some("g"), &[0xff][..], 20));
    assert_eq!(frame.header, hex("0012 0003 00000007 0001 67 01 05 01 41"));
    assert_eq!(frame.tags.unwrap().collect::<Vec<_>>(), [Tag { tag: 5, data: b"A" }]);
    // nothing was copied
    let (there, body) = (bytes.as_ptr_range(), frame.body.as_ptr_range());
    assert!(there.start <= body.start && body.end <= there.end);
    // with header 1 the tags are the body's
    let frame = read_request_frame(&bytes, 1, &mut tables).unwrap();
    assert_eq!((frame.tags.is_none(), frame.body, frame.used), (true, &hex("01 05 01 41 ff")[..], 20));
    // a null client's name is none, and an empty one is a text
    let null = hex("0000000a 0003 0001 fffffff7 ffff");
    let frame = read_request_frame(&null, 1, &mut tables).unwrap();
    assert_eq!((frame.client_id, frame.correlation_id, frame.body), (None, -9, &[][..]));
    let empty = hex("0000000a 0003 0001 fffffff7 0000");
    assert_eq!(read_request_frame(&empty, 1, &mut tables).unwrap().client_id, Some(""));
}

#[test]
fn two_frames_in_one_buffer_are_read_one_after_the_other() {
    let bytes = hex("00000006 00000007 abcd  00000009 00000008 01 05 01 41 ff  0000");
    let mut tables = HeaderTables::default();
    let first = read_response_frame(&bytes, 0, &mut tables).unwrap();
    assert_eq!((first.correlation_id, first.body, first.used), (7, &[0xab, 0xcd][..], 10));
    assert!(first.tags.is_none());
    let rest = &bytes[first.used..];
    let second = read_response_frame(rest, 1, &mut tables).unwrap();
    assert_eq!((second.correlation_id, second.body, second.used), (8, &[0xff][..], 13));
    assert_eq!(second.tags.unwrap().collect::<Vec<_>>(), [Tag { tag: 5, data: b"A" }]);
    let e = read_response_frame(&rest[13..], 0, &mut tables).unwrap_err();
    assert_eq!(e, Refusal { number: Refusal::BYTES_END, place: 0, need: 0 });
}

#[test]
fn what_is_wrong_with_a_frame_is_refused() {
    let mut tables = HeaderTables::default();
    let mut refused = |number: i64, s: &str| {
        let e = read_request_frame(&hex(s), number, &mut tables).unwrap_err();
        (e.number, e.place)
    };
    assert_eq!(refused(0, TAGGED), (Refusal::NO_VERSION, 0));
    assert_eq!(refused(3, "ffffffff"), (Refusal::NO_VERSION, 0));
    assert_eq!(refused(65_537, TAGGED), (Refusal::NO_VERSION, 0));
    assert_eq!(refused(1, "ffffffff"), (Refusal::BAD_SIZE, 0));
    assert_eq!(refused(1, "00100001 00"), (Refusal::BAD_SIZE, 0));
    assert_eq!(refused(1, "7fffffff"), (Refusal::BAD_SIZE, 0));
    assert_eq!(refused(1, "00100000"), (Refusal::BYTES_END, 0));
    // the header ends with its frame, although more bytes are there
    assert_eq!(refused(1, "0000000b 0012 0003 00000007 0003 61 62636465"), (Refusal::BYTES_END, 12));
    assert_eq!(refused(2, "0000000a 0012 0003 00000007 ffff 00"), (Refusal::BYTES_END, 14));
    assert_eq!(refused(1, "0000000a 0012 0003 00000007 fffe"), (Refusal::LENGTH_BELOW, 12));
    assert_eq!(refused(1, "0000000c 0012 0003 00000007 0002 61ff"), (Refusal::NOT_TEXT, 15));
    let e = read_response_frame(&hex("ffffffff"), 0, &mut tables).unwrap_err();
    assert_eq!(e.to_string(), "14: the size before the frame is below 0 or over 1,048,576");
    let e = read_response_frame(&hex("00000000"), 0, &mut tables).unwrap_err();
    assert_eq!(e.to_string(), "3 at byte 4: the message ends inside a field");
    let e = read_response_frame(&hex("00000000"), 2, &mut tables).unwrap_err();
    assert_eq!(e.to_string(), "1: there is no such version, or no such header");
}

#[test]
fn frames_have_their_bytes_when_written() {
    let tags = [Tag { tag: 300, data: b"ab" }, Tag { tag: 5, data: b"" }];
    let header = RequestHeader {
        request_api_key: 18,
        request_api_version: 3,
        correlation_id: 7,
        client_id: Some("me"),
        tags: &tags,
    };
    let two = hex("00000017 0012 0003 00000007 0002 6d65 02 ac02 02 6162 05 00 00abff");
    let one = hex("0000000f 0012 0003 00000007 0002 6d65 00abff");
    let body = [0, 0xab, 0xff];
    let mut out = [0xa5; 64];
    assert_eq!(write_request_frame(&mut out, 2, &header, &body), Ok(27));
    assert_eq!((&out[..27], out[27]), (&two[..], 0xa5));
    assert_eq!(write_request_frame(&mut out, 1, &header, &body), Ok(19));
    assert_eq!(out[..19], one);
    let e = write_request_frame(&mut out[..18], 1, &header, &body).unwrap_err();
    assert_eq!(e, Refusal { number: Refusal::NO_ROOM, place: 0, need: 19 });
    assert_eq!(write_request_frame(&mut out, 0, &header, &body).unwrap_err().number, Refusal::NO_VERSION);
    // no client's name is null, an empty one is a text
    let null = RequestHeader { client_id: None, tags: &[], ..header };
    assert_eq!(write_request_frame(&mut out, 1, &null, &[]), Ok(14));
    assert_eq!(out[..14], hex("0000000a 0012 0003 00000007 ffff"));
    let empty = RequestHeader { client_id: Some(""), ..null };
    assert_eq!(write_request_frame(&mut out, 2, &empty, &[]), Ok(15));
    assert_eq!(out[..15], hex("0000000b 0012 0003 00000007 0000 00"));
    // responses
    let header = ResponseHeader { correlation_id: -1, tags: &tags[..1] };
    assert_eq!(write_response_frame(&mut out, 0, &header, &body), Ok(11));
    assert_eq!(out[..11], hex("00000007 ffffffff 00abff"));
    assert_eq!(write_response_frame(&mut out, 1, &header, &body), Ok(17));
    assert_eq!(out[..17], hex("0000000d ffffffff 01 ac02 02 6162 00abff"));
    // they are appended to what is there
    let request = RequestHeader {
        request_api_key: 18,
        request_api_version: 3,
        correlation_id: 7,
        client_id: Some("me"),
        tags: &tags,
    };
    let mut stream = vec![0xee];
    assert_eq!(append_request_frame(&mut stream, 2, &request, &body), Ok(27));
    assert_eq!(append_request_frame(&mut stream, 1, &request, &body), Ok(19));
    assert_eq!(append_response_frame(&mut stream, 0, &header, &body), Ok(11));
    assert_eq!(stream, [&hex("ee")[..], &two, &one, &hex("00000007 ffffffff 00abff")].concat());
}

#[test]
fn many_tags_have_room_in_a_frame_that_is_appended() {
    // each has 10 bytes for the tag, 2 for the length, and 200 of data; their count has 2 bytes
    let data = [7; 200];
    let tags = vec![Tag { tag: u64::MAX, data: &data }; 1000];
    let mut out = Vec::new();
    let header = ResponseHeader { correlation_id: 1, tags: &tags };
    assert_eq!(append_response_frame(&mut out, 1, &header, &[]), Ok(4 + 4 + 2 + 1000 * 212));
    let mut tables = HeaderTables::default();
    let back = read_response_frame(&out, 1, &mut tables).unwrap();
    assert!(back.tags.unwrap().eq(tags));
}

#[test]
fn a_frame_may_have_the_most_bytes_and_no_more() {
    let header = ResponseHeader { correlation_id: 7, tags: &[] };
    let body = vec![0x61; MOST - 3];
    let mut out = hex("ee");
    assert_eq!(append_response_frame(&mut out, 0, &header, &body[..MOST - 4]), Ok(MOST + 4));
    assert_eq!((out.len(), &out[..9]), (MOST + 5, &hex("ee 00100000 00000007")[..]));
    // after a refusal there is what was there
    let e = append_response_frame(&mut out, 0, &header, &body).unwrap_err();
    assert_eq!((e.number, out.len()), (Refusal::TOO_LONG, MOST + 5));
    let long = "n".repeat(32_768);
    let request = RequestHeader { client_id: Some(&long), ..RequestHeader::default() };
    assert_eq!(append_request_frame(&mut out, 1, &request, &[]).unwrap_err().number, Refusal::TOO_WIDE);
    assert_eq!(out.len(), MOST + 5);
    // and it is read, also out of a stream
    let mut tables = HeaderTables::default();
    assert_eq!(read_response_frame(&out[1..], 0, &mut tables).unwrap().body, &body[..MOST - 4]);
    let mut frames = FrameReader::new();
    let frame = frames.read_response(&mut &out[1..], 0).unwrap().unwrap();
    assert_eq!((frame.body.len(), frame.used), (MOST - 4, MOST + 4));
}

#[test]
fn bytes_may_arrive_one_at_a_time() {
    let stream = hex(&[TAGGED, "0000000c 0003 0001 00000008 ffff 6d6e", "00000000"].concat());
    let mut frames = FrameReader::new();
    let mut seen = Vec::new();
    for (i, byte) in stream.iter().enumerate() {
        // the first frame has 20 bytes, the second 16; before 4 bytes are there no size is known
        let missing = match i {
            0..=3 => 4 - i,
            4..=19 => 20 - i,
            20..=23 => 24 - i,
            24..=35 => 36 - i,
            _ => 40 - i,
        };
        assert_eq!(frames.missing(), Ok(missing), "before byte {i}");
        assert!(frames.request().unwrap().is_none(), "before byte {i}");
        assert_eq!(frames.skip(), Ok(false), "before byte {i}");
        frames.push(&[*byte]).unwrap();
        if i == 19 || i == 35 {
            assert_eq!(frames.missing(), Ok(0));
            let frame = frames.request().unwrap().unwrap();
            let tags: Option<Vec<_>> = frame.tags.map(|tags| tags.map(|t| (t.tag, t.data.to_vec())).collect());
            seen.push((
                frame.request_api_key,
                frame.correlation_id,
                frame.client_id.map(String::from),
                tags,
                frame.body.to_vec(),
            ));
        }
    }
    let tag = (5, b"A".to_vec());
    assert_eq!(seen[0], (18, 7, Some("g".into()), Some(vec![tag]), vec![0xff]));
    assert_eq!(seen[1], (3, 8, None, None, b"mn".to_vec()));
    // a frame of size 0 is all there, and has no header: it stays until it is left out
    assert_eq!((frames.missing(), frames.held()), (Ok(0), &[0, 0, 0, 0][..]));
    for _ in 0..2 {
        let e = frames.request().unwrap_err();
        assert_eq!((e.number, e.place), (Refusal::BYTES_END, 4));
    }
    assert_eq!((frames.skip(), frames.held()), (Ok(true), &[][..]));
    frames.push(&hex("00000004 00000009")).unwrap();
    assert_eq!(frames.response(0).unwrap().unwrap().correlation_id, 9);
}

#[test]
fn frames_that_arrive_together_are_handed_out_one_by_one() {
    let mut stream = Vec::new();
    for i in 0..1000 {
        let body = vec![i as u8; i as usize % 97];
        append_response_frame(&mut stream, 0, &ResponseHeader { correlation_id: i, tags: &[] }, &body).unwrap();
    }
    // in pieces of each of these lengths
    for piece in [1, 2, 3, 7, 64, 1000, stream.len()] {
        let mut frames = FrameReader::new();
        let mut next = 0;
        for bytes in stream.chunks(piece) {
            frames.push(bytes).unwrap();
            while let Some(frame) = frames.response(0).unwrap() {
                assert_eq!(frame.correlation_id, next);
                assert_eq!(frame.body, vec![next as u8; next as usize % 97]);
                next += 1;
            }
        }
        assert_eq!((next, frames.held()), (1000, &[][..]));
    }
}

/// Gives what it has, a number of bytes at a time, and is interrupted before each.
struct Slow<'a> {
    bytes: &'a [u8],
    step: usize,
    interrupted: bool,
}

impl io::Read for Slow<'_> {
    fn read(&mut self, out: &mut [u8]) -> io::Result<usize> {
        self.interrupted = !self.interrupted;
        if self.interrupted {
            return Err(ErrorKind::Interrupted.into());
        }
        let n = self.step.min(out.len()).min(self.bytes.len());
        out[..n].copy_from_slice(&self.bytes[..n]);
        self.bytes = &self.bytes[n..];
        Ok(n)
    }
}

#[test]
fn a_stream_is_read_until_a_frame_is_there() {
    let stream = hex(&["00000006 00000007 abcd", "00000005 00000008 00"].concat());
    for step in [1, 3, 10, 4096] {
        let mut slow = Slow { bytes: &stream, step, interrupted: false };
        let mut frames = FrameReader::new();
        assert_eq!(frames.read_response(&mut slow, 0).unwrap().unwrap().body, [0xab, 0xcd]);
        let second = frames.read_response(&mut slow, 1).unwrap().unwrap();
        assert_eq!((second.correlation_id, second.tags.unwrap().count(), second.body), (8, 0, &[][..]));
        assert!(frames.read_response(&mut slow, 0).unwrap().is_none());
    }
    // an end inside a frame is an error
    for n in 1..10 {
        let mut frames = FrameReader::new();
        let Err(StreamError::Stream(e)) = frames.read_response(&mut &stream[..n], 0) else { panic!("{n} bytes") };
        assert_eq!((e.kind(), frames.held().len()), (ErrorKind::UnexpectedEof, n));
    }
    // a stream's own error is handed on, and what was held stays
    struct Broken;
    impl io::Read for Broken {
        fn read(&mut self, _: &mut [u8]) -> io::Result<usize> {
            Err(ErrorKind::ConnectionReset.into())
        }
    }
    let mut frames = FrameReader::new();
    frames.push(&stream[..5]).unwrap();
    let Err(StreamError::Stream(e)) = frames.read_response(&mut Broken, 0) else { panic!("it is broken") };
    assert_eq!((e.kind(), frames.held()), (ErrorKind::ConnectionReset, &stream[..5]));
}

#[test]
fn a_bad_size_ends_a_stream() {
    for size in ["ffffffff", "80000000", "00100001", "7fffffff"] {
        let mut frames = FrameReader::new();
        let size = hex(size);
        frames.push(&size[..3]).unwrap();
        let e = frames.push(&size[3..]).unwrap_err();
        assert_eq!((e.number, e.place), (Refusal::BAD_SIZE, 0));
        assert_eq!(frames.missing(), Err(e));
        assert_eq!(frames.skip(), Err(e));
        assert_eq!(frames.request().unwrap_err(), e);
        assert_eq!(frames.response(0).unwrap_err(), e);
        // no more bytes are taken
        assert_eq!((frames.push(&[1, 2, 3]), frames.held()), (Err(e), &size[..]));
        struct Unread;
        impl io::Read for Unread {
            fn read(&mut self, _: &mut [u8]) -> io::Result<usize> {
                panic!("it is not read")
            }
        }
        let Err(StreamError::Refused(again)) = frames.fill(&mut Unread) else { panic!("it was refused") };
        assert_eq!(again, e);
        let Err(StreamError::Refused(again)) = frames.read_response(&mut Unread, 0) else { panic!("it was refused") };
        assert_eq!(again.to_string(), "14: the size before the frame is below 0 or over 1,048,576");
    }
    // after a good frame too
    let mut frames = FrameReader::new();
    frames.push(&hex("00000004 00000007 ffffffff")).unwrap();
    assert_eq!(frames.response(0).unwrap().unwrap().correlation_id, 7);
    assert_eq!(frames.missing().unwrap_err().number, Refusal::BAD_SIZE);
}

/// A broker that offers what it is asked about: answers one ApiVersions request and waits for the end.
fn broker(mut stream: TcpStream) {
    let mut frames = FrameReader::new();
    let request = frames.read_request(&mut stream).unwrap().unwrap();
    assert_eq!((request.request_api_key, request.request_api_version, request.client_id), (18, 3, Some("depot-7")));
    assert_eq!(request.tags.unwrap().collect::<Vec<_>>(), [Tag { tag: 9, data: b"night" }]);
    let mut tables = ApiVersionsTables::default();
    let asks = read_api_versions_request(request.body, request.request_api_version, &mut tables).unwrap();
    assert_eq!(asks.client_software_name, Some("gateway"));

    let mut offer = ApiVersionsAnswer::new(0);
    offer.api(18, 0, 3, &[]);
    offer.api(3, 0, 12, &[]);
    let mut body = [0; 64];
    let length = offer.write(&mut body, 3).unwrap();
    let header = ResponseHeader { correlation_id: request.correlation_id, tags: &[] };
    let mut out = Vec::new();
    append_response_frame(&mut out, response_header_number(18, 3), &header, &body[..length]).unwrap();
    // in two pieces, so that the other side has to wait
    let (first, second) = out.split_at(6);
    stream.write_all(first).unwrap();
    stream.flush().unwrap();
    stream.write_all(second).unwrap();
    assert!(frames.read_request(&mut stream).unwrap().is_none());
}

#[test]
fn a_request_and_its_answer_go_over_a_connection() {
    let listener = TcpListener::bind("127.0.0.1:0").unwrap();
    let address = listener.local_addr().unwrap();
    let other = std::thread::spawn(move || broker(listener.accept().unwrap().0));

    let mut stream = TcpStream::connect(address).unwrap();
    stream.set_nodelay(true).unwrap();
    let mut body = [0; 64];
    let length = write_api_versions_request(&mut body, 3, "gateway", "0.6.0").unwrap();
    let tags = [Tag { tag: 9, data: b"night" }];
    let header = RequestHeader {
        request_api_key: 18,
        request_api_version: 3,
        correlation_id: 0x1234_5678,
        client_id: Some("depot-7"),
        tags: &tags,
    };
    let mut out = Vec::new();
    append_request_frame(&mut out, request_header_number(18, 3), &header, &body[..length]).unwrap();
    stream.write_all(&out).unwrap();

    let mut frames = FrameReader::new();
    let answer = frames.read_response(&mut stream, response_header_number(18, 3)).unwrap().unwrap();
    assert_eq!((answer.correlation_id, answer.tags.is_none()), (0x1234_5678, true));
    let mut tables = ApiVersionsTables::default();
    let offer = read_api_versions_response(answer.body, 3, Read::Whole, &mut tables).unwrap();
    let rows: Vec<_> = offer.api_versions().map(|v| (v.api_key, v.min_version, v.max_version)).collect();
    assert_eq!(rows, [(18, 0, 3), (3, 0, 12)]);
    assert_eq!(offer.agree()[1].version, Some(4));
    drop(stream);
    other.join().unwrap();
}
