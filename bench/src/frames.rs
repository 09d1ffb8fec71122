//! Frames: header and body out of bytes that are all there, and into bytes. The Rust's frame.rs waits for a stream; here it never has to, so
//! one poll is enough.

use crate::{bodies, keep, one, raw, row, Tables};
use oracle::protocol::api_key::ApiKey;
use oracle::protocol::frame::{AsyncMessageRead, AsyncMessageWrite};
use oracle::protocol::messages::*;
use oracle::protocol::primitives::{Int32, NullableString};
use oracle::rust::api_versions::version;
use std::future::Future;
use std::hint::black_box;
use std::io::Cursor;
use std::pin::pin;
use std::task::{Context, Poll, Waker};

const MOST: usize = 1_048_576;

fn block_on<T>(future: impl Future<Output = T>) -> T {
    match pin!(future).poll(&mut Context::from_waker(Waker::noop())) {
        Poll::Ready(value) => value,
        Poll::Pending => unreachable!("nothing here waits"),
    }
}

fn framed(message: &[u8]) -> Vec<u8> {
    let mut frame = (message.len() as u32).to_be_bytes().to_vec();
    frame.extend_from_slice(message);
    frame
}

/// What frame.rs makes of a frame that is all there: a `Vec` with header and body.
fn message(mut frame: &[u8]) -> Vec<u8> {
    block_on(frame.read_message(MOST)).unwrap()
}

/// A response with header 0 and an ApiVersions body of version 3: the frame by itself, and with its body.
pub fn response(timed: bool, t: &mut Tables, items: i64) {
    let body = bodies::api_versions(items);
    let frame = framed(&[&[0, 0, 0, 7], &body[..]].concat());
    // SAFETY: slices with their lengths, that do not overlap.
    let ours = || unsafe {
        raw::befrolan_read_response_frame(black_box(frame.as_ptr()), frame.len(), 0, t.b.as_ptr().cast_mut(), 0)
    };
    let theirs = || {
        let message = message(black_box(&frame));
        let mut reader = Cursor::new(&message[..]);
        let header = ResponseHeader::read_versioned(&mut reader, version(0)).unwrap();
        (header.correlation_id.0, message.len() - reader.position() as usize)
    };
    let header = || {
        ResponseHeader::read_versioned(&mut Cursor::new(black_box(&frame[4..])), version(0)).unwrap().correlation_id.0
    };
    let r = ours();
    assert_eq!((r.number, r.correlation_id as i32, r.body_length as usize), (0, theirs().0, theirs().1));
    assert_eq!((header(), r.body_start, r.body_length as usize), (7, 8, body.len()));
    let what = format!("frame of ApiVersions v3 x {items}, response header 0 read");
    row(timed, &what, one(frame.len()), || keep(ours()), || keep(theirs()));
    row(timed, "the same beside header.rs alone", one(frame.len()), || keep(ours()), || keep(header()));

    let cells = 4 * items as usize;
    // SAFETY: slices with their lengths, that do not overlap; the body is a part of the frame.
    let mut ours = || unsafe {
        let r = raw::befrolan_read_response_frame(black_box(frame.as_ptr()), frame.len(), 0, t.b.as_mut_ptr(), 0);
        let body = frame.as_ptr().add(r.body_start as usize);
        raw::befrolan_read_api_versions_response(
            body,
            r.body_length as usize,
            3,
            1,
            t.a.as_mut_ptr(),
            cells,
            t.b.as_mut_ptr(),
            3,
        )
    };
    let theirs = || {
        let message = message(black_box(&frame));
        let mut reader = Cursor::new(&message[..]);
        ResponseHeader::read_versioned(&mut reader, version(0)).unwrap();
        ApiVersionsResponse::read_versioned(&mut reader, version(3)).unwrap()
    };
    assert_eq!((ours().number, ours().items as usize), (0, theirs().api_keys.len()));
    row(timed, "the same, and its body read", one(frame.len()), || keep(ours()), || keep(theirs()));
}

/// A request with header 2 and the body of an ApiVersions request of version 3.
pub fn request(timed: bool, t: &mut Tables) {
    let body = b"\x08gateway\x060.6.0\x00";
    let frame = framed(&[b"\x00\x12\x00\x03\x00\x00\x00\x07\x00\x07depot-7\x00", &body[..]].concat());
    // SAFETY: slices with their lengths, that do not overlap.
    let mut ours =
        || unsafe { raw::befrolan_read_request_frame(black_box(frame.as_ptr()), frame.len(), 2, t.b.as_mut_ptr(), 3) };
    let theirs = || {
        let message = message(black_box(&frame));
        let mut reader = Cursor::new(&message[..]);
        let header = RequestHeader::read_versioned(&mut reader, version(2)).unwrap();
        (header.correlation_id.0, message.len() - reader.position() as usize)
    };
    let header = || {
        RequestHeader::read_versioned(&mut Cursor::new(black_box(&frame[4..])), version(2)).unwrap().correlation_id.0
    };
    let r = ours();
    assert_eq!((r.number, r.correlation_id as i32, r.body_length as usize), (0, theirs().0, theirs().1));
    assert_eq!((header(), r.client_id_length, r.body_length as usize), (7, 7, body.len()));
    row(timed, "frame of an ApiVersions request, header 2 read", one(frame.len()), || keep(ours()), || keep(theirs()));
    row(timed, "the same beside header.rs alone", one(frame.len()), || keep(ours()), || keep(header()));
}

/// A request with header 1 and a body of this many bytes, written.
pub fn written(timed: bool, length: usize) {
    let body: Vec<u8> = (0..length).map(|x| (x * 7) as u8).collect();
    let name = b"depot-7";
    let own = [1i64, 4, 7, 2, 0, 7, -1];
    let mut out = vec![0u8; 1 << 20];
    // SAFETY: slices with their lengths, that do not overlap, and seven cells; the table is empty, and its pointer is not null.
    let mut ours = || unsafe {
        raw::befrolan_write_request_frame(
            out.as_mut_ptr(),
            out.len(),
            1,
            name.as_ptr(),
            name.len(),
            own.as_ptr(),
            own.as_ptr(),
            0,
            black_box(body.as_ptr()),
            body.len(),
        )
    };
    let header = RequestHeader {
        request_api_key: ApiKey(1),
        request_api_version: version(4),
        correlation_id: Int32(7),
        client_id: Some(NullableString(Some("depot-7".into()))),
        tagged_fields: None,
    };
    let mut message: Vec<u8> = Vec::with_capacity(1 << 20);
    let mut kept: Vec<u8> = Vec::with_capacity(1 << 20);
    let mut theirs = || {
        message.clear();
        kept.clear();
        black_box(&header).write_versioned(&mut message, version(1)).unwrap();
        message.extend_from_slice(black_box(&body));
        block_on(kept.write_message(&message)).unwrap();
        kept.len()
    };
    assert_eq!((ours().number, ours().used as usize), (0, theirs()));
    let what = format!("frame with request header 1 and {length} bytes, written");
    row(timed, &what, one(theirs()), || keep(ours()), || keep(theirs()));
    assert_eq!(out[..kept.len()], kept);
}
