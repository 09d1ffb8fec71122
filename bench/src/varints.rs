//! Writes that have varints: one by itself, a compact text, and bodies and a header with tags.

use crate::{bodies, greatest, keep, raw, row, Each, TURNS, UNSIGNED_VARINT};
use oracle::protocol::api_key::ApiKey;
use oracle::protocol::messages::*;
use oracle::protocol::primitives::{CompactString, Int32, NullableString, TaggedFields, UnsignedVarint};
use oracle::protocol::traits::WriteType;
use oracle::rust::api_versions::version;
use std::hint::black_box;

extern "C" {
    fn befrolan_write_primitive(
        out: *mut u8,
        out_len: usize,
        kind: u64,
        null: u64,
        value: i64,
        content: *const u8,
        content_len: usize,
    ) -> raw::Numbers;
}

// Of include/befrolan.h.
const COMPACT_STRING: u64 = 16;

/// One row: what our call says and leaves in the output is held against what the Rust writes.
fn written(
    timed: bool,
    what: &str,
    calls: u64,
    mut ours: impl FnMut(&mut [u8]) -> raw::Numbers,
    theirs: impl Fn(&mut Vec<u8>),
) {
    let mut out = vec![0u8; 1 << 20];
    let mut kept: Vec<u8> = Vec::with_capacity(1 << 20);
    theirs(&mut kept);
    let said = ours(&mut out);
    assert_eq!((said.number, &out[..said.used as usize]), (0, &kept[..]), "{what}");
    let each = Each { bytes: kept.len(), calls };
    row(
        timed,
        &format!("{what}, written"),
        each,
        || (0..calls).for_each(|_| keep(ours(&mut out))),
        || {
            (0..calls).for_each(|_| {
                kept.clear();
                theirs(&mut kept);
            })
        },
    );
}

/// A number or a text by itself.
fn primitive(timed: bool, what: &str, kind: u64, value: u64, content: &[u8], theirs: impl Fn(&mut Vec<u8>)) {
    // SAFETY: slices with their lengths, that do not overlap.
    let ours = |out: &mut [u8]| unsafe {
        befrolan_write_primitive(
            out.as_mut_ptr(),
            out.len(),
            kind,
            0,
            black_box(value as i64),
            black_box(content.as_ptr()),
            content.len(),
        )
    };
    written(timed, what, TURNS, ours, theirs);
}

fn one_tag() -> Option<TaggedFields> {
    Some(TaggedFields(vec![(UnsignedVarint(5), b"AB".to_vec())]))
}

/// A name, a version, and the data of one tag.
const TEXTS: &[u8] = b"gateway0.6.0AB";
/// Tag 5 with those data.
const TAG: [i64; 3] = [5, 12, 2];

fn request(timed: bool) {
    let own = [2i64, 0, 7, 2, 7, 5, 1];
    // SAFETY: slices with their lengths, that do not overlap, and seven cells.
    let ours = |out: &mut [u8]| unsafe {
        raw::befrolan_write_api_versions_request(
            out.as_mut_ptr(),
            out.len(),
            3,
            TEXTS.as_ptr(),
            TEXTS.len(),
            own.as_ptr(),
            TAG.as_ptr(),
            3,
        )
    };
    let value = ApiVersionsRequest {
        client_software_name: Some(CompactString("gateway".into())),
        client_software_version: Some(CompactString("0.6.0".into())),
        tagged_fields: one_tag(),
    };
    let theirs = |out: &mut Vec<u8>| black_box(&value).write_versioned(out, version(3)).unwrap();
    written(timed, "ApiVersions request v3 with a tag", 1, ours, theirs);
}

fn response(timed: bool) {
    let mut value = bodies::api_versions_value(60);
    value.api_keys.iter_mut().for_each(|key| key.tagged_fields = one_tag());
    let items: Vec<i64> =
        value.api_keys.iter().flat_map(|k| [k.api_key.0, 0, k.max_version.0 .0, 1]).map(i64::from).collect();
    let tags = TAG.repeat(60);
    let own = [0i64, 60, 0, 0, 0];
    // SAFETY: slices with their lengths, that do not overlap, and five cells.
    let ours = |out: &mut [u8]| unsafe {
        raw::befrolan_write_api_versions_response(
            out.as_mut_ptr(),
            out.len(),
            3,
            TEXTS.as_ptr(),
            TEXTS.len(),
            own.as_ptr(),
            items.as_ptr(),
            items.len(),
            tags.as_ptr(),
            tags.len(),
        )
    };
    let theirs = |out: &mut Vec<u8>| black_box(&value).write_versioned(out, version(3)).unwrap();
    written(timed, "ApiVersions v3 x 60 with a tag each", 1, ours, theirs);
}

/// The Rust writes the header alone: the size before it is put there by hand.
fn header(timed: bool) {
    let own = [1i64, 4, 7, 2, 0, 7, 1];
    // SAFETY: slices with their lengths, that do not overlap, and seven cells.
    let ours = |out: &mut [u8]| unsafe {
        raw::befrolan_write_request_frame(
            out.as_mut_ptr(),
            out.len(),
            2,
            TEXTS.as_ptr(),
            TEXTS.len(),
            own.as_ptr(),
            TAG.as_ptr(),
            3,
            TEXTS.as_ptr(),
            0,
        )
    };
    let value = RequestHeader {
        request_api_key: ApiKey(1),
        request_api_version: version(4),
        correlation_id: Int32(7),
        client_id: Some(NullableString(Some("gateway".into()))),
        tagged_fields: one_tag(),
    };
    let theirs = |out: &mut Vec<u8>| {
        out.extend_from_slice(&[0, 0, 0, 22]);
        black_box(&value).write_versioned(out, version(2)).unwrap();
    };
    written(timed, "frame with request header 2, a tag and 0 bytes", 1, ours, theirs);
}

pub fn rows(timed: bool) {
    for k in 1..=10usize {
        let n = greatest(k);
        let theirs = |out: &mut Vec<u8>| UnsignedVarint(black_box(n)).write(out).unwrap();
        primitive(timed, &format!("unsigned varint of {k} bytes"), UNSIGNED_VARINT, n, &[], theirs);
    }
    for size in [20, 200] {
        let value = CompactString("a".repeat(size));
        let theirs = |out: &mut Vec<u8>| black_box(&value).write(out).unwrap();
        primitive(timed, &format!("COMPACT_STRING of {size} bytes"), COMPACT_STRING, 0, value.0.as_bytes(), theirs);
    }
    request(timed);
    response(timed);
    header(timed);
}
