//! Kafka message bodies and frames, read and written by proved code.
//!
//! Befrolan reads and writes the ApiVersions, Metadata and Fetch bodies of Kafka, and the frames that they are sent in. Each of
//! its functions is proved to meet its contract; this crate is a safe wrapper over its C interface (include/befrolan.h), with no
//! dependencies. What the numbers of a refusal mean is in docs/RULES.md.
//!
//! Nothing is copied on reading: rows go to tables that the caller keeps and lends, which grow where a message needs more,
//! and texts, data and records are borrowed from the message.
//!
//! A frame is a size, a header and a body. [`FrameReader`] takes the bytes of a stream as they arrive and hands out its frames,
//! [`append_request_frame`] puts one into a `Vec` to be sent. Which header a message has say [`request_header_number`] and
//! [`response_header_number`].
//!
//! A version is any integer that an `i64` holds: an `i16`, as [`ApiVersionsResponse::agree`] gives it, or a wider one. It is
//! handed on as it is, so a caller needs no cast, which could make another version of it; what the message does not have
//! is refused with 1 ([`Refusal::NO_VERSION`]).
//!
//! # What the C interface asks of its caller
//!
//! The header lists what a call cannot judge. Safe Rust makes each of these mistakes impossible, and no function here is
//! `unsafe`:
//!
//! - A null pointer with a length, a wrong length, a table shorter than its length says, a pointer that is not aligned: every
//!   pointer and its length come from one slice, `Vec` or array, whose pointer is never null and always aligned, and whose
//!   length is the number of its elements. The runs without a length (`body`, `row`, `rows`) are arrays of just their size. A
//!   frame is appended to the spare room of a `Vec`, whose bytes the call writes and does not read.
//! - What is written overlapping what is read, or another table: an output or table is a `&mut`, and while it is lent nothing
//!   else can refer to any part of it.
//! - Memory that is freed, or written by another thread, during a call: all slices are borrowed until it returns, and a
//!   borrow rules out both. What a call shows stays borrowed from the message and the tables for as long as it is used.
//!
//! ```
//! use befrolan::{read_api_versions_response, ApiVersionsTables, FetchRequest, Read, WantedPartition};
//! # fn main() -> Result<(), befrolan::Refusal> {
//! // a broker that offers ApiVersions 0 to 3, Metadata 0 to 1 and Fetch 0 to 4 answers at version 0
//! let answer = [0, 0, 0, 0, 0, 3, 0, 18, 0, 0, 0, 3, 0, 3, 0, 0, 0, 1, 0, 1, 0, 0, 0, 4];
//! let mut tables = ApiVersionsTables::default();
//! let offer = read_api_versions_response(&answer, 0, Read::Whole, &mut tables)?;
//! assert_eq!(offer.api_versions().map(|v| v.api_key).collect::<Vec<_>>(), [18, 3, 1]);
//!
//! let [_, metadata, fetch] = offer.agree();
//! assert_eq!((metadata.version, fetch.version), (Some(1), Some(4)));
//!
//! // where node 1 is to be reached, in a Metadata answer at the version agreed on
//! let body = [
//!     0, 0, 0, 1, 0, 0, 0, 1, 0, 1, b'h', 0, 0, 0x23, 0x84, 0xff, 0xff, // one broker: node 1, host "h", port 9092, rack null
//!     0, 0, 0, 1, // the controller is node 1
//!     0, 0, 0, 0, // no topics
//! ];
//! assert_eq!(befrolan::find_host(&body, 1, 1)?, Some("h"));
//! assert_eq!(befrolan::find_host(&body, 1, 2)?, None);
//!
//! // what stands in partition 0 of the topic "t" from offset 7 on
//! let mut request = FetchRequest::new(500, 1);
//! request.topic("t", &[WantedPartition { partition: 0, fetch_offset: 7, partition_max_bytes: 1 << 20 }]);
//! let mut out = [0; 64];
//! assert_eq!(request.write(&mut out, 4)?, 44);
//!
//! // the same in a frame, as it is sent: its size, API key 1, version 4, correlation id 9, no client's name, and the body
//! use befrolan::{append_request_frame, request_header_number, FrameReader, RequestHeader};
//! let header = RequestHeader { request_api_key: 1, request_api_version: 4, correlation_id: 9, ..RequestHeader::default() };
//! let mut sent = Vec::new();
//! assert_eq!(append_request_frame(&mut sent, request_header_number(1, 4), &header, &out[..44])?, 58);
//! assert_eq!(sent[..14], [0, 0, 0, 54, 0, 1, 0, 4, 0, 0, 0, 9, 0xff, 0xff]);
//!
//! // an answer, of which a part has arrived: correlation id 9, throttle time 0, no topics
//! let mut frames = FrameReader::new();
//! frames.push(&[0, 0, 0, 12, 0, 0, 0, 9, 0, 0])?;
//! assert_eq!(frames.missing()?, 6);
//! frames.push(&[0, 0, 0, 0, 0, 0])?;
//! let answer = frames.response(0)?.expect("it is all there");
//! assert_eq!(answer.correlation_id, 9);
//! let mut tables = befrolan::FetchTables::default();
//! assert_eq!(befrolan::read_fetch_response(answer.body, 4, &mut tables)?.used, 8);
//! # Ok(())
//! # }
//! ```
#![warn(missing_docs)]

mod api_versions;
mod fetch;
mod frames;
mod metadata;
mod raw;
mod refusal;
mod rows;
mod stream;

pub use api_versions::{
    read_api_versions_request, read_api_versions_response, write_api_versions_request, Agreed, ApiVersion, ApiVersions,
    ApiVersionsAnswer, ApiVersionsRequest, ApiVersionsResponse, ApiVersionsTables, Read, Tag, Tags,
};
pub use fetch::{
    read_fetch_response, Aborted, AbortedTransaction, FetchRequest, FetchResponse, FetchTables, FetchedPartition,
    FetchedPartitions, FetchedTopic, FetchedTopics, WantedPartition,
};
pub use frames::{
    append_request_frame, append_response_frame, read_request_frame, read_response_frame, request_header_number,
    response_header_number, write_request_frame, write_response_frame, HeaderTables, RequestFrame, RequestHeader,
    ResponseFrame, ResponseHeader,
};
pub use metadata::{
    find_host, read_metadata_response, write_metadata_request, Broker, Brokers, Field, MetadataResponse, MetadataTables,
    Nodes, Partition, Partitions, Topic, Topics,
};
pub use refusal::Refusal;
pub use stream::{FrameReader, StreamError};

/// How many bytes at the front of a text are well-formed UTF-8: whole characters, up to the first that is ill-formed or cut.
/// Befrolan takes it as text where that is all of it. `str::from_utf8` of the standard library says the same.
///
/// ```
/// assert_eq!(befrolan::well_formed("grün".as_bytes()), 5);
/// assert_eq!(befrolan::well_formed(b"ab\xffc"), 2);
/// ```
pub fn well_formed(text: &[u8]) -> usize {
    // SAFETY: pointer and length are those of one slice, which is only read.
    unsafe { raw::befrolan_well_formed(text.as_ptr(), text.len()) as usize }
}

fn wrote(r: raw::Numbers) -> Result<usize, Refusal> {
    if r.number != 0 {
        return Err(Refusal::of(r.number, r.place, r.need));
    }
    Ok(r.used as usize)
}
