//! Frames of the given Rust: frame.rs over bytes that are all there at once, and header.rs inside them.
use super::api_versions::version;
use super::primitives::{held, held_tags, held_text, spell_tags};
use super::{listen, Read, Silence, Written};
use crate::model::write::{Given, Own};
use crate::model::LIMIT;
use crate::protocol::api_key::ApiKey;
use crate::protocol::api_version::ApiVersion;
use crate::protocol::frame::{AsyncMessageRead, AsyncMessageWrite, ReadError};
use crate::protocol::messages::*;
use crate::protocol::primitives::{Int32, NullableString};
use crate::token::Token;
use std::error::Error;
use std::future::Future;
use std::io::Cursor;
use std::pin::pin;
use std::task::{Context, Poll, Waker};

/// What a future gives that never waits: one poll is enough.
fn block_on<T>(future: impl Future<Output = T>) -> T {
    match pin!(future).poll(&mut Context::from_waker(Waker::noop())) {
        Poll::Ready(value) => value,
        Poll::Pending => unreachable!("nothing here waits"),
    }
}

/// Why frame.rs gives no message.
#[derive(Debug, Clone, Copy, PartialEq, Eq)]
pub enum Stop {
    /// The bytes have come to an end.
    End,
    Negative,
    TooLarge,
}

/// The message in the first frame, and the bytes used.
fn message(mut bytes: &[u8]) -> Result<(Vec<u8>, usize), ReadError> {
    let all = bytes.len();
    let message = block_on(bytes.read_message(LIMIT))?;
    Ok((message, all - bytes.len()))
}

/// Whether and why frame.rs refuses the first frame, whatever its header is.
pub fn stop(bytes: &[u8]) -> Option<Stop> {
    Some(match message(bytes).err()? {
        ReadError::NegativeMessageSize { .. } => Stop::Negative,
        ReadError::MessageTooLarge { .. } => Stop::TooLarge,
        _ => Stop::End,
    })
}

/// A frame, its header spelled, and the body after it.
fn read(
    bytes: &[u8],
    header: impl FnOnce(&mut Cursor<&[u8]>) -> Result<Vec<Token<'static>>, ReadVersionedError>,
) -> Read {
    listen(|| {
        let (message, used) = message(bytes)?;
        let mut reader = Cursor::new(&message[..]);
        let mut tokens = header(&mut reader)?;
        tokens.push(Token::contents(&message[reader.position() as usize..]));
        Ok::<_, Box<dyn Error>>((tokens, used))
    })
}

pub fn read_request(number: i16, bytes: &[u8]) -> Read {
    read(bytes, |reader| {
        let header = RequestHeader::read_versioned(reader, version(number))?;
        let numbers = [header.request_api_key.0, header.request_api_version.0 .0];
        let mut tokens: Vec<Token> = numbers.map(Token::number).to_vec();
        tokens.push(Token::number(header.correlation_id.0));
        tokens.push(header.client_id.map_or(Token::Absent, |text| text.0.map_or(Token::Null, Token::contents)));
        spell_tags(&mut tokens, header.tagged_fields);
        Ok(tokens)
    })
}

pub fn read_response(number: i16, bytes: &[u8]) -> Read {
    read(bytes, |reader| {
        let header = ResponseHeader::read_versioned(reader, version(number))?;
        let mut tokens = vec![Token::number(header.correlation_id.0)];
        spell_tags(&mut tokens, header.tagged_fields);
        Ok(tokens)
    })
}

pub fn write_request(number: i16, given: &Given, body: &[u8]) -> Result<Written, Silence> {
    let [key, at, correlation, client, Own::Number(tags)] = given.own else { unreachable!() };
    let header = RequestHeader {
        request_api_key: ApiKey(held(key.or(0))?),
        request_api_version: version(held(at.or(0))?),
        correlation_id: Int32(held(correlation.or(0))?),
        client_id: match client {
            Own::Part(start, length) => Some(NullableString(Some(held_text(given.range(*start, *length))?))),
            Own::Null => Some(NullableString(None)),
            _ => None,
        },
        tagged_fields: held_tags(given, &mut given.tag_rows(0), *tags),
    };
    Ok(put(header, number, body))
}

pub fn write_response(number: i16, given: &Given, body: &[u8]) -> Result<Written, Silence> {
    let [correlation, Own::Number(tags)] = given.own else { unreachable!() };
    let header = ResponseHeader {
        correlation_id: Int32(held(correlation.or(0))?),
        tagged_fields: held_tags(given, &mut given.tag_rows(0), *tags),
    };
    Ok(put(header, number, body))
}

fn put<T: WriteVersionedType<Vec<u8>>>(header: T, number: i16, body: &[u8]) -> Written {
    listen(|| {
        let mut message = vec![];
        header.write_versioned(&mut message, version(number))?;
        message.extend(body);
        let mut frame = vec![];
        block_on(frame.write_message(&message))?;
        Ok::<_, Box<dyn Error>>(frame)
    })
}

/// What the Rust has of an API: its last version, and from which versions on its requests and responses have tagged fields.
struct Api {
    last: ApiVersion,
    request: ApiVersion,
    response: ApiVersion,
}

/// Nothing for an API that is not given.
fn api(key: i16) -> Option<Api> {
    fn of<T: RequestBody>(key: i16) -> Option<Api> {
        (T::API_KEY.0 == key).then(|| Api {
            last: T::API_VERSION_RANGE.max(),
            request: T::FIRST_TAGGED_FIELD_IN_REQUEST_VERSION,
            response: T::FIRST_TAGGED_FIELD_IN_RESPONSE_VERSION,
        })
    }
    let known = [of::<ApiVersionsRequest>, of::<MetadataRequest>, of::<FetchRequest>, of::<ProduceRequest>];
    known.into_iter().find_map(|of| of(key))
}

/// A version above the last one that the Rust has of the API.
pub fn is_above(key: i16, at: i16) -> bool {
    api(key).is_some_and(|api| version(at) > api.last)
}

/// Which header a request has: the one with tagged fields from the version on that the Rust names. It does not choose itself.
pub fn request_number(key: i16, at: i16) -> Option<i64> {
    api(key).map(|api| if version(at) >= api.request { 2 } else { 1 })
}

pub fn response_number(key: i16, at: i16) -> Option<i64> {
    api(key).map(|api| if version(at) >= api.response { 1 } else { 0 })
}
