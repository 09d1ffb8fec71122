//! ApiVersions of the given Rust, read and written.
use super::primitives::{held, held_number, held_tags, held_text, spell_number, spell_tags};
use super::{listen, Read, Silence, Written};
use crate::model::write::{Given, Own};
use crate::protocol::api_key::ApiKey;
use crate::protocol::api_version::ApiVersion;
use crate::protocol::error::Error;
use crate::protocol::messages::*;
use crate::protocol::primitives::{CompactString, Int16};
use crate::token::Token;
use std::io::Cursor;

pub fn version(number: i16) -> ApiVersion {
    ApiVersion(Int16(number))
}

pub fn read_response(at: i16, message: &[u8]) -> Read {
    listen(|| {
        let mut reader = Cursor::new(message);
        let body = ApiVersionsResponse::read_versioned(&mut reader, version(at))?;
        let mut tokens = vec![Token::number(Int16::from(body.error_code).0), Token::number(body.api_keys.len() as u64)];
        for item in body.api_keys {
            let numbers = [item.api_key.0, item.min_version.0 .0, item.max_version.0 .0];
            tokens.extend(numbers.map(Token::number));
            spell_tags(&mut tokens, item.tagged_fields);
        }
        tokens.push(spell_number(body.throttle_time_ms));
        spell_tags(&mut tokens, body.tagged_fields);
        Ok::<_, ReadVersionedError>((tokens, reader.position() as usize))
    })
}

pub fn read_request(at: i16, message: &[u8]) -> Read {
    listen(|| {
        let mut reader = Cursor::new(message);
        let body = ApiVersionsRequest::read_versioned(&mut reader, version(at))?;
        let text = |text: Option<CompactString>| text.map_or(Token::Absent, |t| Token::contents(t.0));
        let mut tokens = vec![text(body.client_software_name), text(body.client_software_version)];
        spell_tags(&mut tokens, body.tagged_fields);
        Ok::<_, ReadVersionedError>((tokens, reader.position() as usize))
    })
}

pub fn write_response(at: i16, given: &Given) -> Result<Written, Silence> {
    let [Own::Number(error), _, throttle, Own::Number(tags)] = given.own else { unreachable!() };
    let mut rows = given.tag_rows(1);
    let mut api_keys = vec![];
    for item in given.rows(0, 4) {
        api_keys.push(ApiVersionsResponseApiKey {
            api_key: ApiKey(held(item[0])?),
            min_version: version(held(item[1])?),
            max_version: version(held(item[2])?),
            tagged_fields: held_tags(given, &mut rows, item[3]),
        });
    }
    let body = ApiVersionsResponse {
        error_code: Error::new(held(*error)?),
        api_keys,
        throttle_time_ms: held_number(throttle)?,
        tagged_fields: held_tags(given, &mut rows, *tags),
    };
    Ok(put(body, at))
}

pub fn write_request(at: i16, given: &Given) -> Result<Written, Silence> {
    let [name, software, Own::Number(tags)] = given.own else { unreachable!() };
    let text = |text: &Own| match text {
        Own::Absent => Ok(None),
        text => held_text(given.part(text)).map(|t| Some(CompactString(t))),
    };
    let body = ApiVersionsRequest {
        client_software_name: text(name)?,
        client_software_version: text(software)?,
        tagged_fields: held_tags(given, &mut given.tag_rows(0), *tags),
    };
    Ok(put(body, at))
}

pub fn put<T: WriteVersionedType<Vec<u8>>>(body: T, at: i16) -> Written {
    listen(|| {
        let mut bytes = vec![];
        body.write_versioned(&mut bytes, version(at)).map(|()| bytes)
    })
}
