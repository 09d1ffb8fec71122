//! ApiVersions bodies: docs/RULES.md, sections 4 to 7. The response's tables are items and tags, the request's is tags.
use super::names::{API_VERSIONS_REQUEST, API_VERSIONS_RESPONSE};
use super::primitives::{Form, Null, Reader};
use super::write::{Given, Own, Tables};
use super::Shown;
use crate::line::{Refusal, Word};
use crate::token::{of_word, put_tags, Token};

pub const LAST: i16 = 3;
/// From this version on counts and texts are compact, and there are tagged fields.
const FLEXIBLE: i16 = 3;
const ITEM: usize = 4;
const ITEMS: usize = 0;
const TAGS: usize = 1;

const ABSENT_TAGS: i64 = -1;

fn tags_if(reader: &mut Reader, flexible: bool, table: usize) -> Result<i64, Refusal> {
    if flexible {
        reader.field().tagged_fields(table)
    } else {
        Ok(ABSENT_TAGS)
    }
}

/// The response, from its first byte; what a whole read refuses behind it is not judged here.
pub fn read_response(version: i16, whole: bool, message: &[u8]) -> Result<Shown<'_>, Refusal> {
    let flexible = version >= FLEXIBLE;
    let mut reader = Reader::new(API_VERSIONS_RESPONSE, message, 2);
    let error = reader.field().int(2)?;
    let start = reader.at;
    let count = reader.field().length(if flexible { Form::Compact } else { Form::Int32 })?;
    if whole && count.is_none() {
        return Err(reader.refusal(8, start));
    }
    let count = count.unwrap_or(0);
    for _ in 0..count {
        reader.row(ITEMS, |reader| read_item(flexible, reader))?;
    }
    let throttle = reader.number_from(1, version)?;
    let tags = tags_if(&mut reader, flexible, TAGS)?;
    let number = |n: i64| Word::Number(n.into());
    Ok(reader.shown(vec![number(error), number(count as i64), throttle, number(tags)]))
}

fn read_item(flexible: bool, reader: &mut Reader) -> Result<(), Refusal> {
    let [key, min, max] = [reader.field().int(2)?, reader.field().int(2)?, reader.field().int(2)?];
    let tags = tags_if(reader, flexible, TAGS)?;
    reader.tables[ITEMS].extend([key, min, max, tags]);
    Ok(())
}

pub fn read_request(version: i16, _whole: bool, message: &[u8]) -> Result<Shown<'_>, Refusal> {
    let mut reader = Reader::new(API_VERSIONS_REQUEST, message, 1);
    if version < FLEXIBLE {
        return Ok(reader.shown(vec![Word::Absent, Word::Absent, Word::Number(ABSENT_TAGS.into())]));
    }
    let name = reader.field().text(Form::Compact, Null::Never)?;
    let software = reader.field().text(Form::Compact, Null::Never)?;
    let tags = reader.field().tagged_fields(0)?;
    Ok(reader.shown(vec![name, software, Word::Number(tags.into())]))
}

/// What a read of a response showed, spelled.
pub fn spell_response<'a>(shown: &Shown<'a>, message: &'a [u8]) -> Vec<Token<'a>> {
    let [error, items, throttle, Word::Number(tags)] = &shown.own[..] else { unreachable!() };
    let mut rows = shown.tables[1].chunks_exact(3);
    let mut tokens = vec![of_word(error), of_word(items)];
    for item in shown.tables[0].chunks_exact(ITEM) {
        tokens.extend(item[..3].iter().map(|cell| Token::number(*cell)));
        put_tags(&mut tokens, item[3].into(), &mut rows, message);
    }
    tokens.push(of_word(throttle));
    put_tags(&mut tokens, *tags, &mut rows, message);
    tokens
}

pub fn spell_request<'a>(shown: &Shown<'a>, message: &'a [u8]) -> Vec<Token<'a>> {
    let [name, software, Word::Number(tags)] = &shown.own[..] else { unreachable!() };
    let mut tokens = vec![of_word(name), of_word(software)];
    put_tags(&mut tokens, *tags, &mut shown.tables[0].chunks_exact(3), message);
    tokens
}

/// A response to write: own words error, item count, throttle and tag count.
pub fn write_response(version: i16, given: &Given) -> Result<Vec<u8>, Refusal> {
    let [Own::Number(error), Own::Number(count), throttle, Own::Number(tags)] = given.own else { unreachable!() };
    let items = given.rows(ITEMS, ITEM);
    let mut tables = Tables::new(API_VERSIONS_RESPONSE, given);
    tables.must_be(*count, items.len());
    items.iter().for_each(|item| tables.tag_count(item[3]));
    tables.tag_count(*tags);
    tables.tags_must_add_up(TAGS);
    let mut fields = tables.judged()?;

    let flexible = version >= FLEXIBLE;
    let mut rows = given.tag_rows(TAGS);
    fields.field().int(2, *error);
    fields.field().length(if flexible { Form::Compact } else { Form::Int32 }, items.len());
    for item in &items {
        fields.row(ITEMS, |fields| {
            item[..3].iter().for_each(|cell| fields.field().int(2, *cell));
            if flexible {
                fields.field().tagged_fields(given, &mut rows, item[3]);
            }
        });
    }
    if version >= 1 {
        fields.field().int(4, throttle.or(0));
    }
    if flexible {
        fields.field().tagged_fields(given, &mut rows, *tags);
    }
    fields.judged()
}

/// A request to write: own words name, software version and tag count.
pub fn write_request(version: i16, given: &Given) -> Result<Vec<u8>, Refusal> {
    let [name, software, Own::Number(tags)] = given.own else { unreachable!() };
    let mut tables = Tables::new(API_VERSIONS_REQUEST, given);
    tables.inside(name);
    tables.inside(software);
    tables.tag_count(*tags);
    tables.tags_must_add_up(0);
    let mut fields = tables.judged()?;

    if version >= FLEXIBLE {
        fields.field().text(Form::Compact, given.part(name));
        fields.field().text(Form::Compact, given.part(software));
        fields.field().tagged_fields(given, &mut given.tag_rows(0), *tags);
    }
    fields.judged()
}
