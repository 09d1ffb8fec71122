//! Fetch bodies: docs/RULES.md, sections 4 to 7. The response's tables are topics, partitions and aborted transactions, the
//! request's are topics and partitions.
use super::names::{FETCH_REQUEST, FETCH_RESPONSE};
use super::primitives::{Form, Null, Reader};
use super::write::{Fields, Given, Own, Tables};
use super::Shown;
use crate::line::{Refusal, Word};
use crate::token::{of_word, Spelling, Token};
use std::slice::ChunksExact;

pub const LAST: i16 = 4;
/// Row widths of the response's tables.
pub const WIDTHS: [usize; 3] = [3, 7, 2];
const TOPICS: usize = 0;
const PARTITIONS: usize = 1;
const ABORTED: usize = 2;
/// Row widths of the request's tables: start and length of a name, partitions; index, offset, most bytes.
pub const ASKED: [usize; 2] = [3, 3];

/// The cell of a stable offset that the version lacks.
const LACKING: i64 = -1;

type Read<T> = Result<T, Refusal>;

/// The response, from its first byte.
pub fn read_response(version: i16, _whole: bool, message: &[u8]) -> Read<Shown<'_>> {
    let mut reader = Reader::new(FETCH_RESPONSE, message, WIDTHS.len());
    let throttle = reader.number_from(1, version)?;
    let topics = reader.field().counted(TOPICS, |reader| read_topic(version, reader))?.unwrap_or(0);
    Ok(reader.shown(vec![throttle, Word::Number(topics.into())]))
}

fn read_topic(version: i16, reader: &mut Reader) -> Read<()> {
    let name = reader.field().span(Null::Never)?.unwrap_or_default();
    let partitions = reader.field().counted(PARTITIONS, |reader| read_partition(version, reader))?.unwrap_or(0);
    reader.tables[TOPICS].extend([name[0], name[1], partitions]);
    Ok(())
}

fn read_partition(version: i16, reader: &mut Reader) -> Read<()> {
    let [index, error, watermark] = [reader.field().int(4)?, reader.field().int(2)?, reader.field().int(8)?];
    let [stable, aborted] = if version >= 4 {
        [reader.field().int(8)?, reader.field().counted(ABORTED, read_aborted)?.unwrap_or(0)]
    } else {
        [LACKING, 0]
    };
    let Word::Part(start, records) = reader.field().bytes(Form::Int32, Null::Empty)? else { unreachable!() };
    let span = [start as i64, records.len() as i64];
    reader.tables[PARTITIONS].extend([index, error, watermark, stable, aborted, span[0], span[1]]);
    Ok(())
}

fn read_aborted(reader: &mut Reader) -> Read<()> {
    let pair = [reader.field().int(8)?, reader.field().int(8)?];
    reader.tables[ABORTED].extend(pair);
    Ok(())
}

/// Rows that are still to be spelled.
struct Rows<'s, 'a> {
    spelling: Spelling<'a>,
    partitions: ChunksExact<'s, i64>,
    aborted: ChunksExact<'s, i64>,
}

/// What a read of a response showed, spelled. Rows that no count speaks of come last, so that they are noticed.
pub fn spell_response<'a>(shown: &Shown<'a>, message: &'a [u8]) -> Vec<Token<'a>> {
    let [throttle, topics] = &shown.own[..] else { unreachable!() };
    let rows_of = |table: usize| shown.tables[table].chunks_exact(WIDTHS[table]);
    let mut rows = Rows {
        spelling: Spelling { message, tokens: vec![of_word(throttle), of_word(topics)] },
        partitions: rows_of(PARTITIONS),
        aborted: rows_of(ABORTED),
    };
    rows_of(TOPICS).for_each(|topic| rows.topic(topic));
    let left = rows.partitions.chain(rows.aborted).flatten();
    rows.spelling.tokens.extend(left.map(|cell| Token::number(*cell)));
    rows.spelling.tokens
}

impl Rows<'_, '_> {
    fn topic(&mut self, row: &[i64]) {
        self.spelling.part(&row[..2]);
        self.spelling.numbers(&row[2..]);
        for _ in 0..row[2] {
            let Some(partition) = self.partitions.next() else { return };
            self.partition(partition);
        }
    }

    fn partition(&mut self, row: &[i64]) {
        self.spelling.numbers(&row[..5]);
        for _ in 0..row[4] {
            let Some(pair) = self.aborted.next() else { break };
            self.spelling.numbers(pair);
        }
        self.spelling.part(&row[5..]);
    }
}

/// What unset fields are written as.
const ALL_BYTES: i64 = 2_147_483_647;
const READ_UNCOMMITTED: i64 = 0;

/// A request to write: own words replica, longest wait, fewest bytes, most bytes, isolation and topic count.
pub fn write_request(version: i16, given: &Given) -> Result<Vec<u8>, Refusal> {
    let [replica, wait, least, largest, isolation, Own::Number(count)] = given.own else { unreachable!() };
    let [topics, partitions] = [TOPICS, PARTITIONS].map(|table| given.rows(table, ASKED[table]));
    let mut tables = Tables::new(FETCH_REQUEST, given);
    tables.must_be(*count, topics.len());
    tables.must_add_up(topics.iter().map(|topic| topic[2]), partitions.len());
    topics.iter().for_each(|topic| tables.inside(&Own::Part(topic[0], topic[1])));
    let mut fields = tables.judged()?;

    [replica, wait, least].into_iter().for_each(|number| fields.field().int(4, number.or(0)));
    if version >= 3 {
        fields.field().int(4, largest.or(ALL_BYTES));
    }
    if version >= 4 {
        let level = isolation.or(READ_UNCOMMITTED);
        fields.field().must([0, 1].contains(&level), 11);
        fields.int(1, level);
    }
    fields.field().length(Form::Int32, topics.len());
    let mut rows = partitions.into_iter();
    for topic in topics {
        fields.row(TOPICS, |fields| {
            fields.field().text(Form::Int16, given.range(topic[0], topic[1]));
            fields.field().length(Form::Int32, topic[2] as usize);
            rows.by_ref().take(topic[2] as usize).for_each(|partition| put_partition(fields, partition));
        });
    }
    fields.judged()
}

fn put_partition(fields: &mut Fields, partition: &[i64]) {
    fields.row(PARTITIONS, |fields| {
        fields.field().int(4, partition[0]);
        fields.field().int(8, partition[1]);
        fields.field().int(4, partition[2]);
    });
}
