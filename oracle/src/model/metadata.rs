//! Metadata bodies and the address lookup: docs/RULES.md, sections 4 to 7 and 9. The response's tables are brokers, topics,
//! partitions, replicas and in-sync replicas, the request's is topics.
use super::names::{METADATA_REQUEST, METADATA_RESPONSE};
use super::primitives::{Form, Null, Reader};
use super::write::{Given, Own, Tables};
use super::Shown;
use crate::line::{Refusal, Word};
use crate::token::{contents, of_word, Spelling, Token};
use std::slice::{ChunksExact, Iter};

pub const LAST: i16 = 4;
/// Row widths of the response's tables.
pub const WIDTHS: [usize; 5] = [7, 5, 5, 1, 1];
const BROKERS: usize = 0;
const TOPICS: usize = 1;
const PARTITIONS: usize = 2;
const REPLICAS: usize = 3;
const IN_SYNC: usize = 4;
/// Row width of the request's table: start and length of a name.
const NAME: usize = 2;

/// What a rack is.
const ABSENT: i64 = 0;
const NULL: i64 = 1;
const PRESENT: i64 = 2;
/// The cell of a flag that the version lacks, and of a null array that stays null.
const LACKING: i64 = -1;

type Read<T> = Result<T, Refusal>;

/// The response, from its first byte.
pub fn read_response(version: i16, _whole: bool, message: &[u8]) -> Read<Shown<'_>> {
    let mut reader = Reader::new(METADATA_RESPONSE, message, WIDTHS.len());
    let throttle = reader.number_from(3, version)?;
    let brokers = reader.field().counted(BROKERS, |reader| read_broker(version, reader))?;
    let cluster = if version >= 2 { reader.field().text(Form::Int16, Null::Kept)? } else { Word::Absent };
    let controller = reader.number_from(1, version)?;
    let topics = reader.field().counted(TOPICS, |reader| read_topic(version, reader))?;
    let count = |n: Option<i64>| Word::Number(n.unwrap_or(0).into());
    Ok(reader.shown(vec![throttle, count(brokers), cluster, controller, count(topics)]))
}

fn read_broker(version: i16, reader: &mut Reader) -> Read<()> {
    let node = reader.field().int(4)?;
    let host = reader.field().span(Null::Never)?.unwrap_or_default();
    let port = reader.field().int(4)?;
    let rack = if version < 1 {
        [ABSENT, 0, 0]
    } else {
        reader.field().span(Null::Kept)?.map_or([NULL, 0, 0], |[start, length]| [PRESENT, start, length])
    };
    reader.tables[BROKERS].extend([node, host[0], host[1], port, rack[0], rack[1], rack[2]]);
    Ok(())
}

fn read_topic(version: i16, reader: &mut Reader) -> Read<()> {
    let error = reader.field().int(2)?;
    let name = reader.field().span(Null::Never)?.unwrap_or_default();
    let internal = if version >= 1 { (reader.field().int(1)? != 0).into() } else { LACKING };
    let partitions = reader.field().counted(PARTITIONS, read_partition)?.unwrap_or(0);
    reader.tables[TOPICS].extend([error, name[0], name[1], internal, partitions]);
    Ok(())
}

fn read_partition(reader: &mut Reader) -> Read<()> {
    let [error, index, leader] = [reader.field().int(2)?, reader.field().int(4)?, reader.field().int(4)?];
    let mut nodes = |table: usize| {
        reader.field().counted(table, |reader| {
            let node = reader.field().int(4)?;
            reader.tables[table].push(node);
            Ok(())
        })
    };
    let [replicas, in_sync] = [nodes(REPLICAS)?, nodes(IN_SYNC)?].map(|n| n.unwrap_or(LACKING));
    reader.tables[PARTITIONS].extend([error, index, leader, replicas, in_sync]);
    Ok(())
}

/// The host of the first broker with that node number: a part of the message, or none.
pub fn host(version: i16, node: i64, message: &[u8]) -> Read<Shown<'_>> {
    let body = read_response(version, false, message)?;
    let row = body.tables[BROKERS].chunks_exact(WIDTHS[BROKERS]).find(|broker| broker[0] == node);
    let host = row.map_or(Word::None, |broker| Word::Part(broker[1] as usize, contents(message, &broker[1..3])));
    Ok(Shown { used: body.used, own: vec![host], tables: vec![] })
}

/// Rows that are still to be spelled.
struct Rows<'s, 'a> {
    spelling: Spelling<'a>,
    topics: ChunksExact<'s, i64>,
    partitions: ChunksExact<'s, i64>,
    replicas: Iter<'s, i64>,
    in_sync: Iter<'s, i64>,
}

/// What a read of a response showed, spelled. Rows that no count speaks of come last, so that they are noticed.
pub fn spell_response<'a>(shown: &Shown<'a>, message: &'a [u8]) -> Vec<Token<'a>> {
    let [throttle, brokers, cluster, controller, topics] = &shown.own[..] else { unreachable!() };
    let rows_of = |table: usize| shown.tables[table].chunks_exact(WIDTHS[table]);
    let mut rows = Rows {
        spelling: Spelling { message, tokens: vec![of_word(throttle), of_word(brokers)] },
        topics: rows_of(TOPICS),
        partitions: rows_of(PARTITIONS),
        replicas: shown.tables[REPLICAS].iter(),
        in_sync: shown.tables[IN_SYNC].iter(),
    };
    rows_of(BROKERS).for_each(|broker| rows.broker(broker));
    rows.spelling.tokens.extend([of_word(cluster), of_word(controller), of_word(topics)]);
    while let Some(topic) = rows.topics.next() {
        rows.topic(topic);
    }
    let left = rows.partitions.flatten().chain(rows.replicas).chain(rows.in_sync);
    rows.spelling.tokens.extend(left.map(|cell| Token::number(*cell)));
    rows.spelling.tokens
}

impl Rows<'_, '_> {
    fn broker(&mut self, row: &[i64]) {
        self.spelling.numbers(&row[..1]);
        self.spelling.part(&row[1..3]);
        self.spelling.numbers(&row[3..4]);
        match row[4] {
            ABSENT => self.spelling.tokens.push(Token::Absent),
            NULL => self.spelling.tokens.push(Token::Null),
            _ => self.spelling.part(&row[5..]),
        }
    }

    fn topic(&mut self, row: &[i64]) {
        self.spelling.numbers(&row[..1]);
        self.spelling.part(&row[1..3]);
        self.spelling.tokens.push(if row[3] == LACKING { Token::Absent } else { Token::number(row[3]) });
        self.spelling.numbers(&row[4..]);
        for _ in 0..row[4] {
            let Some(partition) = self.partitions.next() else { return };
            self.partition(partition);
        }
    }

    fn partition(&mut self, row: &[i64]) {
        self.spelling.numbers(&row[..3]);
        let tokens = &mut self.spelling.tokens;
        for (count, nodes) in [(row[3], &mut self.replicas), (row[4], &mut self.in_sync)] {
            tokens.push(if count == LACKING { Token::Null } else { Token::number(count) });
            tokens.extend(nodes.take(count.max(0) as usize).map(|node| Token::number(*node)));
        }
    }
}

/// A request to write: own words topic count, where -1 is null, and auto-creation.
pub fn write_request(version: i16, given: &Given) -> Result<Vec<u8>, Refusal> {
    let [Own::Number(count), creation] = given.own else { unreachable!() };
    let topics = given.rows(0, NAME);
    let mut tables = Tables::new(METADATA_REQUEST, given);
    tables.must_be(if *count == LACKING { 0 } else { *count }, topics.len());
    topics.iter().for_each(|topic| tables.inside(&Own::Part(topic[0], topic[1])));
    let mut fields = tables.judged()?;

    match *count {
        LACKING => fields.field().null(Form::Int32),
        _ => fields.field().length(Form::Int32, topics.len()),
    }
    for topic in topics {
        fields.row(0, |fields| fields.field().text(Form::Int16, given.range(topic[0], topic[1])));
    }
    if version >= 4 {
        fields.field().int(1, (*creation != Own::Flag(false)).into());
    }
    fields.judged()
}

/// Entry 4: auto-creation is set, the version lacks it, and the Rust refuses what the rules drop. The own words without it.
pub fn without_creation(version: i16, given: &Given) -> Option<Vec<Own>> {
    (version < 4 && given.own[1] != Own::Absent).then(|| vec![given.own[0], Own::Absent])
}
