//! Fetch of the given Rust: the response read, the request written. Records are compared as the bytes of their field.
use super::api_versions::{put, version};
use super::primitives::{contents, held, held_number, held_text, spell_number};
use super::{listen, Read, Silence, Written};
use crate::model::fetch::ASKED;
use crate::model::write::{Given, Own};
use crate::protocol::messages::*;
use crate::protocol::primitives::{Int16, Int32, Int64, String_};
use crate::token::Token;
use std::io::Cursor;

pub fn read_response(at: i16, message: &[u8]) -> Read {
    listen(|| {
        let mut reader = Cursor::new(message);
        let body = FetchResponse::read_versioned(&mut reader, version(at))?;
        Ok::<_, ReadVersionedError>((spell(body), reader.position() as usize))
    })
}

fn spell(body: FetchResponse) -> Vec<Token<'static>> {
    let mut tokens = vec![spell_number(body.throttle_time_ms), Token::number(body.responses.len() as u64)];
    for topic in body.responses {
        tokens.extend([Token::contents(topic.topic.0), Token::number(topic.partitions.len() as u64)]);
        topic.partitions.into_iter().for_each(|partition| spell_partition(&mut tokens, partition));
    }
    tokens
}

fn spell_partition(tokens: &mut Vec<Token<'static>>, partition: FetchResponsePartition) {
    tokens.push(Token::number(partition.partition_index.0));
    tokens.push(Token::number(Int16::from(partition.error_code).0));
    tokens.push(Token::number(partition.high_watermark.0));
    // Absent is -1, as in a row, where the version tells it from a real -1.
    tokens.push(Token::number(partition.last_stable_offset.map_or(-1, |offset| offset.0)));
    tokens.push(Token::number(partition.aborted_transactions.len() as u64));
    for pair in partition.aborted_transactions {
        tokens.extend([pair.producer_id, pair.first_offset].map(|n| Token::number(n.0)));
    }
    tokens.push(Token::contents(contents(partition.records)));
}

pub fn write_request(at: i16, given: &Given) -> Result<Written, Silence> {
    let [replica, wait, least, largest, isolation, _] = given.own else { unreachable!() };
    let mut rows = given.rows(1, ASKED[1]).into_iter();
    let mut topics = vec![];
    for topic in given.rows(0, ASKED[0]) {
        let partitions = rows.by_ref().take(topic[2] as usize).map(held_partition);
        topics.push(FetchRequestTopic {
            topic: String_(held_text(given.range(topic[0], topic[1]))?),
            partitions: partitions.collect::<Result<_, _>>()?,
        });
    }
    let number = |word: &Own| held(word.or(0)).map(Int32);
    let body = FetchRequest {
        replica_id: number(replica)?,
        max_wait_ms: number(wait)?,
        min_bytes: number(least)?,
        max_bytes: held_number(largest)?,
        isolation_level: held_level(isolation)?,
        topics,
    };
    Ok(put(body, at))
}

fn held_partition(row: &[i64]) -> Result<FetchRequestPartition, Silence> {
    Ok(FetchRequestPartition {
        partition: Int32(held(row[0])?),
        fetch_offset: Int64(row[1]),
        partition_max_bytes: Int32(held(row[2])?),
    })
}

fn held_level(word: &Own) -> Result<Option<IsolationLevel>, Silence> {
    match word {
        Own::Number(0) => Ok(Some(IsolationLevel::ReadUncommitted)),
        Own::Number(1) => Ok(Some(IsolationLevel::ReadCommitted)),
        Own::Number(_) => Err(Silence::NoSuchLevel),
        _ => Ok(None),
    }
}
