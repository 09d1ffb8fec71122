//! Metadata of the given Rust: the response read, the request written. It has no lookup; here its list of brokers is searched.
use super::api_versions::{put, version};
use super::primitives::{held_text, spell_number};
use super::{listen, Read, Silence, Written};
use crate::model::write::{Given, Own};
use crate::protocol::messages::*;
use crate::protocol::primitives::{Array, Boolean, Int16, NullableString, String_};
use crate::token::Token;
use std::io::Cursor;

/// The Rust's value and the bytes used.
fn read(at: i16, message: &[u8]) -> Result<(MetadataResponse, usize), ReadVersionedError> {
    let mut reader = Cursor::new(message);
    let body = MetadataResponse::read_versioned(&mut reader, version(at))?;
    Ok((body, reader.position() as usize))
}

pub fn read_response(at: i16, message: &[u8]) -> Read {
    listen(|| read(at, message).map(|(body, used)| (spell(body), used)))
}

pub fn host(at: i16, node: i64, message: &[u8]) -> Read {
    listen(|| {
        let (body, used) = read(at, message)?;
        let broker = body.brokers.into_iter().find(|broker| i64::from(broker.node_id.0) == node);
        let token = broker.map_or(Token::Absent, |broker| Token::contents(broker.host.0));
        Ok::<_, ReadVersionedError>((vec![token], used))
    })
}

/// Absent, null or present.
fn text(field: Option<NullableString>) -> Token<'static> {
    field.map_or(Token::Absent, |text| text.0.map_or(Token::Null, Token::contents))
}

fn spell(body: MetadataResponse) -> Vec<Token<'static>> {
    let mut tokens = vec![spell_number(body.throttle_time_ms), Token::number(body.brokers.len() as u64)];
    for broker in body.brokers {
        tokens.extend([Token::number(broker.node_id.0), Token::contents(broker.host.0)]);
        tokens.extend([Token::number(broker.port.0), text(broker.rack)]);
    }
    tokens.extend([text(body.cluster_id), spell_number(body.controller_id), Token::number(body.topics.len() as u64)]);
    for topic in body.topics {
        tokens.extend([Token::number(Int16::from(topic.error).0), Token::contents(topic.name.0)]);
        tokens.push(topic.is_internal.map_or(Token::Absent, |flag| Token::number(flag.0)));
        tokens.push(Token::number(topic.partitions.len() as u64));
        topic.partitions.into_iter().for_each(|partition| spell_partition(&mut tokens, partition));
    }
    tokens
}

fn spell_partition(tokens: &mut Vec<Token<'static>>, partition: MetadataResponsePartition) {
    tokens.push(Token::number(Int16::from(partition.error).0));
    tokens.extend([partition.partition_index, partition.leader_id].map(|n| Token::number(n.0)));
    for Array(nodes) in [partition.replica_nodes, partition.isr_nodes] {
        let Some(nodes) = nodes else {
            tokens.push(Token::Null);
            continue;
        };
        tokens.push(Token::number(nodes.len() as u64));
        tokens.extend(nodes.into_iter().map(|node| Token::number(node.0)));
    }
}

pub fn write_request(at: i16, given: &Given) -> Result<Written, Silence> {
    let [Own::Number(count), creation] = given.own else { unreachable!() };
    let mut topics = vec![];
    for name in given.rows(0, 2) {
        topics.push(MetadataRequestTopic { name: String_(held_text(given.range(name[0], name[1]))?) });
    }
    let body = MetadataRequest {
        topics: (*count != -1).then_some(topics),
        allow_auto_topic_creation: match creation {
            Own::Flag(flag) => Some(Boolean(*flag)),
            _ => None,
        },
    };
    Ok(put(body, at))
}
