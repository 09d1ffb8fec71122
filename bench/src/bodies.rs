//! The bodies that are read, and the values that are written.

use oracle::protocol::api_key::ApiKey;
use oracle::protocol::messages::*;
use oracle::protocol::primitives::{Int32, Int64, String_};
use oracle::rust::api_versions::version;

fn int(out: &mut Vec<u8>, n: i64, width: usize) {
    out.extend_from_slice(&n.to_be_bytes()[8 - width..]);
}

fn string(out: &mut Vec<u8>, s: &str) {
    int(out, s.len() as i64, 2);
    out.extend_from_slice(s.as_bytes());
}

/// An ApiVersions response of version 3, without tags.
pub fn api_versions(items: i64) -> Vec<u8> {
    let mut out = vec![0, 0];
    let mut n = items + 1;
    while n > 127 {
        out.push((n % 128 + 128) as u8);
        n /= 128;
    }
    out.push(n as u8);
    for key in 0..items {
        int(&mut out, key % 100, 2);
        int(&mut out, 0, 2);
        int(&mut out, key % 13, 2);
        out.push(0);
    }
    out.extend([0; 5]);
    out
}

/// The same as a value of the Rust.
pub fn api_versions_value(items: i16) -> ApiVersionsResponse {
    let row = |key: i16| ApiVersionsResponseApiKey {
        api_key: ApiKey(key % 100),
        min_version: version(0),
        max_version: version(key % 13),
        tagged_fields: None,
    };
    ApiVersionsResponse {
        error_code: None,
        throttle_time_ms: None,
        tagged_fields: None,
        api_keys: (0..items).map(row).collect(),
    }
}

/// A Metadata response of version 4: each topic has 8 partitions of 3 replicas, all in sync.
pub fn metadata(brokers: i64, topics: i64) -> Vec<u8> {
    let mut out = vec![0; 4];
    int(&mut out, brokers, 4);
    for node in 0..brokers {
        int(&mut out, node, 4);
        string(&mut out, &format!("charger-{node:03}.depot.net"));
        int(&mut out, 9092, 4);
        string(&mut out, "rack-a");
    }
    string(&mut out, "cluster-0123456789abcd");
    int(&mut out, 7, 4);
    int(&mut out, topics, 4);
    for topic in 0..topics {
        int(&mut out, 0, 2);
        string(&mut out, &format!("topic-name-{topic:04}"));
        out.push(0);
        int(&mut out, 8, 4);
        for partition in 0..8 {
            int(&mut out, 0, 2);
            int(&mut out, partition, 4);
            int(&mut out, (partition + topic) % 50, 4);
            for _ in 0..2 {
                int(&mut out, 3, 4);
                (0..3).for_each(|replica| int(&mut out, (partition + topic + replica) % 50, 4));
            }
        }
    }
    out
}

/// A Fetch response of version 4: each topic has 8 partitions with so many bytes of records.
pub fn fetch(topics: i64, records: i64) -> Vec<u8> {
    let mut out = vec![0; 4];
    int(&mut out, topics, 4);
    for topic in 0..topics {
        string(&mut out, &format!("topic-name-{topic:04}"));
        int(&mut out, 8, 4);
        for partition in 0..8 {
            int(&mut out, partition, 4);
            int(&mut out, 0, 2);
            int(&mut out, 123_456, 8);
            int(&mut out, 123_456, 8);
            int(&mut out, -1, 4);
            int(&mut out, records, 4);
            out.extend((0..records).map(|x| (x * 7 + partition) as u8));
        }
    }
    out
}

/// A Fetch request for 10 partitions of each of 10 topics.
pub fn fetch_request() -> FetchRequest {
    let partition = |index: i32| FetchRequestPartition {
        partition: Int32(index),
        fetch_offset: Int64(123_456 + i64::from(index)),
        partition_max_bytes: Int32(1 << 20),
    };
    let topic = |t: i32| FetchRequestTopic {
        topic: String_(format!("topic-name-{t:04}")),
        partitions: (0..10).map(partition).collect(),
    };
    FetchRequest {
        replica_id: Int32(-1),
        max_wait_ms: Int32(500),
        min_bytes: Int32(1),
        max_bytes: None,
        isolation_level: None,
        topics: (0..10).map(topic).collect(),
    }
}
