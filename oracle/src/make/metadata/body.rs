//! Metadata responses laid out by hand, with so many rows or so many bytes.
use crate::make::body::Body;

impl Body {
    pub fn broker(&mut self, version: i16, node: usize, host: &[u8]) {
        self.int(4, node as i64);
        self.text(host);
        self.int(4, 9092 + node as i64);
        match node % 3 {
            _ if version < 1 => {}
            0 => self.null_text(),
            rack => self.text(&b"rack"[..2 * rack]),
        }
    }

    /// Behind the brokers: cluster and controller.
    pub fn middle(&mut self, version: i16) {
        if version >= 2 {
            self.text(b"c");
        }
        if version >= 1 {
            self.int(4, 1);
        }
    }

    fn topic(&mut self, version: i16, number: usize, partitions: usize, replicas: usize) {
        self.int(2, number as i64 % 4);
        self.text(format!("t{number}").as_bytes());
        if version >= 1 {
            self.int(1, number as i64 % 2);
        }
        self.int(4, partitions as i64);
        for index in 0..partitions {
            self.int(2, index as i64 % 3);
            self.int(4, index as i64);
            self.int(4, (number + index) as i64);
            self.nodes(number, replicas);
            // The last partition of each topic has one less in sync.
            self.nodes(number, if index + 1 == partitions { replicas - 1 } else { replicas });
        }
    }

    fn nodes(&mut self, from: usize, count: usize) {
        self.int(4, count as i64);
        (from..from + count).for_each(|node| self.int(4, node as i64));
    }
}

/// A body up to its brokers.
pub fn begun(version: i16) -> Body {
    let mut body = Body::default();
    if version >= 3 {
        body.int(4, 9);
    }
    body
}

/// So many brokers, topics, partitions of each topic, and replicas of each partition, at least one.
pub fn rows(version: i16, [brokers, topics, partitions, replicas]: [usize; 4]) -> Vec<u8> {
    let mut body = begun(version);
    body.int(4, brokers as i64);
    (0..brokers).for_each(|node| body.broker(version, node, format!("host{node}").as_bytes()));
    body.middle(version);
    body.int(4, topics as i64);
    (0..topics).for_each(|number| body.topic(version, number, partitions, replicas));
    body.0
}

/// A body of just so many bytes, from 127 on: brokers with hosts as long as can be, the last as long as is left. No topics.
pub fn sized(version: i16, size: usize) -> Vec<u8> {
    const LONGEST: usize = 32_767;
    let empty = rows(version, [0, 0, 1, 1]).len();
    // What a broker has beside its host, with a null rack.
    let around = if version >= 1 { 12 } else { 10 };
    let brokers = (size - empty).div_ceil(around + LONGEST);
    let mut body = begun(version);
    body.int(4, brokers as i64);
    let mut left = size - empty - brokers * around;
    for _ in 0..brokers {
        let host = vec![b'h'; left.min(LONGEST)];
        left -= host.len();
        body.broker(version, 0, &host);
    }
    body.middle(version);
    body.int(4, 0);
    body.0
}
