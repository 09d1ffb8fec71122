//! Metadata, versions 0 to 4, and the lookup of a host.

use crate::raw;
use crate::rows::{text, told, Cell, Rows, Table, NO_COUNT, NULL, PRESENT};
use crate::Refusal;

/// A text that a version may lack, and that may be null.
#[derive(Clone, Copy, Debug, PartialEq, Eq)]
pub enum Field<'a> {
    /// The version has no such field.
    Absent,
    /// It is null.
    Null,
    /// It is this text.
    Present(&'a str),
}

fn field(msg: &[u8], kind: Cell, start: Cell, length: Cell) -> Field<'_> {
    match kind {
        NULL => Field::Null,
        PRESENT => Field::Present(text(msg, start, length)),
        _ => Field::Absent,
    }
}

/// Room for the rows of a Metadata response. Keep one, and lend it to every call: it grows where a message needs more.
#[derive(Clone, Debug, Default)]
pub struct MetadataTables {
    brokers: Table<7>,
    topics: Table<5>,
    partitions: Table<5>,
    replicas: Table<1>,
    in_sync: Table<1>,
}

/// A response that was read. Its rows are in the tables, its texts in the message.
#[derive(Clone, Copy, Debug)]
pub struct MetadataResponse<'a> {
    /// The throttle time in milliseconds, from version 3 on.
    pub throttle_time_ms: Option<i32>,
    /// The cluster's name, from version 2 on.
    pub cluster_id: Field<'a>,
    /// The node of the controller, from version 1 on.
    pub controller_id: Option<i32>,
    /// The bytes of the body.
    pub used: usize,
    brokers: Rows<'a, 7>,
    topics: Rows<'a, 5>,
    partitions: Rows<'a, 5>,
    replicas: Rows<'a, 1>,
    in_sync: Rows<'a, 1>,
    msg: &'a [u8],
}

/// A broker.
#[derive(Clone, Copy, Debug, PartialEq, Eq)]
pub struct Broker<'a> {
    /// Its node.
    pub node_id: i32,
    /// Its host.
    pub host: &'a str,
    /// Its port.
    pub port: i32,
    /// Its rack, from version 1 on.
    pub rack: Field<'a>,
}

/// A topic, with its partitions.
#[derive(Clone, Copy, Debug)]
pub struct Topic<'a> {
    /// The error code; 0 is none.
    pub error_code: i16,
    /// Its name.
    pub name: &'a str,
    /// Whether it is internal, from version 1 on.
    pub is_internal: Option<bool>,
    /// Its partitions.
    pub partitions: Partitions<'a>,
}

/// A partition, with its replicas.
#[derive(Clone, Copy, Debug)]
pub struct Partition<'a> {
    /// The error code; 0 is none.
    pub error_code: i16,
    /// Its index.
    pub partition_index: i32,
    /// The node that leads it.
    pub leader_id: i32,
    /// The nodes that hold it; `None` where the array is null.
    pub replica_nodes: Option<Nodes<'a>>,
    /// Those in sync; `None` where the array is null.
    pub isr_nodes: Option<Nodes<'a>>,
}

/// Nodes, in the order of the message.
#[derive(Clone, Copy, Debug)]
pub struct Nodes<'a> {
    rows: Rows<'a, 1>,
    next: usize,
}

impl Iterator for Nodes<'_> {
    type Item = i32;

    fn next(&mut self) -> Option<i32> {
        let row = self.rows.get(self.next)?;
        self.next += 1;
        Some(row[0] as i32)
    }
}

/// Brokers, in the order of the message.
#[derive(Clone, Copy, Debug)]
pub struct Brokers<'a> {
    rows: Rows<'a, 7>,
    msg: &'a [u8],
    next: usize,
}

impl<'a> Iterator for Brokers<'a> {
    type Item = Broker<'a>;

    fn next(&mut self) -> Option<Broker<'a>> {
        let row = self.rows.get(self.next)?;
        self.next += 1;
        Some(Broker {
            node_id: row[0] as i32,
            host: text(self.msg, row[1], row[2]),
            port: row[3] as i32,
            rack: field(self.msg, row[4], row[5], row[6]),
        })
    }
}

/// Topics, in the order of the message.
#[derive(Clone, Copy, Debug)]
pub struct Topics<'a> {
    response: MetadataResponse<'a>,
    next: usize,
    partitions: Partitions<'a>,
}

impl<'a> Iterator for Topics<'a> {
    type Item = Topic<'a>;

    fn next(&mut self) -> Option<Topic<'a>> {
        let row = self.response.topics.get(self.next)?;
        self.next += 1;
        let mine = Partitions { left: told(row[4]), ..self.partitions };
        let mut behind = mine;
        behind.by_ref().for_each(drop);
        self.partitions = behind;
        Some(Topic {
            error_code: row[0] as i16,
            name: text(self.response.msg, row[1], row[2]),
            is_internal: (row[3] >= 0).then_some(row[3] == 1),
            partitions: mine,
        })
    }
}

/// Partitions, in the order of the message.
#[derive(Clone, Copy, Debug)]
pub struct Partitions<'a> {
    response: MetadataResponse<'a>,
    next: usize,
    left: usize,
    replica: usize,
    in_sync: usize,
}

impl<'a> Iterator for Partitions<'a> {
    type Item = Partition<'a>;

    fn next(&mut self) -> Option<Partition<'a>> {
        if self.left == 0 {
            return None;
        }
        let row = self.response.partitions.get(self.next)?;
        let nodes = |rows: Rows<'a, 1>, from: usize, count: Cell| {
            (count != NO_COUNT).then(|| Nodes { rows: rows.part(from, told(count)), next: 0 })
        };
        let replica_nodes = nodes(self.response.replicas, self.replica, row[3]);
        let isr_nodes = nodes(self.response.in_sync, self.in_sync, row[4]);
        self.next += 1;
        self.left -= 1;
        self.replica += told(row[3]);
        self.in_sync += told(row[4]);
        Some(Partition {
            error_code: row[0] as i16,
            partition_index: row[1] as i32,
            leader_id: row[2] as i32,
            replica_nodes,
            isr_nodes,
        })
    }
}

impl<'a> MetadataResponse<'a> {
    /// The brokers.
    pub fn brokers(&self) -> Brokers<'a> {
        Brokers { rows: self.brokers, msg: self.msg, next: 0 }
    }

    /// The topics.
    pub fn topics(&self) -> Topics<'a> {
        let partitions = Partitions { response: *self, next: 0, left: 0, replica: 0, in_sync: 0 };
        Topics { response: *self, next: 0, partitions }
    }
}

fn sum(rows: impl Iterator<Item = Cell>) -> usize {
    rows.map(told).sum()
}

/// Reads a response at the front of a message.
///
/// # Errors
/// The refusal of the rules; never [`Refusal::NO_ROOM`], for the tables grow.
pub fn read_metadata_response<'a>(
    msg: &'a [u8],
    version: impl Into<i64>,
    tables: &'a mut MetadataTables,
) -> Result<MetadataResponse<'a>, Refusal> {
    let version = version.into();
    let r = loop {
        let t = &mut *tables;
        let (b, bn) = t.brokers.lent();
        let (s, sn) = t.topics.lent();
        let (p, pn) = t.partitions.lent();
        let (n, nn) = t.replicas.lent();
        let (i, m) = t.in_sync.lent();
        // SAFETY: slices with their lengths, that do not overlap; pointers of empty ones are not null.
        let r = unsafe {
            raw::befrolan_read_metadata_response(msg.as_ptr(), msg.len(), version, b, bn, s, sn, p, pn, n, nn, i, m)
        };
        if r.number != i64::from(Refusal::NO_ROOM) {
            break r;
        }
        t.grow(r.need as usize);
    };
    if r.number != 0 {
        return Err(Refusal::of(r.number, r.place, r.need));
    }
    let t = &*tables;
    let topics = t.topics.filled(0, r.topics as usize);
    let held = sum((0..topics.len()).filter_map(|i| topics.get(i)).map(|row| row[4]));
    let partitions = t.partitions.filled(0, held);
    let count = |cell: usize| sum((0..held).filter_map(|i| partitions.get(i)).map(|row| row[cell]));
    Ok(MetadataResponse {
        throttle_time_ms: (r.throttle_kind == PRESENT).then_some(r.throttle as i32),
        cluster_id: field(msg, r.cluster_kind, r.cluster_start, r.cluster_length),
        controller_id: (r.controller_kind == PRESENT).then_some(r.controller as i32),
        used: r.used as usize,
        brokers: t.brokers.filled(0, r.brokers as usize),
        topics,
        partitions,
        replicas: t.replicas.filled(0, count(3)),
        in_sync: t.in_sync.filled(0, count(4)),
        msg,
    })
}

impl MetadataTables {
    // The need is of the first table too small. One that is smaller and was large enough grows too, once.
    fn grow(&mut self, rows: usize) {
        if self.brokers.rows() < rows {
            self.brokers.grow(rows);
        } else if self.topics.rows() < rows {
            self.topics.grow(rows);
        } else if self.partitions.rows() < rows {
            self.partitions.grow(rows);
        } else if self.replicas.rows() < rows {
            self.replicas.grow(rows);
        } else {
            self.in_sync.grow(rows);
        }
    }
}

/// Finds the host of a node in a message that is read as a Metadata response: that of the first broker with the node, or
/// `None` if there is no such broker. A host may be empty.
///
/// # Errors
/// What [`read_metadata_response`] refuses.
pub fn find_host(msg: &[u8], version: impl Into<i64>, node: i32) -> Result<Option<&str>, Refusal> {
    // SAFETY: a slice with its length.
    let r = unsafe { raw::befrolan_find_host(msg.as_ptr(), msg.len(), version.into(), Cell::from(node)) };
    if r.number != 0 {
        return Err(Refusal::of(r.number, r.place, r.need));
    }
    Ok((r.found == 1).then(|| text(msg, r.start, r.length)))
}

/// Writes a Metadata request. `topics` are the names asked for, `None` for null, which brokers take as all topics from
/// version 1 on. Unset, topics may be created; below version 4 that is dropped.
///
/// # Errors
/// The refusal of the rules; [`Refusal::NO_ROOM`] with the bytes needed where `out` is too small.
pub fn write_metadata_request(
    out: &mut [u8],
    version: impl Into<i64>,
    topics: Option<&[&str]>,
    allow_auto_topic_creation: Option<bool>,
) -> Result<usize, Refusal> {
    let names = topics.unwrap_or(&[]);
    let lent: Vec<u8> = names.iter().flat_map(|n| n.bytes()).collect();
    let mut rows: Vec<Cell> = Vec::with_capacity(2 * names.len());
    let mut start = 0;
    for name in names {
        rows.extend([start, name.len() as Cell]);
        start += name.len() as Cell;
    }
    let count = if topics.is_some() { names.len() as Cell } else { NO_COUNT };
    let (kind, flag) = allow_auto_topic_creation.map_or((0, 0), |b| (PRESENT, Cell::from(b)));
    let body: [Cell; 3] = [count, kind, flag];
    // SAFETY: slices with their lengths, and an array of three cells.
    let r = unsafe {
        raw::befrolan_write_metadata_request(
            out.as_mut_ptr(),
            out.len(),
            version.into(),
            lent.as_ptr(),
            lent.len(),
            body.as_ptr(),
            rows.as_ptr(),
            rows.len(),
        )
    };
    crate::wrote(r)
}
