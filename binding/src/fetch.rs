//! Fetch, versions 0 to 4.

use crate::raw;
use crate::rows::{part, text, told, Cell, Rows, Table, PRESENT};
use crate::Refusal;

/// Room for the rows of a Fetch response. Keep one, and lend it to every call: it grows where a message needs more.
#[derive(Clone, Debug, Default)]
pub struct FetchTables {
    topics: Table<3>,
    partitions: Table<7>,
    aborted: Table<2>,
}

/// A response that was read. Its rows are in the tables, names and records in the message.
#[derive(Clone, Copy, Debug)]
pub struct FetchResponse<'a> {
    /// The throttle time in milliseconds, from version 1 on.
    pub throttle_time_ms: Option<i32>,
    /// The bytes of the body.
    pub used: usize,
    topics: Rows<'a, 3>,
    partitions: Rows<'a, 7>,
    aborted: Rows<'a, 2>,
    msg: &'a [u8],
}

/// A topic, with its partitions.
#[derive(Clone, Copy, Debug)]
pub struct FetchedTopic<'a> {
    /// Its name.
    pub topic: &'a str,
    /// Its partitions.
    pub partitions: FetchedPartitions<'a>,
}

/// A partition, with its records.
#[derive(Clone, Copy, Debug)]
pub struct FetchedPartition<'a> {
    /// Its index.
    pub partition_index: i32,
    /// The error code; 0 is none.
    pub error_code: i16,
    /// The high watermark.
    pub high_watermark: i64,
    /// The last stable offset, as the row has it: −1 below version 4, which does not tell it.
    pub last_stable_offset: i64,
    /// Its aborted transactions; none below version 4.
    pub aborted_transactions: Aborted<'a>,
    /// Its records, a part of the message; empty where the field is null.
    pub records: &'a [u8],
}

/// An aborted transaction.
#[derive(Clone, Copy, Debug, PartialEq, Eq)]
pub struct AbortedTransaction {
    /// The producer.
    pub producer_id: i64,
    /// The first offset of the transaction.
    pub first_offset: i64,
}

/// Aborted transactions, in the order of the message.
#[derive(Clone, Copy, Debug)]
pub struct Aborted<'a> {
    rows: Rows<'a, 2>,
    next: usize,
}

impl Iterator for Aborted<'_> {
    type Item = AbortedTransaction;

    fn next(&mut self) -> Option<AbortedTransaction> {
        let row = self.rows.get(self.next)?;
        self.next += 1;
        Some(AbortedTransaction { producer_id: row[0], first_offset: row[1] })
    }
}

/// Topics, in the order of the message.
#[derive(Clone, Copy, Debug)]
pub struct FetchedTopics<'a> {
    response: FetchResponse<'a>,
    next: usize,
    partitions: FetchedPartitions<'a>,
}

impl<'a> Iterator for FetchedTopics<'a> {
    type Item = FetchedTopic<'a>;

    fn next(&mut self) -> Option<FetchedTopic<'a>> {
        let row = self.response.topics.get(self.next)?;
        self.next += 1;
        let mine = FetchedPartitions { left: told(row[2]), ..self.partitions };
        let mut behind = mine;
        behind.by_ref().for_each(drop);
        self.partitions = behind;
        Some(FetchedTopic { topic: text(self.response.msg, row[0], row[1]), partitions: mine })
    }
}

/// Partitions, in the order of the message.
#[derive(Clone, Copy, Debug)]
pub struct FetchedPartitions<'a> {
    response: FetchResponse<'a>,
    next: usize,
    left: usize,
    aborted: usize,
}

impl<'a> Iterator for FetchedPartitions<'a> {
    type Item = FetchedPartition<'a>;

    fn next(&mut self) -> Option<FetchedPartition<'a>> {
        if self.left == 0 {
            return None;
        }
        let row = self.response.partitions.get(self.next)?;
        let n = told(row[4]);
        let aborted = Aborted { rows: self.response.aborted.part(self.aborted, n), next: 0 };
        self.next += 1;
        self.left -= 1;
        self.aborted += n;
        Some(FetchedPartition {
            partition_index: row[0] as i32,
            error_code: row[1] as i16,
            high_watermark: row[2],
            last_stable_offset: row[3],
            aborted_transactions: aborted,
            records: part(self.response.msg, row[5], row[6]),
        })
    }
}

impl<'a> FetchResponse<'a> {
    /// The topics.
    pub fn topics(&self) -> FetchedTopics<'a> {
        let partitions = FetchedPartitions { response: *self, next: 0, left: 0, aborted: 0 };
        FetchedTopics { response: *self, next: 0, partitions }
    }
}

/// Reads a response at the front of a message.
///
/// # Errors
/// The refusal of the rules; never [`Refusal::NO_ROOM`], for the tables grow.
pub fn read_fetch_response<'a>(
    msg: &'a [u8],
    version: impl Into<i64>,
    tables: &'a mut FetchTables,
) -> Result<FetchResponse<'a>, Refusal> {
    let version = version.into();
    let r = loop {
        let t = &mut *tables;
        let (s, sn) = t.topics.lent();
        let (p, pn) = t.partitions.lent();
        let (a, an) = t.aborted.lent();
        // SAFETY: slices with their lengths, that do not overlap; pointers of empty ones are not null.
        let r = unsafe { raw::befrolan_read_fetch_response(msg.as_ptr(), msg.len(), version, s, sn, p, pn, a, an) };
        if r.number != i64::from(Refusal::NO_ROOM) {
            break r;
        }
        let rows = r.need as usize;
        if t.topics.rows() < rows {
            t.topics.grow(rows);
        } else if t.partitions.rows() < rows {
            t.partitions.grow(rows);
        } else {
            t.aborted.grow(rows);
        }
    };
    if r.number != 0 {
        return Err(Refusal::of(r.number, r.place, r.need));
    }
    let t = &*tables;
    let topics = t.topics.filled(0, r.topics as usize);
    let held: usize = (0..topics.len()).filter_map(|i| topics.get(i)).map(|row| told(row[2])).sum();
    let partitions = t.partitions.filled(0, held);
    let ended: usize = (0..held).filter_map(|i| partitions.get(i)).map(|row| told(row[4])).sum();
    Ok(FetchResponse {
        throttle_time_ms: (r.throttle_kind == PRESENT).then_some(r.throttle as i32),
        used: r.used as usize,
        topics,
        partitions,
        aborted: t.aborted.filled(0, ended),
        msg,
    })
}

/// A Fetch request to write. It keeps its rows, so that one can be used again and again.
#[derive(Clone, Debug)]
pub struct FetchRequest {
    /// The replica that asks; −1 for a client.
    pub replica_id: i32,
    /// How long the broker may wait for `min_bytes`, in milliseconds.
    pub max_wait_ms: i32,
    /// The fewest bytes that the broker should answer with.
    pub min_bytes: i32,
    /// The most bytes of the answer, from version 3 on; `None` is 2,147,483,647.
    pub max_bytes: Option<i32>,
    /// 0, read uncommitted, or 1, read committed, in version 4; `None` is 0.
    pub isolation_level: Option<i8>,
    names: Vec<u8>,
    topics: Vec<Cell>,
    partitions: Vec<Cell>,
}

/// A partition to fetch from.
#[derive(Clone, Copy, Debug, PartialEq, Eq)]
pub struct WantedPartition {
    /// Its index.
    pub partition: i32,
    /// The first offset that is wanted.
    pub fetch_offset: i64,
    /// The most bytes of this partition.
    pub partition_max_bytes: i32,
}

impl FetchRequest {
    /// A client's request for nothing yet.
    pub fn new(max_wait_ms: i32, min_bytes: i32) -> FetchRequest {
        FetchRequest {
            replica_id: -1,
            max_wait_ms,
            min_bytes,
            max_bytes: None,
            isolation_level: None,
            names: Vec::new(),
            topics: Vec::new(),
            partitions: Vec::new(),
        }
    }

    /// Asks for partitions of a topic, behind those that were asked for before.
    pub fn topic(&mut self, name: &str, partitions: &[WantedPartition]) -> &mut FetchRequest {
        self.topics.extend([self.names.len() as Cell, name.len() as Cell, partitions.len() as Cell]);
        self.names.extend_from_slice(name.as_bytes());
        for p in partitions {
            self.partitions.extend([p.partition.into(), p.fetch_offset, p.partition_max_bytes.into()]);
        }
        self
    }

    /// Forgets the topics.
    pub fn clear(&mut self) {
        self.names.clear();
        self.topics.clear();
        self.partitions.clear();
    }

    /// Writes the request at the front of `out`, and tells how many bytes it has.
    ///
    /// # Errors
    /// The refusal of the rules; [`Refusal::NO_ROOM`] with the bytes needed where `out` is too small.
    pub fn write(&self, out: &mut [u8], version: impl Into<i64>) -> Result<usize, Refusal> {
        let unset = |x: Option<Cell>| x.map_or((0, 0), |n| (PRESENT, n));
        let (max_kind, max) = unset(self.max_bytes.map(Cell::from));
        let (level_kind, level) = unset(self.isolation_level.map(Cell::from));
        let count = (self.topics.len() / 3) as Cell;
        let body: [Cell; 8] = [
            self.replica_id.into(),
            self.max_wait_ms.into(),
            self.min_bytes.into(),
            max_kind,
            max,
            level_kind,
            level,
            count,
        ];
        // SAFETY: slices with their lengths, and an array of eight cells.
        let r = unsafe {
            raw::befrolan_write_fetch_request(
                out.as_mut_ptr(),
                out.len(),
                version.into(),
                self.names.as_ptr(),
                self.names.len(),
                body.as_ptr(),
                self.topics.as_ptr(),
                self.topics.len(),
                self.partitions.as_ptr(),
                self.partitions.len(),
            )
        };
        crate::wrote(r)
    }
}
