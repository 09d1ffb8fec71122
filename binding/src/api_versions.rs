//! ApiVersions, versions 0 to 3, and agreement on versions.

use crate::raw;
use crate::rows::{part, text, told, Cell, Rows, Table, NO_COUNT, PRESENT};
use crate::Refusal;

/// How much of a message is read.
#[derive(Clone, Copy, Debug, PartialEq, Eq)]
pub enum Read {
    /// What stands at the front of the message; null items are none, and what is behind the body is not looked at.
    Prefix,
    /// The message as a whole: null items and bytes left over are refused.
    Whole,
}

/// Room for the rows of ApiVersions bodies. Keep one, and lend it to every call: it grows where a message needs more.
#[derive(Clone, Debug, Default)]
pub struct ApiVersionsTables {
    items: Table<4>,
    tags: Table<3>,
}

/// A response that was read. Its rows are in the tables, its data in the message.
#[derive(Clone, Copy, Debug)]
pub struct ApiVersionsResponse<'a> {
    /// The error code; 0 is none.
    pub error: i16,
    /// The throttle time in milliseconds, from version 1 on.
    pub throttle_time_ms: Option<i32>,
    /// The bytes of the body.
    pub used: usize,
    items: Rows<'a, 4>,
    tags: Rows<'a, 3>,
    own: Cell,
    msg: &'a [u8],
}

/// A row of what a broker offers.
#[derive(Clone, Copy, Debug)]
pub struct ApiVersion<'a> {
    /// The API key.
    pub api_key: i16,
    /// The lowest version that the broker takes.
    pub min_version: i16,
    /// The highest.
    pub max_version: i16,
    /// Its tagged fields; `None` below version 3.
    pub tags: Option<Tags<'a>>,
}

/// Tagged fields, in the order of the message.
#[derive(Clone, Copy, Debug)]
pub struct Tags<'a> {
    rows: Rows<'a, 3>,
    msg: &'a [u8],
    next: usize,
}

/// One tagged field.
#[derive(Clone, Copy, Debug, PartialEq, Eq)]
pub struct Tag<'a> {
    /// Its number.
    pub tag: u64,
    /// Its data, a part of the message.
    pub data: &'a [u8],
}

impl<'a> Tags<'a> {
    pub(crate) fn of(rows: Rows<'a, 3>, msg: &'a [u8]) -> Tags<'a> {
        Tags { rows, msg, next: 0 }
    }
}

impl<'a> Iterator for Tags<'a> {
    type Item = Tag<'a>;

    fn next(&mut self) -> Option<Tag<'a>> {
        let row = self.rows.get(self.next)?;
        self.next += 1;
        Some(Tag { tag: row[0] as u64, data: part(self.msg, row[1], row[2]) })
    }
}

/// The rows of a response, in the order of the message.
#[derive(Clone, Copy, Debug)]
pub struct ApiVersions<'a> {
    items: Rows<'a, 4>,
    tags: Rows<'a, 3>,
    msg: &'a [u8],
    next: usize,
    tag: usize,
}

impl<'a> Iterator for ApiVersions<'a> {
    type Item = ApiVersion<'a>;

    fn next(&mut self) -> Option<ApiVersion<'a>> {
        let row = self.items.get(self.next)?;
        let n = told(row[3]);
        let rows = self.tags.part(self.tag, n);
        self.next += 1;
        self.tag += n;
        let tags = (row[3] != NO_COUNT).then_some(Tags::of(rows, self.msg));
        Some(ApiVersion { api_key: row[0] as i16, min_version: row[1] as i16, max_version: row[2] as i16, tags })
    }
}

impl<'a> ApiVersionsResponse<'a> {
    /// What the broker offers.
    pub fn api_versions(&self) -> ApiVersions<'a> {
        ApiVersions { items: self.items, tags: self.tags, msg: self.msg, next: 0, tag: 0 }
    }

    /// The body's own tagged fields; `None` below version 3.
    pub fn tags(&self) -> Option<Tags<'a>> {
        let n = told(self.own);
        let rows = self.tags.part(self.tags.len() - n, n);
        (self.own != NO_COUNT).then_some(Tags::of(rows, self.msg))
    }

    /// The versions to speak with this broker: ApiVersions, Metadata and Fetch, in that order.
    pub fn agree(&self) -> [Agreed; 3] {
        let mut rows = [0; 9];
        let cells = self.items.cells();
        // SAFETY: a slice with its length, and an array of nine cells, as the header says.
        unsafe { raw::befrolan_agree(cells.as_ptr(), cells.len(), rows.as_mut_ptr()) };
        let row = |i: usize| Agreed {
            api_key: rows[3 * i] as i16,
            version: (rows[3 * i + 1] >= 0).then_some(rows[3 * i + 1] as i16),
            broker_maximum: (rows[3 * i + 2] >= 0).then_some(rows[3 * i + 2] as i16),
        };
        [row(0), row(1), row(2)]
    }
}

/// What was agreed on for one API.
#[derive(Clone, Copy, Debug, PartialEq, Eq)]
pub struct Agreed {
    /// The API key: 18 ApiVersions, 3 Metadata, 1 Fetch.
    pub api_key: i16,
    /// The highest version that both speak; `None` if there is none.
    pub version: Option<i16>,
    /// The broker's highest; `None` if it does not list the API.
    pub broker_maximum: Option<i16>,
}

/// Reads a response that was sent for a request at `version`.
///
/// # Errors
/// The refusal of the rules; never [`Refusal::NO_ROOM`], for the tables grow.
pub fn read_api_versions_response<'a>(
    msg: &'a [u8],
    version: impl Into<i64>,
    read: Read,
    tables: &'a mut ApiVersionsTables,
) -> Result<ApiVersionsResponse<'a>, Refusal> {
    let version = version.into();
    let r = loop {
        let (items, items_len) = tables.items.lent();
        let (tags, tags_len) = tables.tags.lent();
        let whole = u64::from(read == Read::Whole);
        // SAFETY: slices with their lengths, that do not overlap; pointers of empty ones are not null.
        let r = unsafe {
            raw::befrolan_read_api_versions_response(msg.as_ptr(), msg.len(), version, whole, items, items_len, tags, tags_len)
        };
        if r.number != i64::from(Refusal::NO_ROOM) {
            break r;
        }
        let rows = r.need as usize;
        if tables.items.rows() < rows {
            tables.items.grow(rows);
        } else {
            tables.tags.grow(rows);
        }
    };
    if r.number != 0 {
        return Err(Refusal::of(r.number, r.place, r.need));
    }
    let items = tables.items.filled(0, r.items as usize);
    let tagged: usize = (0..items.len()).filter_map(|i| items.get(i)).map(|row| told(row[3])).sum();
    Ok(ApiVersionsResponse {
        error: r.error as i16,
        throttle_time_ms: (r.throttle_kind == PRESENT).then_some(r.throttle as i32),
        used: r.used as usize,
        items,
        tags: tables.tags.filled(0, tagged + told(r.tags)),
        own: r.tags,
        msg,
    })
}

/// A response to write, as a broker would, or a test that plays one.
#[derive(Clone, Debug, Default)]
pub struct ApiVersionsAnswer {
    /// The error code; 0 is none.
    pub error: i16,
    /// The throttle time in milliseconds; unset it is written as 0. Below version 1 there is none.
    pub throttle_time_ms: Option<i32>,
    items: Vec<Cell>,
    tags: Vec<Cell>,
    own: Vec<Cell>,
    data: Vec<u8>,
}

impl ApiVersionsAnswer {
    /// An answer that offers nothing yet.
    pub fn new(error: i16) -> ApiVersionsAnswer {
        ApiVersionsAnswer { error, ..ApiVersionsAnswer::default() }
    }

    fn rows(&mut self, tags: &[Tag<'_>]) -> Vec<Cell> {
        let mut rows = Vec::with_capacity(3 * tags.len());
        for tag in tags {
            rows.extend([tag.tag as Cell, self.data.len() as Cell, tag.data.len() as Cell]);
            self.data.extend_from_slice(tag.data);
        }
        rows
    }

    /// Offers one API more, with its tagged fields, which are left out below version 3.
    pub fn api(&mut self, api_key: i16, min_version: i16, max_version: i16, tags: &[Tag<'_>]) {
        self.items.extend([api_key.into(), min_version.into(), max_version.into(), tags.len() as Cell]);
        let rows = self.rows(tags);
        self.tags.extend(rows);
    }

    /// Adds a tagged field of the answer itself.
    pub fn tag(&mut self, tag: Tag<'_>) {
        let rows = self.rows(&[tag]);
        self.own.extend(rows);
    }

    /// Writes the answer to the front of `out`, and tells how many bytes it has.
    ///
    /// # Errors
    /// 1 for a version that there is not, 2 where the body would be too long, 10 where `out` is too small.
    pub fn write(&self, out: &mut [u8], version: impl Into<i64>) -> Result<usize, Refusal> {
        let (kind, throttle) = self.throttle_time_ms.map_or((0, 0), |n| (PRESENT, n.into()));
        let body: [Cell; 5] =
            [self.error.into(), self.items.len() as Cell / 4, kind, throttle, self.own.len() as Cell / 3];
        let tags = [&self.tags[..], &self.own[..]].concat();
        // SAFETY: slices with their lengths, that do not overlap, and an array of five cells; pointers of empty ones are not null.
        let r = unsafe {
            raw::befrolan_write_api_versions_response(
                out.as_mut_ptr(),
                out.len(),
                version.into(),
                self.data.as_ptr(),
                self.data.len(),
                body.as_ptr(),
                self.items.as_ptr(),
                self.items.len(),
                tags.as_ptr(),
                tags.len(),
            )
        };
        crate::wrote(r)
    }
}

/// Writes an ApiVersions request: nothing below version 3, there the client's name and software version.
///
/// # Errors
/// 1 for a version that there is not, 10 where `out` is too small.
pub fn write_api_versions_request(
    out: &mut [u8],
    version: impl Into<i64>,
    client: &str,
    software: &str,
) -> Result<usize, Refusal> {
    let lent = [client.as_bytes(), software.as_bytes()].concat();
    let (n, m) = (client.len() as Cell, software.len() as Cell);
    let body: [Cell; 7] = [PRESENT, 0, n, PRESENT, n, m, 0];
    // SAFETY: slices with their lengths, an array of seven cells, and an empty table with a pointer that is not null.
    let r = unsafe {
        raw::befrolan_write_api_versions_request(
            out.as_mut_ptr(),
            out.len(),
            version.into(),
            lent.as_ptr(),
            lent.len(),
            body.as_ptr(),
            body.as_ptr(),
            0,
        )
    };
    crate::wrote(r)
}

/// A request that was read: what a client says of itself, from version 3 on.
#[derive(Clone, Copy, Debug)]
pub struct ApiVersionsRequest<'a> {
    /// The client's name.
    pub client_software_name: Option<&'a str>,
    /// Its version.
    pub client_software_version: Option<&'a str>,
    /// The bytes of the body.
    pub used: usize,
    tags: Rows<'a, 3>,
    own: Cell,
    msg: &'a [u8],
}

impl<'a> ApiVersionsRequest<'a> {
    /// Its tagged fields; `None` below version 3.
    pub fn tags(&self) -> Option<Tags<'a>> {
        (self.own != NO_COUNT).then_some(Tags::of(self.tags, self.msg))
    }
}

/// Reads a request at the front of a message.
///
/// # Errors
/// The refusal of the rules; never [`Refusal::NO_ROOM`], for the tables grow.
pub fn read_api_versions_request<'a>(
    msg: &'a [u8],
    version: impl Into<i64>,
    tables: &'a mut ApiVersionsTables,
) -> Result<ApiVersionsRequest<'a>, Refusal> {
    let version = version.into();
    let r = loop {
        let (tags, tags_len) = tables.tags.lent();
        // SAFETY: slices with their lengths; pointers of empty ones are not null.
        let r = unsafe { raw::befrolan_read_api_versions_request(msg.as_ptr(), msg.len(), version, tags, tags_len) };
        if r.number != i64::from(Refusal::NO_ROOM) {
            break r;
        }
        tables.tags.grow(r.need as usize);
    };
    if r.number != 0 {
        return Err(Refusal::of(r.number, r.place, r.need));
    }
    let shown = |kind, start, length| (kind == PRESENT).then(|| text(msg, start, length));
    Ok(ApiVersionsRequest {
        client_software_name: shown(r.name_kind, r.name_start, r.name_length),
        client_software_version: shown(r.version_kind, r.version_start, r.version_length),
        used: r.used as usize,
        tags: tables.tags.filled(0, told(r.tags)),
        own: r.tags,
        msg,
    })
}
