//! Frames: a size, a header and a body, with request headers 1 and 2 and response headers 0 and 1.

use crate::api_versions::{Tag, Tags};
use crate::raw;
use crate::rows::{part, text, told, Cell, Table, NO_COUNT, NULL, PRESENT};
use crate::Refusal;
use std::borrow::Cow;

/// The number of the header before a request of this API at this version, as [`read_request_frame`] and
/// [`write_request_frame`] take it: 2 for ApiVersions (18) from version 3 on, else 1.
///
/// ```
/// assert_eq!(befrolan::request_header_number(18, 3), 2);
/// assert_eq!(befrolan::request_header_number(3, 4), 1);
/// ```
pub fn request_header_number(api_key: impl Into<i64>, version: impl Into<i64>) -> i64 {
    // SAFETY: numbers alone.
    unsafe { raw::befrolan_request_number(api_key.into(), version.into()) }
}

/// The number of the header before a response: 0 for every API here. That of ApiVersions has 0 at every version, since the
/// client may not know yet what the broker speaks.
///
/// ```
/// assert_eq!(befrolan::response_header_number(18, 3), 0);
/// ```
pub fn response_header_number(api_key: impl Into<i64>, version: impl Into<i64>) -> i64 {
    // SAFETY: numbers alone.
    unsafe { raw::befrolan_response_number(api_key.into(), version.into()) }
}

/// Room for the tagged fields of headers. Keep one, and lend it to every call: it grows where a header needs more.
#[derive(Clone, Debug, Default)]
pub struct HeaderTables {
    tags: Table<3>,
}

/// A frame with a request header. Everything in it is borrowed from the bytes that were read.
#[derive(Clone, Copy, Debug)]
pub struct RequestFrame<'a> {
    /// The API key: 18 ApiVersions, 3 Metadata, 1 Fetch.
    pub request_api_key: i16,
    /// The version at which the body is to be read.
    pub request_api_version: i16,
    /// The number that the response has too.
    pub correlation_id: i32,
    /// The client's name; `None` is null.
    pub client_id: Option<&'a str>,
    /// The tagged fields; `None` with header 1, which has none.
    pub tags: Option<Tags<'a>>,
    /// The header's bytes, after the size.
    pub header: &'a [u8],
    /// The body, which was not read.
    pub body: &'a [u8],
    /// The bytes of the whole frame, with its size: the next frame starts there.
    pub used: usize,
}

/// A frame with a response header. Everything in it is borrowed from the bytes that were read.
#[derive(Clone, Copy, Debug)]
pub struct ResponseFrame<'a> {
    /// The number that the request had.
    pub correlation_id: i32,
    /// The tagged fields; `None` with header 0, which has none.
    pub tags: Option<Tags<'a>>,
    /// The header's bytes, after the size.
    pub header: &'a [u8],
    /// The body, which was not read.
    pub body: &'a [u8],
    /// The bytes of the whole frame, with its size: the next frame starts there.
    pub used: usize,
}

/// The size before every frame has 4 bytes; the header starts after it.
pub(crate) const SIZE: usize = 4;

/// The most that it may be.
const MOST: usize = 1_048_576;

impl<'a> RequestFrame<'a> {
    pub(crate) fn of(msg: &'a [u8], tables: &'a HeaderTables, r: &raw::RequestFrameNumbers) -> RequestFrame<'a> {
        RequestFrame {
            request_api_key: r.request_api_key as i16,
            request_api_version: r.request_api_version as i16,
            correlation_id: r.correlation_id as i32,
            client_id: (r.client_id_kind == PRESENT).then(|| text(msg, r.client_id_start, r.client_id_length)),
            tags: tables.shown(msg, r.tags),
            header: &msg[SIZE..r.body_start as usize],
            body: part(msg, r.body_start, r.body_length),
            used: r.used as usize,
        }
    }
}

impl<'a> ResponseFrame<'a> {
    pub(crate) fn of(msg: &'a [u8], tables: &'a HeaderTables, r: &raw::ResponseFrameNumbers) -> ResponseFrame<'a> {
        ResponseFrame {
            correlation_id: r.correlation_id as i32,
            tags: tables.shown(msg, r.tags),
            header: &msg[SIZE..r.body_start as usize],
            body: part(msg, r.body_start, r.body_length),
            used: r.used as usize,
        }
    }
}

impl HeaderTables {
    fn shown<'a>(&'a self, msg: &'a [u8], count: Cell) -> Option<Tags<'a>> {
        (count != NO_COUNT).then(|| Tags::of(self.tags.filled(0, told(count)), msg))
    }

    pub(crate) fn request(&mut self, msg: &[u8], number: i64) -> Result<raw::RequestFrameNumbers, Refusal> {
        loop {
            let (tags, tags_len) = self.tags.lent();
            // SAFETY: slices with their lengths, that do not overlap; pointers of empty ones are not null.
            let r = unsafe { raw::befrolan_read_request_frame(msg.as_ptr(), msg.len(), number, tags, tags_len) };
            match r.number {
                0 => return Ok(r),
                n if n == i64::from(Refusal::NO_ROOM) => self.tags.grow(r.need as usize),
                _ => return Err(Refusal::of(r.number, r.place, r.need)),
            }
        }
    }

    pub(crate) fn response(&mut self, msg: &[u8], number: i64) -> Result<raw::ResponseFrameNumbers, Refusal> {
        loop {
            let (tags, tags_len) = self.tags.lent();
            // SAFETY: slices with their lengths, that do not overlap; pointers of empty ones are not null.
            let r = unsafe { raw::befrolan_read_response_frame(msg.as_ptr(), msg.len(), number, tags, tags_len) };
            match r.number {
                0 => return Ok(r),
                n if n == i64::from(Refusal::NO_ROOM) => self.tags.grow(r.need as usize),
                _ => return Err(Refusal::of(r.number, r.place, r.need)),
            }
        }
    }
}

/// Reads the frame at the front of `msg`, with request header `number`, which [`request_header_number`] gives. Who does not know
/// the API yet reads with header 1 first: header 2 begins alike.
///
/// Bytes after the frame have no part in the answer. Places count from the frame's first byte.
///
/// # Errors
/// The refusal of the rules; never [`Refusal::NO_ROOM`], for the table grows. [`Refusal::BYTES_END`] at 0 says that bytes of the
/// frame are still missing, and [`Refusal::BAD_SIZE`] that there is no frame of this size.
pub fn read_request_frame<'a>(
    msg: &'a [u8],
    number: impl Into<i64>,
    tables: &'a mut HeaderTables,
) -> Result<RequestFrame<'a>, Refusal> {
    let r = tables.request(msg, number.into())?;
    Ok(RequestFrame::of(msg, tables, &r))
}

/// Reads the frame at the front of `msg`, with response header `number`, which [`response_header_number`] gives.
///
/// ```
/// use befrolan::{read_response_frame, HeaderTables, Refusal};
/// # fn main() -> Result<(), befrolan::Refusal> {
/// // 6 bytes follow the size: correlation id 7, and a body of two bytes; then the next frame begins
/// let bytes = [0, 0, 0, 6, 0, 0, 0, 7, 0xab, 0xcd, 0, 0];
/// let mut tables = HeaderTables::default();
/// let frame = read_response_frame(&bytes, 0, &mut tables)?;
/// assert_eq!((frame.correlation_id, frame.body, frame.used), (7, &[0xab, 0xcd][..], 10));
///
/// let rest = &bytes[frame.used..];
/// let missing = read_response_frame(rest, 0, &mut tables).unwrap_err();
/// assert_eq!((missing.number, missing.place), (Refusal::BYTES_END, 0));
/// # Ok(())
/// # }
/// ```
///
/// # Errors
/// As [`read_request_frame`].
pub fn read_response_frame<'a>(
    msg: &'a [u8],
    number: impl Into<i64>,
    tables: &'a mut HeaderTables,
) -> Result<ResponseFrame<'a>, Refusal> {
    let r = tables.response(msg, number.into())?;
    Ok(ResponseFrame::of(msg, tables, &r))
}

/// A request header to write.
#[derive(Clone, Copy, Debug, Default, PartialEq, Eq)]
pub struct RequestHeader<'a> {
    /// The API key.
    pub request_api_key: i16,
    /// The version of the body.
    pub request_api_version: i16,
    /// A number that the response will have too.
    pub correlation_id: i32,
    /// The client's name; `None` is written as null.
    pub client_id: Option<&'a str>,
    /// Tagged fields, which are left out with header 1.
    pub tags: &'a [Tag<'a>],
}

/// A response header to write, as a broker would, or a test that plays one.
#[derive(Clone, Copy, Debug, Default, PartialEq, Eq)]
pub struct ResponseHeader<'a> {
    /// The number of the request.
    pub correlation_id: i32,
    /// Tagged fields, which are left out with header 0.
    pub tags: &'a [Tag<'a>],
}

/// What a call is lent for the texts and data of a header: their bytes, one after another, and the rows of the tags.
struct Parts<'a> {
    bytes: Cow<'a, [u8]>,
    rows: Vec<Cell>,
}

impl<'a> Parts<'a> {
    fn of(client: Option<&'a str>, tags: &[Tag<'_>]) -> Parts<'a> {
        let mut bytes = Cow::Borrowed(client.unwrap_or("").as_bytes());
        let mut rows = Vec::with_capacity(3 * tags.len());
        for tag in tags {
            rows.extend([tag.tag as Cell, bytes.len() as Cell, tag.data.len() as Cell]);
            bytes.to_mut().extend_from_slice(tag.data);
        }
        Parts { bytes, rows }
    }

    /// Enough for a frame with these parts and this body: size, numbers and lengths have no more than 64 bytes, and the two
    /// varints of a tag no more than 20. No frame has more than the most and its size.
    fn room(&self, body: &[u8]) -> usize {
        (64 + self.bytes.len() + 20 * (self.rows.len() / 3) + body.len()).min(SIZE + MOST)
    }
}

impl RequestHeader<'_> {
    /// # Safety
    /// `out` is to `room` bytes that may be written, and overlaps nothing else that is lent.
    unsafe fn put(
        &self,
        out: *mut u8,
        room: usize,
        number: i64,
        parts: &Parts<'_>,
        body: &[u8],
    ) -> Result<usize, Refusal> {
        let (kind, length) = self.client_id.map_or((NULL, 0), |name| (PRESENT, name.len() as Cell));
        let row: [Cell; 7] = [
            self.request_api_key.into(),
            self.request_api_version.into(),
            self.correlation_id.into(),
            kind,
            0,
            length,
            self.tags.len() as Cell,
        ];
        crate::wrote(raw::befrolan_write_request_frame(
            out,
            room,
            number,
            parts.bytes.as_ptr(),
            parts.bytes.len(),
            row.as_ptr(),
            parts.rows.as_ptr(),
            parts.rows.len(),
            body.as_ptr(),
            body.len(),
        ))
    }
}

impl ResponseHeader<'_> {
    /// # Safety
    /// `out` is to `room` bytes that may be written, and overlaps nothing else that is lent.
    unsafe fn put(
        &self,
        out: *mut u8,
        room: usize,
        number: i64,
        parts: &Parts<'_>,
        body: &[u8],
    ) -> Result<usize, Refusal> {
        let row: [Cell; 2] = [self.correlation_id.into(), self.tags.len() as Cell];
        crate::wrote(raw::befrolan_write_response_frame(
            out,
            room,
            number,
            parts.bytes.as_ptr(),
            parts.bytes.len(),
            row.as_ptr(),
            parts.rows.as_ptr(),
            parts.rows.len(),
            body.as_ptr(),
            body.len(),
        ))
    }
}

/// Writes a frame to the front of `out`: its size, request header `number` and `body`. Says how many bytes it has.
///
/// # Errors
/// 1 for a header that there is not, 11 for a client's name over 32,767 bytes, 2 where header and body have over 1,048,576 bytes,
/// 10 where `out` is too small.
pub fn write_request_frame(
    out: &mut [u8],
    number: impl Into<i64>,
    header: &RequestHeader<'_>,
    body: &[u8],
) -> Result<usize, Refusal> {
    let parts = Parts::of(header.client_id, header.tags);
    // SAFETY: pointer and length are those of one slice, which is borrowed for this call alone.
    unsafe { header.put(out.as_mut_ptr(), out.len(), number.into(), &parts, body) }
}

/// Writes a frame with response header `number` to the front of `out`, and says how many bytes it has.
///
/// # Errors
/// 1 for a header that there is not, 2 where header and body have over 1,048,576 bytes, 10 where `out` is too small.
pub fn write_response_frame(
    out: &mut [u8],
    number: impl Into<i64>,
    header: &ResponseHeader<'_>,
    body: &[u8],
) -> Result<usize, Refusal> {
    let parts = Parts::of(None, header.tags);
    // SAFETY: pointer and length are those of one slice, which is borrowed for this call alone.
    unsafe { header.put(out.as_mut_ptr(), out.len(), number.into(), &parts, body) }
}

/// Has `put` write into the spare room of a `Vec`, after what is in it; the room is made first, where there is too little.
fn append(
    out: &mut Vec<u8>,
    room: usize,
    put: impl FnOnce(*mut u8, usize) -> Result<usize, Refusal>,
) -> Result<usize, Refusal> {
    out.reserve(room);
    let spare = out.spare_capacity_mut();
    let used = put(spare.as_mut_ptr().cast(), spare.len())?;
    // SAFETY: an accepted call has written as many bytes as it says, at the front of the spare room that it was lent.
    unsafe { out.set_len(out.len() + used) };
    Ok(used)
}

/// Appends a frame to `out`, which grows: its size, request header `number` and `body`. Says how many bytes were added. The body
/// is copied once.
///
/// ```
/// use befrolan::{append_request_frame, request_header_number, write_api_versions_request, RequestHeader};
/// # fn main() -> Result<(), befrolan::Refusal> {
/// let mut body = [0; 64];
/// let length = write_api_versions_request(&mut body, 3, "gateway", "0.6.0")?;
/// let header = RequestHeader { request_api_key: 18, request_api_version: 3, correlation_id: 7, client_id: Some("gw"), tags: &[] };
/// let mut out = Vec::new();
/// append_request_frame(&mut out, request_header_number(18, 3), &header, &body[..length])?;
/// assert_eq!(out[..17], [0, 0, 0, 28, 0, 18, 0, 3, 0, 0, 0, 7, 0, 2, b'g', b'w', 0]);
/// assert_eq!(out.len(), 32);
/// # Ok(())
/// # }
/// ```
///
/// # Errors
/// As [`write_request_frame`], but never [`Refusal::NO_ROOM`]. After a refusal `out` holds what it held.
pub fn append_request_frame(
    out: &mut Vec<u8>,
    number: impl Into<i64>,
    header: &RequestHeader<'_>,
    body: &[u8],
) -> Result<usize, Refusal> {
    let parts = Parts::of(header.client_id, header.tags);
    let number = number.into();
    // SAFETY: pointer and length are those of the spare room of one `Vec`, which is borrowed for this call alone. The call only
    // writes to it.
    append(out, parts.room(body), |spare, room| unsafe { header.put(spare, room, number, &parts, body) })
}

/// Appends a frame with response header `number` to `out`, which grows, and says how many bytes were added.
///
/// # Errors
/// As [`write_response_frame`], but never [`Refusal::NO_ROOM`]. After a refusal `out` holds what it held.
pub fn append_response_frame(
    out: &mut Vec<u8>,
    number: impl Into<i64>,
    header: &ResponseHeader<'_>,
    body: &[u8],
) -> Result<usize, Refusal> {
    let parts = Parts::of(None, header.tags);
    let number = number.into();
    // SAFETY: as in `append_request_frame`.
    append(out, parts.room(body), |spare, room| unsafe { header.put(spare, room, number, &parts, body) })
}
