//! Frames out of a stream of bytes, which come in pieces.

use crate::frames::{request_header_number, HeaderTables, RequestFrame, ResponseFrame, SIZE};
use crate::Refusal;
use std::error::Error;
use std::fmt;
use std::io;

/// Takes the bytes of a stream as they arrive, and hands out its frames, one after another.
///
/// Bytes are given with [`push`](FrameReader::push), or taken from anything that can be read with
/// [`fill`](FrameReader::fill). [`missing`](FrameReader::missing) says how many more the frame at the front needs. Header and
/// body of a frame are borrowed from the reader, and the next call goes on after that frame.
///
/// The size of a frame is checked as soon as its 4 bytes are there. One that is below 0 or over 1,048,576 is refused with
/// [`Refusal::BAD_SIZE`]: no room is made for it, and no more bytes are taken, since nobody knows where the next frame starts.
///
/// ```
/// use befrolan::FrameReader;
/// # fn main() -> Result<(), befrolan::Refusal> {
/// let mut frames = FrameReader::new();
/// frames.push(&[0, 0, 0, 6, 0, 0])?;
/// assert_eq!(frames.missing()?, 4);
/// assert!(frames.response(0)?.is_none());
///
/// // the rest of the frame, and another one
/// frames.push(&[0, 7, 0xab, 0xcd, 0, 0, 0, 4, 0, 0, 0, 8])?;
/// let first = frames.response(0)?.expect("it is all there");
/// assert_eq!((first.correlation_id, first.body), (7, &[0xab, 0xcd][..]));
/// let second = frames.response(0)?.expect("it is all there");
/// assert_eq!((second.correlation_id, second.body), (8, &[][..]));
///
/// // a size of -1
/// let refused = frames.push(&[0xff, 0xff, 0xff, 0xff]).unwrap_err();
/// assert_eq!(refused.to_string(), "14: the size before the frame is below 0 or over 1,048,576");
/// # Ok(())
/// # }
/// ```
#[derive(Clone, Debug, Default)]
pub struct FrameReader {
    /// The bytes held are `room[from..to]`.
    room: Vec<u8>,
    from: usize,
    to: usize,
    tables: HeaderTables,
}

/// Why a frame could not be had from a stream.
#[derive(Debug)]
pub enum StreamError {
    /// The stream could not be read, or ended inside a frame ([`io::ErrorKind::UnexpectedEof`]).
    Stream(io::Error),
    /// The frame was refused.
    Refused(Refusal),
}

impl fmt::Display for StreamError {
    fn fmt(&self, f: &mut fmt::Formatter<'_>) -> fmt::Result {
        match self {
            StreamError::Stream(e) => e.fmt(f),
            StreamError::Refused(e) => e.fmt(f),
        }
    }
}

impl Error for StreamError {
    fn source(&self) -> Option<&(dyn Error + 'static)> {
        match self {
            StreamError::Stream(e) => Some(e),
            StreamError::Refused(e) => Some(e),
        }
    }
}

impl From<io::Error> for StreamError {
    fn from(e: io::Error) -> StreamError {
        StreamError::Stream(e)
    }
}

impl From<Refusal> for StreamError {
    fn from(e: Refusal) -> StreamError {
        StreamError::Refused(e)
    }
}

/// A stream is asked for at least this many bytes, since small frames come together.
const CHUNK: usize = 4096;

/// Fewer bytes are there than the frame has.
fn is_cut(e: &Refusal) -> bool {
    e.number == Refusal::BYTES_END && e.place == 0
}

/// Nothing, where bytes of the frame are missing.
fn if_there<T>(r: Result<T, Refusal>) -> Result<Option<T>, Refusal> {
    match r {
        Err(e) if is_cut(&e) => Ok(None),
        r => r.map(Some),
    }
}

impl FrameReader {
    /// A reader that has no bytes yet.
    pub fn new() -> FrameReader {
        FrameReader::default()
    }

    /// The bytes that were taken, from the first frame on that was not handed out.
    pub fn held(&self) -> &[u8] {
        &self.room[self.from..self.to]
    }

    /// The size of the frame at the front, if its 4 bytes are there.
    fn size(&self) -> Option<usize> {
        self.held().first_chunk().map(|size| u32::from_be_bytes(*size) as usize)
    }

    /// How many bytes the frame at the front still needs, at least: first the rest of its size, then the rest of the frame. 0
    /// where it is all there.
    ///
    /// # Errors
    /// [`Refusal::BAD_SIZE`].
    pub fn missing(&self) -> Result<usize, Refusal> {
        // Whatever the header, both refusals come before it is read; this is the shortest.
        match HeaderTables::default().response(self.held(), 0) {
            Err(e) if is_cut(&e) => Ok(SIZE + self.size().unwrap_or(0) - self.held().len()),
            Err(e) if e.number == Refusal::BAD_SIZE => Err(e),
            _ => Ok(0),
        }
    }

    /// Room for this many bytes more. Those held are moved to the front where they are no more than those before them.
    fn spare(&mut self, bytes: usize) -> &mut [u8] {
        let held = self.to - self.from;
        if self.room.len() - self.to < bytes && held <= self.from {
            self.room.copy_within(self.from..self.to, 0);
            (self.from, self.to) = (0, held);
        }
        if self.room.len() - self.to < bytes {
            self.room.resize(self.to + bytes, 0);
        }
        &mut self.room[self.to..][..bytes]
    }

    /// Takes the next bytes of the stream, all of them.
    ///
    /// # Errors
    /// [`Refusal::BAD_SIZE`], as soon as the size at the front is there and bad. From then on no bytes are taken.
    pub fn push(&mut self, bytes: &[u8]) -> Result<(), Refusal> {
        self.missing()?;
        self.spare(bytes.len()).copy_from_slice(bytes);
        self.to += bytes.len();
        self.missing().map(|_| ())
    }

    /// Reads from a stream once: what the frame at the front needs, or some bytes more where that is little. Says how many came; 0
    /// is the end of the stream.
    ///
    /// # Errors
    /// The stream's; and [`Refusal::BAD_SIZE`], where the size at the front is bad: then the stream is not read.
    pub fn fill(&mut self, stream: &mut impl io::Read) -> Result<usize, StreamError> {
        let wanted = self.missing()?.max(CHUNK);
        loop {
            match stream.read(self.spare(wanted)) {
                Err(e) if e.kind() == io::ErrorKind::Interrupted => {}
                came => {
                    let came = came?;
                    self.to += came;
                    return Ok(came);
                }
            }
        }
    }

    /// The frame at the front, with the request header that its API key and version have; `None` where bytes of it are missing.
    /// The next call goes on after it.
    ///
    /// # Errors
    /// The refusal of the rules. The frame then stays at the front, where [`held`](FrameReader::held) has it, until it is left
    /// out with [`skip`](FrameReader::skip).
    pub fn request(&mut self) -> Result<Option<RequestFrame<'_>>, Refusal> {
        let held = &self.room[self.from..self.to];
        // Header 2 begins as header 1 does.
        let Some(mut r) = if_there(self.tables.request(held, 1))? else { return Ok(None) };
        let number = request_header_number(r.request_api_key, r.request_api_version);
        if number != 1 {
            r = self.tables.request(held, number)?;
        }
        self.from += r.used as usize;
        Ok(Some(RequestFrame::of(held, &self.tables, &r)))
    }

    /// The frame at the front, with response header `number`; `None` where bytes of it are missing. The next call goes on after
    /// it.
    ///
    /// # Errors
    /// As [`request`](FrameReader::request).
    pub fn response(&mut self, number: impl Into<i64>) -> Result<Option<ResponseFrame<'_>>, Refusal> {
        let held = &self.room[self.from..self.to];
        let Some(r) = if_there(self.tables.response(held, number.into()))? else { return Ok(None) };
        self.from += r.used as usize;
        Ok(Some(ResponseFrame::of(held, &self.tables, &r)))
    }

    /// Leaves out the frame at the front. Says whether it was there; where bytes of it are missing nothing changes.
    ///
    /// # Errors
    /// [`Refusal::BAD_SIZE`].
    pub fn skip(&mut self) -> Result<bool, Refusal> {
        let is_there = self.missing()? == 0;
        if is_there {
            self.from += SIZE + self.size().unwrap_or(0);
        }
        Ok(is_there)
    }

    /// Reads from a stream until the frame at the front is all there; `false` where the stream ended before its first byte.
    fn wait(&mut self, stream: &mut impl io::Read) -> Result<bool, StreamError> {
        while self.missing()? > 0 {
            if self.fill(stream)? == 0 {
                return if self.held().is_empty() {
                    Ok(false)
                } else {
                    Err(io::Error::from(io::ErrorKind::UnexpectedEof).into())
                };
            }
        }
        Ok(true)
    }

    /// Reads from a stream until a frame is there, and hands it out as [`request`](FrameReader::request) does; `None` where the
    /// stream ended after the last frame.
    ///
    /// # Errors
    /// The stream's, its end inside a frame among them; and the refusal of the frame.
    pub fn read_request(&mut self, stream: &mut impl io::Read) -> Result<Option<RequestFrame<'_>>, StreamError> {
        if !self.wait(stream)? {
            return Ok(None);
        }
        Ok(self.request()?)
    }

    /// Reads from a stream until a frame is there, and hands it out as [`response`](FrameReader::response) does; `None` where the
    /// stream ended after the last frame.
    ///
    /// # Errors
    /// The stream's, its end inside a frame among them; and the refusal of the frame.
    pub fn read_response(
        &mut self,
        stream: &mut impl io::Read,
        number: impl Into<i64>,
    ) -> Result<Option<ResponseFrame<'_>>, StreamError> {
        if !self.wait(stream)? {
            return Ok(None);
        }
        Ok(self.response(number)?)
    }
}
