//! The calls of docs/ANSWERS.md, each with the rules' side and the Rust's. A new message is lines here.
use crate::line::Refusal;
use crate::model::primitives::{Form, Null, Primitive};
use crate::model::write::{Given, Own};
use crate::model::{api_versions, fetch, frames, metadata, names, primitives, write, Shown};
use crate::rust;
use crate::token::Token;

/// A primitive by itself: what it is called to be read and to be written.
pub struct Named {
    pub read: &'static str,
    pub write: &'static str,
    pub primitive: Primitive,
}

const fn named(read: &'static str, write: &'static str, primitive: Primitive) -> Named {
    Named { read, write, primitive }
}

pub static PRIMITIVES: [Named; 18] = [
    named("int8", "write_int8", Primitive::Int(1)),
    named("int16", "write_int16", Primitive::Int(2)),
    named("int32", "write_int32", Primitive::Int(4)),
    named("int64", "write_int64", Primitive::Int(8)),
    named("boolean", "write_boolean", Primitive::Boolean),
    named("unsigned_varint", "write_unsigned_varint", Primitive::UnsignedVarint),
    named("varint", "write_varint", Primitive::Varint),
    named("varlong", "write_varlong", Primitive::Varlong),
    named("array_count", "write_array_count", Primitive::Count(Form::Int32)),
    named("compact_array_count", "write_compact_array_count", Primitive::Count(Form::Compact)),
    named("bytes", "write_bytes", Primitive::Bytes(Form::Int32, Null::Never)),
    named("nullable_bytes", "write_nullable_bytes", Primitive::Bytes(Form::Int32, Null::Kept)),
    named("compact_bytes", "write_compact_bytes", Primitive::Bytes(Form::Compact, Null::Never)),
    named("records", "write_records", Primitive::Bytes(Form::Int32, Null::Empty)),
    named("string", "write_string", Primitive::Text(Form::Int16, Null::Never)),
    named("nullable_string", "write_nullable_string", Primitive::Text(Form::Int16, Null::Kept)),
    named("compact_string", "write_compact_string", Primitive::Text(Form::Compact, Null::Never)),
    named("compact_nullable_string", "write_compact_nullable_string", Primitive::Text(Form::Compact, Null::Kept)),
];

/// A read that fills lent tables.
pub struct ReadBody {
    pub name: &'static str,
    /// What its refusals call it.
    pub message: u8,
    /// The last version, where the call is given one.
    pub last: Option<i16>,
    /// Row widths of the tables, by rank.
    pub widths: &'static [usize],
    pub whole: bool,
    /// Version, whether null items are refused, and the message, whose size is not judged.
    pub model: for<'a> fn(i16, bool, &'a [u8]) -> Result<Shown<'a>, Refusal>,
    pub spell: for<'a> fn(&Shown<'a>, &'a [u8]) -> Vec<Token<'a>>,
    pub rust: fn(i16, &[u8]) -> rust::Read,
}

/// A read of the ApiVersions response.
pub const fn response(name: &'static str, whole: bool) -> ReadBody {
    ReadBody {
        name,
        message: names::API_VERSIONS_RESPONSE,
        last: Some(api_versions::LAST),
        widths: &[4, 3],
        whole,
        model: api_versions::read_response,
        spell: api_versions::spell_response,
        rust: rust::api_versions::read_response,
    }
}

pub static TAGGED_FIELDS: ReadBody = ReadBody {
    name: "tagged_fields",
    message: names::ALONE,
    last: None,
    widths: &[3],
    whole: false,
    model: primitives::read_tagged_fields,
    spell: primitives::spell_tagged_fields,
    rust: rust::primitives::read_tagged_fields,
};

pub static RESPONSE_READS: [ReadBody; 3] =
    [response("response_read", false), response("response_read_whole", true), response("response_read_answer", true)];

pub static REQUEST_READ: ReadBody = ReadBody {
    name: "request_read",
    message: names::API_VERSIONS_REQUEST,
    last: Some(api_versions::LAST),
    widths: &[3],
    whole: false,
    model: api_versions::read_request,
    spell: api_versions::spell_request,
    rust: rust::api_versions::read_request,
};

/// The Metadata response.
pub static METADATA_READ: ReadBody = ReadBody {
    name: "metadata_read",
    message: names::METADATA_RESPONSE,
    last: Some(metadata::LAST),
    widths: &metadata::WIDTHS,
    whole: false,
    model: metadata::read_response,
    spell: metadata::spell_response,
    rust: rust::metadata::read_response,
};

/// The Fetch response.
pub static FETCH_READ: ReadBody = ReadBody {
    name: "fetch_read",
    message: names::FETCH_RESPONSE,
    last: Some(fetch::LAST),
    widths: &fetch::WIDTHS,
    whole: false,
    model: fetch::read_response,
    spell: fetch::spell_response,
    rust: rust::fetch::read_response,
};

/// A write from tables.
pub struct WriteBody {
    pub name: &'static str,
    pub message: u8,
    pub last: Option<i16>,
    /// 13, 7 and 11, or the bytes; neither size nor room is judged.
    pub model: fn(i16, &Given) -> Result<Vec<u8>, Refusal>,
    pub rust: fn(i16, &Given) -> Result<rust::Written, rust::Silence>,
    /// Entry 4: where a field is set that the Rust refuses at the version and the rules drop, the own words without it.
    pub unavailable: fn(i16, &Given) -> Option<Vec<Own>>,
}

/// Of every field but auto-creation.
pub fn never(_version: i16, _given: &Given) -> Option<Vec<Own>> {
    None
}

pub static WRITE_TAGGED_FIELDS: WriteBody = WriteBody {
    name: "write_tagged_fields",
    message: names::ALONE,
    last: None,
    model: write::write_tagged_fields,
    rust: rust::primitives::write_tagged_fields,
    unavailable: never,
};

pub static RESPONSE_WRITE: WriteBody = WriteBody {
    name: "response_write",
    message: names::API_VERSIONS_RESPONSE,
    last: Some(api_versions::LAST),
    model: api_versions::write_response,
    rust: rust::api_versions::write_response,
    unavailable: never,
};

pub static REQUEST_WRITE: WriteBody = WriteBody {
    name: "request_write",
    message: names::API_VERSIONS_REQUEST,
    last: Some(api_versions::LAST),
    model: api_versions::write_request,
    rust: rust::api_versions::write_request,
    unavailable: never,
};

/// The Metadata request.
pub static METADATA_REQUEST_WRITE: WriteBody = WriteBody {
    name: "metadata_request_write",
    message: names::METADATA_REQUEST,
    last: Some(metadata::LAST),
    model: metadata::write_request,
    rust: rust::metadata::write_request,
    unavailable: metadata::without_creation,
};

/// The Fetch request.
pub static FETCH_REQUEST_WRITE: WriteBody = WriteBody {
    name: "fetch_request_write",
    message: names::FETCH_REQUEST,
    last: Some(fetch::LAST),
    model: fetch::write_request,
    rust: rust::fetch::write_request,
    unavailable: never,
};

/// Every read that fills lent tables.
pub static READ_BODIES: [&ReadBody; 7] = [
    &TAGGED_FIELDS,
    &RESPONSE_READS[0],
    &RESPONSE_READS[1],
    &RESPONSE_READS[2],
    &REQUEST_READ,
    &METADATA_READ,
    &FETCH_READ,
];

/// What a word of a case is that gives a field of a body row.
#[derive(Debug, Clone, Copy, PartialEq, Eq)]
pub enum Kind {
    Number,
    /// Each of these can be `absent`, which is unset.
    NumberOrUnset,
    PartOrUnset,
    FlagOrUnset,
    /// And this can be `null` too.
    TextOrUnset,
}

/// Every write from tables: what its words are, and how many tables it is given.
pub static WRITE_BODIES: [(&WriteBody, &[Kind], usize); 5] = {
    use Kind::{FlagOrUnset, Number, NumberOrUnset, PartOrUnset};
    [
        (&WRITE_TAGGED_FIELDS, &[Number], 1),
        (&RESPONSE_WRITE, &[Number, Number, NumberOrUnset, Number], 2),
        (&REQUEST_WRITE, &[PartOrUnset, PartOrUnset, Number], 1),
        (&METADATA_REQUEST_WRITE, &[Number, FlagOrUnset], 1),
        (&FETCH_REQUEST_WRITE, &[Number, Number, Number, NumberOrUnset, NumberOrUnset, Number], 2),
    ]
};

/// A read of a frame, which fills a lent table of tags.
pub struct ReadFrame {
    pub name: &'static str,
    /// The header numbers that there are. The Rust has those from 0 on.
    pub headers: frames::Headers,
    /// A header number from 0 on, and the bytes, of which the frame is the first.
    pub model: for<'a> fn(i16, &'a [u8]) -> Result<Shown<'a>, Refusal>,
    pub rust: fn(i16, &[u8]) -> rust::Read,
}

/// Of requests, and of responses.
pub static READ_FRAMES: [ReadFrame; 2] = [
    ReadFrame {
        name: "request_frame_read",
        headers: frames::REQUEST,
        model: frames::read_request,
        rust: rust::frames::read_request,
    },
    ReadFrame {
        name: "response_frame_read",
        headers: frames::RESPONSE,
        model: frames::read_response,
        rust: rust::frames::read_response,
    },
];

/// A write of a frame.
pub struct WriteFrame {
    pub name: &'static str,
    pub headers: frames::Headers,
    /// What the words of the header's own row are.
    pub kinds: &'static [Kind],
    /// 13, 7 and 11, or the header's bytes; neither size nor room is judged.
    pub model: fn(i16, &Given) -> Result<Vec<u8>, Refusal>,
    /// Header number, header, and body.
    pub rust: fn(i16, &Given, &[u8]) -> Result<rust::Written, rust::Silence>,
}

pub static WRITE_FRAMES: [WriteFrame; 2] = [
    WriteFrame {
        name: "request_frame_write",
        headers: frames::REQUEST,
        kinds: &[Kind::Number, Kind::Number, Kind::Number, Kind::TextOrUnset, Kind::Number],
        model: frames::write_request,
        rust: rust::frames::write_request,
    },
    WriteFrame {
        name: "response_frame_write",
        headers: frames::RESPONSE,
        kinds: &[Kind::Number, Kind::Number],
        model: frames::write_response,
        rust: rust::frames::write_response,
    },
];

/// Which header a message has, by its API key and version.
pub struct HeaderNumber {
    pub name: &'static str,
    pub model: fn(i64, i64) -> i64,
    /// Nothing for an API that the Rust as given does not have.
    pub rust: fn(i16, i16) -> Option<i64>,
}

pub static HEADER_NUMBERS: [HeaderNumber; 2] = [
    HeaderNumber { name: "request_number", model: frames::request_number, rust: rust::frames::request_number },
    HeaderNumber { name: "response_number", model: frames::response_number, rust: rust::frames::response_number },
];
