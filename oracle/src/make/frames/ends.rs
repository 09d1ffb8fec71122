//! Frames to read at the ends of sizes, lengths, rooms and header numbers; cut, followed by others, and with texts that are not
//! well-formed.
use super::{known, Side, SIDES, UNKNOWN};
use crate::calls::HEADER_NUMBERS;
use crate::case::Case;
use crate::make::body::Body;
use crate::make::letters::{texts, Text};
use crate::make::reads::MOST_CELLS;
use crate::make::wire::{carried, padded, varint, BOUNDARIES};
use crate::make::writes::MOST_BYTES;
use crate::make::Section;
use crate::model::frames::{SIZE, TAG};
use crate::model::primitives::Form;
use crate::model::LIMIT;

const MOST: i64 = LIMIT as i64;

/// What a size can say: negative, up to the ends of the headers, around the limit, and far above.
pub const SIZES: [i64; 26] = [
    -(1 << 31),
    -(1 << 31) + 1,
    -(1 << 30),
    -2,
    -1,
    0,
    1,
    3,
    4,
    5,
    7,
    8,
    9,
    10,
    11,
    13,
    100,
    65_536,
    MOST - 1,
    MOST,
    MOST + 1,
    MOST + 2,
    MOST + 30,
    1 << 24,
    (1 << 31) - 2,
    (1 << 31) - 1,
];

/// Contents with a size before them that may say something else.
pub fn sized(size: i64, contents: &[u8]) -> Vec<u8> {
    [&carried(Form::Int32, size as u64), contents].concat()
}

/// And with their own.
pub fn framed(contents: &[u8]) -> Vec<u8> {
    sized(contents.len() as i64, contents)
}

fn case(side: Side, header: i64, room: usize, message: Vec<u8>) -> Case {
    Case::ReadFrame { call: side.read(), header, room, message }
}

/// How many bytes follow a size: none, a few, one short of it, as many, one more, and as many as can be.
fn tails(size: i64) -> Vec<usize> {
    let mut tails: Vec<i64> = vec![0, 1, size - 1, size, size + 1, size + 20, (MOST_BYTES - SIZE) as i64];
    tails.retain(|tail| (0..=(MOST_BYTES - SIZE) as i64).contains(tail));
    tails.sort_unstable();
    tails.dedup();
    tails.into_iter().map(|tail| tail as usize).collect()
}

/// Each size with each of these tails, of zeros, of ff and of letters, with each header; and with unknown ones.
pub fn sizes() -> Section {
    let mut list = vec![];
    for size in SIZES {
        for tail in tails(size) {
            for fill in [0, 0xff, b'a'] {
                list.extend(known().map(|(side, header)| (side, header, size, tail, fill)));
            }
            list.extend(SIDES.map(|side| (side, 3, size, tail, 0)));
            list.extend(SIDES.map(|side| (side, -1, size, tail, b'a')));
            list.push((Side::Request, 0, size, tail, b'a'));
        }
    }
    Section::listed(list, |(side, header, size, tail, fill)| {
        // Letters are 97 tags, and where these are too few for a room they are refused.
        let room = [400, 97 * TAG, 10][*tail % 3];
        case(*side, *header, room, sized(*size, &vec![*fill; *tail]))
    })
}

/// Strings of up to three bytes: a size that is cut.
fn heads() -> Vec<Vec<u8>> {
    const BYTES: [u8; 4] = [0, 1, 0x7f, 0xff];
    let mut list = vec![vec![]];
    list.extend((0..=255).map(|first| vec![first]));
    for first in BYTES {
        for second in BYTES {
            list.push(vec![first, second]);
            list.extend(BYTES.map(|third| vec![first, second, third]));
        }
    }
    list
}

pub fn cut_sizes() -> Section {
    let asks = known().chain([(Side::Request, 0), (Side::Request, 3), (Side::Response, -1), (Side::Response, 2)]);
    let list: Vec<_> =
        asks.flat_map(|(side, header)| heads().into_iter().map(move |head| (side, header, head))).collect();
    Section::listed(list, |(side, header, head)| case(*side, *header, 3 * (head.len() % 2), head.clone()))
}

/// A good header of a number: with a client name of four bytes and three tags, where the number has them.
pub fn header(side: Side, number: i64) -> Vec<u8> {
    let mut header = Body(front(side));
    if side == Side::Request && number >= 1 {
        header.text("g\u{e9}t".as_bytes());
    }
    if number >= side.tagged() {
        header.0.extend([3, 5, 1, b'A', 0xac, 0x02, 0, 0x80, 0x01, 0x82, 0x00, b'B', b'C']);
    }
    header.0
}

/// The numbers that come first.
fn front(side: Side) -> Vec<u8> {
    let mut front = Body::default();
    if side == Side::Request {
        front.ints(2, &[18, -3]);
    }
    front.int(4, 7);
    front.0
}

/// A good header and a body of three bytes.
pub fn good(side: Side, number: i64) -> Vec<u8> {
    [header(side, number), vec![0, 1, 0xff]].concat()
}

/// Rooms for the three tags: enough, exact, a cell short, a row short, nothing.
const ROOMS: [usize; 5] = [12, 9, 8, 6, 0];

/// Good frames cut after every byte; and with a size that says every number up to one more than there are, where all bytes are
/// lent and another frame is after them. So the header overruns its frame everywhere.
pub fn cuts() -> Section {
    let mut list = vec![];
    for (side, number) in known() {
        let contents = good(side, number);
        let frame = framed(&contents);
        let mut messages: Vec<Vec<u8>> = (0..=frame.len()).map(|length| frame[..length].to_vec()).collect();
        let next = framed(&good(side, side.read().headers.first));
        for size in 0..=contents.len() as i64 + 1 {
            messages.push(sized(size, &contents));
            messages.push([sized(size, &contents), next.clone()].concat());
        }
        for message in messages {
            list.extend(ROOMS.map(|room| (side, number, room, message.clone())));
        }
    }
    Section::listed(list, |(side, number, room, message)| case(*side, *number, *room, message.clone()))
}

/// Frames that are good, and those that are not: by header, by size, or cut.
fn frames(side: Side) -> Vec<Vec<u8>> {
    let mut list: Vec<Vec<u8>> = (0..=2).map(|number| framed(&good(side, number))).collect();
    list.push(framed(&front(side)));
    list.push(framed(&[&front(side)[..], &[0xff, 0xff, 0]].concat()));
    list.push(framed(&[&front(side)[..], &[0xff, 0xfe, 0]].concat()));
    list.push(framed(&[]));
    list.extend([-1, 3, MOST + 1].map(|size| sized(size, &good(side, 1))));
    list
}

/// Two frames in one buffer, each after each; and the second one cut.
pub fn pairs() -> Section {
    let mut list = vec![];
    for (side, number) in known() {
        for first in frames(side) {
            for second in frames(side) {
                for length in [second.len(), second.len() / 2, 3] {
                    list.push((side, number, [first.as_slice(), &second[..length]].concat()));
                }
            }
        }
    }
    let asked = |(side, number, message): &(Side, i64, Vec<u8>)| {
        case(*side, *number, ROOMS[message.len() % ROOMS.len()], message.clone())
    };
    Section::listed(list, asked)
}

/// Each of these frames with each header number, known or not, and with each room.
pub fn numbers() -> Section {
    let mut list = vec![];
    for side in SIDES {
        for message in frames(side).into_iter().chain([vec![], vec![0; 3]]) {
            for number in UNKNOWN.into_iter().chain(0..=2) {
                list.extend(ROOMS.map(|room| (side, number, room, message.clone())));
            }
        }
    }
    Section::listed(list, |(side, number, room, message)| case(*side, *number, *room, message.clone()))
}

/// A length or a count of a header: what comes before it, and how it is carried; nothing for a plain varint.
fn fields(side: Side, number: i64) -> Vec<(Vec<u8>, Option<Form>)> {
    let mut front = front(side);
    let mut list = vec![];
    if side == Side::Request {
        list.push((front.clone(), Some(Form::Int16)));
        front.extend([0xff, 0xff]);
    }
    if number >= side.tagged() {
        // The count, a tag, and the length of its data.
        list.extend([&[][..], &[1], &[1, 5]].map(|more| ([&front, more].concat(), None)));
    }
    list
}

/// Contents longer than this are not laid out.
const MOST_CONTENTS: u64 = 40_000;

/// Each of these at its boundaries, and varints in longer forms too. After it are zeros: none, a few, around what it says. The
/// frame ends with them, or some bytes before that, or there are more bytes.
pub fn lengths() -> Section {
    let mut list = vec![];
    for (side, number) in known() {
        for (front, form) in fields(side, number) {
            for n in BOUNDARIES {
                let forms = match form {
                    Some(form) => vec![carried(form, n)],
                    None => vec![varint(n), padded(n, 9), padded(n, 10), padded(n, 11)],
                };
                let told = if n <= MOST_CONTENTS { n as usize } else { 0 };
                let mut zeros = vec![0, 1, 7, told.saturating_sub(1), told, told + 1, 2 * told, 2 * told + 1];
                zeros.sort_unstable();
                zeros.dedup();
                for length in forms {
                    let start = [front.clone(), length].concat();
                    list.extend(zeros.iter().map(|zeros| (side, number, start.clone(), *zeros)));
                }
            }
        }
    }
    const ENDS: u64 = 3;
    Section::new(ENDS * list.len() as u64, move |index| {
        let (side, number, start, zeros) = &list[(index / ENDS) as usize];
        let mut contents = start.clone();
        contents.resize(start.len() + zeros, 0);
        let size = contents.len() as i64;
        let message = match index % ENDS {
            0 => framed(&contents),
            1 => sized(size - 1 - (index / ENDS % 3) as i64, &contents),
            _ => [framed(&contents), vec![0; 9]].concat(),
        };
        let rooms = [0, TAG, 3 * TAG, MOST_CELLS, MOST_CELLS];
        case(*side, *number, rooms[(index % 5) as usize], message)
    })
}

/// As many tags as the largest table has rows, and one more; and one tag that fills the largest frame.
pub fn large() -> Section {
    let mut list = vec![];
    for side in SIDES {
        let number = side.tagged();
        let front = if side == Side::Request { [front(side), vec![0xff, 0xff]].concat() } else { front(side) };
        for count in [21_845, 21_846] {
            let contents = [front.clone(), varint(count), [7, 0].repeat(count as usize), vec![b'b']].concat();
            list.extend([MOST_CELLS, 65_535, 65_534, 0].map(|room| (side, number, room, framed(&contents))));
        }
        for size in [LIMIT, LIMIT - 1] {
            // A length of three bytes, and data up to the end of the frame, one byte more, or one less.
            for over in [0, 1, 2] {
                let data = size - front.len() - 5;
                let contents = [front.clone(), vec![1, 5], varint((data + over - 1) as u64), vec![0; data]].concat();
                list.extend([0, 3].map(|room| (side, number, room, [framed(&contents), vec![9; 40]].concat())));
            }
        }
    }
    Section::listed(list, |(side, number, room, message)| case(*side, *number, *room, message.clone()))
}

/// What comes before the client name, in a frame.
pub const BEFORE_CLIENT: usize = SIZE + 8;

/// A request whose client name is that text. What follows it is in the frame, or is lent after it.
pub fn client(text: &Text, number: i64, turn: u64) -> Case {
    let length = carried(Form::Int16, text.contents.len() as u64);
    let name = [front(Side::Request), length, text.contents.clone()].concat();
    let message = match turn % 2 {
        0 => framed(&[&name, text.rest].concat()),
        _ => [&framed(&name), text.rest].concat(),
    };
    case(Side::Request, number, 3 * (turn % 3) as usize, message)
}

/// Each text that is not well-formed as the client name of both headers.
pub fn ill_formed() -> Section {
    let (texts, numbers) = (texts(), 2);
    Section::new(numbers * texts.len() as u64, move |index| {
        let (number, text) = (1 + (index % numbers) as i64, index / numbers);
        client(&texts[text as usize], number, text)
    })
}

/// Keys and versions around those of ApiVersions, and such as are the same in their lowest 16 or 32 bits.
const KEYS: [i64; 17] =
    [-1, 0, 1, 2, 3, 4, 17, 18, 19, -18, 50, 32_767, -32_768, 65_536 + 18, (1 << 32) + 18, i64::MIN + 18, i64::MAX];
const VERSIONS: [i64; 13] = [
    -32_768,
    32_766,
    32_767,
    32_768,
    65_536,
    65_536 + 3,
    -65_536 + 3,
    1 << 32,
    (1 << 32) + 3,
    i64::MIN,
    i64::MIN + 3,
    i64::MAX - 1,
    i64::MAX,
];

/// Which header each of these has, and those from -2 to 13.
pub fn header_numbers() -> Section {
    let mut list = vec![];
    for call in &HEADER_NUMBERS {
        for key in KEYS {
            list.extend(VERSIONS.into_iter().chain(-2..=13).map(|version| (call, key, version)));
        }
    }
    Section::listed(list, |(call, key, version)| Case::HeaderNumber { call, key: *key, version: *version })
}
