//! Cases at the ends of counts, lengths, numbers and sizes.
use super::exhaustive::{all, Ask};
use super::others::EDGES;
use super::rng::Rng;
use super::wire::{carried, filling, padded, varint, BOUNDARIES};
use super::{reads, Section};
use crate::calls::{ReadBody, PRIMITIVES, REQUEST_READ, RESPONSE_READS, TAGGED_FIELDS};
use crate::case::Case;
use crate::model::primitives::{Form, Primitive};
use crate::model::LIMIT;

/// Sizes around the steps of a length field, and around the limit.
pub const SIZES: [usize; 11] = [127, 128, 16_383, 16_384, 32_766, 32_767, 32_768, 32_769, LIMIT - 1, LIMIT, LIMIT + 1];

/// Contents longer than this are not laid out for a length: they would be cut anyway.
const MOST_CONTENTS: u64 = 40_000;

/// The form of a primitive that begins with a length or a count.
pub fn form_of(primitive: Primitive) -> Option<Form> {
    match primitive {
        Primitive::Count(form) | Primitive::Bytes(form, _) | Primitive::Text(form, _) => Some(form),
        _ => None,
    }
}

/// Each length and count at its boundaries, with nothing, a byte, and one byte less, none less and one more than told.
pub fn lengths() -> Section {
    let mut list = vec![];
    for call in &PRIMITIVES {
        let Some(form) = form_of(call.primitive) else { continue };
        for n in BOUNDARIES {
            let mut forms = vec![carried(form, n)];
            if form == Form::Compact {
                forms.extend([padded(n.wrapping_add(1), 9), padded(n.wrapping_add(1), 10)]);
            }
            let tails = [0, 1, n.saturating_sub(1), n, n.saturating_add(1)];
            for front in forms {
                list.extend(tails.iter().filter(|n| **n <= MOST_CONTENTS).map(|n| (call, front.clone(), *n)));
            }
        }
    }
    Section::listed(list, |(call, front, tail)| {
        let mut message = front.clone();
        message.resize(front.len() + *tail as usize, b'a');
        Case::Read { call, message }
    })
}

/// The fields of bodies that are counts or lengths: call, version, bytes in front, and how the number is carried.
fn counts_of_bodies() -> Vec<(&'static ReadBody, i16, &'static [u8], Option<Form>)> {
    let item: &[u8] = &[0, 0, 2, 0, 18, 0, 0, 0, 3];
    let mut list =
        vec![(&TAGGED_FIELDS, 0, &[][..], None), (&TAGGED_FIELDS, 0, &[1, 5], None), (&TAGGED_FIELDS, 0, &[1], None)];
    for call in &RESPONSE_READS[..2] {
        list.extend((0..3).map(|version| (call, version, &[0, 0][..], Some(Form::Int32))));
        list.push((call, 3, &[0, 0], Some(Form::Compact)));
        list.push((call, 3, item, None));
        list.push((call, 3, &[0, 0, 2, 0, 18, 0, 0, 0, 3, 1, 5], None));
        list.push((call, 3, &[0, 0, 1, 0, 0, 0, 0], None));
        list.push((call, 3, &[0, 0, 1, 0, 0, 0, 0, 1, 5], None));
    }
    list.push((&REQUEST_READ, 3, &[], Some(Form::Compact)));
    list.push((&REQUEST_READ, 3, &[2, b'a'], Some(Form::Compact)));
    list.push((&REQUEST_READ, 3, &[2, b'a', 2, b'b'], None));
    list.push((&REQUEST_READ, 3, &[2, b'a', 2, b'b', 1, 5], None));
    list
}

/// Each of these at its boundaries, with zeros behind: for some as many as the elements told have.
pub fn bodies(seed: u64) -> Section {
    let mut list = vec![];
    for (call, version, front, form) in counts_of_bodies() {
        for n in BOUNDARIES {
            let number = form.map_or_else(|| varint(n), |form| carried(form, n));
            let told = if n <= MOST_CONTENTS { n as usize } else { 0 };
            for zeros in [0, 1, 7, 64, told, 2 * told, 6 * told, 6 * told + 4, 7 * told + 5, 2 * told + 1] {
                list.push((call, version, [front, &number].concat(), zeros));
            }
        }
    }
    Section::listed(list, move |(call, version, front, zeros)| {
        let mut message = front.clone();
        message.resize(front.len() + zeros, 0);
        let mut rng = Rng::new(seed, *zeros as u64 + front.len() as u64);
        reads::body(&mut rng, call, *version, message)
    })
}

/// Varints at the ends of their groups, in forms of every length, and all ends of a tenth byte.
pub fn varints() -> Section {
    let groups = (1..10).flat_map(|k| [(1u64 << (7 * k)) - 1, 1 << (7 * k)]);
    let mut forms: Vec<Vec<u8>> =
        BOUNDARIES.into_iter().chain(groups).flat_map(|n| (1..=11).map(move |size| padded(n, size))).collect();
    for front in [0x80, 0xff] {
        forms.extend((0..=255).map(|last| [vec![front; 9], vec![last, 1]].concat()));
        forms.extend((0..12).map(|size| vec![front; size]));
    }
    let names = ["unsigned_varint", "varint", "varlong", "compact_array_count"];
    let mut asks: Vec<Ask> = PRIMITIVES.iter().filter(|call| names.contains(&call.read)).map(Ask::Primitive).collect();
    asks.push(Ask::Body(&TAGGED_FIELDS, 0));
    let list = asks.into_iter().flat_map(|ask| forms.clone().into_iter().map(move |form| (ask, form))).collect();
    Section::listed(list, |(ask, form)| ask.of(form.clone(), form.len() as u64))
}

/// Sequences of three and four bytes around the ends of every range: alone, inside a text, and as a string's contents.
pub fn characters() -> Section {
    const BEHIND: [u8; 8] = [0x7f, 0x80, 0x8f, 0x90, 0x9f, 0xa0, 0xbf, 0xc0];
    let mut list = vec![];
    for first in EDGES {
        for second in BEHIND {
            for third in BEHIND {
                list.push(vec![first, second, third]);
                if first >= 0xe0 {
                    list.extend(BEHIND.map(|fourth| vec![first, second, third, fourth]));
                }
            }
        }
    }
    let string = PRIMITIVES.iter().find(|call| call.read == "compact_string").expect("there is one");
    Section::new(3 * list.len() as u64, move |index| {
        let sequence = &list[(index / 3) as usize];
        // Texts are also looked at eight bytes at a time, so sequences begin everywhere in such a group.
        let inside = [vec![b'a'; (index % 19) as usize], sequence.clone(), vec![b'b'; (index % 7) as usize]].concat();
        match index % 3 {
            0 => Case::WellFormed(sequence.clone()),
            1 if index % 2 == 0 => Case::IsText(inside),
            1 => Case::WellFormed(inside),
            _ => Case::Read { call: string, message: [varint(inside.len() as u64 + 1), inside].concat() },
        }
    })
}

/// Messages of each size: zeros for every call, and fields and items that fill them; and more bytes than the limit.
pub fn sizes(seed: u64) -> Section {
    enum Filled {
        With(u8, Ask),
        Contents(Form, Ask),
        Items(Ask),
    }
    let mut asks = all();
    asks.extend((0..=3).map(|version| Ask::Body(&RESPONSE_READS[2], version)));
    let mut list = vec![];
    for size in SIZES {
        list.extend(asks.iter().map(|ask| (size, Filled::With(0, *ask))));
        for call in &PRIMITIVES {
            list.extend(form_of(call.primitive).map(|form| (size, Filled::Contents(form, Ask::Primitive(call)))));
        }
        list.extend((0..3).map(|version| (size, Filled::Items(Ask::Body(&RESPONSE_READS[0], version)))));
    }
    for (size, byte) in [(LIMIT + 2, 0xff), (LIMIT + 64, b'a')] {
        list.extend(asks.iter().map(|ask| (size, Filled::With(byte, *ask))));
    }
    // The version is judged before the size.
    for call in RESPONSE_READS.iter().chain([&REQUEST_READ]) {
        list.extend([-1, 4].map(|version| (LIMIT + 1, Filled::With(0, Ask::Body(call, version)))));
    }
    Section::listed(list, move |(size, filled)| {
        let mut rng = Rng::new(seed, *size as u64);
        let (mut message, fill, ask) = match filled {
            Filled::With(byte, ask) => (vec![], *byte, *ask),
            Filled::Contents(form, ask) => (carried(*form, filling(*form, *size) as u64), b'a', *ask),
            Filled::Items(ask) => ([vec![0, 0], carried(Form::Int32, (*size as u64 - 6) / 6)].concat(), 0, *ask),
        };
        message.resize(*size, fill);
        match ask {
            Ask::Body(call, version) => reads::body(&mut rng, call, version, message),
            ask => ask.of(message, 0),
        }
    })
}
