//! Fetch responses: near-valid bytes, bodies at all versions, cut everywhere, and all short strings of words.
pub mod body;
pub mod ends;
pub mod requests;

use super::exhaustive::{of_words, Ask};
use super::reads::{self, outside};
use super::rng::Rng;
use super::wire::{varied, Wire};
use super::Section;
use crate::calls::FETCH_READ;
use crate::case::Case;
use crate::model::fetch::LAST;
use crate::model::primitives::{Form, Null};

/// How many versions there are.
const VERSIONS: u64 = LAST as u64 + 1;

impl Wire<'_> {
    fn fetched(&mut self, version: i16) {
        if version >= 1 {
            self.int(4);
        }
        self.array(Form::Int32, |wire| {
            wire.sized(Form::Int16, Null::Never, true);
            wire.array(Form::Int32, |wire| wire.fetched_partition(version));
        });
    }

    fn fetched_partition(&mut self, version: i16) {
        self.int(4);
        self.int(2);
        self.int(8);
        if version >= 4 {
            self.int(8);
            self.array(Form::Int32, |wire| (0..2).for_each(|_| wire.int(8)));
        }
        self.sized(Form::Int32, Null::Empty, false);
    }
}

pub fn response_bytes(rng: &mut Rng, version: i16) -> Vec<u8> {
    let mut wire = Wire::new(rng);
    // There are many fields, so that few of them have to be strange.
    wire.odd *= 4;
    wire.fetched(version);
    wire.bytes
}

/// The last version has the most fields, so it is taken as often as all others.
fn version(rng: &mut Rng) -> i16 {
    if rng.one_in(12) {
        outside(rng, LAST)
    } else {
        rng.below(2 * LAST as usize).min(LAST as usize) as i16
    }
}

/// A body of one version, damaged or not, mostly read at that one.
pub fn read(rng: &mut Rng) -> Case {
    let made = version(rng);
    let at = if rng.one_in(4) { version(rng) } else { made };
    let message = response_bytes(rng, made);
    let message = varied(rng, message);
    reads::body(rng, &FETCH_READ, at, message)
}

/// Generated bodies, each read at every version.
pub fn crossed(seed: u64, bodies: u64) -> Section {
    Section::new(VERSIONS * bodies, move |index| {
        let mut rng = Rng::new(seed ^ 7, index / VERSIONS);
        let made = rng.below(VERSIONS as usize) as i16;
        let message = response_bytes(&mut rng, made);
        reads::body(&mut Rng::new(seed ^ 7, index), &FETCH_READ, (index % VERSIONS) as i16, message)
    })
}

/// Generated bodies, cut behind each of their first bytes.
pub fn cut(seed: u64, bodies: u64) -> Section {
    const LONGEST: u64 = 96;
    Section::new(LONGEST * bodies, move |index| {
        let mut rng = Rng::new(seed ^ 8, index / LONGEST);
        let version = (index / LONGEST % VERSIONS) as i16;
        let mut message = response_bytes(&mut rng, version);
        message.truncate((index % LONGEST) as usize);
        reads::body(&mut rng, &FETCH_READ, version, message)
    })
}

/// Words that tell counts, lengths, texts, numbers of a partition and aborted pairs apart.
const WORDS: [&[u8]; 8] = [
    &[0, 0, 0, 0],
    &[0, 0, 0, 1],
    &[255, 255, 255, 255],
    &[255, 255, 255, 254],
    &[0, 0],
    &[0, 1, b'a'],
    &[0, 0, 0, 2, 0, 3, 0, 0, 0, 0, 0, 0, 0, 5],
    &[255, 255, 255, 255, 255, 255, 255, 255, 0, 0, 0, 0, 0, 0, 0, 3],
];

/// Every string of up to so many words: as a response, and behind the fields in front of partitions, aborted pairs and records;
/// each at every version.
pub fn words(most: u32) -> Section {
    let mut list = vec![];
    for version in 0..=LAST {
        let read = Ask::Body(&FETCH_READ, version);
        list.push((read, vec![]));
        let fields = ends::fields(version).into_iter();
        let inner = fields.filter(|field| ["partitions", "aborted", "records"].contains(&field.name));
        list.extend(inner.map(|field| (read, field.front)));
    }
    of_words(list, &WORDS, most)
}
