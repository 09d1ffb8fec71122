//! Metadata responses, read and looked up in: near-valid bytes, bodies at all versions, cut everywhere, and all short strings
//! of words.
pub mod body;
pub mod ends;
pub mod requests;

use super::exhaustive::{of_words, Ask};
use super::reads::{self, outside};
use super::rng::Rng;
use super::wire::{varied, Wire};
use super::Section;
use crate::calls::METADATA_READ;
use crate::case::Case;
use crate::model::metadata::{read_response, LAST, WIDTHS};
use crate::model::primitives::{Form, Null};

/// How many versions there are.
const VERSIONS: u64 = LAST as u64 + 1;

impl Wire<'_> {
    /// Often one of a few, so that brokers share a number.
    fn node(&mut self) {
        if self.rng.one_in(2) {
            return self.int(4);
        }
        let node = self.rng.pick(&[0i32, 1, 2, -1]);
        self.bytes.extend(node.to_be_bytes());
    }

    fn metadata(&mut self, version: i16) {
        if version >= 3 {
            self.int(4);
        }
        self.array(Form::Int32, |wire| wire.broker(version));
        if version >= 2 {
            self.sized(Form::Int16, Null::Kept, true);
        }
        if version >= 1 {
            self.int(4);
        }
        self.array(Form::Int32, |wire| wire.topic(version));
    }

    fn broker(&mut self, version: i16) {
        self.node();
        self.sized(Form::Int16, Null::Never, true);
        self.int(4);
        if version >= 1 {
            self.sized(Form::Int16, Null::Kept, true);
        }
    }

    fn topic(&mut self, version: i16) {
        self.int(2);
        self.sized(Form::Int16, Null::Never, true);
        if version >= 1 {
            self.int(1);
        }
        self.array(Form::Int32, Self::partition);
    }

    fn partition(&mut self) {
        self.int(2);
        self.int(4);
        self.node();
        self.array(Form::Int32, Self::node);
        self.array(Form::Int32, Self::node);
    }
}

pub fn response_bytes(rng: &mut Rng, version: i16) -> Vec<u8> {
    let mut wire = Wire::new(rng);
    // There are many fields, so that few of them have to be strange.
    wire.odd *= 8;
    wire.metadata(version);
    wire.bytes
}

fn version(rng: &mut Rng) -> i16 {
    if rng.one_in(12) {
        outside(rng, LAST)
    } else {
        rng.below(VERSIONS as usize) as i16
    }
}

/// A body of one version, damaged or not, and the version that it is mostly read at.
fn response(rng: &mut Rng) -> (i16, Vec<u8>) {
    let made = version(rng);
    let at = if rng.one_in(4) { version(rng) } else { made };
    let message = response_bytes(rng, made);
    (at, varied(rng, message))
}

pub fn read(rng: &mut Rng) -> Case {
    let (version, message) = response(rng);
    reads::body(rng, &METADATA_READ, version, message)
}

pub fn host(rng: &mut Rng) -> Case {
    let (version, message) = response(rng);
    looked_up(rng, version, message)
}

/// A node that a broker has, mostly; one beside it, or one that is the same in its lowest 32 bits.
pub fn looked_up(rng: &mut Rng, version: i16, message: Vec<u8>) -> Case {
    let brokers: Vec<i64> = match read_response(version.clamp(0, LAST), false, &message) {
        Ok(shown) => shown.tables[0].chunks_exact(WIDTHS[0]).map(|broker| broker[0]).collect(),
        Err(_) => vec![],
    };
    let known = if brokers.is_empty() { rng.pick(&[0, 1, 2, -1]) } else { rng.pick(&brokers) };
    let node = match rng.below(10) {
        0 => known.wrapping_add(1),
        1 => known.wrapping_add(1 << 32),
        2 => known & 0xffff_ffff,
        3 => rng.number(),
        _ => known,
    };
    Case::Host { version, node, message }
}

/// Generated bodies, each read and looked up in at every version.
pub fn crossed(seed: u64, bodies: u64) -> Section {
    Section::new(2 * VERSIONS * bodies, move |index| {
        let mut rng = Rng::new(seed ^ 3, index / (2 * VERSIONS));
        let made = rng.below(VERSIONS as usize) as i16;
        let message = response_bytes(&mut rng, made);
        let (version, mut rng) = ((index % VERSIONS) as i16, Rng::new(seed ^ 3, index));
        match index / VERSIONS % 2 {
            0 => reads::body(&mut rng, &METADATA_READ, version, message),
            _ => looked_up(&mut rng, version, message),
        }
    })
}

/// Generated bodies, cut behind each of their first bytes; every other one is looked up in.
pub fn cut(seed: u64, bodies: u64) -> Section {
    const LONGEST: u64 = 96;
    Section::new(LONGEST * bodies, move |index| {
        let body = index / LONGEST;
        let mut rng = Rng::new(seed ^ 4, body);
        let version = (body % VERSIONS) as i16;
        let mut message = response_bytes(&mut rng, version);
        message.truncate((index % LONGEST) as usize);
        match body / VERSIONS % 2 {
            0 => reads::body(&mut rng, &METADATA_READ, version, message),
            _ => looked_up(&mut rng, version, message),
        }
    })
}

/// Words that tell counts, numbers and texts apart.
const WORDS: [&[u8]; 8] = [
    &[0, 0, 0, 0],
    &[0, 0, 0, 1],
    &[0, 0, 0, 2],
    &[255, 255, 255, 255],
    &[255, 255, 255, 254],
    &[0, 0],
    &[0, 1, b'a'],
    &[255, 255],
];

/// Every string of up to so many words: as a response, read and looked up in, and behind the fields in front of the topics and
/// of a partition's replicas; each at every version.
pub fn words(most: u32) -> Section {
    let mut list = vec![];
    for version in 0..=LAST {
        let fields = ends::fields(version);
        let front = |name: &str| fields.iter().find(|field| field.name == name).expect("a field").front.clone();
        let read = Ask::Body(&METADATA_READ, version);
        list.extend([(read, vec![]), (Ask::Host(version), vec![])]);
        list.extend([(read, front("topics")), (read, front("replicas"))]);
    }
    of_words(list, &WORDS, most)
}
