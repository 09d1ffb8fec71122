//! Inputs. A plan is a list of sections, and any input of a section is made from its index alone, so a plan can be run in
//! parts and twice alike.
pub mod body;
pub mod boundaries;
pub mod ends;
pub mod examples;
pub mod exhaustive;
pub mod fetch;
pub mod frames;
pub mod letters;
pub mod metadata;
pub mod others;
pub mod reads;
pub mod rng;
pub mod varints;
pub mod wire;
pub mod writes;
pub mod written;

use crate::calls::{REQUEST_READ, RESPONSE_READS};
use crate::case::Case;
use exhaustive::{all, any_byte, long_primitives, primitives, strings, told_by_two, TELLING};
use rng::Rng;

pub struct Section {
    pub size: u64,
    make: Box<dyn Fn(u64) -> Case>,
}

impl Section {
    pub fn new(size: u64, make: impl Fn(u64) -> Case + 'static) -> Self {
        Self { size, make: Box::new(make) }
    }

    /// One input for each entry of a list.
    pub fn listed<T: 'static>(list: Vec<T>, make: impl Fn(&T) -> Case + 'static) -> Self {
        Self::new(list.len() as u64, move |index| make(&list[index as usize]))
    }

    /// The inputs of one part of so many.
    pub fn part(&self, part: u64, parts: u64) -> impl Iterator<Item = Case> + '_ {
        let edge = |part: u64| (u128::from(self.size) * u128::from(part) / u128::from(parts)) as u64;
        (edge(part)..edge(part + 1)).map(|index| (self.make)(index))
    }
}

/// Generated bodies, each read at every version and in every way.
fn crossed(seed: u64, bodies: u64) -> Section {
    Section::new(16 * bodies, move |index| {
        let mut rng = Rng::new(seed, index / 16);
        let made = rng.below(4) as i16;
        let (call, message) = match index % 16 {
            way @ 0..=11 => (&RESPONSE_READS[way as usize / 4], reads::response_bytes(&mut rng, made)),
            _ => (&REQUEST_READ, reads::request_bytes(&mut rng, 3)),
        };
        reads::body(&mut Rng::new(seed, index), call, (index % 4) as i16, message)
    })
}

/// Generated bodies, cut behind each of their first bytes: the short ones so everywhere.
fn cut(seed: u64, bodies: u64) -> Section {
    const LONGEST: u64 = 48;
    Section::new(LONGEST * bodies, move |index| {
        let mut rng = Rng::new(seed ^ 1, index / LONGEST);
        let version = rng.pick(&[0, 1, 3, 3]);
        let call = rng.pick(&[&RESPONSE_READS[0], &RESPONSE_READS[1], &RESPONSE_READS[2], &REQUEST_READ]);
        let mut message = match call.name {
            "request_read" => reads::request_bytes(&mut rng, version),
            _ => reads::response_bytes(&mut rng, version),
        };
        message.truncate((index % LONGEST) as usize);
        reads::body(&mut rng, call, version, message)
    })
}

/// Inputs of every kind, one independent of the other.
fn random(seed: u64, size: u64) -> Section {
    Section::new(size, move |index| {
        let rng = &mut Rng::new(seed ^ 2, index);
        match rng.below(110) {
            0..=10 => reads::primitive(rng),
            11..=14 => reads::tagged_fields(rng),
            15..=24 => reads::response(rng),
            25..=27 => reads::request(rng),
            28..=34 => writes::primitive(rng),
            35..=37 => writes::tagged_fields(rng),
            38..=42 => writes::response(rng),
            43..=45 => writes::request(rng),
            46..=49 => others::text(rng),
            50 => others::agree(rng),
            51..=61 => metadata::read(rng),
            62..=67 => metadata::host(rng),
            68..=74 => metadata::requests::request(rng),
            75..=88 => fetch::read(rng),
            89..=99 => fetch::requests::request(rng),
            100..=104 => frames::read(rng),
            105..=108 => frames::write(rng),
            _ => frames::number(rng),
        }
    })
}

/// The ends of everything, the same for each seed but for some rooms.
fn fixed(seed: u64) -> Vec<Section> {
    vec![
        examples::section(),
        boundaries::lengths(),
        boundaries::bodies(seed),
        boundaries::varints(),
        boundaries::characters(),
        boundaries::sizes(seed),
        written::of_numbers(),
        written::of_contents(),
        written::of_bodies(),
        varints::section(),
        others::agreements(),
        metadata::ends::counts(seed),
        metadata::ends::texts(seed),
        metadata::ends::rooms(),
        metadata::ends::cuts(seed),
        metadata::ends::large(),
        metadata::ends::sizes(seed),
        metadata::requests::ends(),
        metadata::requests::sizes(),
        fetch::ends::counts(seed),
        fetch::ends::texts(seed),
        fetch::ends::rooms(),
        fetch::ends::cuts(seed),
        fetch::ends::large(),
        fetch::ends::sizes(seed),
        fetch::requests::ends(),
        fetch::requests::pairs(),
        fetch::requests::sizes(),
        letters::section(),
        frames::ends::sizes(),
        frames::ends::cut_sizes(),
        frames::ends::cuts(),
        frames::ends::pairs(),
        frames::ends::numbers(),
        frames::ends::lengths(),
        frames::ends::large(),
        frames::ends::ill_formed(),
        frames::ends::header_numbers(),
        frames::written::ends(),
        frames::written::rooms(),
        frames::written::pairs(),
        frames::written::sizes(),
        frames::sizes_alone(),
    ]
}

/// The short run's fixed part: all strings of up to one byte for all reads, of two where a second can matter, of three and four
/// telling bytes for primitives, and of up to four words for Metadata, Fetch and frames.
fn short_fixed(seed: u64) -> Vec<Section> {
    let mut sections = fixed(seed);
    sections.push(strings(all(), any_byte(), 0..=1));
    sections.push(strings(told_by_two(), any_byte(), 2..=2));
    sections.push(strings(primitives(), TELLING.to_vec(), 3..=4));
    sections.push(crossed(seed, 1_000));
    sections.push(cut(seed, 300));
    sections.push(metadata::words(4));
    sections.push(metadata::crossed(seed, 2_000));
    sections.push(metadata::cut(seed, 300));
    sections.push(fetch::words(4));
    sections.push(fetch::crossed(seed, 2_000));
    sections.push(fetch::cut(seed, 300));
    sections.push(frames::words(4));
    sections.push(frames::crossed(seed, 2_000));
    sections.push(frames::cut(seed, 300));
    sections
}

pub fn size(sections: &[Section]) -> u64 {
    sections.iter().map(|section| section.size).sum()
}

/// So many inputs: the fixed part, and random ones. Too few to hold the fixed part: how many that has.
pub fn short(seed: u64, count: u64) -> Result<Vec<Section>, u64> {
    let mut sections = short_fixed(seed);
    let fixed = size(&sections);
    sections.push(random(seed, count.checked_sub(fixed).ok_or(fixed)?));
    Ok(sections)
}

/// All strings of two bytes for all reads, of three bytes where a third can matter, of up to six telling bytes for
/// primitives, of up to six words for Metadata, Fetch and frames, and many random inputs.
pub fn long(seed: u64) -> Vec<Section> {
    let mut sections = fixed(seed);
    sections.push(strings(all(), any_byte(), 0..=2));
    sections.push(strings(long_primitives(), any_byte(), 3..=3));
    sections.push(strings(primitives(), TELLING.to_vec(), 4..=6));
    sections.push(crossed(seed, 200_000));
    sections.push(cut(seed, 50_000));
    sections.push(metadata::words(6));
    sections.push(metadata::crossed(seed, 200_000));
    sections.push(metadata::cut(seed, 30_000));
    sections.push(fetch::words(6));
    sections.push(fetch::crossed(seed, 200_000));
    sections.push(fetch::cut(seed, 30_000));
    sections.push(frames::words(6));
    sections.push(frames::crossed(seed, 100_000));
    sections.push(frames::cut(seed, 30_000));
    sections.push(random(seed, 25_000_000));
    sections
}
