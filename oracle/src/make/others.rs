//! Texts, and item rows to agree on.
use super::reads::MOST_CELLS;
use super::rng::Rng;
use super::wire::damage;
use super::Section;
use crate::case::Case;

/// Bytes at the ends of the ranges in RFC 3629, and their neighbours.
pub const EDGES: [u8; 25] = [
    0x00, 0x61, 0x7f, 0x80, 0x81, 0x8f, 0x90, 0x9f, 0xa0, 0xbe, 0xbf, 0xc0, 0xc1, 0xc2, 0xdf, 0xe0, 0xe1, 0xec, 0xed,
    0xee, 0xef, 0xf0, 0xf3, 0xf4, 0xf5,
];

pub fn text(rng: &mut Rng) -> Case {
    let length = rng.length();
    let mut text = rng.text(length);
    match rng.below(4) {
        0 => {}
        1 => text.truncate(rng.below(text.len() + 1)),
        2 => damage(rng, &mut text),
        _ => {
            let at = rng.below(text.len() + 1);
            (0..1 + rng.below(4)).for_each(|_| text.insert(at, rng.pick(&EDGES)));
        }
    }
    if rng.one_in(3) {
        Case::IsText(text)
    } else {
        Case::WellFormed(text)
    }
}

pub fn agree(rng: &mut Rng) -> Case {
    let mut cells = vec![];
    for _ in 0..rng.below(7) {
        let key = if rng.one_in(8) { rng.number() } else { rng.pick(&[18, 3, 1, 18, 3, 1, 0, 2, 19]) };
        let mut version = || if rng.one_in(8) { rng.number() } else { rng.below(9) as i64 - 2 };
        let (min, max) = (version(), version());
        cells.extend([key, min, max, rng.below(3) as i64 - 1]);
    }
    if rng.one_in(4) {
        cells.truncate(rng.below(cells.len() + 1));
    }
    Case::Agree(cells)
}

/// Each key alone in the last row of a full table, in its first, and in a row that is cut.
pub fn agreements() -> Section {
    let keys = [18, 3, 1, 2];
    let list = keys.into_iter().flat_map(|key| (0..3).map(move |place| (key, place))).collect();
    Section::listed(list, |(key, place)| {
        let mut cells = vec![0; MOST_CELLS];
        let row = [*key, 0, 9, -1];
        match place {
            0 => cells[MOST_CELLS - 4..].copy_from_slice(&row),
            1 => cells[..4].copy_from_slice(&row),
            _ => cells.splice(MOST_CELLS - 4.., row[..3].iter().copied()).for_each(drop),
        }
        Case::Agree(cells)
    })
}
