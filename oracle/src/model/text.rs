//! Text: RFC 3629, section 4, as the table of docs/RULES.md, section 3.

/// What may stand behind a first byte, or nothing where it begins no character.
fn behind(first: u8) -> Option<&'static [(u8, u8)]> {
    const ANY: (u8, u8) = (0x80, 0xbf);
    Some(match first {
        0x00..=0x7f => &[],
        0xc2..=0xdf => &[ANY],
        0xe0 => &[(0xa0, 0xbf), ANY],
        0xe1..=0xec | 0xee..=0xef => &[ANY, ANY],
        0xed => &[(0x80, 0x9f), ANY],
        0xf0 => &[(0x90, 0xbf), ANY, ANY],
        0xf1..=0xf3 => &[ANY, ANY, ANY],
        0xf4 => &[(0x80, 0x8f), ANY, ANY],
        _ => return None,
    })
}

/// How many bytes the first character has, where there is a well-formed one.
fn character(bytes: &[u8]) -> Option<usize> {
    let (first, rest) = bytes.split_first()?;
    let ranges = behind(*first)?;
    let fits = rest.len() >= ranges.len() && ranges.iter().zip(rest).all(|((low, high), b)| low <= b && b <= high);
    fits.then_some(1 + ranges.len())
}

/// How many bytes at the front are well-formed.
pub fn well_formed(bytes: &[u8]) -> usize {
    let mut at = 0;
    while let Some(n) = character(&bytes[at..]) {
        at += n;
    }
    at
}

pub fn is_text(bytes: &[u8]) -> bool {
    well_formed(bytes) == bytes.len()
}
