//! Version agreement: docs/RULES.md, section 8.

/// API key, and our lowest and highest version.
const OURS: [[i64; 3]; 3] = [[18, 0, 3], [3, 0, 4], [1, 4, 4]];

/// Three times key, chosen version and broker's maximum, from item rows of four cells.
pub fn agree(items: &[i64]) -> Vec<i64> {
    OURS.iter().flat_map(|[key, low, high]| agreed(items, *key, *low, *high)).collect()
}

fn agreed(items: &[i64], key: i64, low: i64, high: i64) -> [i64; 3] {
    match items.chunks_exact(4).find(|row| row[0] == key) {
        None => [key, -1, -1],
        Some(row) => {
            let common = (low..=high).filter(|v| (row[1]..=row[2]).contains(v)).max();
            [key, common.unwrap_or(-1), row[2]]
        }
    }
}
