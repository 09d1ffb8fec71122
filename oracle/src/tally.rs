//! What was asked and answered, counted.
use crate::case::Case;
use crate::judge::{Verdict, Voice};
use std::collections::BTreeMap;
use std::fmt::{Display, Formatter, Result};

/// Complaints that are shown; all are counted.
const MOST_SHOWN: usize = 20;

/// The entries of docs/DIFFERENCES.md that an input can fall under here.
const ENTRIES: [(u8, &str); 13] = [
    (1, "versions below 0"),
    (2, "versions above the range"),
    (3, "compact bytes of length 0"),
    (4, "auto-creation set below version 4"),
    (5, "over 1,048,576 bytes"),
    (7, "too little room"),
    (9, "null items, whole read"),
    (10, "bytes behind the body, whole read"),
    (11, "isolation levels other than 0 and 1"),
    (12, "values that the Rust's types cannot hold"),
    (13, "request header 0"),
    (14, "frames over the limit that are cut"),
    (15, "header numbers of versions that are not here"),
];

/// Of one call.
#[derive(Default)]
struct Counts {
    /// How many answers of each number, `ok` being 0.
    answers: [u64; 15],
    voices: [u64; 3],
}

const VOICES: [(Voice, &str); 3] = [
    (Voice::Rust, "the Rust was asked"),
    (Voice::StandardLibrary, "the standard library was asked"),
    (Voice::RulesAlone, "rules alone"),
];

#[derive(Default)]
pub struct Tally {
    inputs: u64,
    calls: BTreeMap<&'static str, Counts>,
    voices: [u64; 3],
    entries: [u64; 16],
    complaints: u64,
    shown: Vec<String>,
}

impl Tally {
    pub fn add(&mut self, case: &Case, verdict: &Verdict) {
        self.inputs += 1;
        let counts = self.calls.entry(case.name()).or_default();
        counts.answers[verdict.number() as usize] += 1;
        counts.voices[verdict.voice as usize] += 1;
        self.voices[verdict.voice as usize] += 1;
        if let Some(entry) = verdict.entry {
            self.entries[entry as usize] += 1;
        }
        if let Some(complaint) = &verdict.complaint {
            self.complaints += 1;
            if self.shown.len() < MOST_SHOWN {
                let mut line = vec![];
                case.put(&mut line);
                line.extend(b"\n    the rules say ");
                verdict.answer.put(&mut line);
                self.shown.push(format!("{}\n    {complaint}", String::from_utf8_lossy(&line)));
            }
        }
    }

    /// Disagreements on no list.
    pub fn unlisted(&self) -> u64 {
        self.complaints
    }
}

impl Display for Tally {
    fn fmt(&self, f: &mut Formatter<'_>) -> Result {
        writeln!(f, "inputs {}", self.inputs)?;
        for (call, counts) in &self.calls {
            write!(f, "  {call} {}:", counts.answers.iter().sum::<u64>())?;
            for (number, n) in counts.answers.iter().enumerate().filter(|(_, n)| **n > 0) {
                match number {
                    0 => write!(f, " ok {n}")?,
                    _ => write!(f, ", no {number} {n}")?,
                }
            }
            for (voice, name) in VOICES {
                match counts.voices[voice as usize] {
                    0 => {}
                    n => write!(f, "; {name} {n}")?,
                }
            }
            writeln!(f)?;
        }
        for (voice, name) in VOICES {
            writeln!(f, "{name} {}", self.voices[voice as usize])?;
        }
        for (entry, name) in ENTRIES {
            writeln!(f, "entry {entry}, {name}: {}", self.entries[entry as usize])?;
        }
        for complaint in &self.shown {
            writeln!(f, "UNLISTED {complaint}")?;
        }
        writeln!(f, "unlisted {}", self.complaints)
    }
}
