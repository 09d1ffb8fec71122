//! cases short SEED COUNT CASES EXPECTED
//! cases long SEED PART PARTS CASES EXPECTED
//!
//! Writes case lines and the lines that answer them, and tells what they rest on. Fails on a disagreement that is on no list.
use oracle::judge::judge;
use oracle::make::{self, Section};
use oracle::tally::Tally;
use std::fs::File;
use std::io::{BufWriter, Result, Write};
use std::process::ExitCode;

const USAGE: &str =
    "cases short SEED COUNT CASES EXPECTED, or cases long SEED PART PARTS CASES EXPECTED with PART from 0";

/// What docs/ANSWERS.md allows for a line.
const LONGEST_LINE: usize = 262_144;

fn main() -> ExitCode {
    let words: Vec<String> = std::env::args().skip(1).collect();
    let words: Vec<&str> = words.iter().map(String::as_str).collect();
    let number = |word: &str| word.parse::<u64>().ok();
    let asked = match words[..] {
        ["short", seed, count, cases, expected] => number(seed)
            .zip(number(count))
            .map(|(seed, count)| make::short(seed, count).map(|sections| (sections, 0, 1, cases, expected))),
        ["long", seed, part, parts, cases, expected] => {
            number(seed).zip(number(part).zip(number(parts))).and_then(|(seed, (part, parts))| {
                (part < parts).then(|| Ok((make::long(seed), part, parts, cases, expected)))
            })
        }
        _ => None,
    };
    let (sections, part, parts, cases, expected) = match asked {
        None => return failed(USAGE),
        Some(Err(fixed)) => return failed(&format!("COUNT has to be at least {fixed}, which the fixed part has")),
        Some(Ok(plan)) => plan,
    };
    match run(&sections, part, parts, cases, expected) {
        Err(e) => failed(&e.to_string()),
        Ok(tally) => {
            print!("{tally}");
            if tally.unlisted() == 0 {
                ExitCode::SUCCESS
            } else {
                ExitCode::FAILURE
            }
        }
    }
}

fn failed(why: &str) -> ExitCode {
    eprintln!("{why}");
    ExitCode::from(2)
}

fn run(sections: &[Section], part: u64, parts: u64, cases: &str, expected: &str) -> Result<Tally> {
    let mut cases = BufWriter::new(File::create(cases)?);
    let mut expected = BufWriter::new(File::create(expected)?);
    let mut tally = Tally::default();
    let mut line = vec![];
    for case in sections.iter().flat_map(|section| section.part(part, parts)) {
        let verdict = judge(&case);
        tally.add(&case, &verdict);
        line.clear();
        case.put(&mut line);
        assert!(line.len() <= LONGEST_LINE, "a case of {} bytes", line.len());
        line.push(b'\n');
        cases.write_all(&line)?;
        line.clear();
        verdict.answer.put(&mut line);
        line.push(b'\n');
        expected.write_all(&line)?;
    }
    cases.flush()?;
    expected.flush()?;
    Ok(tally)
}
