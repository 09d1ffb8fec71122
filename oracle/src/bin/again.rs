//! again CASES BEFORE EXPECTED
//!
//! Answers a stored list again: CASES has its case lines, BEFORE the answers that they have, and EXPECTED gets those that the
//! rules and the Rust give now. Fails on an answer that differs in anything except the place of a 7, and on a disagreement.
use oracle::stored::{again, Again};
use std::process::ExitCode;

fn main() -> ExitCode {
    let words: Vec<String> = std::env::args().skip(1).collect();
    let [cases, before, expected] = &words[..] else { return failed("again CASES BEFORE EXPECTED") };
    match run(cases, before, expected) {
        Err(why) => failed(&why),
        Ok(again) => say(&again),
    }
}

fn failed(why: &str) -> ExitCode {
    eprintln!("{why}");
    ExitCode::from(2)
}

fn run(cases: &str, before: &str, expected: &str) -> Result<Again, String> {
    let read = |path: &str| std::fs::read(path).map_err(|e| format!("{path}: {e}"));
    let cases = read(cases)?;
    let before = String::from_utf8(read(before)?).map_err(|e| e.to_string())?;
    let cases: Vec<&[u8]> = lines(&cases);
    let before: Vec<&str> = before.lines().collect();
    if cases.len() != before.len() {
        return Err(format!("{} cases have {} answers", cases.len(), before.len()));
    }
    let again = again(&cases, &before);
    let text: String = again.expected.iter().map(|answer| format!("{answer}\n")).collect();
    std::fs::write(expected, text).map_err(|e| format!("{expected}: {e}"))?;
    Ok(again)
}

/// The last line needs no line end.
fn lines(text: &[u8]) -> Vec<&[u8]> {
    let mut lines: Vec<&[u8]> = text.split(|b| *b == b'\n').collect();
    if lines.last().is_some_and(|last| last.is_empty()) {
        lines.pop();
    }
    lines
}

fn say(again: &Again) -> ExitCode {
    again.wrong.iter().for_each(|wrong| println!("WRONG {wrong}"));
    println!("judged {}\ncopied {}\nchanged {}", again.judged, again.copied, again.changed);
    if again.wrong.is_empty() {
        ExitCode::SUCCESS
    } else {
        ExitCode::FAILURE
    }
}
