//! A stored list, answered again. Each line that is a case here gets the answer of the rules and the Rust; any other keeps the
//! answer that it has.
use crate::case::Case;
use crate::judge::judge;

/// What came of a list.
#[derive(Debug, Default, PartialEq, Eq)]
pub struct Again {
    /// An answer for each line.
    pub expected: Vec<String>,
    pub judged: usize,
    pub copied: usize,
    /// Judged lines that have another answer than before.
    pub changed: usize,
    /// What must not be, to be shown.
    pub wrong: Vec<String>,
}

/// The cases of a list and the answers that it has.
pub fn again(cases: &[&[u8]], before: &[&str]) -> Again {
    let mut again = Again::default();
    for (line, before) in cases.iter().zip(before) {
        let answer = match Case::parse(line) {
            Some(case) => again.judge(line, &case, before),
            None => again.copy(line, before),
        };
        again.expected.push(answer);
    }
    again
}

impl Again {
    fn judge(&mut self, line: &[u8], case: &Case, before: &str) -> String {
        let verdict = judge(case);
        let mut answer = vec![];
        verdict.answer.put(&mut answer);
        let answer = String::from_utf8(answer).expect("an answer is ASCII");
        self.judged += 1;
        self.changed += usize::from(answer != before);
        if answer != before && !is_same_except_place(before, &answer) {
            self.show(line, &format!("before: {before}\n    now: {answer}"));
        }
        if let Some(complaint) = verdict.complaint {
            self.show(line, &complaint);
        }
        answer
    }

    /// No case, or a version that 16 bits do not hold: nothing else can be answered without being judged.
    fn copy(&mut self, line: &[u8], before: &str) -> String {
        self.copied += 1;
        if before != "bad case" && !before.starts_with("no 1 0 0") {
            self.show(line, &format!("cannot be judged, and is answered {before}"));
        }
        before.to_string()
    }

    fn show(&mut self, line: &[u8], why: &str) {
        self.wrong.push(format!("{}\n    {why}", String::from_utf8_lossy(line)));
    }
}

/// Two refusals with 7 that differ at most in their place.
fn is_same_except_place(before: &str, now: &str) -> bool {
    fn without_place(answer: &str) -> Option<(&str, &str)> {
        answer.strip_prefix("no 7 ")?.split_once(' ')
    }
    match (without_place(before), without_place(now)) {
        (Some((_, before)), Some((_, now))) => before == now,
        _ => false,
    }
}
