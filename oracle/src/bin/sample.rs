//! sample SEED CASES EXPECTED
//! sample letters CASES EXPECTED
//! sample frames CASES EXPECTED
//! sample varints CASES EXPECTED
//!
//! A list to store and replay without Rust: the worked examples, then of every kind of case and answer a few; or some texts
//! that are not well-formed; or some frames; or varints where their length changes.
use oracle::case::Case;
use oracle::judge::{judge, Verdict};
use oracle::line::{Lent, Word};
use oracle::make::{self, examples, frames, letters, rng::Rng, varints};
use oracle::model::write::Own;
use std::collections::BTreeMap;
use std::io::Result;
use std::process::ExitCode;

/// The inputs to choose from.
const INPUTS: u64 = 3_000_000;
/// Case and answer of one input, and all of them together.
const LONGEST: usize = 700;
const BUDGET: usize = 860_000;
/// The most of one kind.
const ROUNDS: usize = 6;

type Lines = (Vec<u8>, Vec<u8>);

fn main() -> ExitCode {
    let words: Vec<String> = std::env::args().skip(1).collect();
    let asked = match &words[..] {
        [list, cases, expected] if list == "letters" => Some(run_list(&letters::stored(), cases, expected)),
        [list, cases, expected] if list == "frames" => Some(run_list(&frames::stored::stored(), cases, expected)),
        [list, cases, expected] if list == "varints" => Some(run_list(&varints::stored(), cases, expected)),
        [seed, cases, expected] => seed.parse().ok().map(|seed| run(seed, cases, expected)),
        _ => None,
    };
    match asked {
        Some(Ok(())) => ExitCode::SUCCESS,
        Some(Err(e)) => failed(&e.to_string()),
        None => failed("sample SEED CASES EXPECTED, or sample letters, frames or varints CASES EXPECTED"),
    }
}

fn failed(why: &str) -> ExitCode {
    eprintln!("{why}");
    ExitCode::from(2)
}

fn run(seed: u64, cases: &str, expected: &str) -> Result<()> {
    let kinds = chosen(seed);
    let mut taken: Vec<Lines> = examples::all().iter().map(|(case, _)| lines(case, &judge(case))).collect();
    let mut size: usize = taken.iter().map(length).sum();
    // One of each kind first, then a second, so that the budget cuts no kind short of another.
    for round in 0..ROUNDS {
        for pair in kinds.values().filter_map(|kind| kind.kept.get(round)) {
            if size + length(pair) <= BUDGET {
                size += length(pair);
                taken.push(pair.clone());
            }
        }
    }
    write(&taken, cases, expected)?;
    println!("{} inputs of {} kinds, {size} bytes", taken.len(), kinds.len());
    Ok(())
}

fn run_list(list: &[Case], cases: &str, expected: &str) -> Result<()> {
    let taken: Vec<Lines> = list.iter().map(|case| lines(case, &agreed(case))).collect();
    write(&taken, cases, expected)?;
    println!("{} inputs, {} bytes", taken.len(), taken.iter().map(length).sum::<usize>());
    Ok(())
}

fn write(taken: &[Lines], cases: &str, expected: &str) -> Result<()> {
    std::fs::write(cases, taken.iter().flat_map(|pair| pair.0.clone()).collect::<Vec<u8>>())?;
    std::fs::write(expected, taken.iter().flat_map(|pair| pair.1.clone()).collect::<Vec<u8>>())
}

fn agreed(case: &Case) -> Verdict<'_> {
    let verdict = judge(case);
    assert_eq!(verdict.complaint, None, "a list to store rests on no disagreement");
    verdict
}

fn length(pair: &Lines) -> usize {
    pair.0.len() + pair.1.len()
}

fn lines(case: &Case, verdict: &Verdict) -> Lines {
    let mut pair = (vec![], vec![]);
    case.put(&mut pair.0);
    verdict.answer.put(&mut pair.1);
    pair.0.push(b'\n');
    pair.1.push(b'\n');
    pair
}

#[derive(Default)]
struct Kind {
    seen: usize,
    kept: Vec<Lines>,
}

/// Of each kind up to so many, each input of it with the same chance.
fn chosen(seed: u64) -> BTreeMap<String, Kind> {
    let mut rng = Rng::new(seed, u64::MAX);
    let mut kinds: BTreeMap<String, Kind> = BTreeMap::new();
    let sections = make::short(seed, INPUTS).expect("room for the fixed part");
    for case in sections.iter().flat_map(|section| section.part(0, 1)) {
        let verdict = agreed(&case);
        let kind = kinds.entry(kind(&case, &verdict)).or_default();
        let place = if kind.kept.len() < ROUNDS { kind.kept.len() } else { rng.below(kind.seen + 1) };
        kind.seen += 1;
        if place < ROUNDS {
            let pair = lines(&case, &verdict);
            if length(&pair) <= LONGEST {
                match kind.kept.get_mut(place) {
                    Some(old) => *old = pair,
                    None => kind.kept.push(pair),
                }
            }
        }
    }
    kinds
}

/// The call, its version, the number, and what sets cases and answers of one number apart.
fn kind(case: &Case, verdict: &Verdict) -> String {
    let answer = &verdict.answer;
    let lent = shape_of_all(&answer.lent);
    let rest = match &answer.reply {
        Ok(words) => {
            // Signs tell numbers apart where there are no rows to do so.
            let signs = answer.lent.is_empty();
            // First comes how many bytes were used or written, except where a host or a header number is the answer.
            let first = usize::from(!matches!(case, Case::Host { .. } | Case::HeaderNumber { .. }));
            words.iter().skip(first).map(|word| shape_of_word(word, signs)).collect()
        }
        Err(no) => format!("{}{}", if no.place == 0 { "first" } else { "later" }, no.need.min(2)),
    };
    format!("{} {:?} {:02} {} {rest} {lent}", case.name(), case.version(), verdict.number(), shape_of_case(case))
}

/// Primitives by their length, texts by what they begin with, Metadata requests by
/// auto-creation, Fetch requests by the most bytes at 3 and by isolation at 4, frames by
/// their header and by whether there is a client name, header numbers by key and version.
fn shape_of_case(case: &Case) -> String {
    match case {
        Case::Read { message, .. } => format!("{}", message.len().min(12)),
        Case::WellFormed(bytes) | Case::IsText(bytes) => {
            format!("{:x} {}", bytes.first().map_or(0, |b| b >> 4), bytes.len().min(5))
        }
        Case::WriteBody { own, version, .. } => match &own[..] {
            [_, creation] => format!("{creation:?}"),
            [_, _, _, largest, _, _] if *version == 3 => format!("{}", *largest == Own::Absent),
            [_, _, _, _, isolation, _] if *version == 4 => format!("{}", isolation.or(-1).clamp(-1, 2)),
            _ => String::new(),
        },
        Case::ReadFrame { header, .. } => format!("{}", (*header).clamp(-1, 3)),
        Case::WriteFrame { header, own, .. } => {
            format!("{} {}", (*header).clamp(-1, 3), own.contains(&Own::Null) || own.contains(&Own::Absent))
        }
        Case::HeaderNumber { key, version, .. } => format!("{} {}", (*key).clamp(17, 19), (*version).clamp(2, 3)),
        _ => String::new(),
    }
}

fn shape_of_word(word: &Word, signs: bool) -> char {
    match word {
        Word::Number(n) if signs && *n < 0 => '-',
        Word::Number(n) if signs && *n == 0 => '0',
        Word::Number(_) => '+',
        Word::Part(_, contents) => match contents.len() {
            0 => 'e',
            1..=126 => 'p',
            _ => 'l',
        },
        Word::Null => 'n',
        Word::Absent | Word::None => 'a',
    }
}

/// Of two tables each, of more than two just which have rows: there would be too many kinds.
fn shape_of_all(lent: &[Lent]) -> String {
    match lent {
        [] | [_] | [_, _] => lent.iter().map(shape_of_lent).collect(),
        many => many.iter().map(|lent| if shape_of_lent(lent).starts_with("none") { '-' } else { 'r' }).collect(),
    }
}

/// How much was laid, and whether something is left behind it.
fn shape_of_lent(lent: &Lent) -> String {
    let (room, front) = match lent {
        Lent::Table { room, front } => (*room, front.len()),
        Lent::Output { room, front } => (*room, front.len()),
    };
    format!("{}{}", ["none", "row", "rows"][front.min(5).div_ceil(4)], if front == room { "full" } else { "" })
}
