//! The spelling of docs/ANSWERS.md, read back by a reader of its own.
use oracle::judge::judge;
use oracle::line::{put_bytes, put_cells, Answer, Lent, Refusal, Word};
use oracle::make::{self, rng::Rng};

fn bytes(bytes: &[u8]) -> String {
    let mut line = vec![];
    put_bytes(&mut line, bytes);
    String::from_utf8(line).unwrap()
}

fn cells(cells: &[i64]) -> String {
    let mut line = vec![];
    put_cells(&mut line, cells);
    String::from_utf8(line).unwrap()
}

#[test]
fn pieces() {
    assert_eq!(bytes(&[]), "-");
    assert_eq!(bytes(&[0, 255, 0x41]), "00ff41");
    assert_eq!(bytes(&[0x61; 7]), "61616161616161");
    assert_eq!(bytes(&[0x61; 8]), "61*8");
    assert_eq!(bytes(&[&[1, 2][..], &[0; 9], &[3], &[4; 8], &[5; 8]].concat()), "0102,00*9,03,04*8,05*8");
    assert_eq!(cells(&[]), "-");
    assert_eq!(cells(&[0, 0, 0]), "0,0,0");
    assert_eq!(cells(&[-1, 5, 5, 5, 5, 7, 7]), "-1,5*4,7,7");
}

#[test]
fn what_is_lent_runs_on_into_its_fill() {
    let table = Lent::Table { room: 6, front: vec![1, 777] };
    let output = Lent::Output { room: 9, front: vec![0, 0xa5] };
    let answer =
        Answer { reply: Ok(vec![Word::Number(-1), Word::Part(3, &[]), Word::Null]), lent: vec![table, output] };
    let mut line = vec![];
    answer.put(&mut line);
    assert_eq!(line, b"ok -1 3:- null 1,777*5 00,a5*8 kept");
    line.clear();
    Answer { reply: Err(Refusal::no_room(2, 7)), lent: vec![Lent::Table { room: 0, front: vec![] }] }.put(&mut line);
    assert_eq!(line, b"no 10 0 7 - kept");
}

/// BYTES, as the page describes them.
fn spelled(word: &str) -> Vec<u8> {
    let byte = |two: &[u8]| u8::from_str_radix(std::str::from_utf8(two).unwrap(), 16).unwrap();
    if word == "-" {
        return vec![];
    }
    let piece = |piece: &str| match piece.split_once('*') {
        Some((one, times)) => vec![byte(one.as_bytes()); times.parse().unwrap()],
        None => piece.as_bytes().chunks(2).map(byte).collect(),
    };
    word.split(',').flat_map(piece).collect()
}

#[test]
fn bytes_come_back() {
    let mut rng = Rng::new(3, 0);
    for _ in 0..5000 {
        let message: Vec<u8> = (0..rng.below(9)).flat_map(|_| vec![rng.byte() % 3; rng.below(12)]).collect();
        assert_eq!(spelled(&bytes(&message)), message);
    }
}

#[test]
fn a_seed_gives_the_same_lines() {
    let lines = |seed| {
        let fixed = make::short(seed, 0).err().expect("the fixed part has inputs");
        let sections = make::short(seed, fixed + 2_000).unwrap();
        let mut text = vec![];
        for case in sections.last().unwrap().part(0, 1) {
            case.put(&mut text);
            judge(&case).answer.put(&mut text);
        }
        text
    };
    assert_eq!(lines(5), lines(5));
    assert_ne!(lines(5), lines(6));
}
