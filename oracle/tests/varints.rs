//! Varints that are written, where their length changes: each is accepted in just its room and refused in a byte less.
use oracle::case::Case;
use oracle::judge::judge;
use oracle::make::varints::{stored, LENGTHS};

fn said(case: &Case) -> (String, String) {
    let (mut asked, mut answered) = (vec![], vec![]);
    case.put(&mut asked);
    let verdict = judge(case);
    assert_eq!(verdict.complaint, None, "{}", String::from_utf8_lossy(&asked));
    verdict.answer.put(&mut answered);
    (String::from_utf8(asked).unwrap(), String::from_utf8(answered).unwrap())
}

#[test]
fn lengths_change_between_seven_bits_and_one_more() {
    for pair in LENGTHS[1..19].chunks(2) {
        let ((last, length), (first, more)) = (pair[0], pair[1]);
        assert_eq!((first, more), (last + 1, length + 1));
        assert_eq!(first, 1 << (7 * length));
    }
}

#[test]
fn each_takes_its_room_and_no_less() {
    let answers: Vec<(String, String)> = stored().iter().map(said).collect();
    for (n, length) in LENGTHS {
        let begins = |case: String, answer: String| {
            let (_, answered) = answers.iter().find(|(asked, _)| *asked == case).unwrap_or_else(|| panic!("no {case}"));
            assert!(answered.starts_with(&answer), "{case}: {answered}");
        };
        begins(format!("write_unsigned_varint {length} {n}"), format!("ok {length} "));
        begins(format!("write_unsigned_varint {} {n}", length - 1), format!("no 10 0 {length} "));
    }
    let accepted = answers.iter().filter(|(_, answer)| answer.starts_with("ok ")).count();
    assert_eq!(answers.len() - accepted, LENGTHS.len() + 1, "only what has a byte too little is refused");
}
