//! Texts that are not well-formed: the place of each refusal, held against Rust's standard library.
use oracle::case::Case;
use oracle::judge::judge;
use oracle::make::letters::{chosen, fields, section, stored, texts, At, Field, CUT, ILL_FORMED};
use oracle::model::primitives::Form;

fn line(case: &Case) -> String {
    let mut line = vec![];
    case.put(&mut line);
    String::from_utf8(line).unwrap()
}

fn message(case: &Case) -> &[u8] {
    match case {
        Case::Read { message, .. } | Case::ReadBody { message, .. } | Case::Host { message, .. } => message,
        _ => panic!("not a read: {}", line(case)),
    }
}

/// Where the contents of a text of that size start.
fn start(field: &Field, size: usize) -> usize {
    let length = match field.form {
        Form::Int16 => 2,
        Form::Compact if size + 1 < 128 => 1,
        Form::Compact if size + 1 < 16_384 => 2,
        _ => panic!("no text has such a length"),
    };
    field.front.len() + length
}

#[test]
fn places_are_those_of_the_standard_library() {
    let (fields, texts, section) = (fields(), texts(), section());
    let known = fields.iter().flat_map(|field| texts.iter().map(move |text| (field, text)));
    assert_eq!(section.size, (fields.len() * texts.len()) as u64);
    for (case, (field, text)) in section.part(0, 1).zip(known) {
        let start = start(field, text.contents.len());
        let contents = &message(&case)[start..][..text.contents.len()];
        assert_eq!(contents, text.contents, "{}", line(&case));
        let wrong = std::str::from_utf8(contents).expect_err("a text that is not well-formed");
        let verdict = judge(&case);
        let no = verdict.answer.reply.expect_err("a text that is refused");
        assert_eq!((no.number, no.place, no.need), (7, start + wrong.valid_up_to(), 0), "{}", line(&case));
        assert_eq!(verdict.complaint, None, "{}", line(&case));
    }
}

#[test]
fn texts_have_each_sequence_everywhere() {
    let texts = texts();
    let has = |sequence: &[u8], at: At, plain: bool, size: usize| {
        texts.iter().any(|text| {
            (text.sequence, text.at, text.plain, text.contents.len()) == (sequence, at, plain, size)
                && std::str::from_utf8(&text.contents).is_err()
        })
    };
    for sequence in ILL_FORMED {
        let sizes = sequence.len()..=20;
        assert!(sizes.clone().all(|size| has(sequence, At::Front, true, size)), "{sequence:x?}");
        for plain in [true, false] {
            assert!(sizes.clone().skip(1).all(|size| has(sequence, At::End, plain, size)), "{sequence:x?}");
            assert!(sizes.clone().skip(2).all(|size| has(sequence, At::Middle, plain, size)), "{sequence:x?}");
        }
    }
    for sequence in CUT {
        assert!((sequence.len()..=20).all(|size| has(sequence, At::End, true, size)), "{sequence:x?}");
        assert!((sequence.len() + 1..=20).all(|size| has(sequence, At::End, false, size)), "{sequence:x?}");
    }
    // The sequence is where it is said to be, and no text is of another size.
    for text in &texts {
        let size = text.contents.len();
        assert!((1..=20).contains(&size) || (4_097..=5_000).contains(&size), "{size}");
        let well_formed = std::str::from_utf8(&text.contents).unwrap_err().valid_up_to();
        assert!(text.contents[well_formed..].starts_with(text.sequence));
        let after = size - well_formed - text.sequence.len();
        match text.at {
            At::Front => assert_eq!(well_formed, 0),
            At::Middle => assert!(well_formed > 0 && after > 0 && well_formed.abs_diff(after) <= 1),
            At::End => assert_eq!(after, 0),
        }
    }
    let long = |at: At, plain: bool| {
        texts.iter().filter(|text| text.contents.len() > 20 && (text.at, text.plain) == (at, plain)).count()
    };
    for (at, plain) in [(At::Front, true), (At::Middle, true), (At::Middle, false), (At::End, true), (At::End, false)] {
        assert!(long(at, plain) >= 6, "{at:?} {plain}");
    }
}

#[test]
fn fields_are_all_texts_that_are_read() {
    let text = &texts()[0];
    let names: Vec<&str> = fields().iter().map(|field| field.case(text, 0).name()).collect();
    let counted = |name: &str| names.iter().filter(|other| **other == name).count();
    for name in ["string", "nullable_string", "compact_string", "compact_nullable_string"] {
        assert_eq!(counted(name), 1, "{name}");
    }
    assert_eq!(counted("request_read"), 2);
    // Host and topic name at 0 to 4, rack from 1, cluster id from 2.
    assert_eq!(counted("metadata_read"), 5 + 5 + 4 + 3);
    assert_eq!(counted("host"), 5 + 5 + 4 + 3);
    assert_eq!(counted("fetch_read"), 5);
    assert_eq!(names.len(), 45);
}

#[test]
fn stored_ones_have_each_field_and_each_sequence() {
    let (fields, texts) = (fields(), texts());
    let chosen = chosen(&fields, &texts);
    for rank in 0..fields.len() {
        assert!(chosen.iter().filter(|(field, _)| *field == rank).count() >= 3, "field {rank}");
    }
    let counted = |sequence: &[u8], at: At| {
        chosen.iter().filter(|(_, text)| (texts[*text].sequence, texts[*text].at) == (sequence, at)).count()
    };
    for sequence in ILL_FORMED {
        assert!([At::Front, At::Middle, At::End].iter().all(|at| counted(sequence, *at) >= 2), "{sequence:x?}");
    }
    assert!(CUT.iter().all(|sequence| counted(sequence, At::End) >= 3));
    assert_eq!(chosen.iter().filter(|(_, text)| texts[*text].contents.len() > 20).count(), 3);
    assert_eq!(stored().len(), chosen.len());
    assert!(stored().iter().all(|case| line(case).len() < 700));
}
