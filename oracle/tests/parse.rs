//! Cases read back from their lines, and a stored list answered again.
use oracle::case::Case;
use oracle::make;
use oracle::stored::again;

fn line(case: &Case) -> Vec<u8> {
    let mut line = vec![];
    case.put(&mut line);
    line
}

/// What a line becomes that is read and written again.
fn back(text: &str) -> Option<String> {
    Case::parse(text.as_bytes()).map(|case| String::from_utf8(line(&case)).unwrap())
}

#[test]
fn lines_come_back() {
    const EACH: usize = 3_000;
    let fixed = make::short(1, 0).err().expect("the fixed part has inputs");
    for section in make::short(1, fixed + EACH as u64).unwrap() {
        for case in section.part(0, 1).take(EACH) {
            let before = line(&case);
            let after = Case::parse(&before).map(|case| line(&case));
            assert!(after.as_ref() == Some(&before), "{}", String::from_utf8_lossy(&before[..before.len().min(300)]));
        }
    }
}

#[test]
fn numbers_and_pieces_may_be_spelled_otherwise() {
    let same = [
        ("host 00 -0 00,00*1,0000", "host 0 0 00000000"),
        ("host -1 18446744073709551615 -", "host -1 -1 -"),
        ("host 18446744073709551615 -9223372036854775808 -", "host -1 -9223372036854775808 -"),
        ("int8 61*4,61*4", "int8 61*8"),
        ("agree 001,-1*2,5*2,5*2", "agree 1,-1,-1,5*4"),
        ("write_int64 008 18446744073709551615", "write_int64 8 -1"),
        ("write_unsigned_varint 1 -1", "write_unsigned_varint 1 18446744073709551615"),
        ("write_compact_array_count 1 -2", "write_compact_array_count 1 18446744073709551614"),
        (
            "request_write 3 3 - 00:18446744073709551615 absent -1 -",
            "request_write 3 3 - 0:18446744073709551615 absent -1 -",
        ),
        ("fetch_request_write 21 4 - -1 500 1 -0 001 0 - -", "fetch_request_write 21 4 - -1 500 1 0 1 0 - -"),
        ("request_frame_read 18446744073709551615 007 00*1,00", "request_frame_read -1 7 0000"),
        ("response_frame_read -9223372036854775808 0 -", "response_frame_read -9223372036854775808 0 -"),
        (
            "request_frame_write 09 01 61*1 -0 18446744073709551615 7 00:01 -1 - 00,00",
            "request_frame_write 9 1 61 0 -1 7 0:1 -1 - 0000",
        ),
        ("request_frame_write 9 1 - 1 2 3 absent 0 1,2 -", "request_frame_write 9 1 - 1 2 3 absent 0 1,2 -"),
        ("request_frame_write 9 1 - 1 2 3 null 0 - 62*9", "request_frame_write 9 1 - 1 2 3 null 0 - 62*9"),
        (
            "response_frame_write 0 65536 - 99999999999 1 5*2,5*2 -",
            "response_frame_write 0 65536 - 99999999999 1 5*4 -",
        ),
        ("request_number 018 65536", "request_number 18 65536"),
        ("response_number -0 18446744073709551615", "response_number 0 -1"),
    ];
    for (odd, plain) in same {
        assert_eq!(back(odd).as_deref(), Some(plain));
        assert_eq!(back(plain).as_deref(), Some(plain));
    }
}

#[test]
fn bad_lines_give_nothing() {
    let bad = [
        // The call, and how many words there are.
        "",
        " ",
        "bad",
        "part 00",
        "int8",
        "INT8 00",
        " int8 00",
        "int8  00",
        "int8 00 ",
        "int8 00 00",
        "int8\t00",
        "host 0 0",
        "host 0 0 - 0",
        "tagged_fields 00",
        "tagged_fields 0 1 00",
        "metadata_read 0 0 0 0 0 00",
        "fetch_read 0 0 0 00",
        "fetch_read 0 0 0 0 0 00",
        "fetch_request_write 21 4 - -1 500 1 absent absent 0 -",
        "fetch_request_write 21 4 - -1 500 1 absent absent 0 - - -",
        // Bytes and cells.
        "int8 0",
        "int8 000",
        "int8 0G",
        "int8 AA",
        "int8 +1",
        "int8 00,",
        "int8 ,00",
        "int8 00,,00",
        "int8 00*0",
        "int8 00*",
        "int8 00*-1",
        "int8 00*+1",
        "int8 00*1*1",
        "int8 0000*2",
        "int8 0*2",
        "int8 *3",
        "int8 --",
        "int8 00*1048641",
        "int8 00*1048640,00",
        "int8 é",
        "agree",
        "agree 1,,2",
        "agree 1*0",
        "agree 1*",
        "agree *2",
        "agree 1*2*3",
        "agree 1*65537",
        "agree 1*65536,1",
        "agree +1",
        "agree 0x1",
        "agree 18446744073709551616",
        // Numbers, rooms and versions.
        "write_int8 1 -",
        "write_int8 1 --1",
        "write_int8 1 +1",
        "write_int8 1 1.0",
        "write_int8 1 18446744073709551616",
        "write_int8 1 -9223372036854775809",
        "write_int8 -1 0",
        "write_int8 1048641 0",
        "tagged_fields 65537 00",
        "response_read 0 65537 0 -",
        "response_read absent 1 1 -",
        "response_read 32768 1 1 -",
        "response_read -32769 1 1 -",
        "response_read 65536 1 1 -",
        "host 4294967296 0 -",
        "host 0 absent -",
        // Words of a value to write.
        "write_boolean 1 2",
        "write_boolean 1 01",
        "write_boolean 1 true",
        "write_string 4 null",
        "write_records 4 null",
        "write_compact_bytes 4 null",
        "write_int8 1 null",
        "write_nullable_string 1 absent",
        "write_array_count 1 absent",
        "response_write 4 0 - 0 0 null -1 - -",
        "response_write 4 0 - absent 0 0 -1 - -",
        "request_write 4 0 - 0:0 1 -1 -",
        "request_write 4 0 - 0: 0:0 -1 -",
        "request_write 4 0 - :0 0:0 -1 -",
        "request_write 4 0 - 0:0:0 0:0 -1 -",
        "request_write 4 0 - -1:0 0:0 -1 -",
        "request_write 4 0 - 18446744073709551616:0 0:0 -1 -",
        "metadata_request_write 5 4 - 0 2 -",
        "metadata_request_write 5 4 - 0 null -",
        "metadata_request_write 5 4 - null absent -",
        "fetch_request_write 21 4 - -1 500 1 absent 0:0 0 - -",
        // Frames.
        "request_frame_read 1 00",
        "request_frame_read 1 0 00 00",
        "request_frame_read absent 0 00",
        "request_frame_read 18446744073709551616 0 00",
        "request_frame_read 1 65537 00",
        "response_frame_read 0 -1 00",
        "response_frame_read 0 0 0",
        "request_frame_write 9 1 - 1 2 3 null 0 -",
        "request_frame_write 9 1 - 1 2 3 null 0 - - -",
        "request_frame_write 1048641 1 - 1 2 3 null 0 - -",
        "request_frame_write 9 1 - absent 2 3 null 0 - -",
        "request_frame_write 9 1 - 1 2 3 0 0 - -",
        "request_frame_write 9 1 - 1 2 3 nul 0 - -",
        "request_frame_write 9 1 - 1 2 3 null null - -",
        "request_frame_write 9 1 - 1 2 3 null 0 - null",
        "request_frame_write 9 1 - 1 2 3 null 0 - 00*1048641",
        "response_frame_write 9 1 - null 0 - -",
        "response_frame_write 9 1 - 7 null 0 - -",
        "response_frame_write 9 1 - 7 0 1,,2 -",
        "request_number 18",
        "request_number 18 3 0",
        "request_number 18 absent",
        "response_number 18446744073709551616 0",
        "response_number - 0",
    ];
    for line in bad {
        assert_eq!(back(line), None, "{line:?}");
    }
    assert!(Case::parse(b"int8 \xff").is_none());
}

#[test]
fn a_list_is_answered_again() {
    let moved = again(
        &[b"string 0003616180", b"string 000161", b"bad", b"host 65536 0 -"],
        &["no 7 0 0", "ok 3 2:61", "bad case", "no 1 0 0"],
    );
    assert_eq!(moved.expected, ["no 7 4 0", "ok 3 2:61", "bad case", "no 1 0 0"]);
    assert_eq!((moved.judged, moved.copied, moved.changed), (2, 2, 1));
    assert_eq!(moved.wrong, Vec::<String>::new());
}

/// Another number, need or table, another place of another number, an acceptance; and what is copied without a reason.
#[test]
fn other_changes_are_wrong() {
    let wrong: [(&[u8], &str); 8] = [
        (b"string 000180", "no 3 2 0"),
        (b"string 000180", "no 7 2 1"),
        (b"string 000180", "ok 3 2:80"),
        (b"request_read 3 3 0280", "no 7 1 0 777,777 kept"),
        (b"request_read 3 3 0280", "no 7 0 0 777,777,777"),
        (b"string 0002", "no 3 2 0"),
        (b"string 000161", "no 7 2 0"),
        (b"string 0001,80,", "no 7 0 0"),
    ];
    for (case, before) in wrong {
        assert_eq!(again(&[case], &[before]).wrong.len(), 1, "{before}");
    }
    assert_eq!(again(&[b"request_read 3 3 0280"], &["no 7 0 0 777,777,777 kept"]).wrong, Vec::<String>::new());
}
