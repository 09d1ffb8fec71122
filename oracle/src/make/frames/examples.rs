//! Frames with the answers to them, worked out by hand.
use crate::case::Case;

/// Each case with the line that answers it.
pub fn all() -> Vec<(Case, &'static str)> {
    let parsed = |(case, answer): &(&str, &'static str)| (Case::parse(case.as_bytes()).expect("a case"), *answer);
    [READ.as_slice(), &WRITTEN, &NUMBERS].concat().iter().map(parsed).collect()
}

const READ: [(&str, &str); 38] = [
    ("request_frame_read 2 3 00000010001200030000000700016701050141ff00", "ok 20 18 3 7 14:67 1 19:ff 5,18,1 kept"),
    ("response_frame_read 0 0 0000000600000007abcd", "ok 10 7 -1 8:abcd - kept"),
    ("response_frame_read 0 3 0000000600000007", "no 3 0 0 777,777,777 kept"),
    ("request_frame_read 1 0 0000000a0012000300000007ffff", "ok 14 18 3 7 null -1 14:- - kept"),
    // The same bytes with the other header: no byte is left for a count of tags.
    ("request_frame_read 2 0 0000000a0012000300000007ffff", "no 3 14 0 - kept"),
    ("request_frame_read 2 0 0000000b0012000300000007ffff00", "ok 15 18 3 7 null 0 15:- - kept"),
    ("request_frame_read 1 0 0000000b0012000300000007ffff00", "ok 15 18 3 7 null -1 14:00 - kept"),
    // An empty client name is no null.
    ("request_frame_read 1 0 0000000affff8000800000000000", "ok 14 -1 -32768 -2147483648 14:- -1 14:- - kept"),
    ("response_frame_read 1 0 00000005ffffffff00", "ok 9 -1 0 9:- - kept"),
    ("response_frame_read 1 6 0000000d0000000702ac0200050141abcd", "ok 17 7 2 15:abcd 300,12,0,5,14,1 kept"),
    ("response_frame_read 1 5 0000000d0000000702ac0200050141abcd", "no 10 0 2 777*5 kept"),
    ("response_frame_read 0 0 0000000d0000000702ac0200050141abcd", "ok 17 7 -1 8:02ac0200050141abcd - kept"),
    // Unknown headers, before everything else.
    ("request_frame_read 0 0 000000080012000300000007", "no 1 0 0 - kept"),
    ("request_frame_read 3 0 ffffffff", "no 1 0 0 - kept"),
    ("request_frame_read -1 0 -", "no 1 0 0 - kept"),
    ("response_frame_read 2 1 0000000400000007", "no 1 0 0 777 kept"),
    ("response_frame_read -1 0 0000000400000007", "no 1 0 0 - kept"),
    ("response_frame_read 65536 0 0000000400000007", "no 1 0 0 - kept"),
    // Sizes.
    ("response_frame_read 0 0 -", "no 3 0 0 - kept"),
    ("response_frame_read 0 0 ffffff", "no 3 0 0 - kept"),
    ("response_frame_read 0 0 ffffffff", "no 14 0 0 - kept"),
    ("response_frame_read 0 0 80000000,00*20", "no 14 0 0 - kept"),
    ("response_frame_read 0 0 00100001", "no 14 0 0 - kept"),
    ("response_frame_read 0 0 00100001,00*1048577", "no 14 0 0 - kept"),
    ("response_frame_read 0 0 00100000", "no 3 0 0 - kept"),
    ("response_frame_read 0 0 00100000,00*1048575", "no 3 0 0 - kept"),
    ("response_frame_read 0 0 00100000,00*1048576", "ok 1048580 0 -1 8:00*1048572 - kept"),
    ("response_frame_read 0 0 00100000,00*1048636", "ok 1048580 0 -1 8:00*1048572 - kept"),
    ("response_frame_read 0 0 7fffffff", "no 14 0 0 - kept"),
    ("response_frame_read 0 0 00000000", "no 3 4 0 - kept"),
    // A header that overruns its frame, though more bytes are lent.
    ("response_frame_read 0 0 0000000300000007", "no 3 4 0 - kept"),
    ("request_frame_read 1 0 0000000900120003000000070001,61*9", "no 3 12 0 - kept"),
    ("request_frame_read 1 0 0000000b0012000300000007000261,61*9", "no 3 12 0 - kept"),
    ("response_frame_read 1 3 0000000600000007010501,41*9", "no 3 10 0 777,777,777 kept"),
    // What a header refuses, at its place in the frame.
    ("request_frame_read 1 0 0000000a0012000300000007fffe", "no 4 12 0 - kept"),
    ("request_frame_read 1 0 0000000d0012000300000007000361c328", "no 7 15 0 - kept"),
    ("response_frame_read 1 0 0000000e00000007,80*10", "no 5 8 0 - kept"),
    // The next frame has no part in it.
    ("response_frame_read 0 0 000000060000000700ff0000000500000008ab", "ok 10 7 -1 8:00ff - kept"),
];

const WRITTEN: [(&str, &str); 24] = [
    ("request_frame_write 15 1 - 18 3 7 null -1 - -", "ok 14 0000000a0012000300000007ffffa5 kept"),
    ("request_frame_write 15 1 - 18 3 7 absent -1 - -", "ok 14 0000000a0012000300000007ffffa5 kept"),
    ("request_frame_write 15 2 - 18 3 7 absent -1 - -", "ok 15 0000000b0012000300000007ffff00 kept"),
    ("request_frame_write 20 2 6741 18 3 7 0:1 1 5,1,1 ff", "ok 20 00000010001200030000000700016701050141ff kept"),
    ("response_frame_write 13 1 41 7 1 5,0,1 ab", "ok 13 000000090000000701050141ab kept"),
    ("response_frame_write 11 1 41 7 1 5,0,1 ab", "no 10 0 13 a5*11 kept"),
    // Tags that the header does not have are judged, and dropped.
    ("response_frame_write 9 0 41 7 1 5,0,1 ab", "ok 9 0000000500000007ab kept"),
    ("response_frame_write 9 0 41 7 1 5,0,2 ab", "no 13 0 0 a5*9 kept"),
    ("response_frame_write 9 0 41 7 2 5,0,1 ab", "no 13 0 0 a5*9 kept"),
    ("response_frame_write 9 1 41 7 -1 5,0,1 ab", "no 13 0 0 a5*9 kept"),
    ("response_frame_write 9 1 - 7 -2 - -", "no 13 0 0 a5*9 kept"),
    ("request_frame_write 9 1 61 18 3 7 0:2 -1 - -", "no 13 0 0 a5*9 kept"),
    // Unknown headers first, then 13, then fields in their order.
    ("request_frame_write 9 0 61 18 3 7 0:2 -1 - -", "no 1 0 0 a5*9 kept"),
    ("response_frame_write 9 2 - 2147483648 -2 - -", "no 1 0 0 a5*9 kept"),
    ("request_frame_write 9 1 - 32768 3 7 null 5 - -", "no 13 0 0 a5*9 kept"),
    ("request_frame_write 9 1 ff 18 3 2147483648 0:1 -1 - -", "no 11 0 0 a5*9 kept"),
    ("request_frame_write 9 1 ff 18 3 7 0:1 -1 - -", "no 7 0 0 a5*9 kept"),
    ("request_frame_write 9 1 61*32768 18 3 7 0:32768 -1 - -", "no 11 0 0 a5*9 kept"),
    ("request_frame_write 9 1 61*32767 18 3 7 0:32767 -1 - -", "no 10 0 32781 a5*9 kept"),
    // 2 counts header and body, and 10 the size's four bytes too.
    ("response_frame_write 1048580 0 - 7 -1 - 62*1048572", "ok 1048580 0010000000000007,62*1048572 kept"),
    ("response_frame_write 1048579 0 - 7 -1 - 62*1048572", "no 10 0 1048580 a5*1048579 kept"),
    ("response_frame_write 1048640 0 - 7 -1 - 62*1048573", "no 2 0 0 a5*1048640 kept"),
    ("response_frame_write 0 1 - 7 -1 - 62*1048572", "no 2 0 0 - kept"),
    ("response_frame_write 0 0 - 2147483648 -1 - 62*1048573", "no 11 0 0 - kept"),
];

const NUMBERS: [(&str, &str); 9] = [
    ("request_number 18 3", "ok 2"),
    ("request_number 18 2", "ok 1"),
    ("request_number 18 -1", "ok 1"),
    ("request_number 3 4", "ok 1"),
    ("request_number 65554 3", "ok 1"),
    ("request_number 18 65536", "ok 2"),
    ("response_number 18 3", "ok 0"),
    ("response_number 3 4", "ok 0"),
    ("response_number 18446744073709551615 18446744073709551615", "ok 0"),
];
