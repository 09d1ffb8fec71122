//! Bodies worked out by hand from the rules (docs/RULES.md): what is read, what is refused, and what is written.

use befrolan::*;

fn hex(s: &str) -> Vec<u8> {
    let digits: Vec<u8> = s.bytes().filter(|b| !b.is_ascii_whitespace()).collect();
    digits.chunks(2).map(|d| u8::from_str_radix(std::str::from_utf8(d).unwrap(), 16).unwrap()).collect()
}

#[test]
fn an_answer_is_read_at_its_own_version_alone() {
    let mut tables = ApiVersionsTables::default();
    // E9: version 0, one row (18, 0, 3)
    let body = hex("0000 00000001 0012 0000 0003");
    let r = read_api_versions_response(&body, 0, Read::Whole, &mut tables).unwrap();
    assert_eq!((r.error, r.throttle_time_ms, r.used), (0, None, 12));
    let rows: Vec<_> = r.api_versions().map(|v| (v.api_key, v.min_version, v.max_version, v.tags.is_some())).collect();
    assert_eq!(rows, [(18, 0, 3, false)]);
    let e = read_api_versions_response(&body, 1, Read::Whole, &mut tables).unwrap_err();
    assert_eq!((e.number, e.place), (Refusal::BYTES_END, 12));
    let e = read_api_versions_response(&body, 3, Read::Whole, &mut tables).unwrap_err();
    assert_eq!((e.number, e.place), (Refusal::NULL_ITEMS, 2));
    assert_eq!(e.to_string(), "8 at byte 2: the items are null, and the body was read whole");
    // E11: version 3
    let body = hex("0000 02 0012 0000 0003 00 00000000 00");
    let r = read_api_versions_response(&body, 3, Read::Whole, &mut tables).unwrap();
    assert_eq!((r.throttle_time_ms, r.used, r.tags().unwrap().count()), (Some(0), 15, 0));
    // E12: a body of version 1 as a prefix at 3: no items, and a tag of its own
    let body = hex("0000 00000000 00010500");
    let r = read_api_versions_response(&body, 3, Read::Prefix, &mut tables).unwrap();
    assert_eq!(r.api_versions().count(), 0);
    assert_eq!(r.tags().unwrap().collect::<Vec<_>>(), [Tag { tag: 5, data: &[] }]);
}

#[test]
fn a_version_that_there_is_not_is_refused_whatever_its_low_bits_are() {
    let offer = hex("0000 00000001 0012 0000 0003");
    let metadata = hex("00000000 00000000");
    let fetch = hex("00000000");
    let mut out = [0xa5; 64];
    for version in [65_536, 65_539, -1, -65_536, 1 << 32, i64::MIN, i64::MAX] {
        let no = Refusal { number: Refusal::NO_VERSION, place: 0, need: 0 };
        for read in [Read::Prefix, Read::Whole] {
            let mut tables = ApiVersionsTables::default();
            assert_eq!(read_api_versions_response(&offer, version, read, &mut tables).unwrap_err(), no);
        }
        assert_eq!(read_api_versions_request(&[], version, &mut ApiVersionsTables::default()).unwrap_err(), no);
        assert_eq!(read_metadata_response(&metadata, version, &mut MetadataTables::default()).unwrap_err(), no);
        assert_eq!(find_host(&metadata, version, 1), Err(no));
        assert_eq!(read_fetch_response(&fetch, version, &mut FetchTables::default()).unwrap_err(), no);
        assert_eq!(ApiVersionsAnswer::new(0).write(&mut out, version), Err(no));
        assert_eq!(write_api_versions_request(&mut out, version, "gw", "1"), Err(no));
        assert_eq!(write_metadata_request(&mut out, version, None, None), Err(no));
        assert_eq!(FetchRequest::new(500, 1).write(&mut out, version), Err(no));
        assert_eq!(out, [0xa5; 64]);
    }
    // any integer that fits is a version, with no cast
    let mut tables = ApiVersionsTables::default();
    assert!(read_api_versions_response(&offer, 0_u8, Read::Whole, &mut tables).is_ok());
    assert!(read_api_versions_response(&offer, 0_i16, Read::Whole, &mut tables).is_ok());
    assert_eq!(find_host(&metadata, 65_536_u32, 1).unwrap_err().number, Refusal::NO_VERSION);
}

#[test]
fn empty_slices_are_lent_like_any_others() {
    assert_eq!(find_host(&[], 0, 1).unwrap_err().number, Refusal::BYTES_END);
    let e = write_api_versions_request(&mut [], 3, "", "").unwrap_err();
    assert_eq!((e.number, e.need), (Refusal::NO_ROOM, 3));
    assert_eq!(write_api_versions_request(&mut [], 0, "", ""), Ok(0));
    let e = FetchRequest::new(500, 1).write(&mut [], 4).unwrap_err();
    assert_eq!((e.number, e.need), (Refusal::NO_ROOM, 21));
}

#[test]
fn tables_grow_to_what_a_message_needs() {
    let mut body = hex("0000 000003e8");
    for key in 0..1000u16 {
        body.extend(key.to_be_bytes());
        body.extend([0, 1, 0, 2]);
    }
    let mut tables = ApiVersionsTables::default();
    let r = read_api_versions_response(&body, 0, Read::Whole, &mut tables).unwrap();
    assert!(r.api_versions().enumerate().all(|(i, v)| v.api_key == i as i16 && v.max_version == 2));
    assert_eq!(r.api_versions().count(), 1000);
    assert_eq!(r.agree()[1], Agreed { api_key: 3, version: Some(2), broker_maximum: Some(2) });
}

#[test]
fn metadata_has_its_rows_under_their_topics() {
    // version 4: throttle 7; brokers 1 "h1" rack null, 2 "" rack "r"; cluster "c"; controller 1; topics "a" with two partitions, "b" with one
    let body = hex(
        "00000007 00000002 00000001 0002 6831 00002384 ffff 00000002 0000 00002385 0001 72 0001 63 00000001 00000002
         0000 0001 61 01 00000002
           0000 00000000 00000001 00000002 00000001 00000002 00000001 00000001
           0005 00000001 ffffffff ffffffff 00000000
         0003 0001 62 00 00000001
           0000 00000000 00000002 00000001 00000002 ffffffff",
    );
    let mut tables = MetadataTables::default();
    let r = read_metadata_response(&body, 4, &mut tables).unwrap();
    assert_eq!((r.throttle_time_ms, r.cluster_id, r.controller_id, r.used), (Some(7), Field::Present("c"), Some(1), body.len()));
    assert_eq!(
        r.brokers().collect::<Vec<_>>(),
        [
            Broker { node_id: 1, host: "h1", port: 9092, rack: Field::Null },
            Broker { node_id: 2, host: "", port: 9093, rack: Field::Present("r") },
        ]
    );
    let topics: Vec<_> = r.topics().map(|t| (t.error_code, t.name, t.is_internal)).collect();
    assert_eq!(topics, [(0, "a", Some(true)), (3, "b", Some(false))]);
    let partitions: Vec<_> = r
        .topics()
        .flat_map(|t| t.partitions.map(move |p| (t.name, p.error_code, p.partition_index, p.leader_id, p.replica_nodes.map(Vec::from_iter), p.isr_nodes.map(Vec::from_iter))))
        .collect();
    assert_eq!(
        partitions,
        [
            ("a", 0, 0, 1, Some(vec![1, 2]), Some(vec![1])),
            ("a", 5, 1, -1, None, Some(vec![])),
            ("b", 0, 0, 2, Some(vec![2]), None),
        ]
    );
    assert_eq!(find_host(&body, 4, 2), Ok(Some("")));
    assert_eq!(find_host(&body, 4, 3), Ok(None));
    assert_eq!(find_host(&body[..body.len() - 1], 4, 1).unwrap_err().number, Refusal::BYTES_END);
}

#[test]
fn a_metadata_request_tells_null_from_empty() {
    let mut out = [0xa5; 32];
    assert_eq!(write_metadata_request(&mut out, 4, None, None), Ok(5));
    assert_eq!(out[..6], hex("ffffffff 01 a5"));
    assert_eq!(write_metadata_request(&mut out, 4, Some(&[]), Some(false)), Ok(5));
    assert_eq!(out[..6], hex("00000000 00 a5"));
    assert_eq!(write_metadata_request(&mut out, 0, Some(&["ab", "c"]), Some(true)), Ok(11));
    assert_eq!(out[..11], hex("00000002 0002 6162 0001 63"));
    let e = write_metadata_request(&mut out[..3], 0, None, None).unwrap_err();
    assert_eq!((e.number, e.need), (Refusal::NO_ROOM, 4));
    assert_eq!(e.to_string(), "10: there is too little room: 4 are needed");
}

#[test]
fn fetched_records_are_parts_of_the_message() {
    // version 4: throttle 1; topic "t" with a partition of one aborted transaction and three bytes, and one with null records
    let body = hex(
        "00000001 00000001 0001 74 00000002
           00000000 0000 0000000000000009 0000000000000008 00000001 0000000000000004 0000000000000005 00000003 616263
           00000001 0006 ffffffffffffffff ffffffffffffffff ffffffff ffffffff",
    );
    let mut tables = FetchTables::default();
    let r = read_fetch_response(&body, 4, &mut tables).unwrap();
    assert_eq!((r.throttle_time_ms, r.used), (Some(1), body.len()));
    let t = r.topics().next().unwrap();
    assert_eq!(t.topic, "t");
    let p: Vec<_> = t.partitions.collect();
    assert_eq!((p[0].high_watermark, p[0].last_stable_offset, p[0].records), (9, 8, &b"abc"[..]));
    assert_eq!(p[0].aborted_transactions.collect::<Vec<_>>(), [AbortedTransaction { producer_id: 4, first_offset: 5 }]);
    assert_eq!((p[1].error_code, p[1].aborted_transactions.count(), p[1].records.len()), (6, 0, 0));
    assert!(body.as_ptr_range().contains(&p[0].records.as_ptr()));
    assert_eq!(read_fetch_response(&[], 4, &mut tables).unwrap_err().to_string(), "3 at byte 0: the message ends inside a field");
}

#[test]
fn the_worked_fetch_request_has_its_bytes() {
    let mut out = [0xa5; 64];
    let mut request = FetchRequest::new(500, 1);
    assert_eq!(request.write(&mut out, 4), Ok(21));
    assert_eq!(out[..22], hex("ffffffff 000001f4 00000001 7fffffff 00 00000000 a5"));
    request.isolation_level = Some(2);
    assert_eq!(request.write(&mut out, 4).unwrap_err().number, Refusal::TOO_WIDE);
    assert_eq!(request.write(&mut out, 3), Ok(20));
    assert_eq!(request.write(&mut out, 5).unwrap_err().number, Refusal::NO_VERSION);
    request.topic("ab", &[WantedPartition { partition: 3, fetch_offset: 256, partition_max_bytes: 1 }]);
    assert_eq!(request.write(&mut out, 0), Ok(40));
    request.clear();
    assert_eq!(request.write(&mut out, 0), Ok(16));
}

#[test]
fn a_request_tells_who_the_client_is() {
    let mut out = [0; 32];
    let n = write_api_versions_request(&mut out, 3, "gw", "1").unwrap();
    assert_eq!(out[..n], hex("03 6777 02 31 00"));
    let mut tables = ApiVersionsTables::default();
    let r = read_api_versions_request(&out[..n], 3, &mut tables).unwrap();
    assert_eq!((r.client_software_name, r.client_software_version, r.used), (Some("gw"), Some("1"), n));
    assert_eq!(r.tags().unwrap().count(), 0);
    assert_eq!(write_api_versions_request(&mut out, 2, "gw", "1"), Ok(0));
}

#[test]
fn an_answer_is_written_and_comes_back() {
    let mut answer = ApiVersionsAnswer::new(0);
    answer.api(18, 0, 3, &[]);
    let mut out = [0xa5; 32];
    // E9, E10 and E11: the same row at 0, 1 and 3
    assert_eq!(answer.write(&mut out, 0), Ok(12));
    assert_eq!(out[..13], hex("0000 00000001 0012 0000 0003 a5"));
    assert_eq!(answer.write(&mut out, 1), Ok(16));
    assert_eq!(out[..17], hex("0000 00000001 0012 0000 0003 00000000 a5"));
    assert_eq!(answer.write(&mut out, 3), Ok(15));
    assert_eq!(out[..15], hex("0000 02 0012 0000 0003 00 00000000 00"));
    // tags of a row stand behind it, and the answer's own at the end
    answer.api(3, -1, 4, &[Tag { tag: 300, data: b"ab" }]);
    answer.tag(Tag { tag: 7, data: b"" });
    answer.throttle_time_ms = Some(9);
    let n = answer.write(&mut out, 3).unwrap();
    assert_eq!(out[..n], hex("0000 03 0012 0000 0003 00 0003 ffff 0004 01 ac02 02 6162 00000009 01 07 00"));
    let mut tables = ApiVersionsTables::default();
    let back = read_api_versions_response(&out[..n], 3, Read::Whole, &mut tables).unwrap();
    let rows: Vec<_> = back.api_versions().map(|v| (v.api_key, v.min_version, v.tags.unwrap().collect::<Vec<_>>())).collect();
    assert_eq!(rows, [(18, 0, vec![]), (3, -1, vec![Tag { tag: 300, data: b"ab" }])]);
    assert_eq!(back.tags().unwrap().collect::<Vec<_>>(), [Tag { tag: 7, data: b"" }]);
    let mut tables = ApiVersionsTables::default();
    assert!(read_api_versions_response(&out[..n], 1, Read::Whole, &mut tables).is_err());
    assert_eq!(answer.write(&mut out[..4], 3), Err(Refusal { number: Refusal::NO_ROOM, place: 0, need: n }));
}

#[test]
fn a_text_is_refused_at_its_first_bad_letter() {
    // One topic of Metadata 0, without brokers: its name is "caf", E9 for é as Latin-1 has it, and "s".
    let body = hex("00000000 00000001 0000 0005 636166e973 00000000");
    let mut tables = MetadataTables::default();
    let e = read_metadata_response(&body, 0, &mut tables).unwrap_err();
    assert_eq!((e.number, e.place, body[e.place]), (Refusal::NOT_TEXT, 15, 0xe9));
    assert_eq!(find_host(&body, 0, 1), Err(e));
    assert_eq!(well_formed(&body[12..17]), 3);
}

#[test]
fn refusals_have_the_words_of_the_night_desk() {
    let words = include_str!("../../data/refusals.txt");
    assert_eq!(words.lines().count(), 14);
    for line in words.lines() {
        let (number, means) = line.split_once(' ').unwrap();
        let said = Refusal { number: number.parse().unwrap(), place: 5, need: 6 }.to_string();
        assert!(said.starts_with(number) && said.contains(means), "{said}");
    }
}
