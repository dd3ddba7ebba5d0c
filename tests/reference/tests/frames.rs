//! Reading and writing at the edges of the rules, and the order of checks.

mod common;

use common::{flat, frame, hex, refusal};
use reference::{NULL, is_listed, keys, read, versions, write};

fn written(slots: &[u64], source: &[u8], limit: u32, room: usize) -> Result<Vec<u8>, u8> {
    let mut out = vec![0xee; room];
    let before = out.clone();
    match write(&flat(slots), source, limit, &mut out) {
        Ok(length) => {
            assert!(out[length..].iter().all(|b| *b == 0xee), "a write touches only the frame");
            out.truncate(length);
            Ok(out)
        }
        Err(refusal) => {
            assert_eq!(out, before, "a refusal touches nothing");
            Err(refusal.number())
        }
    }
}

#[test]
fn there_are_53_keys_and_55_layouts() {
    assert_eq!(keys().count(), 53);
    assert_eq!(keys().map(|key| versions(key).count()).sum::<usize>(), 55);
    for key in 0..=u16::MAX {
        for version in 0..=3 {
            let empty = read(&frame(key, version, &[]), 0).map_or_else(|r| r.number(), |_| 0);
            let expected = match (is_listed(key), is_listed(key) && versions(key).contains(&version)) {
                (false, _) => empty == 4,
                (true, false) => empty == 5,
                (true, true) => matches!(empty, 0 | 6),
            };
            assert!(expected, "key {key:04x} version {version} gives {empty}");
        }
    }
}

#[test]
fn the_response_of_subscribe_is_8007() {
    let content = hex("00000001 0001");
    assert!(read(&frame(0x8007, 1, &content), 0).is_ok());
    assert_eq!(refusal(read(&frame(0x8008, 1, &content), 0)), (4, 4));
}

fn query_publisher(reference: usize) -> Vec<u8> {
    let mut content = hex("00000001");
    content.extend((reference as u16).to_be_bytes());
    content.extend(vec![b'r'; reference]);
    content.extend(hex("0001 73"));
    frame(5, 1, &content)
}

#[test]
fn a_reference_of_256_bytes_is_read_and_written() {
    let bytes = query_publisher(256);
    let frame = read(&bytes, 0).unwrap();
    assert_eq!(frame, flat(&[5, 1, 1, 14, 256, 272, 1]));
    assert_eq!(written(&frame, &bytes, 0, 300), Ok(bytes));
}

#[test]
fn a_reference_of_257_bytes_is_refused() {
    let bytes = query_publisher(257);
    assert_eq!(refusal(read(&bytes, 0)), (9, 12));
    assert_eq!(written(&[5, 1, 1, 14, 257, 273, 1], &bytes, 0, 300), Err(9));
}

#[test]
fn a_deliver_of_size_53_has_no_entries() {
    let mut content = vec![7];
    content.extend(hex("50 00 0000 00000000 0000018000000000 0000000000000001 0000000000000002"));
    content.extend(hex("FFFFFFFF 00000000 00000009 10 ABCDEF"));
    let bytes = frame(8, 1, &content);
    assert_eq!(bytes[..4], [0, 0, 0, 53]);
    let read = read(&bytes, 53).unwrap();
    let numbers = [0x50, 0, 0, 0, 0x0180_0000_0000, 1, 2, u64::MAX, 0, 9, 0x10, 0xab_cdef];
    assert_eq!(read[..3], [8, 1, 7]);
    assert_eq!(read[3..15], numbers);
    assert_eq!(read[15..], [57, 0, 0, 0, 0, 0, 0, 0, 0]);
    assert_eq!(written(&read, &bytes, 53, 57), Ok(bytes));
}

#[test]
fn a_deliver_of_size_61_is_version_2() {
    let mut content = hex("07 00000000000000AA");
    content.extend([0; 48]);
    let bytes = frame(8, 2, &content);
    assert_eq!(bytes[..4], [0, 0, 0, 61]);
    let read = read(&bytes, 0).unwrap();
    assert_eq!(read[..4], [8, 2, 7, 0xaa]);
    assert_eq!(read[16..18], [65, 0]);
    assert_eq!(written(&read, &bytes, 0, 100), Ok(bytes));
}

#[test]
fn limit_size_and_cut_are_checked_in_this_order() {
    assert_eq!(refusal(read(&hex("00000003"), 2)), (2, 0));
    assert_eq!(refusal(read(&hex("00000003"), 3)), (3, 0));
    assert_eq!(refusal(read(&hex("00010000"), 65_535)), (2, 0));
    assert_eq!(refusal(read(&hex("FFFFFFFF"), 0)), (1, 4_294_967_299));
    assert_eq!(refusal(read(&[], 1)), (1, 4));
}

#[test]
fn nothing_behind_the_frame_plays_a_part() {
    assert_eq!(refusal(read(&hex("0000000B 000E 0001 00000001 0001 C3 A9"), 0)), (8, 12));
    assert_eq!(read(&hex("00000004 0017 0001 FF FF"), 0), Ok(flat(&[0x17, 1])));
}

#[test]
fn null_and_empty_stay_different() {
    let declare =
        |reference| frame(1, 1, &[&hex("00000001 07")[..], &hex(reference), &hex("0001 73")].concat());
    assert_eq!(read(&declare("FFFF"), 0), Ok(flat(&[1, 1, 1, 7, 0, NULL, 17, 1])));
    assert_eq!(read(&declare("0000"), 0), Ok(flat(&[1, 1, 1, 7, 15, 0, 17, 1])));
    for reference in ["FFFF", "0000"] {
        let bytes = declare(reference);
        assert_eq!(written(&read(&bytes, 0).unwrap(), &bytes, 0, 20), Ok(bytes));
    }
    assert_eq!(written(&[1, 1, 1, 7, 99, NULL, 17, 1], &declare("FFFF"), 0, 20), Ok(declare("FFFF")));
}

#[test]
fn an_offset_follows_types_4_and_5_only() {
    let update = |spec| frame(0x801a, 1, &[&hex("00000001 0001")[..], &hex(spec)].concat());
    assert_eq!(read(&update("0000"), 0).unwrap()[4..6], [0, 0]);
    assert_eq!(read(&update("0003"), 0).unwrap()[4..6], [3, 0]);
    assert_eq!(read(&update("0005 FFFFFFFFFFFFFFFF"), 0).unwrap()[4..6], [5, u64::MAX]);
    assert_eq!(refusal(read(&update("0003 0000000000000000"), 0)), (11, 16));
    assert_eq!(refusal(read(&update("0004 00"), 0)), (6, 16));
    assert_eq!(refusal(read(&update("0006"), 0)), (10, 14));
    let subscribe = frame(7, 1, &hex("00000001 07 0001 73 0000 000A 00000000"));
    assert_eq!(refusal(read(&subscribe, 0)), (10, 16));
}

#[test]
fn a_chunk_is_checked_in_the_order_of_the_paper() {
    // Type, entries, records, data length and the data that follows.
    let deliver = |kind: u8, entries: u8, records: u8, length: u8, data: &str| {
        let mut content = vec![7, 0, kind, 0, entries, 0, 0, 0, records];
        content.extend([0; 28]);
        content.extend([0, 0, 0, length]);
        content.extend([0; 8]);
        content.extend(hex(data));
        frame(8, 1, &content)
    };
    assert!(read(&deliver(0, 1, 1, 6, "00000002 4142"), 0).is_ok());
    assert_eq!(refusal(read(&deliver(3, 1, 9, 60, ""), 0)), (10, 10));
    assert_eq!(refusal(read(&deliver(0xff, 0, 0, 0, ""), 0)), (10, 10));
    assert_eq!(refusal(read(&deliver(0, 1, 9, 7, "00000002 4142"), 0)), (6, 57));
    assert_eq!(refusal(read(&deliver(0, 1, 9, 5, "00000002 4142"), 0)), (11, 62));
    assert_eq!(refusal(read(&deliver(0, 1, 9, 6, "80000002 4142"), 0)), (10, 13));
    assert_eq!(refusal(read(&deliver(0, 1, 1, 3, "800000"), 0)), (6, 57));
    assert_eq!(refusal(read(&deliver(0, 2, 2, 10, "00000002 4142 80000000"), 0)), (10, 63));
    assert_eq!(refusal(read(&deliver(0, 1, 1, 5, "00000002 41"), 0)), (6, 57));
    assert_eq!(refusal(read(&deliver(0, 0, 0, 5, "0000000000"), 0)), (11, 57));
    assert!(read(&deliver(1, 9, 8, 5, "0000000000"), 0).is_ok());
    assert_eq!(refusal(read(&frame(8, 1, &[7; 48]), 0)), (6, 9));
}

#[test]
fn text_is_checked_in_the_order_of_the_paper() {
    let query = |reference| frame(0x0b, 1, &[&hex("00000001")[..], &hex(reference)].concat());
    assert_eq!(refusal(read(&query("FF"), 0)), (6, 12));
    assert_eq!(refusal(read(&query("FFFE"), 0)), (7, 12));
    assert_eq!(refusal(read(&query("FFFF"), 0)), (7, 12));
    assert_eq!(refusal(read(&query("012C 41"), 0)), (9, 12));
    assert_eq!(refusal(read(&query("0002 FF"), 0)), (6, 12));
    assert_eq!(refusal(read(&query("0001 FF"), 0)), (8, 12));
    assert_eq!(refusal(read(&query("0001 41"), 0)), (6, 15));
}

#[test]
fn utf8_is_that_of_rfc_3629() {
    let name = |text: &str| {
        let body = hex(text);
        let mut content = hex("00000001");
        content.extend((body.len() as u16).to_be_bytes());
        content.extend(body);
        read(&frame(0x0e, 1, &content), 0).map_or_else(|r| r.number(), |_| 0)
    };
    for good in ["7F", "C280", "DFBF", "E0A080", "ED9FBF", "EE8080", "EFBFBF", "F0908080", "F48FBFBF", "00"] {
        assert_eq!(name(good), 0, "{good}");
    }
    for bad in [
        "80", "C0AF", "C1BF", "E09F80", "EDA080", "EDBFBF", "F08FBFBF", "F4908080", "F5808080", "FF", "C2",
        "E0A0", "C241",
    ] {
        assert_eq!(name(bad), 8, "{bad}");
    }
}

#[test]
fn list_elements_are_refused_at_their_own_field() {
    let confirm = |list| frame(3, 1, &[&[7][..], &hex(list)].concat());
    assert_eq!(refusal(read(&confirm("000000"), 0)), (6, 9));
    assert_eq!(refusal(read(&confirm("FFFFFFFF"), 0)), (7, 9));
    assert_eq!(refusal(read(&confirm("00000002 0000000000000001"), 0)), (6, 21));
    assert_eq!(refusal(read(&confirm("7FFFFFFF 0000000000000001 00"), 0)), (6, 21));
    let error = frame(4, 1, &hex("07 00000001 0000000000000001 00"));
    assert_eq!(refusal(read(&error, 0)), (6, 21));
    let metadata = frame(0x800f, 1, &hex("00000001 00000000 00000001 0001 73 0001 0002 00000002 0003"));
    assert_eq!(refusal(read(&metadata, 0)), (6, 33));
}

#[test]
fn writing_checks_fields_then_the_limit_then_the_room() {
    let credit = hex("00000007 0009 0001 05 000A");
    assert_eq!(written(&[9, 1, 5, 10], &[], 7, 11), Ok(credit.clone()));
    assert_eq!(written(&[9, 1, 5, 10], &[], 0, 40), Ok(credit));
    assert_eq!(written(&[9, 1, 5, 10], &[], 0, 10), Err(12));
    assert_eq!(written(&[9, 1, 5, 10], &[], 6, 10), Err(2));
    assert_eq!(written(&[9, 1, 256, 10], &[], 6, 10), Err(10));
    assert_eq!(written(&[9, 1, 5, 65_536], &[], 0, 40), Err(10));
    assert_eq!(written(&[65_545, 1, 5, 10], &[], 0, 40), Err(4));
    assert_eq!(written(&[9, 65_537, 5, 10], &[], 0, 40), Err(5));
    assert_eq!(written(&[0x8002, 9], &[], 0, 40), Err(4));
    assert_eq!(written(&[0x1a, 1, 1, 7, 2], &[], 0, 40), Err(10));
}

#[test]
fn writing_text_checks_length_reference_place_and_utf8() {
    let query = |place, length| written(&[5, 1, 1, place, length, 0, 0], &[0x41, 0xff], 0, 400);
    assert_eq!(query(0, NULL), Err(7));
    assert_eq!(query(9, 32_768), Err(7));
    assert_eq!(query(9, 300), Err(9));
    assert_eq!(query(9, 0), Err(6));
    assert_eq!(query(u64::MAX, 2), Err(6));
    assert_eq!(query(1, 1), Err(8));
    assert!(query(2, 0).is_ok());
}

#[test]
fn writing_a_list_checks_count_place_elements_and_bytes_left() {
    let source = hex("0000000000000001 0000000000000002 00");
    let confirm = |count, place, length| written(&[3, 1, 7, count, place, length], &source, 0, 100);
    assert_eq!(confirm(1 << 31, 99, 0), Err(7));
    assert_eq!(confirm(0, 18, 0), Err(6));
    assert_eq!(confirm(2, 2, 16), Err(6));
    assert_eq!(confirm(2, 0, 15), Err(6));
    assert_eq!(confirm(2, 0, 17), Err(11));
    assert_eq!(confirm(0, 0, 1), Err(11));
    assert!(confirm(2, 0, 16).is_ok());
    assert!(confirm(0, 17, 0).is_ok());
}

#[test]
fn writing_a_chunk_checks_type_place_length_records_and_entries() {
    let source = hex("00000002 4142 80000000");
    let deliver = |kind, entries, records, data_length, place, length| {
        let slots = [8, 1, 7, 0, kind, entries, records, 0, 0, 0, 0, data_length, 0, 0, 0, place, length];
        written(&slots, &source, 0, 100)
    };
    assert!(deliver(0, 1, 1, 6, 0, 6).is_ok());
    assert_eq!(deliver(3, 1, 1, 6, 99, 6), Err(10));
    assert_eq!(deliver(u64::MAX, 1, 1, 6, 0, 6), Err(10));
    assert_eq!(deliver(0, 1, 9, 7, 4, 7), Err(6));
    assert_eq!(deliver(0, 1, 9, 7, 0, 6), Err(6));
    assert_eq!(deliver(0, 1, 9, 5, 0, 6), Err(11));
    assert_eq!(deliver(0, 1, 9, 6, 0, 6), Err(10));
    assert_eq!(deliver(0, 2, 2, 10, 0, 10), Err(10));
    assert_eq!(deliver(0, 1, 1, 10, 0, 10), Err(11));
    let reserved = |value| {
        let slots = [8, 1, 7, 0, 0, 0, 0, 0, 0, 0, 0, 0, 0, 0, value, 0, 0];
        written(&slots, &[], 0, 100)
    };
    assert!(reserved(0xff_ffff).is_ok());
    assert_eq!(reserved(1 << 24), Err(10));
}
