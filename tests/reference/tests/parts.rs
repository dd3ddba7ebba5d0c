//! Elements of lists, messages of chunks, the chunk reader and the ledgers.

mod common;

use common::{flat, frame, hex, refusal};
use reference::{ChunkReader, NULL, chunk_next, chunk_open, credit, element, message, publisher, read};

#[test]
fn elements_of_every_shape() {
    let cases: [(u8, &str, &[u64]); 11] = [
        (1, "0000000000000005 00000002 4142", &[5, 12, 2]),
        (2, "0000000000000005 FFFF 00000001 41", &[5, 0, NULL, 14, 1]),
        (3, "0000000000000005", &[5]),
        (4, "0000000000000005 0012", &[5, 0x12]),
        (5, "0001 6B 0002 7677", &[2, 1, 5, 2]),
        (6, "0000", &[2, 0]),
        (7, "0001 0002 0003", &[1, 2, 3]),
        (8, "0001 0001 68 00001591", &[1, 4, 1, 5521]),
        (9, "0001 73 0001 0002 00000002 0003 0004", &[2, 1, 1, 2, 2, 11, 4]),
        (10, "0001 73 FFFFFFFFFFFFFFFE", &[2, 1, u64::MAX - 1]),
        (11, "0007", &[7]),
    ];
    for (shape, encoded, slots) in cases {
        let one = hex(encoded);
        let length = one.len() as u64;
        let mut expected = [0; 8];
        expected[..slots.len()].copy_from_slice(slots);
        assert_eq!(element(shape, &one, 1, 0, length, 0), Ok(expected), "shape {shape}");
        assert_eq!(refusal(element(shape, &one, 1, 0, length, 1)).0, 10);
        assert_eq!(refusal(element(shape, &one, 2, 0, length, 1)).0, 6);
        assert_eq!(refusal(element(shape, &one, 1, 1, length, 9)).0, 6);
        assert_eq!(refusal(element(shape, &one, 1, 0, length - 1, 0)).0, 6);
        assert_eq!(refusal(element(shape, &one, u64::MAX, u64::MAX, length, 0)).0, 6);
        assert!(element(shape, &one.repeat(2), 7, 0, 2 * length, 1).is_ok());
    }
    assert_eq!(refusal(element(0, &[], 1, 9, 9, 9)).0, 10);
    assert_eq!(refusal(element(12, &[], 1, 9, 9, 9)).0, 10);
}

#[test]
fn a_bad_element_before_the_one_asked_for_is_the_answer() {
    let names = hex("0001 41 0001 FF 0001 42");
    assert!(element(6, &names, 3, 0, 9, 0).is_ok());
    assert_eq!(refusal(element(6, &names, 3, 0, 9, 1)).0, 8);
    assert_eq!(refusal(element(6, &names, 3, 0, 9, 2)).0, 8);
}

/// A chunk of a type with the given entries and data.
fn chunk(kind: u8, entries: u8, data: &[u8]) -> Vec<u8> {
    let mut bytes = vec![0x50, kind, 0, entries, 0, 0, 0, entries];
    bytes.extend([0; 28]);
    bytes.extend((data.len() as u32).to_be_bytes());
    bytes.extend([0; 8]);
    bytes.extend(data);
    bytes
}

#[test]
fn messages_come_by_their_index() {
    let bytes = frame(8, 1, &[&[7][..], &chunk(0, 3, &hex("00000002 4142 00000000 00000001 43"))].concat());
    let deliver = read(&bytes, 0).unwrap();
    assert_eq!(message(&deliver, &bytes, 0), Ok((61, 2)));
    assert_eq!(message(&deliver, &bytes, 1), Ok((67, 0)));
    assert_eq!(message(&deliver, &bytes, 2), Ok((71, 1)));
    assert_eq!(refusal(message(&deliver, &bytes, 3)).0, 10);
    assert_eq!(refusal(message(&deliver, &bytes[..71], 9)).0, 6);
    assert_eq!(refusal(message(&flat(&[0x17, 1]), &bytes, 0)).0, 4);
    assert_eq!(refusal(message(&flat(&[8, 3]), &bytes, 0)).0, 5);

    let packed = frame(8, 1, &[&[7][..], &chunk(1, 1, b"packed")].concat());
    let deliver = read(&packed, 0).unwrap();
    assert_eq!(refusal(message(&deliver, &packed, 0)).0, 10);
    assert_eq!(refusal(message(&deliver, &packed[..60], 0)).0, 6);
}

#[test]
fn the_chunk_reader_gives_each_message_once() {
    let three = chunk(0, 3, &hex("00000002 4142 00000000 00000001 43"));
    let mut reader = ChunkReader::new(&three).unwrap();
    assert_eq!(reader.next(), Some(&b"AB"[..]));
    assert_eq!(reader.next(), Some(&b""[..]));
    assert_eq!(reader.next(), Some(&b"C"[..]));
    assert_eq!(reader.next(), None);
    assert_eq!(reader.next(), None);
}

#[test]
fn a_reader_in_slots_gives_each_message_once() {
    let three = chunk(0, 3, &hex("00000002 4142 00000000 00000001 43"));
    let mut reader = chunk_open(&three).unwrap();
    assert_eq!(reader, [48, 3, 0, 0]);
    for (message, slots) in [((52, 2), [54, 2, 0, 0]), ((58, 0), [58, 1, 0, 0]), ((62, 1), [63, 0, 0, 0])] {
        assert_eq!(chunk_next(&three, &mut reader), Ok(Some(message)));
        assert_eq!(reader, slots);
    }
    for _ in 0..2 {
        assert_eq!(chunk_next(&three, &mut reader), Ok(None));
        assert_eq!(reader, [63, 0, 0, 0]);
    }
}

#[test]
fn a_reader_that_the_host_made_up_gets_an_answer() {
    let one = chunk(0, 1, &hex("00000001 41"));
    let asked = |mut reader| (chunk_next(&one, &mut reader).map_err(|refusal| refusal.number()), reader);
    for place in [0, 48, 53, 54, u64::MAX] {
        assert_eq!(asked([place, 0, 8, 9]), (Ok(None), [place, 0, 8, 9]));
    }
    for place in [49, 50, 53, 54, 1 << 32, u64::MAX - 3, u64::MAX] {
        assert_eq!(asked([place, 1, 8, 9]), (Err(6), [place, 1, 8, 9]));
    }
    let (left, fewer) = (u64::MAX, u64::MAX - 1);
    assert_eq!(asked([48, left, 8, 9]), (Ok(Some((52, 1))), [53, fewer, 8, 9]));
    let top_bit = chunk(0, 1, &hex("80000001 41"));
    let mut reader = [48, 1, 8, 9];
    assert_eq!(refusal(chunk_next(&top_bit, &mut reader)).0, 10);
    assert_eq!(reader, [48, 1, 8, 9]);
}

#[test]
fn the_chunk_reader_is_done_at_once_over_types_1_and_2() {
    for kind in [1, 2] {
        assert_eq!(ChunkReader::new(&chunk(kind, 3, b"packed")).unwrap().count(), 0);
        assert_eq!(chunk_open(&chunk(kind, 3, b"packed")), Ok([48, 0, 0, 0]));
    }
}

#[test]
fn the_chunk_reader_is_made_of_one_chunk_only() {
    let one = chunk(0, 1, &hex("00000001 41"));
    let number = |bytes: &[u8]| refusal(ChunkReader::new(bytes)).0;
    assert_eq!(number(&one[..47]), 6);
    assert_eq!(number(&one[..52]), 6);
    assert_eq!(number(&[&one[..], &[0]].concat()), 11);
    assert_eq!(number(&chunk(3, 0, &[])), 10);
    assert_eq!(number(&chunk(0, 1, &hex("80000001 41"))), 10);
}

#[test]
fn credit_is_counted_in_chunks_up_to_a_million() {
    let mut ledger = [0; 257];
    assert!(credit::open(&mut ledger, 255, 65_535).is_ok());
    assert_eq!(refusal(credit::open(&mut ledger, 255, 1)).0, 14);
    for _ in 0..14 {
        assert!(credit::grant(&mut ledger, 255, 65_535).is_ok());
    }
    assert_eq!(ledger[255], 983_026);
    assert_eq!(refusal(credit::grant(&mut ledger, 255, 16_976)).0, 16);
    assert!(credit::grant(&mut ledger, 255, 16_975).is_ok());
    assert_eq!(ledger[255], 1_000_001);
    assert!(credit::close(&mut ledger, 255).is_ok());
    assert_eq!(refusal(credit::close(&mut ledger, 255)).0, 13);
    assert_eq!(ledger, [0; 257]);
}

#[test]
fn a_forged_ledger_overflows_nothing() {
    let mut ledger = [u32::MAX; 257];
    assert_eq!(refusal(credit::grant(&mut ledger, 0, 65_535)).0, 16);
    assert_eq!(refusal(publisher::send(&mut ledger, 0, u32::MAX)).0, 16);
    assert_eq!(refusal(publisher::confirm(&mut ledger, 0, u32::MAX)).0, 17);
    assert_eq!(ledger, [u32::MAX; 257]);
    assert!(publisher::confirm(&mut ledger, 0, u32::MAX - 1).is_ok());
    assert_eq!((ledger[0], ledger[256]), (1, u32::MAX));
}

#[test]
fn messages_out_are_those_sent_less_those_confirmed() {
    let mut ledger = [0; 257];
    assert_eq!(refusal(publisher::send(&mut ledger, 3, 0)).0, 13);
    assert!(publisher::declare(&mut ledger, 3).is_ok());
    assert_eq!(refusal(publisher::declare(&mut ledger, 3)).0, 14);
    assert!(publisher::send(&mut ledger, 3, 0).is_ok());
    assert!(publisher::send(&mut ledger, 3, 1_000_000).is_ok());
    assert_eq!(refusal(publisher::send(&mut ledger, 3, 1)).0, 16);
    assert!(publisher::confirm(&mut ledger, 3, 400_000).is_ok());
    assert_eq!(refusal(publisher::confirm(&mut ledger, 3, 600_001)).0, 17);
    assert!(publisher::delete(&mut ledger, 3).is_ok());
    assert_eq!(refusal(publisher::delete(&mut ledger, 3)).0, 13);
}
