//! The marked cases A to N of 01, "Frames and calls on either side". The frame limit is 0.

mod common;

use common::{flat, frame, hex, refusal};
use reference::{credit, read};

#[test]
fn a_heartbeat() {
    assert_eq!(read(&hex("00000004 0017 0001"), 0), Ok(flat(&[0x17, 1])));
}

#[test]
fn b_credit() {
    assert_eq!(read(&hex("00000007 0009 0001 05 000A"), 0), Ok(flat(&[9, 1, 5, 10])));
}

#[test]
fn c_heartbeat_with_a_byte_left() {
    assert_eq!(refusal(read(&hex("00000005 0017 0001 00"), 0)), (11, 8));
}

#[test]
fn d_size_three() {
    assert_eq!(refusal(read(&hex("00000003"), 0)), (3, 0));
}

#[test]
fn e_key_zero() {
    assert_eq!(refusal(read(&hex("00000004 0000 0001"), 0)), (4, 4));
}

#[test]
fn f_heartbeat_of_version_two() {
    assert_eq!(refusal(read(&hex("00000004 0017 0002"), 0)), (5, 6));
}

#[test]
fn g_credit_cut_inside_its_last_field() {
    assert_eq!(refusal(read(&hex("00000006 0009 0001 05 00"), 0)), (6, 9));
}

#[test]
fn h_response_of_credit() {
    assert_eq!(read(&hex("00000007 8009 0001 0004 05"), 0), Ok(flat(&[0x8009, 1, 4, 5])));
}

#[test]
fn i_delete_with_an_empty_name() {
    let bytes = hex("0000000A 000E 0001 00000001 0000");
    assert_eq!(read(&bytes, 0), Ok(flat(&[0x0e, 1, 1, 14, 0])));
}

#[test]
fn j_delete_with_a_null_name() {
    assert_eq!(refusal(read(&hex("0000000A 000E 0001 00000001 FFFF"), 0)), (7, 12));
}

#[test]
fn k_delete_with_a_name_that_is_not_utf8() {
    assert_eq!(refusal(read(&hex("0000000B 000E 0001 00000001 0001 C0"), 0)), (8, 12));
}

#[test]
fn l_three_bytes() {
    assert_eq!(refusal(read(&hex("000000"), 0)), (1, 4));
}

/// A Deliver of version 1 with no entries, for an id.
fn deliver(id: u8) -> Vec<u8> {
    let mut content = vec![id];
    content.extend([0; 48]);
    frame(8, 1, &content)
}

#[test]
fn m_three_delivers_on_a_credit_of_two_then_a_grant() {
    let mut ledger = [0; 257];
    assert_eq!(credit::open(&mut ledger, 5, 2), Ok(()));
    assert!(credit::receive(&mut ledger, &deliver(5), 0).is_ok());
    assert!(credit::receive(&mut ledger, &deliver(5), 0).is_ok());
    let before = ledger;
    assert_eq!(refusal(credit::receive(&mut ledger, &deliver(5), 0)).0, 15);
    assert_eq!(ledger, before);
    assert_eq!(credit::grant(&mut ledger, 5, 1), Ok(()));
    assert!(credit::receive(&mut ledger, &deliver(5), 0).is_ok());
}

#[test]
fn n_grant_on_a_closed_id() {
    let mut ledger = [0; 257];
    assert_eq!(refusal(credit::grant(&mut ledger, 6, 1)).0, 13);
    assert_eq!(ledger, [0; 257]);
}
