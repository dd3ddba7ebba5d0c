//! What a broker and a client sent each other, and the listings of 01.

use std::fs;
use std::path::Path;

use reference::{list, read, write};

fn listing(capture: &[u8]) -> String {
    let mut out = Vec::new();
    list(capture, &mut out).unwrap();
    String::from_utf8(out).unwrap()
}

#[test]
fn the_listing_of_a_heartbeat_and_a_cut_credit() {
    let capture = b"\0\0\0\x04\0\x17\0\x01\0\0\0\x07\0\x09\0\x01\x05";
    assert_eq!(listing(capture), "0 8 0017 1\n8 CUT 9 of 11\nframes 1 cut\n");
    assert_eq!(listing(&capture[..8]), "0 8 0017 1\nframes 1 whole\n");
    assert_eq!(listing(&capture[..11]), "0 8 0017 1\n8 CUT 3 of 4\nframes 1 cut\n");
    assert_eq!(listing(&[]), "frames 0 whole\n");
    assert_eq!(listing(b"\0\0\xff\xfd"), "0 REFUSED 2\nframes 0 refused\n");
}

#[test]
fn captures_are_listed_as_expected() {
    let mut listed = 0;
    for file in fs::read_dir(Path::new(env!("CARGO_MANIFEST_DIR")).join("../../samples")).unwrap() {
        let capture = file.unwrap().path();
        if capture.extension().is_some_and(|e| e == "bin") {
            let expected = fs::read_to_string(capture.with_extension("list")).unwrap();
            assert_eq!(listing(&fs::read(&capture).unwrap()), expected, "{}", capture.display());
            listed += 1;
        }
    }
    assert_eq!(listed, 8);
}

#[test]
fn frames_that_were_read_are_written_as_they_were() {
    for file in fs::read_dir(Path::new(env!("CARGO_MANIFEST_DIR")).join("../../samples")).unwrap() {
        let capture = file.unwrap().path();
        if capture.extension().is_some_and(|e| e == "bin") {
            let bytes = fs::read(&capture).unwrap();
            let mut rest = &bytes[..];
            while let Ok(frame) = read(rest, 0) {
                let mut out = vec![0; rest.len()];
                let length = write(&frame, rest, 0, &mut out).unwrap();
                assert_eq!(out[..length], rest[..length], "{}", capture.display());
                rest = &rest[length..];
            }
        }
    }
}
