//! What no contract says of the listing program: that the bytes it lists are those that its reads gave, that what it writes
//! arrives, and that a read or a write that fails is told on standard error.

use std::fs::{self, File};
use std::io::{self, Write};
use std::os::fd::OwnedFd;
use std::os::unix::net::{UnixDatagram, UnixStream};
use std::path::Path;
use std::process::Stdio;
use std::thread;

use random::Random;

use crate::program::{Written, listed, listed_from};

/// 01's example: a Heartbeat, and nine bytes of a Credit.
const EXAMPLE: [u8; 17] = [0, 0, 0, 4, 0, 0x17, 0, 1, 0, 0, 0, 7, 0, 9, 0, 1, 5];

const HEARTBEAT: [u8; 8] = [0, 0, 0, 4, 0, 0x17, 0, 1];

/// So many Heartbeats that the text of their lines is written before the input has ended.
const MANY: usize = 20_000;

const UNREADABLE: &str = "listing: standard input can't be read\n";
const UNWRITABLE: &str = "listing: standard output can't be written\n";

/// Gives the number of stories, or what went wrong in the first that failed.
pub fn check(program: &Path, folder: &Path) -> Result<usize, String> {
    let stories = [
        ("the paper's example", example(program)),
        ("standard input is a directory", directory(program, folder)),
        ("the second read fails", broken_input(program)),
        ("a read fails after text was written", broken_input_after_text(program)),
        ("no write succeeds", full_output(program)),
        ("no write succeeds, and there is more to list", full_output_before_the_end(program)),
        ("a capture comes in pieces", pieces(program, folder)),
    ];
    for (name, result) in &stories {
        result.as_ref().map_err(|reason| format!("story: {name}\n{reason}"))?;
    }
    Ok(stories.len())
}

fn example(program: &Path) -> Result<(), String> {
    expect(listed(program, &EXAMPLE)?, "0 8 0017 1\n8 CUT 9 of 11\nframes 1 cut\n", "")
}

fn directory(program: &Path, folder: &Path) -> Result<(), String> {
    let input = File::open(folder).map_err(text)?;
    expect(listed_from(program, Stdio::from(input), Stdio::piped())?, "", UNREADABLE)
}

/// The line of the Heartbeat is there, and no closing line.
fn broken_input(program: &Path) -> Result<(), String> {
    expect(broken(program, &EXAMPLE)?, "0 8 0017 1\n", UNREADABLE)
}

fn broken_input_after_text(program: &Path) -> Result<(), String> {
    let lines: String = (0..MANY).map(|i| format!("{} 8 0017 1\n", 8 * i)).collect();
    expect(broken(program, &HEARTBEAT.repeat(MANY))?, &lines, UNREADABLE)
}

fn full_output(program: &Path) -> Result<(), String> {
    expect(into_full(program, &EXAMPLE)?, "", UNWRITABLE)
}

fn full_output_before_the_end(program: &Path) -> Result<(), String> {
    expect(into_full(program, &HEARTBEAT.repeat(MANY))?, "", UNWRITABLE)
}

/// Each read gives one piece, however small. A capture is listed as if it came at once.
fn pieces(program: &Path, folder: &Path) -> Result<(), String> {
    let mut random = Random::new(1);
    for name in ["storm-cut.bin", "02-small.client.bin", "03-errors.server.bin"] {
        let capture = fs::read(folder.join(name)).map_err(text)?;
        let mut expected = Vec::new();
        reference::list(&capture[..], &mut expected).map_err(text)?;
        let expected = String::from_utf8_lossy(&expected);
        for longest in [1, 7, 8, 9, 1000] {
            let mut cut = Vec::new();
            let mut rest = &capture[..];
            while !rest.is_empty() {
                let (piece, following) = rest.split_at((1 + random.below(longest)).min(rest.len()));
                cut.push(piece);
                rest = following;
            }
            expect(by_pieces(program, &cut)?, &expected, "")
                .map_err(|reason| format!("{name}, in pieces of at most {longest} bytes\n{reason}"))?;
        }
    }
    Ok(())
}

/// What is written for a capture whose reads give one piece each: a read of a datagram socket gives one datagram, and an
/// empty one is the end.
fn by_pieces(program: &Path, pieces: &[&[u8]]) -> Result<Written, String> {
    let (near, far) = UnixDatagram::pair().map_err(text)?;
    thread::scope(|scope| {
        // The program may stop before the end, and then nobody takes the rest.
        scope.spawn(move || {
            for piece in pieces.iter().chain([&&[][..]]) {
                if near.send(piece).is_err() {
                    return;
                }
            }
        });
        listed_from(program, Stdio::from(OwnedFd::from(far)), Stdio::piped())
    })
}

/// What is written for an input that gives these bytes, and whose next read fails: the socket's other end is closed while
/// there is something left to read in it.
fn broken(program: &Path, bytes: &[u8]) -> Result<Written, String> {
    let (mut near, mut far) = UnixStream::pair().map_err(text)?;
    far.write_all(b"never read").map_err(text)?;
    thread::scope(|scope| {
        scope.spawn(move || _ = near.write_all(bytes));
        listed_from(program, Stdio::from(OwnedFd::from(far)), Stdio::piped())
    })
}

/// What is written to standard error where every write to standard output fails.
fn into_full(program: &Path, capture: &[u8]) -> Result<Written, String> {
    let (mut near, far) = UnixStream::pair().map_err(text)?;
    let full = File::options().write(true).open("/dev/full").map_err(text)?;
    thread::scope(|scope| {
        scope.spawn(move || _ = near.write_all(capture));
        listed_from(program, Stdio::from(OwnedFd::from(far)), Stdio::from(full))
    })
}

fn expect(written: Written, output: &str, errors: &str) -> Result<(), String> {
    let found = (String::from_utf8_lossy(&written.output), String::from_utf8_lossy(&written.errors));
    if found.0 == output && found.1 == errors {
        return Ok(());
    }
    Err(format!(
        "standard output:\n{}expected:\n{output}standard error:\n{}expected:\n{errors}",
        found.0, found.1
    ))
}

fn text(error: io::Error) -> String {
    error.to_string()
}
