//! Compares the listing program with the reference's listing: on the captures, on every prefix of a small one, on
//! captures that cross the borders of any buffer, and on captures with bytes altered, taken out or repeated. Then it runs
//! the program on inputs and outputs that fail, and on inputs that come in pieces.
//!
//!     listing [PROGRAM] [--seed S]         PROGRAM is target/bin/listing unless given

mod program;
mod stories;

use std::fs;
use std::io;
use std::path::{Path, PathBuf};
use std::process::ExitCode;

use program::listed;
use random::Random;

const SEED: u64 = 1;
const ALTERED: usize = 400;

struct Capture {
    name: String,
    bytes: Vec<u8>,
}

fn main() -> ExitCode {
    let repository = Path::new(env!("CARGO_MANIFEST_DIR")).join("../..");
    let mut program = repository.join("target/bin/listing");
    let mut seed = SEED;
    let mut arguments = std::env::args().skip(1);
    while let Some(argument) = arguments.next() {
        if argument == "--seed" {
            let Some(given) = arguments.next().and_then(|number| number.parse().ok()) else {
                eprintln!("usage: listing [PROGRAM] [--seed S]");
                return ExitCode::from(2);
            };
            seed = given;
        } else {
            program = PathBuf::from(argument);
        }
    }
    println!("seed {seed}");
    let samples = repository.join("samples");
    let checked =
        check(&program, &samples, seed).and_then(|runs| Ok((runs, stories::check(&program, &samples)?)));
    match checked {
        Ok((runs, stories)) => {
            println!("compared {runs} listings, 0 differences; {stories} stories passed");
            ExitCode::SUCCESS
        }
        Err(reason) => {
            println!("{reason}\nseed {seed}");
            ExitCode::FAILURE
        }
    }
}

/// Gives the number of captures listed, or what went wrong.
fn check(program: &Path, folder: &Path, seed: u64) -> Result<usize, String> {
    let captures = captures(folder).map_err(|error| format!("{}: {error}", folder.display()))?;
    for capture in &captures {
        let list = folder.join(&capture.name).with_extension("list");
        let expected = fs::read(&list).map_err(|error| format!("{}: {error}", list.display()))?;
        if listed(program, &capture.bytes)?.output != expected {
            return Err(format!("{} is not listed as in {}", capture.name, list.display()));
        }
    }
    let mut inputs = made();
    let small = captures.iter().min_by_key(|capture| capture.bytes.len()).ok_or("there are no captures")?;
    for length in 0..=small.bytes.len() {
        let name = format!("the first {length} bytes of {}", small.name);
        inputs.push(Capture { name, bytes: small.bytes[..length].to_vec() });
    }
    let mut random = Random::new(seed);
    for number in 0..ALTERED {
        let capture = &captures[random.below(captures.len())];
        let name = format!("{} altered, number {number}", capture.name);
        inputs.push(Capture { name, bytes: altered(&mut random, &capture.bytes) });
    }
    for input in &inputs {
        compare(program, input)?;
    }
    Ok(captures.len() + inputs.len())
}

fn captures(folder: &Path) -> io::Result<Vec<Capture>> {
    let mut captures = Vec::new();
    for file in fs::read_dir(folder)? {
        let path = file?.path();
        if path.extension().is_some_and(|extension| extension == "bin") {
            let name = path.file_name().unwrap_or_default().to_string_lossy().into_owned();
            captures.push(Capture { name, bytes: fs::read(&path)? });
        }
    }
    captures.sort_by(|a, b| a.name.cmp(&b.name));
    Ok(captures)
}

/// Captures larger than a buffer, and frames at the listing's limit.
fn made() -> Vec<Capture> {
    let heartbeats = [0, 0, 0, 4, 0, 0x17, 0, 1].repeat(40_000);
    // Size without its own four bytes: key and version, publisher id, count, publishing id and length, then the bytes.
    let publish = |size: u32| {
        let length = size - 21;
        let mut bytes = size.to_be_bytes().to_vec();
        bytes.extend([0, 2, 0, 1, 7, 0, 0, 0, 1, 0, 0, 0, 0, 0, 0, 0, 9]);
        bytes.extend(length.to_be_bytes());
        bytes.extend(vec![0x6d; length as usize]);
        bytes
    };
    let odd_sizes: Vec<u8> = (0..60).flat_map(|i| publish(21 + 977 * i)).collect();
    let mut over = publish(65_532);
    over.extend(publish(65_533));
    let mut cut = heartbeats.clone();
    cut.extend(&publish(65_532)[..65_535]);
    let whole = publish(65_532).repeat(20);
    [
        ("heartbeats", heartbeats),
        ("publishes of odd sizes", odd_sizes),
        ("a frame over the limit behind one at it", over),
        ("the largest frame cut by one byte", cut),
        ("twenty of the largest frames", whole),
    ]
    .into_iter()
    .map(|(name, bytes)| Capture { name: name.to_string(), bytes })
    .collect()
}

fn altered(random: &mut Random, capture: &[u8]) -> Vec<u8> {
    let mut bytes = capture.to_vec();
    for _ in 0..1 + random.below(3) {
        let at = random.below(bytes.len());
        match random.below(8) {
            0 => bytes.truncate(at + 1),
            1 => drop(bytes.drain(at..(at + 1 + random.below(20)).min(bytes.len()))),
            2 => bytes.insert(at, random.byte()),
            3 => bytes.extend_from_within(at..),
            4 => bytes[at] ^= 0x80,
            _ => bytes[at] = random.byte(),
        }
        if bytes.is_empty() {
            break;
        }
    }
    bytes
}

fn compare(program: &Path, input: &Capture) -> Result<(), String> {
    let mut expected = Vec::new();
    reference::list(&input.bytes[..], &mut expected).map_err(|error| error.to_string())?;
    let answer = listed(program, &input.bytes)?;
    if answer.output == expected && answer.errors.is_empty() {
        return Ok(());
    }
    let hex: String = input.bytes.iter().take(4096).map(|byte| format!("{byte:02x}")).collect();
    Err(format!(
        "input: {}\n{} bytes, the first: {hex}\nprogram:\n{}reference:\n{}standard error:\n{}",
        input.name,
        input.bytes.len(),
        String::from_utf8_lossy(&answer.output),
        String::from_utf8_lossy(&expected),
        String::from_utf8_lossy(&answer.errors),
    ))
}
