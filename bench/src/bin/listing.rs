//! Times the listing of a long capture beside `wc -c` over the same pipe: Delivers of 60 KB with entries of 200 bytes.
//!
//!     listing PROGRAM [BYTES]

use std::io::{self, Write};
use std::process::{Command, ExitCode, Stdio};
use std::time::Instant;

const REPEATS: usize = 15;

fn main() -> ExitCode {
    let mut arguments = std::env::args().skip(1);
    let Some(program) = arguments.next() else {
        eprintln!("usage: listing PROGRAM [BYTES]");
        return ExitCode::from(2);
    };
    let bytes = arguments.next().and_then(|number| number.parse().ok()).unwrap_or(1_000_000_000);
    match measure(&program, bytes) {
        Ok(pairs) => {
            let [listing, wc, ratio] = bench::medians(&pairs);
            println!("listing of {bytes} bytes: {listing:.2} s, wc -c: {wc:.2} s, ratio {ratio:.2}");
            ExitCode::SUCCESS
        }
        Err(error) => {
            eprintln!("{program}: {error}");
            ExitCode::FAILURE
        }
    }
}

/// Seconds of the program and of `wc -c`, one right after the other.
fn measure(program: &str, bytes: usize) -> io::Result<Vec<(f64, f64)>> {
    let deliver = bench::deliver(300, 200);
    (0..REPEATS)
        .map(|_| {
            let listing = seconds(&mut Command::new(program), &deliver, bytes)?;
            Ok((listing, seconds(Command::new("wc").arg("-c"), &deliver, bytes)?))
        })
        .collect()
}

/// How long a program takes to read so many bytes, in whole frames, from a pipe.
fn seconds(command: &mut Command, frame: &[u8], bytes: usize) -> io::Result<f64> {
    let start = Instant::now();
    let mut child = command.stdin(Stdio::piped()).stdout(Stdio::null()).spawn()?;
    let mut pipe = child.stdin.take().expect("the input is a pipe");
    for _ in 0..bytes.div_ceil(frame.len()) {
        pipe.write_all(frame)?;
    }
    drop(pipe);
    let status = child.wait()?;
    if !status.success() {
        return Err(io::Error::other(status.to_string()));
    }
    Ok(start.elapsed().as_secs_f64())
}
