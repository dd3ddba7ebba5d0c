//! The listing program, run to its end.

use std::io::{self, Read, Write};
use std::path::Path;
use std::process::{Child, ChildStdin, Command, ExitStatus, Stdio};
use std::thread;
use std::time::{Duration, Instant};

/// A run that takes longer is ended, and is a fault.
const LONGEST: Duration = Duration::from_secs(60);

/// What a run wrote to standard output, unless that is not a pipe, and to standard error.
pub struct Written {
    pub output: Vec<u8>,
    pub errors: Vec<u8>,
}

/// What the program writes for a capture that comes through a pipe.
pub fn listed(program: &Path, capture: &[u8]) -> Result<Written, String> {
    // A program that stops at a refusal closes its input early; that is no fault.
    run(program, Stdio::piped(), Stdio::piped(), |mut input: ChildStdin| _ = input.write_all(capture))
}

/// What the program writes for an input that is there already.
pub fn listed_from(program: &Path, input: Stdio, output: Stdio) -> Result<Written, String> {
    run(program, input, output, drop)
}

/// Any exit status is accepted; a signal is a fault.
fn run(
    program: &Path,
    input: Stdio,
    output: Stdio,
    feed: impl FnOnce(ChildStdin) + Send,
) -> Result<Written, String> {
    let failed = |error: io::Error| format!("{}: {error}", program.display());
    let mut command = Command::new(program);
    command.stdin(input).stdout(output).stderr(Stdio::piped());
    let mut child = command.spawn().map_err(failed)?;
    // The command holds the program's ends of input and output, too.
    drop(command);
    let (input, output, errors) = (child.stdin.take(), child.stdout.take(), child.stderr.take());
    let (status, written) = thread::scope(|scope| {
        if let Some(input) = input {
            scope.spawn(|| feed(input));
        }
        let output = scope.spawn(|| all_of(output));
        let errors = scope.spawn(|| all_of(errors));
        let status = ended(&mut child)?;
        let written = Written { output: output.join().unwrap()?, errors: errors.join().unwrap()? };
        Ok((status, written))
    })
    .map_err(failed)?;
    match status {
        Some(status) if status.code().is_some() => Ok(written),
        Some(status) => Err(format!("{} ended by a signal: {status}", program.display())),
        None => Err(format!("{} did not end", program.display())),
    }
}

fn all_of(from: Option<impl Read>) -> io::Result<Vec<u8>> {
    let mut bytes = Vec::new();
    if let Some(mut from) = from {
        from.read_to_end(&mut bytes)?;
    }
    Ok(bytes)
}

/// Waits for the program's end, or ends it and gives nothing.
fn ended(child: &mut Child) -> io::Result<Option<ExitStatus>> {
    let start = Instant::now();
    let mut pause = Duration::from_micros(50);
    while start.elapsed() < LONGEST {
        if let Some(status) = child.try_wait()? {
            return Ok(Some(status));
        }
        thread::sleep(pause);
        pause = (2 * pause).min(Duration::from_millis(5));
    }
    child.kill()?;
    child.wait()?;
    Ok(None)
}
