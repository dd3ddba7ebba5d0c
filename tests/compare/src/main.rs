//! Compares the library, through its C boundary, with the reference.
//!
//!     compare [--inputs N] [--seed S]      the archive against the reference
//!     compare --self-test [--seed S]       the reference against itself, and against itself with each of some faults

mod chunks;
mod comparison;
mod faulty;
mod generate;
mod inputs;
mod ledgers;
mod outline;
mod parts;
mod reading;
mod writing;

use std::process::ExitCode;

use boundary::{Boundary, Reference};
use comparison::Comparison;
use faulty::{Fault, Faulty};
use random::Random;

const SEED: u64 = 1;
const INPUTS: u64 = 1_000_000;
const SELF_TEST_INPUTS: u64 = 400_000;

struct Options {
    inputs: u64,
    seed: u64,
    self_test: bool,
}

fn options() -> Option<Options> {
    let mut options = Options { inputs: INPUTS, seed: SEED, self_test: false };
    let mut arguments = std::env::args().skip(1);
    while let Some(argument) = arguments.next() {
        match argument.as_str() {
            "--inputs" => options.inputs = arguments.next()?.parse().ok()?,
            "--seed" => options.seed = arguments.next()?.parse().ok()?,
            "--self-test" => options.self_test = true,
            _ => return None,
        }
    }
    Some(options)
}

fn main() -> ExitCode {
    let Some(options) = options() else {
        eprintln!("usage: compare [--inputs N] [--seed S] [--self-test]");
        return ExitCode::from(2);
    };
    let passed = if options.self_test { self_test(options.seed) } else { against_archive(&options) };
    if passed { ExitCode::SUCCESS } else { ExitCode::FAILURE }
}

fn against_archive(options: &Options) -> bool {
    let Some(library) = boundary::archive() else {
        println!("target/staticlib/libkrevilosh.a is not built");
        return false;
    };
    compared(library, options.inputs, options.seed)
}

/// Compares with the reference and prints what was seen. True if nothing differed and every refusal number occurred.
fn compared(library: &dyn Boundary, inputs: u64, seed: u64) -> bool {
    println!("seed {seed}");
    let mut comparison = Comparison::new(library, &Reference);
    if let Err(difference) = inputs::compare(&mut comparison, &mut Random::new(seed), inputs) {
        println!("{}\nseed {seed}, after {} equal answers", difference.0, comparison.compared);
        return false;
    }
    let missing: Vec<usize> = (1..=17).filter(|number| comparison.seen[*number] == 0).collect();
    let counts: Vec<String> =
        (1..=17).map(|number| format!("{number}: {}", comparison.seen[number])).collect();
    println!("accepted {}, refusals {}", comparison.seen[0], counts.join(", "));
    if !missing.is_empty() {
        println!("refusals that did not occur: {missing:?}");
    }
    println!("compared {} inputs, 0 differences", comparison.compared);
    missing.is_empty()
}

/// The comparison must find nothing between two references, and each fault where there is one.
fn self_test(seed: u64) -> bool {
    let mut passed = compared(&Reference, SELF_TEST_INPUTS, seed);
    for fault in Fault::ALL {
        let library = Faulty(fault);
        let mut comparison = Comparison::new(&library, &Reference);
        match inputs::compare(&mut comparison, &mut Random::new(seed), SELF_TEST_INPUTS) {
            Err(_) => println!("{fault:?}: found after {} inputs", comparison.compared),
            Ok(()) => {
                println!("{fault:?}: NOT FOUND");
                passed = false;
            }
        }
    }
    passed
}
