//! Times each call of the library, through its C boundary, beside the same call of the reference; with the feature `pair`, each
//! call of one archive beside that of another.
//!
//!     calls [NAME ..]      the rows whose names contain one of these, or all

#[cfg(not(feature = "pair"))]
mod by_value;
mod rows;
mod sides;
mod table;
mod times;

use std::process::ExitCode;

use sides::AtBoundary;
use table::table;

#[cfg(not(feature = "pair"))]
fn main() -> ExitCode {
    table(["library", "reference", "ratio"], AtBoundary(boundary::Archive), by_value::ByValue)
}

#[cfg(feature = "pair")]
fn main() -> ExitCode {
    table(["new", "old", "new/old"], AtBoundary(boundary::new::Archive), AtBoundary(boundary::old::Archive))
}
