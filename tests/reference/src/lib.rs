//! A second implementation of the paper "What to build and its rules" (01), in safe Rust. It shares nothing with the
//! library under test but the paper, so that a difference between the two is a fault in one of them.
//!
//! Frames are flat, as at the C boundary: key, version, then the fields in wire order. Reading and writing allocate
//! nothing.

mod chunk;
mod element;
mod layout;
mod listing;
mod reader;
mod refusal;
mod writer;

pub mod credit;
pub mod publisher;

pub use chunk::{ChunkReader, chunk_next, chunk_open, message};
pub use element::element;
pub use layout::{Element, Fields, Null, Text, content, is_listed, keys, versions};
pub use listing::{LIMIT, list};
pub use reader::read;
pub use refusal::{Reason, Refusal};
pub use writer::write;

/// Key, version, then the content's fields: a number takes one slot; text and bytes two (place, length); a list three
/// (count, place, length of its elements); an offset specification two (type, value); a chunk fourteen (its twelve
/// header numbers, place and length of its data). Slots behind the last field are 0.
pub type Frame = [u64; 24];

/// The element of a list, its fields in slots like those of a frame.
pub type ElementSlots = [u64; 8];

/// A chunk reader: where the next entry begins, how many entries are left, and two slots that are kept for later use.
pub type ReaderSlots = [u64; 4];

/// Entry i is 0 for a closed id and its balance + 1 for an open one. Entry 256 belongs to no id.
pub type Ledger = [u32; 257];

/// The length of a null text or byte string. Its place is 0 after a read and not looked at by a write.
pub const NULL: u64 = u64::MAX;

/// No balance and no number of messages out passes this.
pub(crate) const LARGEST_BALANCE: u64 = 1_000_000;

/// The part of `source` at a place, or none if the place reaches outside.
pub(crate) fn part(source: &[u8], place: u64, length: u64) -> Option<&[u8]> {
    let end = place.checked_add(length)?;
    source.get(usize::try_from(place).ok()?..usize::try_from(end).ok()?)
}
