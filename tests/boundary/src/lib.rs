//! What the host in C sees: every function answers one number, whose low eight bits are the refusal (0: accepted) and
//! whose other bits are the bytes needed for refusal 1, the length of a frame that was written, or 1 for an entry of a
//! chunk.

#[cfg(archive)]
mod archive;
mod behind;

#[cfg(archive)]
pub use archive::Archive;
pub use behind::Reference;
pub use reference::{ElementSlots, Frame, Ledger, ReaderSlots};

/// libold.a.
#[cfg(feature = "pair")]
pub mod old {
    include!(concat!(env!("OUT_DIR"), "/old.rs"));
}

/// libnew.a.
#[cfg(feature = "pair")]
pub mod new {
    include!(concat!(env!("OUT_DIR"), "/new.rs"));
}

/// The library under test, if its archive was built before this.
pub fn archive() -> Option<&'static dyn Boundary> {
    #[cfg(archive)]
    return Some(&Archive);
    #[cfg(not(archive))]
    None
}

/// The functions of the header, over slices.
pub trait Boundary {
    fn read(&self, bytes: &[u8], limit: u32, frame: &mut Frame) -> u64;
    fn write(&self, frame: &Frame, source: &[u8], limit: u32, out: &mut [u8]) -> u64;
    fn element(&self, shape: u8, source: &[u8], list: List, index: u64, element: &mut ElementSlots) -> u64;
    fn message(&self, frame: &Frame, source: &[u8], index: u64, message: &mut ElementSlots) -> u64;
    fn chunk_open(&self, chunk: &[u8], reader: &mut ReaderSlots) -> u64;
    fn chunk_next(&self, chunk: &[u8], reader: &mut ReaderSlots, entry: &mut ElementSlots) -> u64;
    fn credit_empty(&self, ledger: &mut Ledger);
    fn credit_open(&self, ledger: &mut Ledger, id: u8, credit: u16) -> u64;
    fn credit_grant(&self, ledger: &mut Ledger, id: u8, n: u16) -> u64;
    fn credit_close(&self, ledger: &mut Ledger, id: u8) -> u64;
    fn credit_receive(&self, ledger: &mut Ledger, bytes: &[u8], limit: u32, frame: &mut Frame) -> u64;
    fn publisher_empty(&self, ledger: &mut Ledger);
    fn publisher_declare(&self, ledger: &mut Ledger, id: u8) -> u64;
    fn publisher_delete(&self, ledger: &mut Ledger, id: u8) -> u64;
    fn publisher_send(&self, ledger: &mut Ledger, id: u8, n: u32) -> u64;
    fn publisher_confirm(&self, ledger: &mut Ledger, id: u8, n: u32) -> u64;
}

/// A list as an element question names it.
#[derive(Clone, Copy, Debug, PartialEq)]
pub struct List {
    pub count: u64,
    pub place: u64,
    pub length: u64,
}

/// The refusal number of an answer, 0 where the call was accepted.
pub fn refusal(answer: u64) -> u8 {
    answer as u8
}

/// The bytes needed, the length written, or 1 for an entry.
pub fn number(answer: u64) -> u64 {
    answer >> 8
}
