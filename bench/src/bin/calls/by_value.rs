//! The reference as a Rust program calls it, by functions that return what the boundary hands over. The call that is not inlined
//! is that of the function here.

use std::hint::black_box;

use boundary::{Boundary, ElementSlots, Frame, Ledger, List, ReaderSlots, Reference};
use reference::Refusal;

use crate::sides::{LIMIT, Side};

#[derive(Clone, Copy)]
pub struct ByValue;

/// What is returned is not made into an answer of the boundary: that would be timed too.
#[inline(always)]
fn unseen<T>(returned: &T) -> u64 {
    black_box(returned);
    0
}

impl Side for ByValue {
    type Behind = Reference;

    fn boundary(self) -> Reference {
        Reference
    }

    #[inline(always)]
    fn read(self, bytes: &[u8], _: &mut Frame) -> u64 {
        unseen(&read(black_box(bytes), black_box(LIMIT)))
    }

    #[inline(always)]
    fn write(self, frame: &Frame, source: &[u8], out: &mut [u8]) -> u64 {
        unseen(&write(black_box(frame), black_box(source), black_box(LIMIT), black_box(out)))
    }

    #[inline(always)]
    fn element(self, shape: u8, source: &[u8], list: List, index: u64, _: &mut ElementSlots) -> u64 {
        unseen(&element(black_box(shape), black_box(source), black_box(list), black_box(index)))
    }

    #[inline(always)]
    fn chunk_open(self, chunk: &[u8], reader: &mut ReaderSlots) -> u64 {
        black_box(chunk_open(black_box(chunk), black_box(reader)))
    }

    #[inline(always)]
    fn chunk_next(self, chunk: &[u8], reader: &mut ReaderSlots, entry: &mut ElementSlots) -> u64 {
        chunk_next(black_box(chunk), black_box(reader), black_box(entry))
    }

    #[inline(always)]
    fn credit_open(self, ledger: &mut Ledger, id: u8, credit: u16) -> u64 {
        unseen(&open(black_box(ledger), black_box(id), black_box(credit)))
    }

    #[inline(always)]
    fn credit_close(self, ledger: &mut Ledger, id: u8) -> u64 {
        unseen(&close(black_box(ledger), black_box(id)))
    }

    #[inline(always)]
    fn credit_grant(self, ledger: &mut Ledger, id: u8, n: u16) -> u64 {
        unseen(&grant(black_box(ledger), black_box(id), black_box(n)))
    }

    #[inline(always)]
    fn credit_receive(self, ledger: &mut Ledger, bytes: &[u8], _: &mut Frame) -> u64 {
        unseen(&receive(black_box(ledger), black_box(bytes), black_box(LIMIT)))
    }
}

#[inline(never)]
fn read(bytes: &[u8], limit: u32) -> Result<Frame, Refusal> {
    reference::read(bytes, limit)
}

#[inline(never)]
fn write(frame: &Frame, source: &[u8], limit: u32, out: &mut [u8]) -> Result<usize, Refusal> {
    reference::write(frame, source, limit, out)
}

#[inline(never)]
fn element(shape: u8, source: &[u8], list: List, index: u64) -> Result<ElementSlots, Refusal> {
    reference::element(shape, source, list.count, list.place, list.length, index)
}

#[inline(never)]
fn chunk_open(chunk: &[u8], reader: &mut ReaderSlots) -> u64 {
    Reference.chunk_open(chunk, reader)
}

#[inline(never)]
fn chunk_next(chunk: &[u8], reader: &mut ReaderSlots, entry: &mut ElementSlots) -> u64 {
    Reference.chunk_next(chunk, reader, entry)
}

#[inline(never)]
fn open(ledger: &mut Ledger, id: u8, credit: u16) -> Result<(), Refusal> {
    reference::credit::open(ledger, id, credit)
}

#[inline(never)]
fn close(ledger: &mut Ledger, id: u8) -> Result<(), Refusal> {
    reference::credit::close(ledger, id)
}

#[inline(never)]
fn grant(ledger: &mut Ledger, id: u8, n: u16) -> Result<(), Refusal> {
    reference::credit::grant(ledger, id, n)
}

#[inline(never)]
fn receive(ledger: &mut Ledger, bytes: &[u8], limit: u32) -> Result<Frame, Refusal> {
    reference::credit::receive(ledger, bytes, limit)
}
