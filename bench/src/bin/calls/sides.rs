//! The two that are timed. Each call crosses one call that is not inlined, an archive's at the C boundary. Neither side knows an
//! argument beforehand.

use std::hint::black_box;

use boundary::{Boundary, ElementSlots, Frame, Ledger, List, ReaderSlots};

/// No limit.
pub const LIMIT: u32 = 0;

/// Functions of the boundary, as they are timed.
pub trait Side: Copy {
    type Behind: Boundary + Copy;

    /// The same functions, whose answers are always given.
    fn boundary(self) -> Self::Behind;

    #[inline(always)]
    fn read(self, bytes: &[u8], frame: &mut Frame) -> u64 {
        black_box(self.boundary().read(black_box(bytes), black_box(LIMIT), black_box(frame)))
    }

    #[inline(always)]
    fn write(self, frame: &Frame, source: &[u8], out: &mut [u8]) -> u64 {
        let (frame, source, out) = (black_box(frame), black_box(source), black_box(out));
        black_box(self.boundary().write(frame, source, black_box(LIMIT), out))
    }

    #[inline(always)]
    fn element(self, shape: u8, source: &[u8], list: List, index: u64, element: &mut ElementSlots) -> u64 {
        let (shape, source, list) = (black_box(shape), black_box(source), black_box(list));
        black_box(self.boundary().element(shape, source, list, black_box(index), black_box(element)))
    }

    #[inline(always)]
    fn chunk_open(self, chunk: &[u8], reader: &mut ReaderSlots) -> u64 {
        black_box(self.boundary().chunk_open(black_box(chunk), black_box(reader)))
    }

    #[inline(always)]
    fn chunk_next(self, chunk: &[u8], reader: &mut ReaderSlots, entry: &mut ElementSlots) -> u64 {
        self.boundary().chunk_next(black_box(chunk), black_box(reader), black_box(entry))
    }

    #[inline(always)]
    fn credit_open(self, ledger: &mut Ledger, id: u8, credit: u16) -> u64 {
        black_box(self.boundary().credit_open(black_box(ledger), black_box(id), black_box(credit)))
    }

    #[inline(always)]
    fn credit_close(self, ledger: &mut Ledger, id: u8) -> u64 {
        black_box(self.boundary().credit_close(black_box(ledger), black_box(id)))
    }

    #[inline(always)]
    fn credit_grant(self, ledger: &mut Ledger, id: u8, n: u16) -> u64 {
        black_box(self.boundary().credit_grant(black_box(ledger), black_box(id), black_box(n)))
    }

    #[inline(always)]
    fn credit_receive(self, ledger: &mut Ledger, bytes: &[u8], frame: &mut Frame) -> u64 {
        let (ledger, bytes, frame) = (black_box(ledger), black_box(bytes), black_box(frame));
        black_box(self.boundary().credit_receive(ledger, bytes, black_box(LIMIT), frame))
    }
}

/// An implementation as it is called through the C boundary.
#[derive(Clone, Copy)]
pub struct AtBoundary<B>(pub B);

impl<B: Boundary + Copy> Side for AtBoundary<B> {
    type Behind = B;

    #[inline(always)]
    fn boundary(self) -> B {
        self.0
    }
}
