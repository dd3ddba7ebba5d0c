use reference::{Reason, Refusal, credit, publisher};

use crate::{Boundary, ElementSlots, Frame, Ledger, List, ReaderSlots};

/// The reference, answering as the C boundary does.
#[derive(Clone, Copy)]
pub struct Reference;

/// The answer that says why a call was refused.
fn refused(refusal: Refusal) -> u64 {
    let needed = if refusal.reason == Reason::Cut { refusal.detail } else { 0 };
    needed << 8 | u64::from(refusal.number())
}

fn accepted(result: Result<(), Refusal>) -> u64 {
    result.map_or_else(refused, |()| 0)
}

/// Hands over what the call gave; a refusal leaves the caller's slots as they are.
fn handed<T>(result: Result<T, Refusal>, slots: &mut T) -> u64 {
    accepted(result.map(|given| *slots = given))
}

fn message_slots((place, length): (u64, u64)) -> ElementSlots {
    [place, length, 0, 0, 0, 0, 0, 0]
}

impl Boundary for Reference {
    fn read(&self, bytes: &[u8], limit: u32, frame: &mut Frame) -> u64 {
        handed(reference::read(bytes, limit), frame)
    }

    fn write(&self, frame: &Frame, source: &[u8], limit: u32, out: &mut [u8]) -> u64 {
        reference::write(frame, source, limit, out).map_or_else(refused, |length| (length as u64) << 8)
    }

    fn element(&self, shape: u8, source: &[u8], list: List, index: u64, element: &mut ElementSlots) -> u64 {
        handed(reference::element(shape, source, list.count, list.place, list.length, index), element)
    }

    fn message(&self, frame: &Frame, source: &[u8], index: u64, message: &mut ElementSlots) -> u64 {
        handed(reference::message(frame, source, index).map(message_slots), message)
    }

    fn chunk_open(&self, chunk: &[u8], reader: &mut ReaderSlots) -> u64 {
        handed(reference::chunk_open(chunk), reader)
    }

    #[inline(always)]
    fn chunk_next(&self, chunk: &[u8], reader: &mut ReaderSlots, entry: &mut ElementSlots) -> u64 {
        match reference::chunk_next(chunk, reader) {
            Ok(Some(message)) => {
                *entry = message_slots(message);
                1 << 8
            }
            Ok(None) => 0,
            Err(refusal) => refused(refusal),
        }
    }

    fn credit_empty(&self, ledger: &mut Ledger) {
        ledger.fill(0);
    }

    fn credit_open(&self, ledger: &mut Ledger, id: u8, credit: u16) -> u64 {
        accepted(credit::open(ledger, id, credit))
    }

    fn credit_grant(&self, ledger: &mut Ledger, id: u8, n: u16) -> u64 {
        accepted(credit::grant(ledger, id, n))
    }

    fn credit_close(&self, ledger: &mut Ledger, id: u8) -> u64 {
        accepted(credit::close(ledger, id))
    }

    fn credit_receive(&self, ledger: &mut Ledger, bytes: &[u8], limit: u32, frame: &mut Frame) -> u64 {
        handed(credit::receive(ledger, bytes, limit), frame)
    }

    fn publisher_empty(&self, ledger: &mut Ledger) {
        ledger.fill(0);
    }

    fn publisher_declare(&self, ledger: &mut Ledger, id: u8) -> u64 {
        accepted(publisher::declare(ledger, id))
    }

    fn publisher_delete(&self, ledger: &mut Ledger, id: u8) -> u64 {
        accepted(publisher::delete(ledger, id))
    }

    fn publisher_send(&self, ledger: &mut Ledger, id: u8, n: u32) -> u64 {
        accepted(publisher::send(ledger, id, n))
    }

    fn publisher_confirm(&self, ledger: &mut Ledger, id: u8, n: u32) -> u64 {
        accepted(publisher::confirm(ledger, id, n))
    }
}
