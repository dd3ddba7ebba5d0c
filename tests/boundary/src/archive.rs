use std::ptr;

use crate::{Boundary, ElementSlots, Frame, Ledger, List, ReaderSlots};

unsafe extern "C" {
    fn krevilosh_read(bytes: *const u8, len: usize, limit: u32, frame: *mut u64) -> u64;
    fn krevilosh_write(
        frame: *const u64,
        source: *const u8,
        source_len: usize,
        limit: u32,
        out: *mut u8,
        out_len: usize,
    ) -> u64;
    fn krevilosh_element(
        shape: u8,
        source: *const u8,
        source_len: usize,
        count: u64,
        place: u64,
        length: u64,
        index: u64,
        element: *mut u64,
    ) -> u64;
    fn krevilosh_message(
        frame: *const u64,
        source: *const u8,
        source_len: usize,
        index: u64,
        message: *mut u64,
    ) -> u64;
    fn krevilosh_chunk_open(chunk: *const u8, len: usize, reader: *mut u64) -> u64;
    fn krevilosh_chunk_next(chunk: *const u8, len: usize, reader: *mut u64, entry: *mut u64) -> u64;
    fn krevilosh_credit_empty(ledger: *mut u32);
    fn krevilosh_credit_open(ledger: *mut u32, id: u8, credit: u16) -> u64;
    fn krevilosh_credit_grant(ledger: *mut u32, id: u8, n: u16) -> u64;
    fn krevilosh_credit_close(ledger: *mut u32, id: u8) -> u64;
    fn krevilosh_credit_receive(
        ledger: *mut u32,
        bytes: *const u8,
        len: usize,
        limit: u32,
        frame: *mut u64,
    ) -> u64;
    fn krevilosh_publisher_empty(ledger: *mut u32);
    fn krevilosh_publisher_declare(ledger: *mut u32, id: u8) -> u64;
    fn krevilosh_publisher_delete(ledger: *mut u32, id: u8) -> u64;
    fn krevilosh_publisher_send(ledger: *mut u32, id: u8, n: u32) -> u64;
    fn krevilosh_publisher_confirm(ledger: *mut u32, id: u8, n: u32) -> u64;
}

/// The library under test, by its C header.
#[derive(Clone, Copy)]
pub struct Archive;

/// An empty slice goes over as a null pointer, which the header admits.
#[inline(always)]
fn pointer(bytes: &[u8]) -> *const u8 {
    if bytes.is_empty() { ptr::null() } else { bytes.as_ptr() }
}

#[inline(always)]
fn pointer_mut(bytes: &mut [u8]) -> *mut u8 {
    if bytes.is_empty() { ptr::null_mut() } else { bytes.as_mut_ptr() }
}

// SAFETY, for every call here: each pointer comes from a borrow that lives through the call, with the length that goes
// with it, and arrays have the length that the header names.
impl Boundary for Archive {
    #[inline(always)]
    fn read(&self, bytes: &[u8], limit: u32, frame: &mut Frame) -> u64 {
        unsafe { krevilosh_read(pointer(bytes), bytes.len(), limit, frame.as_mut_ptr()) }
    }

    #[inline(always)]
    fn write(&self, frame: &Frame, source: &[u8], limit: u32, out: &mut [u8]) -> u64 {
        let room = out.len();
        unsafe {
            krevilosh_write(frame.as_ptr(), pointer(source), source.len(), limit, pointer_mut(out), room)
        }
    }

    #[inline(always)]
    fn element(&self, shape: u8, source: &[u8], list: List, index: u64, element: &mut ElementSlots) -> u64 {
        let List { count, place, length } = list;
        let element = element.as_mut_ptr();
        unsafe {
            krevilosh_element(shape, pointer(source), source.len(), count, place, length, index, element)
        }
    }

    #[inline(always)]
    fn message(&self, frame: &Frame, source: &[u8], index: u64, message: &mut ElementSlots) -> u64 {
        unsafe {
            krevilosh_message(frame.as_ptr(), pointer(source), source.len(), index, message.as_mut_ptr())
        }
    }

    #[inline(always)]
    fn chunk_open(&self, chunk: &[u8], reader: &mut ReaderSlots) -> u64 {
        unsafe { krevilosh_chunk_open(pointer(chunk), chunk.len(), reader.as_mut_ptr()) }
    }

    #[inline(always)]
    fn chunk_next(&self, chunk: &[u8], reader: &mut ReaderSlots, entry: &mut ElementSlots) -> u64 {
        unsafe { krevilosh_chunk_next(pointer(chunk), chunk.len(), reader.as_mut_ptr(), entry.as_mut_ptr()) }
    }

    fn credit_empty(&self, ledger: &mut Ledger) {
        unsafe { krevilosh_credit_empty(ledger.as_mut_ptr()) }
    }

    #[inline(always)]
    fn credit_open(&self, ledger: &mut Ledger, id: u8, credit: u16) -> u64 {
        unsafe { krevilosh_credit_open(ledger.as_mut_ptr(), id, credit) }
    }

    #[inline(always)]
    fn credit_grant(&self, ledger: &mut Ledger, id: u8, n: u16) -> u64 {
        unsafe { krevilosh_credit_grant(ledger.as_mut_ptr(), id, n) }
    }

    #[inline(always)]
    fn credit_close(&self, ledger: &mut Ledger, id: u8) -> u64 {
        unsafe { krevilosh_credit_close(ledger.as_mut_ptr(), id) }
    }

    #[inline(always)]
    fn credit_receive(&self, ledger: &mut Ledger, bytes: &[u8], limit: u32, frame: &mut Frame) -> u64 {
        let ledger = ledger.as_mut_ptr();
        unsafe { krevilosh_credit_receive(ledger, pointer(bytes), bytes.len(), limit, frame.as_mut_ptr()) }
    }

    fn publisher_empty(&self, ledger: &mut Ledger) {
        unsafe { krevilosh_publisher_empty(ledger.as_mut_ptr()) }
    }

    #[inline(always)]
    fn publisher_declare(&self, ledger: &mut Ledger, id: u8) -> u64 {
        unsafe { krevilosh_publisher_declare(ledger.as_mut_ptr(), id) }
    }

    #[inline(always)]
    fn publisher_delete(&self, ledger: &mut Ledger, id: u8) -> u64 {
        unsafe { krevilosh_publisher_delete(ledger.as_mut_ptr(), id) }
    }

    #[inline(always)]
    fn publisher_send(&self, ledger: &mut Ledger, id: u8, n: u32) -> u64 {
        unsafe { krevilosh_publisher_send(ledger.as_mut_ptr(), id, n) }
    }

    #[inline(always)]
    fn publisher_confirm(&self, ledger: &mut Ledger, id: u8, n: u32) -> u64 {
        unsafe { krevilosh_publisher_confirm(ledger.as_mut_ptr(), id, n) }
    }
}
