//! What a row times. Both sides work on the same memory, so that where it lies makes no difference between them.

use boundary::{ElementSlots, Frame, Ledger, List, ReaderSlots, number};

use crate::sides::{LIMIT, Side};

const MESSAGE: u8 = 1;
const ID: u8 = 7;

/// Calls, and the memory that they work on.
pub trait Row: Clone + PartialEq {
    /// Gives the answer of the last call, if the side does.
    fn run(&mut self, side: impl Side) -> u64;
}

/// The slots of a frame that is well formed.
fn slots(bytes: &[u8]) -> Frame {
    reference::read(bytes, LIMIT).expect("the frame is well formed")
}

#[derive(Clone, PartialEq)]
pub struct Read<'a> {
    bytes: &'a [u8],
    frame: Frame,
}

impl<'a> Read<'a> {
    pub fn new(bytes: &'a [u8]) -> Read<'a> {
        Read { bytes, frame: [0; 24] }
    }
}

impl Row for Read<'_> {
    #[inline(always)]
    fn run(&mut self, side: impl Side) -> u64 {
        side.read(self.bytes, &mut self.frame)
    }
}

#[derive(Clone, PartialEq)]
pub struct Write<'a> {
    frame: Frame,
    source: &'a [u8],
    out: Vec<u8>,
}

impl<'a> Write<'a> {
    /// Of a frame that is well formed, with the bytes at its places taken from the source.
    pub fn new(bytes: &[u8], source: &'a [u8]) -> Write<'a> {
        Write { frame: slots(bytes), source, out: vec![0; bytes.len()] }
    }
}

impl Row for Write<'_> {
    #[inline(always)]
    fn run(&mut self, side: impl Side) -> u64 {
        side.write(&self.frame, self.source, &mut self.out)
    }
}

/// The last message of a Publish.
#[derive(Clone, PartialEq)]
pub struct LastMessage<'a> {
    bytes: &'a [u8],
    list: List,
    element: ElementSlots,
}

impl<'a> LastMessage<'a> {
    pub fn new(bytes: &'a [u8]) -> LastMessage<'a> {
        let frame = slots(bytes);
        let list = List { count: frame[3], place: frame[4], length: frame[5] };
        LastMessage { bytes, list, element: [0; 8] }
    }
}

impl Row for LastMessage<'_> {
    #[inline(always)]
    fn run(&mut self, side: impl Side) -> u64 {
        side.element(MESSAGE, self.bytes, self.list, self.list.count - 1, &mut self.element)
    }
}

/// The chunk of a Deliver is opened, and asked for its entries up to the end.
#[derive(Clone, PartialEq)]
pub struct Walk<'a> {
    chunk: &'a [u8],
    reader: ReaderSlots,
    entry: ElementSlots,
    /// Of all messages together.
    length: u64,
}

impl<'a> Walk<'a> {
    pub fn new(bytes: &'a [u8]) -> Walk<'a> {
        let data = slots(bytes)[15] as usize;
        Walk { chunk: &bytes[data - 48..], reader: [0; 4], entry: [0; 8], length: 0 }
    }
}

impl Row for Walk<'_> {
    #[inline(always)]
    fn run(&mut self, side: impl Side) -> u64 {
        let mut length = 0;
        side.chunk_open(self.chunk, &mut self.reader);
        loop {
            let answer = side.chunk_next(self.chunk, &mut self.reader, &mut self.entry);
            if number(answer) == 0 {
                self.length = length;
                return answer;
            }
            length += self.entry[1];
        }
    }
}

#[derive(Clone, PartialEq)]
pub struct OpenAndClose(pub Ledger);

impl Row for OpenAndClose {
    #[inline(always)]
    fn run(&mut self, side: impl Side) -> u64 {
        side.credit_open(&mut self.0, ID, 10);
        side.credit_close(&mut self.0, ID)
    }
}

#[derive(Clone, PartialEq)]
pub struct Grant(pub Ledger);

impl Row for Grant {
    #[inline(always)]
    fn run(&mut self, side: impl Side) -> u64 {
        self.0[usize::from(ID)] = 1;
        side.credit_grant(&mut self.0, ID, 1)
    }
}

#[derive(Clone, PartialEq)]
pub struct Receive<'a> {
    ledger: Ledger,
    bytes: &'a [u8],
    frame: Frame,
}

impl<'a> Receive<'a> {
    pub fn new(bytes: &'a [u8]) -> Receive<'a> {
        Receive { ledger: [9; 257], bytes, frame: [0; 24] }
    }
}

impl Row for Receive<'_> {
    #[inline(always)]
    fn run(&mut self, side: impl Side) -> u64 {
        self.ledger[usize::from(ID)] = 9;
        side.credit_receive(&mut self.ledger, self.bytes, &mut self.frame)
    }
}
