//! Every call made of both, and everything that came back compared bit for bit.

use std::fmt::Write;

use boundary::{Boundary, ElementSlots, Frame, Ledger, List, ReaderSlots, number, refusal};

/// What the slots and the output hold before a call, so that a write to any of them shows.
const UNTOUCHED_SLOT: u64 = 0xdead_beef_0bad_cafe;
const UNTOUCHED_BYTE: u8 = 0xa5;

pub struct Comparison<'a> {
    library: &'a dyn Boundary,
    reference: &'a dyn Boundary,
    /// How many calls were compared.
    pub compared: u64,
    /// How many of them had each refusal number; 0 stands for accepted.
    pub seen: [u64; 256],
    outputs: [Vec<u8>; 2],
}

/// A call that the two answered differently, told with its input.
pub struct Difference(pub String);

/// What both gave, or how they differed.
pub type Compared<T> = Result<T, Difference>;

pub type Done = Compared<()>;

fn hex(bytes: &[u8]) -> String {
    bytes.iter().fold(String::new(), |mut text, byte| {
        write!(text, "{byte:02x}").expect("a string takes every write");
        text
    })
}

fn told(answer: u64) -> String {
    format!("refusal {} number {}", refusal(answer), number(answer))
}

fn differ(call: &str, arguments: String, library: String, reference: String) -> Difference {
    Difference(format!("call: {call}\n{arguments}\nlibrary:   {library}\nreference: {reference}"))
}

impl<'a> Comparison<'a> {
    pub fn new(library: &'a dyn Boundary, reference: &'a dyn Boundary) -> Comparison<'a> {
        let outputs = [Vec::new(), Vec::new()];
        Comparison { library, reference, compared: 0, seen: [0; 256], outputs }
    }

    fn count(&mut self, answer: u64) {
        self.compared += 1;
        self.seen[usize::from(refusal(answer))] += 1;
    }

    /// Reads, and gives the frame if it was accepted.
    pub fn read(&mut self, bytes: &[u8], limit: u32) -> Compared<Option<Frame>> {
        let (mut a, mut b) = ([UNTOUCHED_SLOT; 24], [UNTOUCHED_SLOT; 24]);
        let library = self.library.read(bytes, limit, &mut a);
        let reference = self.reference.read(bytes, limit, &mut b);
        self.count(reference);
        if (library, a) != (reference, b) {
            let arguments = format!("limit {limit}\nbytes {}", hex(bytes));
            let tell = |answer, frame: Frame| format!("{} frame {frame:?}", told(answer));
            return Err(differ("read", arguments, tell(library, a), tell(reference, b)));
        }
        Ok((refusal(reference) == 0).then_some(b))
    }

    /// Writes into `room` bytes, and gives the frame's length if it was accepted.
    pub fn write(
        &mut self,
        frame: &Frame,
        source: &[u8],
        limit: u32,
        room: usize,
    ) -> Compared<Option<usize>> {
        for output in &mut self.outputs {
            output.clear();
            output.resize(room, UNTOUCHED_BYTE);
        }
        let [a, b] = &mut self.outputs;
        let library = self.library.write(frame, source, limit, a);
        let reference = self.reference.write(frame, source, limit, b);
        if library != reference || a != b {
            let arguments = format!("limit {limit} room {room}\nframe {frame:?}\nsource {}", hex(source));
            let tell = |answer, out: &[u8]| format!("{} output {}", told(answer), hex(out));
            return Err(differ("write", arguments, tell(library, a), tell(reference, b)));
        }
        self.count(reference);
        Ok((refusal(reference) == 0).then_some(number(reference) as usize))
    }

    /// The frame that the last write left in the output.
    pub fn output(&self, length: usize) -> &[u8] {
        &self.outputs[1][..length]
    }

    pub fn element(
        &mut self,
        shape: u8,
        source: &[u8],
        list: List,
        index: u64,
    ) -> Compared<Option<ElementSlots>> {
        let (mut a, mut b) = ([UNTOUCHED_SLOT; 8], [UNTOUCHED_SLOT; 8]);
        let library = self.library.element(shape, source, list, index, &mut a);
        let reference = self.reference.element(shape, source, list, index, &mut b);
        self.count(reference);
        if (library, a) != (reference, b) {
            let arguments = format!("shape {shape} {list:?} index {index}\nsource {}", hex(source));
            let tell = |answer, element: ElementSlots| format!("{} element {element:?}", told(answer));
            return Err(differ("element", arguments, tell(library, a), tell(reference, b)));
        }
        Ok((refusal(reference) == 0).then_some(b))
    }

    pub fn message(&mut self, frame: &Frame, source: &[u8], index: u64) -> Compared<Option<ElementSlots>> {
        let (mut a, mut b) = ([UNTOUCHED_SLOT; 8], [UNTOUCHED_SLOT; 8]);
        let library = self.library.message(frame, source, index, &mut a);
        let reference = self.reference.message(frame, source, index, &mut b);
        self.count(reference);
        if (library, a) != (reference, b) {
            let arguments = format!("frame {frame:?} index {index}\nsource {}", hex(source));
            let tell = |answer, message: ElementSlots| format!("{} message {message:?}", told(answer));
            return Err(differ("message", arguments, tell(library, a), tell(reference, b)));
        }
        Ok((refusal(reference) == 0).then_some(b))
    }

    /// Opens a chunk, and gives the reader if it was accepted.
    pub fn chunk_open(&mut self, chunk: &[u8]) -> Compared<Option<ReaderSlots>> {
        let (mut a, mut b) = ([UNTOUCHED_SLOT; 4], [UNTOUCHED_SLOT; 4]);
        let library = self.library.chunk_open(chunk, &mut a);
        let reference = self.reference.chunk_open(chunk, &mut b);
        self.count(reference);
        if (library, a) != (reference, b) {
            let arguments = format!("chunk {}", hex(chunk));
            let tell = |answer, reader: ReaderSlots| format!("{} reader {reader:?}", told(answer));
            return Err(differ("chunk_open", arguments, tell(library, a), tell(reference, b)));
        }
        Ok((refusal(reference) == 0).then_some(b))
    }

    /// Asks a reader for its next entry, and gives the entry if there is one.
    pub fn chunk_next(&mut self, chunk: &[u8], reader: &mut ReaderSlots) -> Compared<Option<ElementSlots>> {
        let before = *reader;
        let mut other = before;
        let (mut a, mut b) = ([UNTOUCHED_SLOT; 8], [UNTOUCHED_SLOT; 8]);
        let library = self.library.chunk_next(chunk, &mut other, &mut a);
        let reference = self.reference.chunk_next(chunk, reader, &mut b);
        self.count(reference);
        if (library, other, a) != (reference, *reader, b) {
            let arguments = format!("reader {before:?}\nchunk {}", hex(chunk));
            let tell = |answer, reader: &ReaderSlots, entry: ElementSlots| {
                format!("{} reader {reader:?} entry {entry:?}", told(answer))
            };
            return Err(differ(
                "chunk_next",
                arguments,
                tell(library, &other, a),
                tell(reference, reader, b),
            ));
        }
        Ok((number(reference) == 1).then_some(b))
    }

    /// A ledger call other than receiving; both ledgers begin alike and must end alike.
    pub fn ledger(
        &mut self,
        call: &str,
        arguments: &dyn Fn() -> String,
        ledger: &mut Ledger,
        make: &dyn Fn(&dyn Boundary, &mut Ledger) -> u64,
    ) -> Done {
        let before = *ledger;
        let mut other = before;
        let library = make(self.library, &mut other);
        let reference = make(self.reference, ledger);
        self.count(reference);
        if library != reference || other != *ledger {
            let (a, b) = (ledger_told(library, &before, &other), ledger_told(reference, &before, ledger));
            return Err(differ(call, format!("{}\nledger {before:?}", arguments()), a, b));
        }
        Ok(())
    }

    pub fn receive(&mut self, ledger: &mut Ledger, bytes: &[u8], limit: u32) -> Done {
        let before = *ledger;
        let mut other = before;
        let (mut a, mut b) = ([UNTOUCHED_SLOT; 24], [UNTOUCHED_SLOT; 24]);
        let library = self.library.credit_receive(&mut other, bytes, limit, &mut a);
        let reference = self.reference.credit_receive(ledger, bytes, limit, &mut b);
        self.count(reference);
        if (library, a) != (reference, b) || other != *ledger {
            let arguments = format!("limit {limit}\nbytes {}\nledger {before:?}", hex(bytes));
            let a = format!("{} frame {a:?}", ledger_told(library, &before, &other));
            let b = format!("{} frame {b:?}", ledger_told(reference, &before, ledger));
            return Err(differ("credit_receive", arguments, a, b));
        }
        Ok(())
    }
}

/// An answer, and the entries that the call changed.
fn ledger_told(answer: u64, before: &Ledger, after: &Ledger) -> String {
    let mut text = told(answer);
    for (i, (old, new)) in before.iter().zip(after).enumerate().filter(|(_, (old, new))| old != new) {
        write!(text, " entry {i}: {old} -> {new}").expect("a string takes every write");
    }
    text
}
