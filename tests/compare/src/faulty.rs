//! The reference with one deliberate fault, to show that the comparison finds it.

use boundary::{Boundary, ElementSlots, Frame, Ledger, List, ReaderSlots, Reference, refusal};
use reference::NULL;

use crate::chunks::{DATA_LENGTH, ENTRIES, HEADER};
use crate::reading::number_at;

#[derive(Clone, Copy, PartialEq, Eq, Debug)]
pub enum Fault {
    NullIsReadAsEmpty,
    RefusedReadTouchesTheFrame,
    NeededLeavesOutSizeField,
    LimitIsComparedWithLength,
    SizeThreeBeforeTheLimit,
    ReadGoesBeyondItsInput,
    OffsetAfterNext,
    WriteLeavesTheOutput,
    WriteTouchesBytesBehind,
    WriteIgnoresTheLimit,
    RefusedWriteFillsTheOutput,
    ElementIgnoresItsPlace,
    LastElementIsRefused,
    MessageIgnoresTheType,
    ChunkOfAnyTypeHasEntries,
    ChunkIgnoresBytesAfterIt,
    ChunkIgnoresItsRecords,
    RefusedChunkTouchesTheReader,
    OpenedReaderKeepsItsLastSlots,
    LastEntryIsLeftOut,
    EntryIsGivenTwice,
    EntryPlaceCountsFromTheData,
    EntryClearsTheLastSlots,
    EntryKeepsTheOtherSlots,
    EndClearsTheEntry,
    EndIgnoresWhatIsLeft,
    RefusedEntryMovesTheReader,
    RefusedEntryIsTheEnd,
    RefusedDeliverSpends,
    RefusedDeliverHandsBackItsFrame,
    DeliverCostsItsMessages,
    GrantStopsBelowAMillion,
    OpeningAddsToTheOldBalance,
    TotalIsTouched,
    ConfirmStopsAtZero,
}

impl Fault {
    pub const ALL: [Fault; 35] = [
        Fault::NullIsReadAsEmpty,
        Fault::RefusedReadTouchesTheFrame,
        Fault::NeededLeavesOutSizeField,
        Fault::LimitIsComparedWithLength,
        Fault::SizeThreeBeforeTheLimit,
        Fault::ReadGoesBeyondItsInput,
        Fault::OffsetAfterNext,
        Fault::WriteLeavesTheOutput,
        Fault::WriteTouchesBytesBehind,
        Fault::WriteIgnoresTheLimit,
        Fault::RefusedWriteFillsTheOutput,
        Fault::ElementIgnoresItsPlace,
        Fault::LastElementIsRefused,
        Fault::MessageIgnoresTheType,
        Fault::ChunkOfAnyTypeHasEntries,
        Fault::ChunkIgnoresBytesAfterIt,
        Fault::ChunkIgnoresItsRecords,
        Fault::RefusedChunkTouchesTheReader,
        Fault::OpenedReaderKeepsItsLastSlots,
        Fault::LastEntryIsLeftOut,
        Fault::EntryIsGivenTwice,
        Fault::EntryPlaceCountsFromTheData,
        Fault::EntryClearsTheLastSlots,
        Fault::EntryKeepsTheOtherSlots,
        Fault::EndClearsTheEntry,
        Fault::EndIgnoresWhatIsLeft,
        Fault::RefusedEntryMovesTheReader,
        Fault::RefusedEntryIsTheEnd,
        Fault::RefusedDeliverSpends,
        Fault::RefusedDeliverHandsBackItsFrame,
        Fault::DeliverCostsItsMessages,
        Fault::GrantStopsBelowAMillion,
        Fault::OpeningAddsToTheOldBalance,
        Fault::TotalIsTouched,
        Fault::ConfirmStopsAtZero,
    ];
}

pub struct Faulty(pub Fault);

const LIBRARY: Reference = Reference;

impl Boundary for Faulty {
    fn read(&self, bytes: &[u8], limit: u32, frame: &mut Frame) -> u64 {
        let limit = match self.0 {
            Fault::LimitIsComparedWithLength if limit > 4 => limit - 4,
            Fault::SizeThreeBeforeTheLimit
                if bytes.starts_with(&[0, 0, 0]) && bytes.len() > 3 && bytes[3] < 4 =>
            {
                0
            }
            _ => limit,
        };
        let answer = LIBRARY.read(bytes, limit, frame);
        match (self.0, refusal(answer)) {
            (Fault::NullIsReadAsEmpty, 0) if frame[0] == 0x13 && frame[6] == NULL => frame[6] = 0,
            (Fault::RefusedReadTouchesTheFrame, 7) => frame[2] = 0,
            (Fault::NeededLeavesOutSizeField, 1) if answer >> 8 > 4 => return answer - (4 << 8),
            (Fault::ReadGoesBeyondItsInput, 1) if bytes.len() > 4 => {
                let mut whole = bytes.to_vec();
                whole.resize(whole.len() + 1, 0);
                return LIBRARY.read(&whole, limit, frame);
            }
            (Fault::OffsetAfterNext, 0) if frame[0] == 0x801a && frame[4] == 3 => frame[5] = 1,
            _ => {}
        }
        answer
    }

    fn write(&self, frame: &Frame, source: &[u8], limit: u32, out: &mut [u8]) -> u64 {
        let before = out.to_vec();
        let limit = if self.0 == Fault::WriteIgnoresTheLimit { 0 } else { limit };
        let answer = LIBRARY.write(frame, source, limit, out);
        let length = (answer >> 8) as usize;
        match (self.0, refusal(answer)) {
            (Fault::WriteLeavesTheOutput, 0) => out.copy_from_slice(&before),
            (Fault::WriteTouchesBytesBehind, 0) if out.len() > length => out[length] = 0,
            (Fault::RefusedWriteFillsTheOutput, 12) if !out.is_empty() => out[0] = 0,
            _ => {}
        }
        answer
    }

    fn element(&self, shape: u8, source: &[u8], list: List, index: u64, element: &mut ElementSlots) -> u64 {
        match self.0 {
            Fault::ElementIgnoresItsPlace if index >= list.count => 10,
            Fault::LastElementIsRefused if index.checked_add(1) == Some(list.count) => 10,
            _ => LIBRARY.element(shape, source, list, index, element),
        }
    }

    fn message(&self, frame: &Frame, source: &[u8], index: u64, message: &mut ElementSlots) -> u64 {
        let mut frame = *frame;
        if self.0 == Fault::MessageIgnoresTheType {
            frame[if frame[1] == 1 { 4 } else { 5 }] = 0;
        }
        LIBRARY.message(&frame, source, index, message)
    }

    fn chunk_open(&self, chunk: &[u8], reader: &mut ReaderSlots) -> u64 {
        let before = *reader;
        let answer = LIBRARY.chunk_open(chunk, reader);
        match (self.0, answer) {
            (Fault::ChunkOfAnyTypeHasEntries, 0) => reader[1] = number_at(chunk, ENTRIES),
            (Fault::ChunkIgnoresBytesAfterIt, 11) => {
                let end = HEADER + number_at(chunk, DATA_LENGTH) as usize;
                return LIBRARY.chunk_open(&chunk[..end], reader);
            }
            (Fault::ChunkIgnoresItsRecords, 10) => {
                let mut other = chunk.to_vec();
                other[4..8].copy_from_slice(&[0, 0, chunk[2], chunk[3]]);
                return LIBRARY.chunk_open(&other, reader);
            }
            (Fault::RefusedChunkTouchesTheReader, 6) => reader[1] = 0,
            (Fault::OpenedReaderKeepsItsLastSlots, 0) => reader[2..].copy_from_slice(&before[2..]),
            _ => {}
        }
        answer
    }

    fn chunk_next(&self, chunk: &[u8], reader: &mut ReaderSlots, entry: &mut ElementSlots) -> u64 {
        let (place, slots) = (reader[0], *entry);
        match self.0 {
            Fault::LastEntryIsLeftOut if reader[1] == 1 => return 0,
            Fault::EndIgnoresWhatIsLeft if reader[0] == chunk.len() as u64 => return 0,
            _ => {}
        }
        let answer = LIBRARY.chunk_next(chunk, reader, entry);
        match (self.0, answer) {
            (Fault::EntryIsGivenTwice, 0x100) => reader[0] = place,
            (Fault::EntryPlaceCountsFromTheData, 0x100) => entry[0] = entry[0].wrapping_sub(HEADER as u64),
            (Fault::EntryClearsTheLastSlots, 0x100) => reader[2..].fill(0),
            (Fault::EntryKeepsTheOtherSlots, 0x100) => entry[2..].copy_from_slice(&slots[2..]),
            (Fault::EndClearsTheEntry, 0) => entry.fill(0),
            (Fault::RefusedEntryMovesTheReader, 6) => reader[0] = chunk.len() as u64,
            (Fault::RefusedEntryIsTheEnd, 10) => return 0,
            _ => {}
        }
        answer
    }

    fn credit_empty(&self, ledger: &mut Ledger) {
        LIBRARY.credit_empty(ledger);
    }

    fn credit_open(&self, ledger: &mut Ledger, id: u8, credit: u16) -> u64 {
        if self.0 == Fault::OpeningAddsToTheOldBalance && ledger[usize::from(id)] == 2 {
            ledger[usize::from(id)] += u32::from(credit);
        }
        LIBRARY.credit_open(ledger, id, credit)
    }

    fn credit_grant(&self, ledger: &mut Ledger, id: u8, n: u16) -> u64 {
        let before = *ledger;
        let answer = LIBRARY.credit_grant(ledger, id, n);
        if self.0 == Fault::GrantStopsBelowAMillion && answer == 0 && ledger[usize::from(id)] == 1_000_001 {
            *ledger = before;
            return 16;
        }
        if self.0 == Fault::TotalIsTouched && answer == 0 {
            ledger[256] = ledger[256].wrapping_add(n.into());
        }
        answer
    }

    fn credit_close(&self, ledger: &mut Ledger, id: u8) -> u64 {
        LIBRARY.credit_close(ledger, id)
    }

    fn credit_receive(&self, ledger: &mut Ledger, bytes: &[u8], limit: u32, frame: &mut Frame) -> u64 {
        let answer = LIBRARY.credit_receive(ledger, bytes, limit, frame);
        match (self.0, refusal(answer)) {
            (Fault::RefusedDeliverSpends, 15) => ledger[usize::from(bytes[8])] = 0,
            (Fault::RefusedDeliverHandsBackItsFrame, 13) => _ = LIBRARY.read(bytes, limit, frame),
            (Fault::DeliverCostsItsMessages, 0) if frame[0] == 8 && frame[1] == 1 && frame[5] > 1 => {
                ledger[usize::from(bytes[8])] = 1;
            }
            _ => {}
        }
        answer
    }

    fn publisher_empty(&self, ledger: &mut Ledger) {
        LIBRARY.publisher_empty(ledger);
    }

    fn publisher_declare(&self, ledger: &mut Ledger, id: u8) -> u64 {
        LIBRARY.publisher_declare(ledger, id)
    }

    fn publisher_delete(&self, ledger: &mut Ledger, id: u8) -> u64 {
        LIBRARY.publisher_delete(ledger, id)
    }

    fn publisher_send(&self, ledger: &mut Ledger, id: u8, n: u32) -> u64 {
        LIBRARY.publisher_send(ledger, id, n)
    }

    fn publisher_confirm(&self, ledger: &mut Ledger, id: u8, n: u32) -> u64 {
        let answer = LIBRARY.publisher_confirm(ledger, id, n);
        if self.0 == Fault::ConfirmStopsAtZero && answer == 17 {
            ledger[usize::from(id)] = 1;
            return 0;
        }
        answer
    }
}
