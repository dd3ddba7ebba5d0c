//! The chunk reader: over the chunks of frames that were read, over damaged ones, and from slots that the host made up.

use boundary::{Frame, ReaderSlots};
use random::Random;

use crate::comparison::{Comparison, Done};
use crate::generate::{Generated, Mark};
use crate::reading::{number_at, with_number};
use crate::writing::slot_value;

/// The bytes of a chunk's header, and the numbers in it that a reader goes by.
pub const HEADER: usize = 48;
const TYPE: Mark = Mark { at: 1, width: 1 };
pub const ENTRIES: Mark = Mark { at: 2, width: 2 };
const RECORDS: Mark = Mark { at: 4, width: 4 };
pub const DATA_LENGTH: Mark = Mark { at: 36, width: 4 };

/// The chunk of a Deliver that was read, then what the same bytes give when they are damaged.
pub fn chunk_readers(
    comparison: &mut Comparison,
    random: &mut Random,
    generated: &Generated,
    frame: &Frame,
) -> Done {
    let place = if frame[1] == 1 { 15 } else { 16 };
    let start = frame[place] as usize - HEADER;
    let end = (frame[place] + frame[place + 1]) as usize;
    both_walks(comparison, frame, &generated.bytes, start, end)?;

    let chunk = &mut generated.bytes[start..end].to_vec();
    walk(comparison, &[chunk, &[random.byte()][..]].concat())?;
    for _ in 0..4 {
        let cut = random.below(chunk.len());
        walk(comparison, &chunk[..cut])?;
        if cut >= HEADER {
            with_number(&mut chunk[..cut], DATA_LENGTH, (cut - HEADER) as u64, |cut| walk(comparison, cut))?;
        }
    }
    header_altered(comparison, random, chunk)?;
    let sizes = generated.marks.iter().filter(|mark| mark.at >= start + HEADER);
    let sizes: Vec<Mark> = sizes.map(|mark| Mark { at: mark.at - start, width: mark.width }).collect();
    if !sizes.is_empty() {
        entries_altered(comparison, random, chunk, &sizes)?;
    }
    made_up(comparison, random, chunk)
}

/// A Deliver that was read is walked by index and by the chunk reader, which agree up to the end.
fn both_walks(comparison: &mut Comparison, frame: &Frame, source: &[u8], start: usize, end: usize) -> Done {
    let chunk = &source[start..end];
    let opened = comparison.chunk_open(chunk)?;
    let mut reader = opened.expect("the chunk of a Deliver that was read is opened");
    for index in 0.. {
        let message = comparison.message(frame, source, index)?;
        let entry = comparison.chunk_next(chunk, &mut reader)?;
        let in_source = entry.map(|[place, length, ..]| [place + start as u64, length, 0, 0, 0, 0, 0, 0]);
        assert_eq!(in_source, message, "an entry is the message at its index");
        if entry.is_none() {
            break;
        }
    }
    at_the_end(comparison, chunk, &mut reader)
}

/// Opens the bytes, and asks for every entry if they are accepted.
fn walk(comparison: &mut Comparison, chunk: &[u8]) -> Done {
    if let Some(mut reader) = comparison.chunk_open(chunk)? {
        while comparison.chunk_next(chunk, &mut reader)?.is_some() {}
        at_the_end(comparison, chunk, &mut reader)?;
    }
    Ok(())
}

/// A reader that is done stays so.
fn at_the_end(comparison: &mut Comparison, chunk: &[u8], reader: &mut ReaderSlots) -> Done {
    assert_eq!(reader[1..], [0, 0, 0], "at the end no entry is left");
    for _ in 0..2 {
        let entry = comparison.chunk_next(chunk, reader)?;
        assert_eq!(entry, None, "after the end nothing comes");
    }
    Ok(())
}

/// Type, entries, records and data length: a little less, a little more, and far off.
fn header_altered(comparison: &mut Comparison, random: &mut Random, chunk: &mut [u8]) -> Done {
    for kind in [0, 1, 2, 3, 0x7f, 0x80, 0xff] {
        with_number(chunk, TYPE, kind, |chunk| walk(comparison, chunk))?;
    }
    for mark in [ENTRIES, RECORDS, DATA_LENGTH] {
        let value = number_at(chunk, mark);
        let top = 1 << (8 * mark.width - 1);
        for altered in [value.wrapping_sub(1), value + 1, value ^ top, 0, random.number()] {
            with_number(chunk, mark, altered, |chunk| walk(comparison, chunk))?;
        }
    }
    // Records that equal the entries, so that the entries decide.
    let entries = number_at(chunk, ENTRIES) as u16;
    for altered in [entries.wrapping_sub(1), entries.wrapping_add(1), 0, u16::MAX] {
        let kept = chunk[..8].to_vec();
        chunk[2..4].copy_from_slice(&altered.to_be_bytes());
        with_number(chunk, RECORDS, altered.into(), |chunk| walk(comparison, chunk))?;
        chunk[..8].copy_from_slice(&kept);
    }
    Ok(())
}

/// Sizes of entries, for a reader that is opened then, and for one that stood there before.
fn entries_altered(
    comparison: &mut Comparison,
    random: &mut Random,
    chunk: &mut [u8],
    sizes: &[Mark],
) -> Done {
    for _ in 0..6 {
        let mark = random.pick(sizes);
        let (value, any) = (number_at(chunk, mark), random.number());
        let near = random.pick(&[value.wrapping_sub(1), value + 1, value.wrapping_sub(4), value + 4, 0]);
        let far = random.pick(&[0x7fff_ffff, 0x8000_0000, 0xffff_ffff, any]);
        for altered in [near, value ^ 1 << 31, far] {
            with_number(chunk, mark, altered, |chunk| {
                walk(comparison, chunk)?;
                three_questions(comparison, chunk, [mark.at as u64, 2, any, far])
            })?;
        }
    }
    Ok(())
}

/// Readers with anything in their slots: places in the chunk, at its end and far beyond it, and any number left.
fn made_up(comparison: &mut Comparison, random: &mut Random, chunk: &[u8]) -> Done {
    let length = chunk.len() as u64;
    for _ in 0..24 {
        let (any, inside) = (random.number(), random.below(chunk.len() + 1) as u64);
        let edge = slot_value(random, length, chunk.len());
        let at =
            random.pick(&[HEADER as u64, inside, edge, edge, length, length - 3, length - 4, u64::MAX - 3, u64::MAX]);
        let left = random.pick(&[0, 0, 1, 2, 65_535, 65_536, 1 << 63, u64::MAX, any]);
        let last = [random.pick(&[0, 1, any]), random.pick(&[0, u64::MAX, any])];
        three_questions(comparison, chunk, [at, left, last[0], last[1]])?;
    }
    three_questions(comparison, &[], [0, 2, 0, 0])
}

fn three_questions(comparison: &mut Comparison, chunk: &[u8], mut reader: ReaderSlots) -> Done {
    for _ in 0..3 {
        comparison.chunk_next(chunk, &mut reader)?;
    }
    Ok(())
}

/// A chunk whose data is small and edge bytes, so that it often is entries, and a reader that stands somewhere in it.
pub fn random_chunk(comparison: &mut Comparison, random: &mut Random) -> Done {
    let (entries, data) = (random.below(4) as u8, random.below(24) as u8);
    let mut chunk = vec![0; HEADER];
    chunk[TYPE.at] = random.pick(&[0, 0, 0, 0, 0, 1, 2, 3]);
    chunk[ENTRIES.at + 1] = entries;
    chunk[RECORDS.at + 3] = entries;
    chunk[DATA_LENGTH.at + 3] = data;
    for _ in 0..data {
        let any = random.byte();
        chunk.push(random.pick(&[0, 0, 0, 0, 0, 1, 1, 2, 3, 4, any]));
    }
    walk(comparison, &chunk)?;
    three_questions(comparison, &chunk, [random.below(chunk.len() + 2) as u64, 2, 0, 0])
}
