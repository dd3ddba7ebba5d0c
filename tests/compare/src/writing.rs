//! Writing: what was read, then flat frames, sources, limits and outputs that do not fit together.

use boundary::Frame;
use random::Random;
use reference::{keys, versions};

use crate::comparison::{Comparison, Done};
use crate::generate::Generated;

pub fn writing(
    comparison: &mut Comparison,
    random: &mut Random,
    generated: &Generated,
    frame: &Frame,
) -> Done {
    let bytes = &generated.bytes;
    let length = bytes.len();
    let size = length as u32 - 4;
    for (limit, room) in [
        (0, length),
        (0, length + 1),
        (0, length + 40),
        (0, length - 1),
        (0, 0),
        (size, length),
        (size + 1, length),
        (size - 1, length),
        (size - 1, length - 1),
        (1, length),
        (65_532, length),
        (u32::MAX, length),
    ] {
        if comparison.write(frame, bytes, limit, room)?.is_some() {
            let same = comparison.output(length) == &bytes[..];
            assert!(same, "writing what was read gives the same bytes");
        }
    }

    // Slots altered one or two at a time.
    for _ in 0..48 {
        let mut altered = *frame;
        for _ in 0..1 + random.below(2) {
            let slot = if random.once_in(6) { random.below(24) } else { 2 + random.below(16) };
            altered[slot] = slot_value(random, altered[slot], length);
        }
        write_altered(comparison, random, &altered, bytes)?;
    }
    // Key and version.
    for key in [0, 0x1f, frame[0] ^ 0x8000, frame[0] + 0x1_0000, u64::MAX, random.number() & 0xffff] {
        let mut altered = *frame;
        altered[0] = key;
        altered[1] = random.pick(&[frame[1], frame[1], 0, 2, 3, 0x1_0001]);
        write_altered(comparison, random, &altered, bytes)?;
    }
    // The source altered under the frame's places.
    let mut source = bytes.clone();
    for _ in 0..12 {
        let at = random.below(length);
        source[at] = random.pick(&[0, 1, 0x80, 0xc0, 0xff, source[at] ^ 1]);
        write_altered(comparison, random, frame, &source)?;
        let cut = random.below(length);
        write_altered(comparison, random, frame, &bytes[..cut])?;
    }
    Ok(())
}

/// Writes with more room than any frame of this source mostly needs, and reads what was written.
fn write_altered(comparison: &mut Comparison, random: &mut Random, frame: &Frame, source: &[u8]) -> Done {
    let limit = random.pick(&[0, 0, 0, 65_532, source.len() as u32]);
    let room = source.len() + 16;
    if let Some(length) = comparison.write(frame, source, limit, room)? {
        let written = comparison.output(length).to_vec();
        let read = comparison.read(&written, limit)?;
        assert!(read.is_some(), "what was written is read");
        comparison.write(frame, source, limit, length - 1)?;
    }
    Ok(())
}

/// A number for a slot: an edge of some width, of the source, or near the one that stands there.
pub fn slot_value(random: &mut Random, value: u64, source: usize) -> u64 {
    let source = source as u64;
    let any = random.number();
    random.pick(&[
        value.wrapping_add(1),
        value.wrapping_sub(1),
        value.wrapping_neg(),
        0,
        1,
        2,
        3,
        5,
        6,
        127,
        128,
        255,
        256,
        257,
        32_767,
        32_768,
        65_535,
        65_536,
        70_000,
        (1 << 24) - 1,
        1 << 24,
        (1 << 31) - 1,
        1 << 31,
        (1 << 32) - 1,
        1 << 32,
        (1 << 40) + 1,
        1 << 63,
        u64::MAX,
        u64::MAX - 1,
        u64::MAX - 127,
        u64::MAX - 128,
        u64::MAX << 31,
        u64::MAX - (1 << 31),
        source,
        source + 1,
        source - 1,
        source.wrapping_sub(value),
        any,
        any & 0xff,
        any % (source + 2),
    ])
}

pub fn random_flat_frame(comparison: &mut Comparison, random: &mut Random) -> Done {
    let listed: Vec<u16> = keys().collect();
    let source: Vec<u8> =
        (0..1 + random.below(60)).map(|_| random.pick(&[0, 0, 0, 1, 2, 0x41, 0xc3])).collect();
    let key = random.pick(&listed);
    let mut frame = [0; 24];
    for slot in &mut frame[2..] {
        *slot = if random.once_in(4) {
            slot_value(random, 0, source.len())
        } else {
            random.below(source.len().min(5) + 1) as u64
        };
    }
    frame[0] = key.into();
    frame[1] = if versions(key).contains(&2) { 1 + random.below(2) as u64 } else { 1 };
    write_altered(comparison, random, &frame, &source)
}
