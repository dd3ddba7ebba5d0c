//! Elements of lists and messages of chunks, asked for rightly and wrongly.

use boundary::{Frame, List};
use random::Random;

use crate::comparison::{Comparison, Done};
use crate::generate::Generated;
use crate::outline;
use crate::writing::slot_value;

pub fn elements(
    comparison: &mut Comparison,
    random: &mut Random,
    generated: &Generated,
    frame: &Frame,
) -> Done {
    for (shape, list) in outline::lists(frame) {
        let source = &generated.bytes;
        for index in [0, 1, list.count.wrapping_sub(1), list.count, list.count + 1, u64::MAX] {
            let element = comparison.element(shape, source, list, index)?;
            if let (9, Some(slots)) = (shape, element) {
                let replicas = List { count: slots[4], place: slots[5], length: slots[6] };
                questions(comparison, random, 11, source, replicas)?;
            }
        }
        questions(comparison, random, shape, source, list)?;
        let mut altered = source.clone();
        for _ in 0..6 {
            if list.length > 0 {
                let at = list.place as usize + random.below(list.length as usize);
                altered[at] = random.pick(&[0, 1, 0x80, 0xc0, 0xff, altered[at] ^ 1]);
            }
            let index = random.below(list.count as usize + 2) as u64;
            comparison.element(shape, &altered, list, index)?;
        }
        let cut = random.below(source.len() + 1);
        comparison.element(shape, &source[..cut], list, 0)?;
    }
    Ok(())
}

/// Element questions with places, counts, indexes and shapes that the list does not have.
fn questions(comparison: &mut Comparison, random: &mut Random, shape: u8, source: &[u8], list: List) -> Done {
    for other in 0..=12 {
        let index = random.below(list.count as usize + 1) as u64;
        comparison.element(other, source, list, index)?;
    }
    comparison.element(random.byte(), source, list, 0)?;
    for _ in 0..16 {
        let mut list = list;
        for _ in 0..1 + random.below(2) {
            match random.below(4) {
                0 => list.count = slot_value(random, list.count, source.len()),
                1 => list.place = slot_value(random, list.place, source.len()),
                _ => list.length = slot_value(random, list.length, source.len()),
            }
        }
        let count = list.count;
        let index = random.pick(&[0, 1, count.wrapping_sub(1), count, count / 2, 7, u64::MAX - 1, u64::MAX]);
        comparison.element(shape, source, list, index)?;
    }
    Ok(())
}

/// The header's numbers stay within their widths: what a wider one gets here is laid down for writing only.
pub fn messages(
    comparison: &mut Comparison,
    random: &mut Random,
    generated: &Generated,
    frame: &Frame,
) -> Done {
    let source = &generated.bytes;
    let chunk = if frame[1] == 1 { 3 } else { 4 };
    let (kind, entries, place, length) = (chunk + 1, chunk + 2, chunk + 12, chunk + 13);
    for index in [0, 1, frame[entries].wrapping_sub(1), frame[entries], u64::MAX] {
        comparison.message(frame, source, index)?;
    }
    for _ in 0..24 {
        let mut altered = *frame;
        for _ in 0..1 + random.below(2) {
            match random.below(6) {
                0 => altered[kind] = random.pick(&[0, 1, 2, 3, 127, u64::MAX, u64::MAX - 127]),
                1 => altered[entries] = random.pick(&[0, 1, frame[entries] + 1, 65_535]).min(65_535),
                2 => altered[place] = slot_value(random, altered[place], source.len()),
                3 => altered[length] = slot_value(random, altered[length], source.len()),
                4 => altered[chunk + 3] = random.number() & 0xffff_ffff,
                _ if random.once_in(2) => altered[0] = random.pick(&[0, 2, 9, 0x8008, 0x1_0008]),
                _ => altered[1] = random.pick(&[0, 1, 2, 3, 0x1_0001, u64::MAX]),
            }
        }
        let index = random.pick(&[0, 1, 2, altered[entries].wrapping_sub(1), altered[entries], u64::MAX]);
        comparison.message(&altered, source, index)?;
    }
    let mut altered = source.clone();
    for _ in 0..8 {
        if frame[length] > 0 {
            let at = frame[place] as usize + random.below(frame[length] as usize);
            altered[at] = random.pick(&[0, 1, 0x80, 0xff, altered[at] ^ 1]);
        }
        comparison.message(frame, &altered, random.below(frame[entries] as usize + 2) as u64)?;
        let cut = random.below(source.len() + 1);
        comparison.message(frame, &source[..cut], 0)?;
    }
    Ok(())
}
