//! Reading: frames that are well formed, then damaged in every way that the rules speak of.

use random::Random;
use reference::{keys, versions};

use crate::comparison::{Compared, Comparison, Done};
use crate::generate::{Generated, Mark, set_size};

pub fn whole_and_cut(comparison: &mut Comparison, random: &mut Random, generated: &Generated) -> Done {
    let bytes = &generated.bytes;
    let size = bytes.len() as u32 - 4;
    for limit in [0, 1, 2, 3, size - 1, size, size + 1, 65_532, u32::MAX] {
        comparison.read(bytes, limit)?;
    }
    let mut longer = bytes.clone();
    longer.push(random.byte());
    comparison.read(&longer, 0)?;
    set_size(&mut longer);
    comparison.read(&longer, 0)?;

    // Cut as a capture is cut, Size as it was.
    for cut in cuts(random, generated, 24) {
        comparison.read(&bytes[..cut], random.pick(&[0, 0, 2, size]))?;
    }
    // Cut inside, Size saying so.
    for cut in cuts(random, generated, 80) {
        if cut >= 8 {
            let mut shorter = bytes[..cut].to_vec();
            set_size(&mut shorter);
            comparison.read(&shorter, 0)?;
        }
    }
    Ok(())
}

/// Every place to cut a short frame; of a longer one, places around its marks and others.
fn cuts(random: &mut Random, generated: &Generated, most: usize) -> Vec<usize> {
    let length = generated.bytes.len();
    if length <= most {
        return (0..length).collect();
    }
    let mut cuts: Vec<usize> = (0..most / 4).collect();
    for _ in 0..most / 4 {
        cuts.push(random.below(length));
        if !generated.marks.is_empty() {
            let Mark { at, width } = random.pick(&generated.marks);
            cuts.push(at + random.below(width + 1));
        }
    }
    cuts.push(length - 1);
    cuts
}

pub fn damaged(comparison: &mut Comparison, random: &mut Random, generated: &Generated) -> Done {
    let mut bytes = generated.bytes.clone();
    head_altered(comparison, random, &mut bytes)?;
    if generated.marks.len() <= 12 {
        for mark in &generated.marks {
            number_altered(comparison, random, &mut bytes, *mark)?;
        }
    } else {
        for _ in 0..12 {
            let mark = random.pick(&generated.marks);
            number_altered(comparison, random, &mut bytes, mark)?;
        }
    }
    for _ in 0..24 {
        bytes_altered(comparison, random, &mut bytes)?;
    }
    Ok(())
}

/// Size, key and version.
fn head_altered(comparison: &mut Comparison, random: &mut Random, bytes: &mut [u8]) -> Done {
    let length = bytes.len() as u64 - 4;
    let size = Mark { at: 0, width: 4 };
    for altered in
        [0, 1, 2, 3, 4, 5, length - 1, length + 1, length / 2, length * 2, 65_533, u64::MAX, 1 << 31]
    {
        with_number(bytes, size, altered, |bytes| {
            comparison.read(bytes, random.pick(&[1, 2, 3]))?;
            comparison.read(bytes, 65_532)?;
            comparison.read(bytes, 0)
        })?;
    }
    let key = Mark { at: 4, width: 2 };
    let listed = number_at(bytes, key);
    let (response, next, last, far) = (listed ^ 0x8000, listed + 1, listed - 1, listed ^ 0x0100);
    for altered in [0, response, next, last, far, 0x001f, 0x8002, 0x8008, random.number()] {
        with_number(bytes, key, altered, |bytes| comparison.read(bytes, 0))?;
    }
    let version = Mark { at: 6, width: 2 };
    for altered in [0, 2, 3, 0x0100, 0x0101, 0x0102, random.number()] {
        with_number(bytes, version, altered, |bytes| comparison.read(bytes, 0))?;
    }
    Ok(())
}

/// A length, count, type or size: a little less, a little more, negative, huge.
fn number_altered(comparison: &mut Comparison, random: &mut Random, bytes: &mut [u8], mark: Mark) -> Done {
    let value = number_at(bytes, mark);
    let top = 1 << (8 * mark.width - 1);
    let near = [value.wrapping_sub(2), value.wrapping_sub(1), value + 1, value + 2, value ^ top];
    let far = [0, u64::MAX, u64::MAX - 1, top - 1, top, random.number(), random.below(8) as u64];
    for altered in near.into_iter().chain(far) {
        with_number(bytes, mark, altered, |bytes| comparison.read(bytes, 0))?;
    }
    Ok(())
}

/// One to three bytes anywhere.
fn bytes_altered(comparison: &mut Comparison, random: &mut Random, bytes: &mut [u8]) -> Done {
    let mut kept = Vec::new();
    for _ in 0..1 + random.below(3) {
        let first = random.pick(&[0, 4, 4, 4]);
        let at = first + random.below(bytes.len() - first);
        let (byte, any) = (bytes[at], random.byte());
        kept.push((at, byte));
        bytes[at] = random.pick(&[any, any, 0, 1, 0x7f, 0x80, 0xc0, 0xff, byte ^ 1, byte ^ 0x80]);
    }
    comparison.read(bytes, 0)?;
    for (at, byte) in kept.into_iter().rev() {
        bytes[at] = byte;
    }
    Ok(())
}

pub fn number_at(bytes: &[u8], mark: Mark) -> u64 {
    bytes[mark.at..mark.at + mark.width].iter().fold(0, |value, byte| value << 8 | u64::from(*byte))
}

/// Puts a number in place for one call.
pub fn with_number<T>(
    bytes: &mut [u8],
    mark: Mark,
    value: u64,
    call: impl FnOnce(&[u8]) -> Compared<T>,
) -> Compared<T> {
    let range = mark.at..mark.at + mark.width;
    let kept = bytes[range.clone()].to_vec();
    bytes[range.clone()].copy_from_slice(&value.to_be_bytes()[8 - mark.width..]);
    let result = call(bytes);
    bytes[range].copy_from_slice(&kept);
    result
}

/// A listed key with a content of small and edge bytes, so that lengths and counts are often plausible.
pub fn random_frame(comparison: &mut Comparison, random: &mut Random) -> Done {
    let listed: Vec<u16> = keys().collect();
    let key = random.pick(&listed);
    let mut bytes = vec![0; 4];
    bytes.extend(key.to_be_bytes());
    bytes.extend([0, if versions(key).contains(&2) { 1 + random.below(2) as u8 } else { 1 }]);
    for _ in 0..random.below(80) {
        let any = random.byte();
        bytes.push(random.pick(&[0, 0, 0, 0, 0, 1, 1, 2, 3, 4, any, any, 0xff]));
    }
    set_size(&mut bytes);
    comparison.read(&bytes, 0)?;
    let cut = random.below(bytes.len());
    comparison.read(&bytes[..cut], random.pick(&[0, 0, 30]))?;
    Ok(())
}

/// Bytes on either side of every border that RFC 3629 draws: between leading bytes, and between those that follow.
const LEADING: [u8; 26] = [
    0x00, 0x41, 0x7f, 0x80, 0x8f, 0x90, 0x9f, 0xa0, 0xbf, 0xc0, 0xc1, 0xc2, 0xdf, 0xe0, 0xe1, 0xec, 0xed,
    0xee, 0xef, 0xf0, 0xf1, 0xf3, 0xf4, 0xf5, 0xf7, 0xff,
];
const FOLLOWING: [u8; 8] = [0x7f, 0x80, 0x8f, 0x90, 0x9f, 0xa0, 0xbf, 0xc0];

/// Every sequence of one to four such bytes.
pub fn texts(comparison: &mut Comparison, random: &mut Random) -> Done {
    let mut sequences: Vec<Vec<u8>> = LEADING.iter().map(|byte| vec![*byte]).collect();
    for _ in 0..4 {
        for sequence in &sequences {
            text(comparison, random, sequence, 0)?;
            text(comparison, random, sequence, 1)?;
        }
        let longer = |sequence: &Vec<u8>| FOLLOWING.map(|byte| [&sequence[..], &[byte]].concat());
        sequences = sequences.iter().flat_map(longer).collect();
    }
    Ok(())
}

/// Such bytes in any order and number.
pub fn random_text(comparison: &mut Comparison, random: &mut Random) -> Done {
    let mut sequence = Vec::new();
    for _ in 0..1 + random.below(8) {
        let (leading, following, any) = (random.pick(&LEADING), random.pick(&FOLLOWING), random.byte());
        sequence.push(random.pick(&[leading, leading, following, following, following, any]));
    }
    let behind = random.pick(&[0, 1, 7, 8, 9]);
    text(comparison, random, &sequence, behind)
}

/// An Open whose text is ASCII of any length up to two words, then this sequence, then so many bytes of ASCII.
fn text(comparison: &mut Comparison, random: &mut Random, sequence: &[u8], behind: usize) -> Done {
    let text = [&vec![b'a'; random.below(18)], sequence, &vec![b'z'; behind]].concat();
    let mut bytes = vec![0, 0, 0, 0, 0, 0x15, 0, 1, 0, 0, 0, 1];
    bytes.extend((text.len() as u16).to_be_bytes());
    bytes.extend(text);
    set_size(&mut bytes);
    comparison.read(&bytes, 0)?;
    Ok(())
}
