//! Frames by their layout's row, with the places of the numbers that a reader goes by.

use std::convert::Infallible;

use random::Random;
use reference::{Element, Fields, Null, Text, content};

/// A frame and its marks: every number in it that is worth altering (lengths, counts, types, sizes of entries).
pub struct Generated {
    pub bytes: Vec<u8>,
    pub marks: Vec<Mark>,
}

#[derive(Clone, Copy)]
pub struct Mark {
    pub at: usize,
    pub width: usize,
}

/// A frame of a listed key and version. It is well formed but for a reference that is now and then too long.
pub fn frame(random: &mut Random, key: u16, version: u16) -> Generated {
    let mut generator = Generator { random, bytes: vec![0; 4], marks: Vec::new() };
    generator.bytes.extend(key.to_be_bytes());
    generator.bytes.extend(version.to_be_bytes());
    let Ok(generated) = content(key, version, generator);
    generated
}

/// Makes Size that of the bytes.
pub fn set_size(bytes: &mut [u8]) {
    let size = bytes.len() as u32 - 4;
    bytes[..4].copy_from_slice(&size.to_be_bytes());
}

struct Generator<'a> {
    random: &'a mut Random,
    bytes: Vec<u8>,
    marks: Vec<Mark>,
}

impl Generator<'_> {
    fn number(&mut self, width: usize, value: u64) {
        self.bytes.extend(&value.to_be_bytes()[8 - width..]);
    }

    fn marked(&mut self, width: usize, value: u64) {
        self.marks.push(Mark { at: self.bytes.len(), width });
        self.number(width, value);
    }

    fn any(&mut self, width: usize) -> Result<(), Infallible> {
        let random = self.random.number();
        let value = self.random.pick(&[random, random, random, 0, 1, u64::MAX, 1 << 63, i64::MAX as u64]);
        self.number(width, value);
        Ok(())
    }

    fn length(&mut self, longest: usize) -> usize {
        let length = match self.random.below(200) {
            0..30 => 0,
            30..60 => 1,
            60..70 => self.random.pick(&[255, 256, 257]),
            70 => 32_767,
            _ => self.random.below(24),
        };
        // One byte too many, so that 257 bytes of a reference occur.
        length.min(longest + 1).min(32_767)
    }

    /// Text of exactly this many bytes, with characters of every width.
    fn characters(&mut self, length: usize) {
        let plain = self.random.once_in(2);
        let end = self.bytes.len() + length;
        while self.bytes.len() < end {
            let room = end - self.bytes.len();
            let character = match self.random.below(if plain { 1 } else { 8 }) {
                0..=3 => char::from(self.random.below(128) as u8),
                4 | 5 => self.random.pick(&['\u{80}', '\u{7ff}', 'é', 'Ω']),
                6 => self.random.pick(&['\u{800}', '\u{d7ff}', '\u{e000}', '\u{ffff}']),
                _ => self.random.pick(&['\u{10000}', '\u{10ffff}', '\u{40000}']),
            };
            let character = if character.len_utf8() > room { 'x' } else { character };
            self.bytes.extend(character.encode_utf8(&mut [0; 4]).as_bytes());
        }
    }

    fn octets(&mut self, length: usize) {
        let fill = self.random.number();
        self.bytes.extend((0..length as u64).map(|i| fill.wrapping_mul(2 * i + 1).to_le_bytes()[7]));
    }
}

impl Fields for Generator<'_> {
    type Stop = Infallible;
    type Output = Generated;

    fn u8(&mut self) -> Result<(), Infallible> {
        self.any(1)
    }

    fn u16(&mut self) -> Result<(), Infallible> {
        self.any(2)
    }

    fn u32(&mut self) -> Result<(), Infallible> {
        self.any(4)
    }

    fn u64(&mut self) -> Result<(), Infallible> {
        self.any(8)
    }

    fn i64(&mut self) -> Result<(), Infallible> {
        self.any(8)
    }

    fn active(&mut self) -> Result<(), Infallible> {
        let active = self.random.below(2) as u64;
        self.marked(1, active);
        Ok(())
    }

    fn text(&mut self, rule: Text) -> Result<(), Infallible> {
        if rule.null == Null::Admitted && self.random.once_in(3) {
            self.marked(2, u64::MAX);
            return Ok(());
        }
        let length = self.length(rule.longest as usize);
        self.marked(2, length as u64);
        self.characters(length);
        Ok(())
    }

    fn bytes(&mut self, null: Null) -> Result<(), Infallible> {
        if null == Null::Admitted && self.random.once_in(3) {
            self.marked(4, u64::MAX);
            return Ok(());
        }
        let length = self.length(32_767);
        self.marked(4, length as u64);
        self.octets(length);
        Ok(())
    }

    fn offset(&mut self, none: bool) -> Result<(), Infallible> {
        let lowest = if none { 0 } else { 1 };
        let kind = lowest + self.random.below(6 - lowest);
        self.marked(2, kind as u64);
        if kind >= 4 {
            self.any(8)?;
        }
        Ok(())
    }

    fn list<E: Element>(&mut self) -> Result<(), Infallible> {
        let count = match self.random.below(20) {
            0..5 => 0,
            5..9 => 1,
            9 if E::WIDTH > 0 => self.random.pick(&[20, 100, 256, 1000]),
            9 => 20,
            _ => self.random.below(6),
        };
        self.marked(4, count as u64);
        for _ in 0..count {
            E::fields(self)?;
        }
        Ok(())
    }

    fn chunk(&mut self) -> Result<(), Infallible> {
        let kind = self.random.pick(&[0, 0, 0, 0, 1, 2]);
        let (entries, longest) = match self.random.below(40) {
            0 => (1, 60_000),
            1 => (300, 200),
            2 => (1, 255),
            3..8 => (0, 1),
            8..12 => (30, 12),
            _ => (1 + self.random.below(4), 20),
        };
        let start = self.bytes.len();
        self.any(1)?;
        self.marked(1, kind);
        self.marked(2, entries as u64);
        let records = if kind == 0 { entries as u64 } else { self.random.number() };
        self.marked(4, records);
        for width in [8, 8, 8, 4] {
            self.any(width)?;
        }
        self.marked(4, 0);
        for width in [4, 1, 3] {
            self.any(width)?;
        }
        if kind == 0 {
            for _ in 0..entries {
                let length = self.random.below(longest);
                self.marked(4, length as u64);
                self.octets(length);
            }
        } else {
            let length = self.random.below(entries * longest + 1);
            self.octets(length);
        }
        let data = (self.bytes.len() - start - 48) as u32;
        self.bytes[start + 36..start + 40].copy_from_slice(&data.to_be_bytes());
        Ok(())
    }

    fn unknown_key(&mut self) -> Infallible {
        unreachable!("frames are generated for listed keys")
    }

    fn unknown_version(&mut self) -> Infallible {
        unreachable!("frames are generated for listed versions")
    }

    fn finish(mut self) -> Result<Generated, Infallible> {
        set_size(&mut self.bytes);
        Ok(Generated { bytes: self.bytes, marks: self.marks })
    }
}
