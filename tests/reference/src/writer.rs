//! Writing a frame: every field is checked and the lengths added up before the first byte is written.

use std::convert::Infallible;

use crate::chunk::Header;
use crate::layout::{Element, Fields, Null, Text, content};
use crate::reader::{elements, is_utf8};
use crate::{Frame, NULL, Reason, Refusal, part};

/// Writes a flat frame whose places lie in `source` to the beginning of `out` and gives its length. A refused write
/// leaves `out` as it is, and an accepted one the bytes behind the frame.
#[inline]
pub fn write(frame: &Frame, source: &[u8], limit: u32, out: &mut [u8]) -> Result<usize, Refusal> {
    let Ok(key) = u16::try_from(frame[0]) else {
        return Err(Reason::UnknownKey.into());
    };
    // A version too wide for its field is none of those listed, and 0 is not listed either.
    let version = u16::try_from(frame[1]).unwrap_or(0);

    let size = content(key, version, Checker { frame, next: 2, source, size: 4 })?;
    if size > u64::from(u32::MAX) || (limit != 0 && size > u64::from(limit)) {
        return Err(Reason::OverLimit.into());
    }
    let length = size + 4;
    if length > out.len() as u64 {
        return Err(Reason::ShortOutput.into());
    }
    let length = length as usize;

    let mut emitter = Emitter { frame, next: 2, source, out: &mut out[..length] };
    emitter.put((size as u32).to_be_bytes());
    emitter.put(key.to_be_bytes());
    emitter.put(version.to_be_bytes());
    let Ok(()) = content(key, version, emitter);
    Ok(length)
}

/// Checks the fields of a flat frame and adds up their lengths.
struct Checker<'a> {
    frame: &'a Frame,
    next: usize,
    source: &'a [u8],
    /// Size: what stands behind the frame's first four bytes.
    size: u64,
}

impl<'a> Checker<'a> {
    #[inline(always)]
    fn slots<const N: usize>(&mut self) -> &'a [u64; N] {
        let frame = self.frame;
        let slots = frame[self.next..].first_chunk().expect("no layout has more than 24 slots");
        self.next += N;
        slots
    }

    #[inline(always)]
    fn number(&mut self, width: u64, largest: u64) -> Result<(), Refusal> {
        let [value] = *self.slots();
        if value > largest {
            return Err(Reason::NotAdmitted.into());
        }
        self.size += width;
        Ok(())
    }

    #[inline(always)]
    fn part(&self, place: u64, length: u64) -> Result<&'a [u8], Refusal> {
        part(self.source, place, length).ok_or(Reason::Outside.into())
    }
}

impl Fields for Checker<'_> {
    type Stop = Refusal;
    type Output = u64;

    #[inline(always)]
    fn u8(&mut self) -> Result<(), Refusal> {
        self.number(1, u8::MAX.into())
    }

    #[inline(always)]
    fn u16(&mut self) -> Result<(), Refusal> {
        self.number(2, u16::MAX.into())
    }

    #[inline(always)]
    fn u32(&mut self) -> Result<(), Refusal> {
        self.number(4, u32::MAX.into())
    }

    #[inline(always)]
    fn u64(&mut self) -> Result<(), Refusal> {
        self.number(8, u64::MAX)
    }

    #[inline(always)]
    fn i64(&mut self) -> Result<(), Refusal> {
        self.number(8, u64::MAX)
    }

    #[inline(always)]
    fn active(&mut self) -> Result<(), Refusal> {
        self.number(1, 1)
    }

    #[inline(always)]
    fn text(&mut self, rule: Text) -> Result<(), Refusal> {
        let [place, length] = *self.slots();
        if length == NULL && rule.null == Null::Admitted {
            self.size += 2;
            return Ok(());
        }
        if length > 32_767 {
            return Err(Reason::BadLength.into());
        }
        if length > rule.longest {
            return Err(Reason::LongReference.into());
        }
        let body = self.part(place, length)?;
        if !is_utf8(body) {
            return Err(Reason::NotUtf8.into());
        }
        self.size += 2 + length;
        Ok(())
    }

    #[inline(always)]
    fn bytes(&mut self, null: Null) -> Result<(), Refusal> {
        let [place, length] = *self.slots();
        if length == NULL && null == Null::Admitted {
            self.size += 4;
            return Ok(());
        }
        if length > i32::MAX as u64 {
            return Err(Reason::BadLength.into());
        }
        self.part(place, length)?;
        self.size += 4 + length;
        Ok(())
    }

    #[inline(always)]
    fn offset(&mut self, none: bool) -> Result<(), Refusal> {
        let [kind, _] = *self.slots();
        self.size += match kind {
            0 if none => 2,
            1..=3 => 2,
            4 | 5 => 10,
            _ => return Err(Reason::NotAdmitted.into()),
        };
        Ok(())
    }

    #[inline(always)]
    fn list<E: Element>(&mut self) -> Result<(), Refusal> {
        let [count, place, length] = *self.slots();
        if count > i32::MAX as u64 {
            return Err(Reason::BadLength.into());
        }
        let part = self.part(place, length)?;
        if !elements::<E>(part, part.len(), count)?.is_empty() {
            return Err(Reason::BytesLeft.into());
        }
        self.size += 4 + length;
        Ok(())
    }

    #[inline(always)]
    fn chunk(&mut self) -> Result<(), Refusal> {
        let header = match Header::from_numbers(self.slots()) {
            Some(header) if header.has_known_type() => header,
            _ => return Err(Reason::NotAdmitted.into()),
        };
        let [place, length] = *self.slots();
        let data = self.part(place, length)?;
        header.check_data(data).map_err(|fault| fault.reason)?;
        self.size += 48 + length;
        Ok(())
    }

    #[inline(always)]
    fn unknown_key(&mut self) -> Refusal {
        Reason::UnknownKey.into()
    }

    #[inline(always)]
    fn unknown_version(&mut self) -> Refusal {
        Reason::UnknownVersion.into()
    }

    #[inline(always)]
    fn finish(self) -> Result<u64, Refusal> {
        Ok(self.size)
    }
}

/// Writes fields that have been checked into room that has been measured.
struct Emitter<'a> {
    frame: &'a Frame,
    next: usize,
    source: &'a [u8],
    out: &'a mut [u8],
}

impl<'a> Emitter<'a> {
    #[inline(always)]
    fn slots<const N: usize>(&mut self) -> &'a [u64; N] {
        let frame = self.frame;
        let slots = frame[self.next..].first_chunk().expect("no layout has more than 24 slots");
        self.next += N;
        slots
    }

    #[inline(always)]
    fn put<const N: usize>(&mut self, bytes: [u8; N]) {
        let (head, rest) = std::mem::take(&mut self.out).split_at_mut(N);
        head.copy_from_slice(&bytes);
        self.out = rest;
    }

    #[inline(always)]
    fn copy(&mut self, place: u64, length: u64) {
        let (head, rest) = std::mem::take(&mut self.out).split_at_mut(length as usize);
        head.copy_from_slice(&self.source[place as usize..][..length as usize]);
        self.out = rest;
    }
}

impl Fields for Emitter<'_> {
    type Stop = Infallible;
    type Output = ();

    #[inline(always)]
    fn u8(&mut self) -> Result<(), Infallible> {
        let [value] = *self.slots();
        self.put([value as u8]);
        Ok(())
    }

    #[inline(always)]
    fn u16(&mut self) -> Result<(), Infallible> {
        let [value] = *self.slots();
        self.put((value as u16).to_be_bytes());
        Ok(())
    }

    #[inline(always)]
    fn u32(&mut self) -> Result<(), Infallible> {
        let [value] = *self.slots();
        self.put((value as u32).to_be_bytes());
        Ok(())
    }

    #[inline(always)]
    fn u64(&mut self) -> Result<(), Infallible> {
        let [value] = *self.slots();
        self.put(value.to_be_bytes());
        Ok(())
    }

    #[inline(always)]
    fn i64(&mut self) -> Result<(), Infallible> {
        self.u64()
    }

    #[inline(always)]
    fn active(&mut self) -> Result<(), Infallible> {
        self.u8()
    }

    #[inline(always)]
    fn text(&mut self, _: Text) -> Result<(), Infallible> {
        let [place, length] = *self.slots();
        // The length of a null, all ones, is -1 in two bytes as well.
        self.put((length as u16).to_be_bytes());
        if length != NULL {
            self.copy(place, length);
        }
        Ok(())
    }

    #[inline(always)]
    fn bytes(&mut self, _: Null) -> Result<(), Infallible> {
        let [place, length] = *self.slots();
        self.put((length as u32).to_be_bytes());
        if length != NULL {
            self.copy(place, length);
        }
        Ok(())
    }

    #[inline(always)]
    fn offset(&mut self, _: bool) -> Result<(), Infallible> {
        let [kind, value] = *self.slots();
        self.put((kind as u16).to_be_bytes());
        if kind >= 4 {
            self.put(value.to_be_bytes());
        }
        Ok(())
    }

    #[inline(always)]
    fn list<E: Element>(&mut self) -> Result<(), Infallible> {
        let [count, place, length] = *self.slots();
        self.put((count as u32).to_be_bytes());
        self.copy(place, length);
        Ok(())
    }

    #[inline(always)]
    fn chunk(&mut self) -> Result<(), Infallible> {
        let header = Header::from_numbers(self.slots()).expect("the header has been checked");
        self.put(header.encode());
        let [place, length] = *self.slots();
        self.copy(place, length);
        Ok(())
    }

    fn unknown_key(&mut self) -> Infallible {
        unreachable!("the key has been checked")
    }

    fn unknown_version(&mut self) -> Infallible {
        unreachable!("the version has been checked")
    }

    #[inline(always)]
    fn finish(self) -> Result<(), Infallible> {
        Ok(())
    }
}
