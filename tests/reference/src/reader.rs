//! Reading a frame, and the field readers that lists and elements share with it.

use crate::chunk::{self, HEADER};
use crate::layout::{Element, Fields, Null, Text, content};
use crate::{Frame, NULL, Reason, Refusal};

/// Where a reader puts what it reads.
pub(crate) trait Sink {
    type Kept;
    fn put(&mut self, value: u64);
    fn kept(self) -> Self::Kept;
}

/// Slots that are filled one after another.
pub(crate) struct Slots<'s, const N: usize> {
    pub values: &'s mut [u64; N],
    pub used: usize,
}

impl<const N: usize> Sink for Slots<'_, N> {
    type Kept = [u64; N];

    #[inline(always)]
    fn put(&mut self, value: u64) {
        self.values[self.used] = value;
        self.used += 1;
    }

    #[inline(always)]
    fn kept(self) -> [u64; N] {
        *self.values
    }
}

/// For fields that are only checked.
impl Sink for () {
    type Kept = ();

    #[inline(always)]
    fn put(&mut self, _: u64) {}

    #[inline(always)]
    fn kept(self) {}
}

/// The bytes not yet read. Places count from the first byte of a slice that ends where these end.
pub(crate) struct Reader<'a, S> {
    pub rest: &'a [u8],
    pub end: usize,
    pub sink: S,
}

/// Reads the frame at the beginning of `bytes`. A frame limit of 0 is none.
#[inline]
pub fn read(bytes: &[u8], limit: u32) -> Result<Frame, Refusal> {
    let Some(size) = bytes.first_chunk() else {
        return Err(Refusal { reason: Reason::Cut, detail: 4 });
    };
    let size = u32::from_be_bytes(*size);
    if limit != 0 && size > limit {
        return Err(Refusal::at(Reason::OverLimit, 0));
    }
    if size < 4 {
        return Err(Refusal::at(Reason::SizeBelowFour, 0));
    }
    let needed = u64::from(size) + 4;
    if needed > bytes.len() as u64 {
        return Err(Refusal { reason: Reason::Cut, detail: needed });
    }
    let end = needed as usize;
    let frame = &bytes[..end];
    let key = u16::from_be_bytes([frame[4], frame[5]]);
    let version = u16::from_be_bytes([frame[6], frame[7]]);

    let mut values = [0; 24];
    values[0] = u64::from(key);
    values[1] = u64::from(version);
    content(key, version, Reader { rest: &frame[8..], end, sink: Slots { values: &mut values, used: 2 } })
}

/// Text as RFC 3629 has it. Nearly all names are ASCII, which is quicker to see.
pub(crate) fn is_utf8(text: &[u8]) -> bool {
    text.is_ascii() || std::str::from_utf8(text).is_ok()
}

/// Checks the elements of a list at the beginning of `rest`, which ends at place `end`, and gives what lies behind them.
pub(crate) fn elements<E: Element>(rest: &[u8], end: usize, count: u64) -> Result<&[u8], Refusal> {
    let mut elements = Reader { rest, end, sink: () };
    if let Some(present) = rest.len().checked_div(E::WIDTH) {
        let whole = count.min(present as u64);
        elements.rest = &rest[whole as usize * E::WIDTH..];
        if whole < count {
            // This element is cut; its fields say where.
            E::fields(&mut elements)?;
        }
        return Ok(elements.rest);
    }
    for _ in 0..count {
        E::fields(&mut elements)?;
    }
    Ok(elements.rest)
}

impl<'a, S: Sink> Reader<'a, S> {
    /// The place of the next byte.
    #[inline(always)]
    pub fn at(&self) -> usize {
        self.end - self.rest.len()
    }

    /// A refusal at the next byte.
    #[inline(always)]
    fn refuse(&self, reason: Reason) -> Refusal {
        Refusal::at(reason, self.at())
    }

    #[inline(always)]
    fn take<const N: usize>(&mut self) -> Result<[u8; N], Refusal> {
        let Some((taken, rest)) = self.rest.split_first_chunk() else {
            return Err(self.refuse(Reason::Outside));
        };
        self.rest = rest;
        Ok(*taken)
    }

    /// The body of a text or byte string whose length field began at `start`.
    #[inline(always)]
    fn body(&mut self, start: usize, length: usize) -> Result<&'a [u8], Refusal> {
        let Some((body, rest)) = self.rest.split_at_checked(length) else {
            return Err(Refusal::at(Reason::Outside, start));
        };
        self.sink.put(self.at() as u64);
        self.sink.put(length as u64);
        self.rest = rest;
        Ok(body)
    }

    #[inline(always)]
    fn null(&mut self) {
        self.sink.put(0);
        self.sink.put(NULL);
    }
}

impl<S: Sink> Fields for Reader<'_, S> {
    type Stop = Refusal;
    type Output = S::Kept;

    #[inline(always)]
    fn u8(&mut self) -> Result<(), Refusal> {
        let value = u8::from_be_bytes(self.take()?);
        self.sink.put(value.into());
        Ok(())
    }

    #[inline(always)]
    fn u16(&mut self) -> Result<(), Refusal> {
        let value = u16::from_be_bytes(self.take()?);
        self.sink.put(value.into());
        Ok(())
    }

    #[inline(always)]
    fn u32(&mut self) -> Result<(), Refusal> {
        let value = u32::from_be_bytes(self.take()?);
        self.sink.put(value.into());
        Ok(())
    }

    #[inline(always)]
    fn u64(&mut self) -> Result<(), Refusal> {
        let value = u64::from_be_bytes(self.take()?);
        self.sink.put(value);
        Ok(())
    }

    #[inline(always)]
    fn i64(&mut self) -> Result<(), Refusal> {
        self.u64()
    }

    #[inline(always)]
    fn active(&mut self) -> Result<(), Refusal> {
        let start = self.at();
        let [value] = self.take()?;
        if value > 1 {
            return Err(Refusal::at(Reason::NotAdmitted, start));
        }
        self.sink.put(value.into());
        Ok(())
    }

    #[inline(always)]
    fn text(&mut self, rule: Text) -> Result<(), Refusal> {
        let start = self.at();
        let length = i16::from_be_bytes(self.take()?);
        if length == -1 && rule.null == Null::Admitted {
            self.null();
            return Ok(());
        }
        let Ok(length) = usize::try_from(length) else {
            return Err(Refusal::at(Reason::BadLength, start));
        };
        if length as u64 > rule.longest {
            return Err(Refusal::at(Reason::LongReference, start));
        }
        let body = self.body(start, length)?;
        if !is_utf8(body) {
            return Err(Refusal::at(Reason::NotUtf8, start));
        }
        Ok(())
    }

    #[inline(always)]
    fn bytes(&mut self, null: Null) -> Result<(), Refusal> {
        let start = self.at();
        let length = i32::from_be_bytes(self.take()?);
        if length == -1 && null == Null::Admitted {
            self.null();
            return Ok(());
        }
        let Ok(length) = usize::try_from(length) else {
            return Err(Refusal::at(Reason::BadLength, start));
        };
        self.body(start, length)?;
        Ok(())
    }

    #[inline(always)]
    fn offset(&mut self, none: bool) -> Result<(), Refusal> {
        let start = self.at();
        let kind = u16::from_be_bytes(self.take()?);
        let value = match kind {
            0 if none => 0,
            1..=3 => 0,
            4 | 5 => u64::from_be_bytes(self.take()?),
            _ => return Err(Refusal::at(Reason::NotAdmitted, start)),
        };
        self.sink.put(kind.into());
        self.sink.put(value);
        Ok(())
    }

    #[inline(always)]
    fn list<E: Element>(&mut self) -> Result<(), Refusal> {
        let start = self.at();
        let count = i32::from_be_bytes(self.take()?);
        let Ok(count) = u64::try_from(count) else {
            return Err(Refusal::at(Reason::BadLength, start));
        };
        let place = self.at();
        self.rest = elements::<E>(self.rest, self.end, count)?;
        self.sink.put(count);
        self.sink.put(place as u64);
        self.sink.put((self.at() - place) as u64);
        Ok(())
    }

    #[inline(always)]
    fn chunk(&mut self) -> Result<(), Refusal> {
        let start = self.at();
        let header =
            chunk::check(self.rest).map_err(|fault| Refusal::at(fault.reason, start + fault.place))?;
        for number in header.numbers() {
            self.sink.put(number);
        }
        self.sink.put((start + HEADER) as u64);
        self.sink.put(header.data_length.into());
        self.rest = &[];
        Ok(())
    }

    #[inline(always)]
    fn unknown_key(&mut self) -> Refusal {
        Refusal::at(Reason::UnknownKey, 4)
    }

    #[inline(always)]
    fn unknown_version(&mut self) -> Refusal {
        Refusal::at(Reason::UnknownVersion, 6)
    }

    #[inline(always)]
    fn finish(self) -> Result<S::Kept, Refusal> {
        if self.rest.is_empty() { Ok(self.sink.kept()) } else { Err(self.refuse(Reason::BytesLeft)) }
    }
}
