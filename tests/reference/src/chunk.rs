//! Chunks: the header, the entries of type 0, the message at an index and the chunk reader (01 "Chunks").

use crate::{Frame, ReaderSlots, Reason, Refusal, part};

/// The bytes of a chunk's header.
pub(crate) const HEADER: usize = 48;

/// Where a chunk's numbers stand in a flat Deliver of version 1. Version 2 has one more number before them.
const CHUNK_SLOT: usize = 3;

pub(crate) struct Header {
    pub magic: i8,
    pub kind: i8,
    pub entries: u16,
    pub records: u32,
    pub timestamp: i64,
    pub epoch: u64,
    pub first_offset: u64,
    pub checksum: i32,
    pub data_length: u32,
    pub trailer_length: u32,
    pub bloom_size: u8,
    /// 24 bits.
    pub reserved: u32,
}

/// What is wrong with a chunk, and where, counted from the chunk's first byte.
#[derive(Debug)]
pub(crate) struct Fault {
    pub reason: Reason,
    pub place: usize,
}

impl Header {
    #[inline(always)]
    fn decode(b: &[u8; HEADER]) -> Header {
        Header {
            magic: b[0] as i8,
            kind: b[1] as i8,
            entries: u16::from_be_bytes([b[2], b[3]]),
            records: u32::from_be_bytes(array(b, 4)),
            timestamp: i64::from_be_bytes(array(b, 8)),
            epoch: u64::from_be_bytes(array(b, 16)),
            first_offset: u64::from_be_bytes(array(b, 24)),
            checksum: i32::from_be_bytes(array(b, 32)),
            data_length: u32::from_be_bytes(array(b, 36)),
            trailer_length: u32::from_be_bytes(array(b, 40)),
            bloom_size: b[44],
            reserved: u32::from_be_bytes([0, b[45], b[46], b[47]]),
        }
    }

    #[inline(always)]
    pub fn encode(&self) -> [u8; HEADER] {
        let mut b = [0; HEADER];
        b[0] = self.magic as u8;
        b[1] = self.kind as u8;
        b[2..4].copy_from_slice(&self.entries.to_be_bytes());
        b[4..8].copy_from_slice(&self.records.to_be_bytes());
        b[8..16].copy_from_slice(&self.timestamp.to_be_bytes());
        b[16..24].copy_from_slice(&self.epoch.to_be_bytes());
        b[24..32].copy_from_slice(&self.first_offset.to_be_bytes());
        b[32..36].copy_from_slice(&self.checksum.to_be_bytes());
        b[36..40].copy_from_slice(&self.data_length.to_be_bytes());
        b[40..44].copy_from_slice(&self.trailer_length.to_be_bytes());
        b[44] = self.bloom_size;
        b[45..48].copy_from_slice(&self.reserved.to_be_bytes()[1..]);
        b
    }

    /// The twelve numbers in wire order, signed ones as their 64 bits.
    #[inline(always)]
    pub fn numbers(&self) -> [u64; 12] {
        [
            i64::from(self.magic) as u64,
            i64::from(self.kind) as u64,
            self.entries.into(),
            self.records.into(),
            self.timestamp as u64,
            self.epoch,
            self.first_offset,
            i64::from(self.checksum) as u64,
            self.data_length.into(),
            self.trailer_length.into(),
            self.bloom_size.into(),
            self.reserved.into(),
        ]
    }

    /// The reverse of `numbers`; none if a number is too wide for its field.
    #[inline(always)]
    pub fn from_numbers(n: &[u64; 12]) -> Option<Header> {
        if n[11] >= 1 << 24 {
            return None;
        }
        Some(Header {
            magic: i8::try_from(n[0] as i64).ok()?,
            kind: i8::try_from(n[1] as i64).ok()?,
            entries: n[2].try_into().ok()?,
            records: n[3].try_into().ok()?,
            timestamp: n[4] as i64,
            epoch: n[5],
            first_offset: n[6],
            checksum: i32::try_from(n[7] as i64).ok()?,
            data_length: n[8].try_into().ok()?,
            trailer_length: n[9].try_into().ok()?,
            bloom_size: n[10].try_into().ok()?,
            reserved: n[11] as u32,
        })
    }

    #[inline(always)]
    pub fn has_known_type(&self) -> bool {
        matches!(self.kind, 0..=2)
    }

    /// The checks behind the type: exactly the data, and for type 0 the records and the entries.
    #[inline(always)]
    pub fn check_data(&self, data: &[u8]) -> Result<(), Fault> {
        let length = self.data_length as usize;
        if data.len() < length {
            return Err(Fault { reason: Reason::Outside, place: HEADER });
        }
        if data.len() > length {
            return Err(Fault { reason: Reason::BytesLeft, place: HEADER + length });
        }
        if self.kind != 0 {
            return Ok(());
        }
        if self.records != u32::from(self.entries) {
            return Err(Fault { reason: Reason::NotAdmitted, place: 4 });
        }
        check_entries(data, self.entries)
    }
}

/// So many entries and nothing else.
fn check_entries(data: &[u8], entries: u16) -> Result<(), Fault> {
    let mut rest = data;
    let fault = |reason, rest: &[u8]| Err(Fault { reason, place: HEADER + data.len() - rest.len() });
    for _ in 0..entries {
        match next_entry(rest) {
            Ok((_, behind)) => rest = behind,
            Err(reason) => return fault(reason, rest),
        }
    }
    if rest.is_empty() { Ok(()) } else { fault(Reason::BytesLeft, rest) }
}

#[inline(always)]
fn array<const N: usize>(b: &[u8; HEADER], at: usize) -> [u8; N] {
    let mut part = [0; N];
    part.copy_from_slice(&b[at..at + N]);
    part
}

/// The first entry's message and what lies behind it.
#[inline(always)]
fn next_entry(data: &[u8]) -> Result<(&[u8], &[u8]), Reason> {
    let Some((size, rest)) = data.split_first_chunk() else {
        return Err(Reason::Outside);
    };
    let Ok(size) = usize::try_from(i32::from_be_bytes(*size)) else {
        return Err(Reason::NotAdmitted);
    };
    rest.split_at_checked(size).ok_or(Reason::Outside)
}

/// Checks that `chunk` is exactly one chunk, header first.
#[inline(always)]
pub(crate) fn check(chunk: &[u8]) -> Result<Header, Fault> {
    let Some((header, data)) = chunk.split_first_chunk() else {
        return Err(Fault { reason: Reason::Outside, place: 0 });
    };
    let header = Header::decode(header);
    if !header.has_known_type() {
        return Err(Fault { reason: Reason::NotAdmitted, place: 1 });
    }
    header.check_data(data)?;
    Ok(header)
}

/// Place and length of the message at an index of a flat Deliver. Of the header only the type and the number of entries
/// are looked at.
pub fn message(frame: &Frame, source: &[u8], index: u64) -> Result<(u64, u64), Refusal> {
    if frame[0] != 0x0008 {
        return Err(Reason::UnknownKey.into());
    }
    let chunk = match frame[1] {
        1 => &frame[CHUNK_SLOT..],
        2 => &frame[CHUNK_SLOT + 1..],
        _ => return Err(Reason::UnknownVersion.into()),
    };
    let (kind, entries, place, length) = (chunk[1], chunk[2], chunk[12], chunk[13]);
    let Some(data) = part(source, place, length) else {
        return Err(Reason::Outside.into());
    };
    // An entry count wider than its field is not admitted.
    if kind != 0 || index >= entries || entries > 0xffff {
        return Err(Reason::NotAdmitted.into());
    }
    let mut rest = data;
    for _ in 0..index {
        (_, rest) = next_entry(rest)?;
    }
    let (message, _) = next_entry(rest)?;
    let skipped = data.len() - rest.len() + 4;
    Ok((place + skipped as u64, message.len() as u64))
}

/// How many messages a chunk has, if it is well formed: its entries, or none if it is of type 1 or 2.
fn message_count(chunk: &[u8]) -> Result<u16, Refusal> {
    let header = check(chunk).map_err(|fault| Refusal::at(fault.reason, fault.place))?;
    Ok(if header.kind == 0 { header.entries } else { 0 })
}

/// The slots of a reader at the first entry of a chunk, whose bytes, header first, are checked as the rest of a Deliver is.
pub fn chunk_open(chunk: &[u8]) -> Result<ReaderSlots, Refusal> {
    Ok([HEADER as u64, message_count(chunk)?.into(), 0, 0])
}

/// Place and length of the message of the next entry, and the slots moved past it; none if no entry is left.
#[inline(always)]
pub fn chunk_next(chunk: &[u8], reader: &mut ReaderSlots) -> Result<Option<(u64, u64)>, Refusal> {
    let [at, left, _, _] = *reader;
    if left == 0 {
        return Ok(None);
    }
    let Some(rest) = usize::try_from(at).ok().and_then(|at| chunk.get(at..)) else {
        return Err(Reason::Outside.into());
    };
    let (message, _) = next_entry(rest)?;
    let (place, length) = (at + 4, message.len() as u64);
    reader[0] = place + length;
    reader[1] = left - 1;
    Ok(Some((place, length)))
}

/// Gives the messages of a chunk in order, each once. Over types 1 and 2 it is done at once.
#[derive(Clone, Debug)]
pub struct ChunkReader<'a> {
    data: &'a [u8],
    left: u16,
}

impl<'a> ChunkReader<'a> {
    /// `chunk` is a chunk's bytes, header first, checked as the rest of a Deliver is.
    pub fn new(chunk: &'a [u8]) -> Result<ChunkReader<'a>, Refusal> {
        let left = message_count(chunk)?;
        Ok(ChunkReader { data: &chunk[HEADER..], left })
    }
}

impl<'a> Iterator for ChunkReader<'a> {
    type Item = &'a [u8];

    fn next(&mut self) -> Option<&'a [u8]> {
        self.left = self.left.checked_sub(1)?;
        let (message, rest) = next_entry(self.data).ok()?;
        self.data = rest;
        Some(message)
    }
}
