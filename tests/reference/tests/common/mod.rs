use reference::{Frame, Refusal};

/// Bytes from hex digits; blanks are for the reader.
pub fn hex(digits: &str) -> Vec<u8> {
    let digits: Vec<u8> = digits.bytes().filter(|d| !d.is_ascii_whitespace()).collect();
    let pair = |p: &[u8]| u8::from_str_radix(std::str::from_utf8(p).unwrap(), 16).unwrap();
    digits.chunks(2).map(pair).collect()
}

/// A frame around a content: Size, key, version, content.
pub fn frame(key: u16, version: u16, content: &[u8]) -> Vec<u8> {
    let mut bytes = (content.len() as u32 + 4).to_be_bytes().to_vec();
    bytes.extend(key.to_be_bytes());
    bytes.extend(version.to_be_bytes());
    bytes.extend(content);
    bytes
}

/// A flat frame from its first slots; the others are 0.
#[allow(dead_code)]
pub fn flat(slots: &[u64]) -> Frame {
    let mut frame = [0; 24];
    frame[..slots.len()].copy_from_slice(slots);
    frame
}

/// Number and detail of a refusal.
#[allow(dead_code)]
pub fn refusal<T: std::fmt::Debug>(result: Result<T, Refusal>) -> (u8, u64) {
    let refusal = result.expect_err("accepted");
    (refusal.number(), refusal.detail)
}
