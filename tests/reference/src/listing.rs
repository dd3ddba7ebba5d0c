use std::io::{self, ErrorKind, Read, Write};

use crate::{Reason, read};

/// The frame limit of the listing program.
pub const LIMIT: u32 = 65_532;

/// More than the largest frame within the limit, so that a whole frame always fits.
const BUFFER: usize = 1 << 20;

/// Lists the frames of a capture, one line each, up to its end or its first refusal (01 "The listing program").
pub fn list(mut capture: impl Read, mut out: impl Write) -> io::Result<()> {
    let mut buffer = vec![0; BUFFER];
    let (mut start, mut filled) = (0, 0);
    let mut offset: u64 = 0;
    let mut frames: u64 = 0;
    let mut ended = false;
    loop {
        let bytes = &buffer[start..filled];
        if bytes.is_empty() && ended {
            return writeln!(out, "frames {frames} whole");
        }
        match read(bytes, LIMIT) {
            Ok(frame) => {
                let length = u32::from_be_bytes([bytes[0], bytes[1], bytes[2], bytes[3]]) as usize + 4;
                writeln!(out, "{offset} {length} {:04x} {}", frame[0], frame[1])?;
                start += length;
                offset += length as u64;
                frames += 1;
            }
            Err(refusal) if refusal.reason == Reason::Cut => {
                if ended {
                    writeln!(out, "{offset} CUT {} of {}", bytes.len(), refusal.detail)?;
                    return writeln!(out, "frames {frames} cut");
                }
                buffer.copy_within(start..filled, 0);
                filled -= start;
                start = 0;
                match capture.read(&mut buffer[filled..]) {
                    Ok(0) => ended = true,
                    Ok(more) => filled += more,
                    Err(error) if error.kind() == ErrorKind::Interrupted => {}
                    Err(error) => return Err(error),
                }
            }
            Err(refusal) => {
                writeln!(out, "{offset} REFUSED {}", refusal.number())?;
                return writeln!(out, "frames {frames} refused");
            }
        }
    }
}
