//! The inputs: rounds over all layouts, with random frames and lists of ledger calls after each round.

use random::Random;
use reference::{keys, versions};

use crate::chunks::{chunk_readers, random_chunk};
use crate::comparison::{Comparison, Done};
use crate::generate;
use crate::ledgers::{credit_calls, publisher_calls};
use crate::parts::{elements, messages};
use crate::reading::{damaged, random_frame, random_text, texts, whole_and_cut};
use crate::writing::{random_flat_frame, writing};

/// A chunk has more rules than any other field, so Delivers come more often.
const DELIVERS: usize = 5;

/// Compares all short texts, then other inputs until so many calls were made.
pub fn compare(comparison: &mut Comparison, random: &mut Random, inputs: u64) -> Done {
    texts(comparison, random)?;
    while comparison.compared < inputs {
        for key in keys() {
            for version in versions(key) {
                for _ in 0..if key == 0x0008 { DELIVERS } else { 1 } {
                    layout(comparison, random, key, version)?;
                }
                if comparison.compared >= inputs {
                    return Ok(());
                }
            }
        }
        for _ in 0..1000 {
            random_text(comparison, random)?;
        }
        for _ in 0..200 {
            random_frame(comparison, random)?;
            random_flat_frame(comparison, random)?;
            random_chunk(comparison, random)?;
        }
        for _ in 0..20 {
            credit_calls(comparison, random)?;
            publisher_calls(comparison, random)?;
        }
    }
    Ok(())
}

/// One frame of a layout, and everything that is asked about it.
fn layout(comparison: &mut Comparison, random: &mut Random, key: u16, version: u16) -> Done {
    let generated = generate::frame(random, key, version);
    whole_and_cut(comparison, random, &generated)?;
    damaged(comparison, random, &generated)?;
    if let Some(frame) = comparison.read(&generated.bytes, 0)? {
        writing(comparison, random, &generated, &frame)?;
        elements(comparison, random, &generated, &frame)?;
        if key == 0x0008 {
            messages(comparison, random, &generated, &frame)?;
            chunk_readers(comparison, random, &generated, &frame)?;
        }
    }
    Ok(())
}
