//! Lists of calls on both ledgers, from an empty one and from one that holds anything at all.

use boundary::{Boundary, Ledger};
use random::Random;

use crate::comparison::{Comparison, Done};
use crate::generate::{self, set_size};

/// A call other than receiving a frame.
type Call<'a> = &'a dyn Fn(&dyn Boundary, &mut Ledger) -> u64;

/// A ledger to begin with: empty, or holding anything at all.
fn first_ledger(random: &mut Random) -> (Ledger, bool) {
    let forged = random.once_in(3);
    let mut ledger = [0; 257];
    for entry in &mut ledger {
        let any = random.number() as u32;
        *entry = random.pick(&[
            0,
            1,
            2,
            65_536,
            934_466,
            1_000_000,
            1_000_001,
            1_000_002,
            u32::MAX - 1,
            u32::MAX,
            any,
        ]);
    }
    (ledger, forged)
}

pub fn credit_calls(comparison: &mut Comparison, random: &mut Random) -> Done {
    let (mut ledger, forged) = first_ledger(random);
    if !forged {
        comparison.ledger("credit_empty", &String::new, &mut ledger, &|b, l| {
            b.credit_empty(l);
            0
        })?;
    }
    let ids = [0, 255, random.byte()];
    let frames: Vec<Vec<u8>> = received(random, &ids);
    for _ in 0..60 {
        let any = random.byte();
        let id = random.pick(&[ids[0], ids[0], ids[1], ids[2], any]);
        let any = random.number() as u16;
        let n = random.pick(&[0, 1, 2, 3, 65_535, 65_535, any]);
        let arguments = || format!("id {id} n {n}");
        match random.below(12) {
            0..2 => {
                comparison.ledger("credit_open", &arguments, &mut ledger, &|b, l| b.credit_open(l, id, n))?
            }
            2..5 => comparison
                .ledger("credit_grant", &arguments, &mut ledger, &|b, l| b.credit_grant(l, id, n))?,
            5 => comparison.ledger("credit_close", &arguments, &mut ledger, &|b, l| b.credit_close(l, id))?,
            _ => {
                let bytes = &frames[random.below(frames.len())];
                comparison.receive(&mut ledger, bytes, random.pick(&[0, 0, 0, 65_532, 20]))?;
            }
        }
    }
    Ok(())
}

/// Delivers for the ids, of both versions, other frames, and damaged ones.
fn received(random: &mut Random, ids: &[u8]) -> Vec<Vec<u8>> {
    let mut frames = Vec::new();
    for id in ids {
        for version in [1, 2] {
            let mut deliver = generate::frame(random, 0x0008, version).bytes;
            deliver[8] = *id;
            let cut = random.below(deliver.len());
            let mut shorter = deliver[..cut.max(8)].to_vec();
            set_size(&mut shorter);
            frames.push(deliver[..cut].to_vec());
            frames.push(shorter);
            frames.extend([deliver.clone(), deliver]);
        }
    }
    frames.push(generate::frame(random, 0x0009, 1).bytes);
    frames.push(generate::frame(random, 0x0003, 1).bytes);
    frames.push(generate::frame(random, 0x8007, 1).bytes);
    frames
}

pub fn publisher_calls(comparison: &mut Comparison, random: &mut Random) -> Done {
    let (mut ledger, forged) = first_ledger(random);
    if !forged {
        comparison.ledger("publisher_empty", &String::new, &mut ledger, &|b, l| {
            b.publisher_empty(l);
            0
        })?;
    }
    let ids = [0, 255, random.byte()];
    for _ in 0..60 {
        let any = random.byte();
        let id = random.pick(&[ids[0], ids[0], ids[1], ids[2], any]);
        let any = random.number() as u32;
        let out = ledger[usize::from(id)];
        let n = random.pick(&[
            0,
            1,
            5,
            100_000,
            999_999,
            1_000_000,
            1_000_001,
            u32::MAX,
            u32::MAX - 1,
            any,
            out,
            out.wrapping_sub(1),
            1_000_000u32.wrapping_sub(out),
            1_000_001u32.wrapping_sub(out),
            1_000_002u32.wrapping_sub(out),
        ]);
        let arguments = || format!("id {id} n {n}");
        let (call, make): (&str, Call) = match random.below(8) {
            0 | 1 => ("publisher_declare", &|b, l| b.publisher_declare(l, id)),
            2 => ("publisher_delete", &|b, l| b.publisher_delete(l, id)),
            3 | 4 => ("publisher_send", &|b, l| b.publisher_send(l, id, n)),
            _ => ("publisher_confirm", &|b, l| b.publisher_confirm(l, id, n)),
        };
        comparison.ledger(call, &arguments, &mut ledger, make)?;
    }
    Ok(())
}
