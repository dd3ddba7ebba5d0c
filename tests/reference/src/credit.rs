//! The credit ledger: for each subscription id closed, or open with a balance of chunks (01 "Ledgers").

use crate::{Frame, LARGEST_BALANCE, Ledger, Reason, Refusal, read};

pub fn open(ledger: &mut Ledger, id: u8, credit: u16) -> Result<(), Refusal> {
    let entry = &mut ledger[usize::from(id)];
    if *entry != 0 {
        return Err(Reason::AlreadyOpen.into());
    }
    *entry = u32::from(credit) + 1;
    Ok(())
}

pub fn grant(ledger: &mut Ledger, id: u8, n: u16) -> Result<(), Refusal> {
    let entry = &mut ledger[usize::from(id)];
    let Some(balance) = entry.checked_sub(1) else {
        return Err(Reason::NotOpen.into());
    };
    if u64::from(balance) + u64::from(n) > LARGEST_BALANCE {
        return Err(Reason::OverMillion.into());
    }
    *entry += u32::from(n);
    Ok(())
}

pub fn close(ledger: &mut Ledger, id: u8) -> Result<(), Refusal> {
    let entry = &mut ledger[usize::from(id)];
    if *entry == 0 {
        return Err(Reason::NotOpen.into());
    }
    *entry = 0;
    Ok(())
}

/// Reads a received frame. A Deliver costs its subscription one credit; any other frame costs nothing.
#[inline]
pub fn receive(ledger: &mut Ledger, bytes: &[u8], limit: u32) -> Result<Frame, Refusal> {
    let received = read(bytes, limit);
    if let Ok(frame) = &received
        && frame[0] == 0x0008
    {
        let entry = &mut ledger[frame[2] as usize];
        match *entry {
            0 => return Err(Reason::NotOpen.into()),
            1 => return Err(Reason::NoCredit.into()),
            _ => *entry -= 1,
        }
    }
    received
}
