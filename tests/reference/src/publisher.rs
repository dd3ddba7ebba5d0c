//! The publisher ledger: for each publisher id closed, or open with its messages out (01 "Ledgers").

use crate::{LARGEST_BALANCE, Ledger, Reason, Refusal};

pub fn declare(ledger: &mut Ledger, id: u8) -> Result<(), Refusal> {
    let entry = &mut ledger[usize::from(id)];
    if *entry != 0 {
        return Err(Reason::AlreadyOpen.into());
    }
    *entry = 1;
    Ok(())
}

pub fn delete(ledger: &mut Ledger, id: u8) -> Result<(), Refusal> {
    let entry = &mut ledger[usize::from(id)];
    if *entry == 0 {
        return Err(Reason::NotOpen.into());
    }
    *entry = 0;
    Ok(())
}

pub fn send(ledger: &mut Ledger, id: u8, n: u32) -> Result<(), Refusal> {
    let entry = &mut ledger[usize::from(id)];
    let Some(out) = entry.checked_sub(1) else {
        return Err(Reason::NotOpen.into());
    };
    if u64::from(out) + u64::from(n) > LARGEST_BALANCE {
        return Err(Reason::OverMillion.into());
    }
    *entry += n;
    Ok(())
}

/// n messages were confirmed or reported in error.
pub fn confirm(ledger: &mut Ledger, id: u8, n: u32) -> Result<(), Refusal> {
    let entry = &mut ledger[usize::from(id)];
    let Some(out) = entry.checked_sub(1) else {
        return Err(Reason::NotOpen.into());
    };
    if n > out {
        return Err(Reason::MoreThanOut.into());
    }
    *entry -= n;
    Ok(())
}
