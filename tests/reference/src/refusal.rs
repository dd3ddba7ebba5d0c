/// The refusal numbers of 01.
#[derive(Clone, Copy, PartialEq, Eq, Debug)]
#[repr(u8)]
pub enum Reason {
    Cut = 1,
    OverLimit = 2,
    SizeBelowFour = 3,
    UnknownKey = 4,
    UnknownVersion = 5,
    Outside = 6,
    BadLength = 7,
    NotUtf8 = 8,
    LongReference = 9,
    NotAdmitted = 10,
    BytesLeft = 11,
    ShortOutput = 12,
    NotOpen = 13,
    AlreadyOpen = 14,
    NoCredit = 15,
    OverMillion = 16,
    MoreThanOut = 17,
}

/// Why a call was refused. `detail` is the bytes needed for number 1, and for a refusal of reading the place where the
/// field at fault begins, counted from the frame's first byte. Otherwise it says nothing.
#[derive(Clone, Copy, PartialEq, Eq, Debug)]
pub struct Refusal {
    pub reason: Reason,
    pub detail: u64,
}

impl Refusal {
    pub fn number(self) -> u8 {
        self.reason as u8
    }

    pub(crate) fn at(reason: Reason, place: usize) -> Refusal {
        Refusal { reason, detail: place as u64 }
    }
}

impl From<Reason> for Refusal {
    fn from(reason: Reason) -> Refusal {
        Refusal { reason, detail: 0 }
    }
}
