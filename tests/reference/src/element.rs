use crate::layout::{
    Broker, CommandVersions, Element, FilteredMessage, Message, Name, Property, PublishingError,
    PublishingId, Replica, Statistic, StreamMetadata,
};
use crate::reader::{Reader, Slots, elements};
use crate::{ElementSlots, Reason, Refusal, part};

/// The element at an index of a list whose encoded elements are `length` bytes of `source` at `place`.
pub fn element(
    shape: u8,
    source: &[u8],
    count: u64,
    place: u64,
    length: u64,
    index: u64,
) -> Result<ElementSlots, Refusal> {
    let asked = match shape {
        1 => element_of::<Message>,
        2 => element_of::<FilteredMessage>,
        3 => element_of::<PublishingId>,
        4 => element_of::<PublishingError>,
        5 => element_of::<Property>,
        6 => element_of::<Name>,
        7 => element_of::<CommandVersions>,
        8 => element_of::<Broker>,
        9 => element_of::<StreamMetadata>,
        10 => element_of::<Statistic>,
        11 => element_of::<Replica>,
        _ => return Err(Reason::NotAdmitted.into()),
    };
    let Some(part) = part(source, place, length) else {
        return Err(Reason::Outside.into());
    };
    if index >= count {
        return Err(Reason::NotAdmitted.into());
    }
    asked(part, (place + length) as usize, index)
}

/// Checks the elements up to and including the one asked for, as when read. What lies behind it is not looked at.
fn element_of<E: Element>(part: &[u8], end: usize, index: u64) -> Result<ElementSlots, Refusal> {
    let rest = elements::<E>(part, end, index)?;
    let mut values = [0; 8];
    E::fields(&mut Reader { rest, end, sink: Slots { values: &mut values, used: 0 } })?;
    Ok(values)
}
