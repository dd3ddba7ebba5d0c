//! The frames that are timed, and the medians of times.

/// A frame around a content: Size, key, version, content.
pub fn frame(key: u16, version: u16, content: &[u8]) -> Vec<u8> {
    let mut bytes = (content.len() as u32 + 4).to_be_bytes().to_vec();
    bytes.extend(key.to_be_bytes());
    bytes.extend(version.to_be_bytes());
    bytes.extend(content);
    bytes
}

fn text(content: &mut Vec<u8>, length: usize) {
    content.extend((length as u16).to_be_bytes());
    content.extend((0..length).map(|i| b'a' + (i % 26) as u8));
}

fn count(content: &mut Vec<u8>, elements: u32) {
    content.extend(elements.to_be_bytes());
}

fn properties(content: &mut Vec<u8>, number: u32) {
    count(content, number);
    for _ in 0..number {
        text(content, 10);
        text(content, 10);
    }
}

pub fn heartbeat() -> Vec<u8> {
    frame(0x17, 1, &[])
}

pub fn credit() -> Vec<u8> {
    frame(0x09, 1, &[5, 0, 10])
}

/// With a reference of so many bytes, or null.
pub fn declare_publisher(reference: Option<usize>) -> Vec<u8> {
    let mut content = vec![0, 0, 0, 1, 7];
    match reference {
        Some(length) => text(&mut content, length),
        None => content.extend([0xff, 0xff]),
    }
    text(&mut content, 20);
    frame(0x01, 1, &content)
}

/// Offset specifications: an offset, and the next one.
pub const OFFSET: &[u8] = &[0, 4, 0, 0, 0, 0, 0, 0, 1, 0];
pub const NEXT: &[u8] = &[0, 3];

pub fn subscribe(specification: &[u8], number: u32) -> Vec<u8> {
    let mut content = vec![0, 0, 0, 1, 7];
    text(&mut content, 20);
    content.extend(specification);
    content.extend([0, 10]);
    properties(&mut content, number);
    frame(0x07, 1, &content)
}

pub fn peer_properties(number: u32) -> Vec<u8> {
    let mut content = vec![0, 0, 0, 1];
    properties(&mut content, number);
    frame(0x11, 1, &content)
}

/// A stream has two replicas.
pub fn metadata_response(brokers: u16, streams: u32) -> Vec<u8> {
    let mut content = vec![0, 0, 0, 1];
    count(&mut content, brokers.into());
    for broker in 0..brokers {
        content.extend(broker.to_be_bytes());
        text(&mut content, 20);
        content.extend(5552u32.to_be_bytes());
    }
    count(&mut content, streams);
    for _ in 0..streams {
        text(&mut content, 20);
        content.extend([0, 1, 0, 0]);
        count(&mut content, 2);
        content.extend([0, 1, 0, 2]);
    }
    frame(0x800f, 1, &content)
}

pub fn publish_confirm(ids: u32) -> Vec<u8> {
    let mut content = vec![7];
    count(&mut content, ids);
    for id in 0..u64::from(ids) {
        content.extend(id.to_be_bytes());
    }
    frame(0x03, 1, &content)
}

pub fn publish(messages: u32, length: usize) -> Vec<u8> {
    let mut content = vec![7];
    count(&mut content, messages);
    for id in 0..u64::from(messages) {
        content.extend(id.to_be_bytes());
        count(&mut content, length as u32);
        content.extend(vec![0x6d; length]);
    }
    frame(0x02, 1, &content)
}

/// A Deliver of one chunk.
fn delivered(chunk_type: u8, entries: u16, data: &[u8]) -> Vec<u8> {
    let mut content = vec![7, 0x50, chunk_type];
    content.extend(entries.to_be_bytes());
    content.extend(u32::from(entries).to_be_bytes());
    content.extend([0; 28]);
    content.extend((data.len() as u32).to_be_bytes());
    content.extend([0; 8]);
    content.extend(data);
    frame(0x08, 1, &content)
}

pub fn deliver(entries: u16, length: u32) -> Vec<u8> {
    let entry = [&length.to_be_bytes()[..], &vec![0x6d; length as usize]].concat();
    delivered(0, entries, &entry.repeat(entries.into()))
}

/// A chunk of type 1, whose data stays unopened.
pub fn deliver_unopened(length: usize) -> Vec<u8> {
    delivered(1, 1, &vec![0x6d; length])
}

pub fn open(name: usize) -> Vec<u8> {
    let mut content = vec![0, 0, 0, 1];
    text(&mut content, name);
    frame(0x15, 1, &content)
}

pub fn median(mut values: Vec<f64>) -> f64 {
    values.sort_by(f64::total_cmp);
    values[values.len() / 2]
}

/// The medians of both, and of the ratio of each pair: what slows the machine for a while slows both of a pair.
pub fn medians(pairs: &[(f64, f64)]) -> [f64; 3] {
    [|(first, _)| first, |(_, second)| second, |(first, second)| first / second]
        .map(|of: fn((f64, f64)) -> f64| median(pairs.iter().copied().map(of).collect()))
}
