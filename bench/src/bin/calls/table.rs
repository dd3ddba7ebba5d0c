//! The table of rows.

use std::process::ExitCode;

use bench::{NEXT, OFFSET};
use boundary::{Reference, refusal};

use crate::rows::{Grant, LastMessage, OpenAndClose, Read, Receive, Row, Walk, Write};
use crate::sides::{AtBoundary, Side};
use crate::times::times;

const ACCEPTED: u8 = 0;
const FIELD_CUT: u8 = 6;
const NOT_UTF8: u8 = 8;

struct Table<A, B> {
    first: A,
    second: B,
    /// A row is timed if its name contains one of these, or if there are none.
    wanted: Vec<String>,
    /// The largest ratio, and the name of its row.
    largest: Option<(f64, String)>,
}

/// Prints the times of two sides and their ratio, under three titles, and the largest ratio. The program's arguments are parts
/// of the names of the rows that are wanted.
pub fn table(titles: [&str; 3], first: impl Side, second: impl Side) -> ExitCode {
    let wanted = std::env::args().skip(1).collect();
    let mut table = Table { first, second, wanted, largest: None };
    let [first, second, ratio] = titles;
    println!("{:<50} {first:>10} {second:>10} {ratio:>8}", "nanoseconds a call, medians");
    table.frames();
    table.refused();
    table.rest();
    match table.largest {
        Some((ratio, name)) => {
            println!("largest ratio: {ratio:.2}, {name}");
            ExitCode::SUCCESS
        }
        None => {
            eprintln!("no row has such a name");
            ExitCode::FAILURE
        }
    }
}

impl<A: Side, B: Side> Table<A, B> {
    /// Frames that are accepted. The last five are rare on a connection.
    fn frames(&mut self) {
        for (name, bytes) in [
            ("Heartbeat", bench::heartbeat()),
            ("Credit", bench::credit()),
            ("DeclarePublisher, names of 20 bytes", bench::declare_publisher(Some(20))),
            ("Subscribe, 5 properties", bench::subscribe(OFFSET, 5)),
            ("PublishConfirm of 100", bench::publish_confirm(100)),
            ("Publish of 100 x 100 bytes", bench::publish(100, 100)),
            ("Deliver of 1 x 60,000 bytes", bench::deliver(1, 60_000)),
            ("Deliver of 300 x 200 bytes", bench::deliver(300, 200)),
            ("Metadata's response, 3 brokers, 10 streams", bench::metadata_response(3, 10)),
            ("PeerProperties, 5 properties", bench::peer_properties(5)),
            ("DeclarePublisher, null reference", bench::declare_publisher(None)),
            ("Subscribe from next, 5 properties", bench::subscribe(NEXT, 5)),
            ("Deliver of type 1, 4,096 bytes", bench::deliver_unopened(4_096)),
        ] {
            self.row(&format!("read {name}"), ACCEPTED, Read::new(&bytes));
            self.row(&format!("write {name}"), ACCEPTED, Write::new(&bytes, &bytes));
        }
    }

    /// Frames that are refused for one byte, counted from their end: the last of the last value, and the last of the length
    /// of the last entry, which becomes 201.
    fn refused(&mut self) {
        for (name, bytes, from_end, byte, refusal) in [
            ("Subscribe refused in its last property", bench::subscribe(OFFSET, 5), 1, 0xff, NOT_UTF8),
            ("Deliver refused at its last entry", bench::deliver(300, 200), 201, 201, FIELD_CUT),
        ] {
            let mut spoiled = bytes.clone();
            spoiled[bytes.len() - from_end] = byte;
            self.row(&format!("read {name}"), refusal, Read::new(&spoiled));
            self.row(&format!("write {name}"), refusal, Write::new(&bytes, &spoiled));
        }
    }

    fn rest(&mut self) {
        for length in [20, 200] {
            let name = format!("read Open, text of {length} bytes");
            self.row(&name, ACCEPTED, Read::new(&bench::open(length)));
        }
        let publish = bench::publish(100, 100);
        self.row("element 99 of a Publish of 100", ACCEPTED, LastMessage::new(&publish));
        self.row("walk a chunk of 300 x 200 bytes", ACCEPTED, Walk::new(&bench::deliver(300, 200)));
        self.row("walk a chunk of 65,535 x 10 bytes", ACCEPTED, Walk::new(&bench::deliver(65_535, 10)));
        self.row("credit ledger: open and close", ACCEPTED, OpenAndClose([0; 257]));
        self.row("credit ledger: grant", ACCEPTED, Grant([1; 257]));
        self.row("credit ledger: receive a small Deliver", ACCEPTED, Receive::new(&bench::deliver(1, 10)));
    }

    fn row(&mut self, name: &str, refusal: u8, row: impl Row) {
        if !self.wanted.is_empty() && !self.wanted.iter().any(|part| name.contains(part)) {
            return;
        }
        check(name, refusal, &row, self.first);
        check(name, refusal, &row, self.second);
        let [first, second, ratio] = times(row, self.first, self.second);
        println!("{name:<50} {first:>10.1} {second:>10.1} {ratio:>8.2}");
        if self.largest.as_ref().is_none_or(|(largest, _)| ratio > *largest) {
            self.largest = Some((ratio, name.to_string()));
        }
    }
}

/// A side answers with the refusal number that is expected, and otherwise as the reference does, leaving the same behind.
fn check<R: Row>(name: &str, expected: u8, row: &R, side: impl Side) {
    let (mut by_side, mut by_reference) = (row.clone(), row.clone());
    let answer = by_side.run(AtBoundary(side.boundary()));
    assert_eq!(refusal(answer), expected, "{name}: the refusal number");
    assert_eq!(answer, by_reference.run(AtBoundary(Reference)), "{name}: the answer");
    assert!(by_side == by_reference, "{name}: what is left behind");
}
