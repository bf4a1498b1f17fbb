//! What the trace and the watch print where records are bad or cut short, where there is no such
//! call, over a full table, and however the input comes in pieces; and that each piece is answered
//! before the next is waited for.

use std::cell::RefCell;
use std::io::{BufWriter, Read, Result, Write};

use crate::vocabulary::Node;
use crate::{list, script, trace, watch};

const OPEN_7: [u8; 16] = [0, 1, 1, 2, 0, 0, 0, 7, 0, 0, 0, 0, 0, 0, 0, 0];
const TRIGGER_7: [u8; 16] = [1, 9, 9, 9, 0, 0, 0, 7, 9, 9, 9, 9, 9, 9, 9, 9];
const FIRST: &str = "line answer state incumbent rerouting number\n";
const FIRST_WATCHED: &str = "line answer state incumbent rerouting number last signals\n";

fn traced(input: impl Read) -> String {
    let mut out = Vec::new();
    trace::print(Node::Source, input, &mut out).expect("a vector takes every byte");
    String::from_utf8(out).expect("lines are ASCII")
}

fn watched(input: impl Read) -> String {
    let mut out = Vec::new();
    watch::print(Node::Source, input, &mut out).expect("a vector takes every byte");
    String::from_utf8(out).expect("lines are ASCII")
}

/// One good record, then the octets given, then a good record that is not read.
fn bad_behind_one(octets: &[u8]) {
    let behind = if octets.len() == 16 { &TRIGGER_7[..] } else { &[] };
    let input = [&OPEN_7, octets, behind].concat();
    assert_eq!(traced(input.as_slice()), format!("{FIRST}1 0 1 1 0 0\nbad\n"), "{octets:?}");
    let line = format!("{FIRST_WATCHED}1 0 1 1 0 0 1 -\nbad\n");
    assert_eq!(watched(input.as_slice()), line, "{octets:?}");
}

fn changed(octets: [u8; 16], place: usize, value: u8) -> [u8; 16] {
    let mut changed = octets;
    changed[place] = value;
    changed
}

#[test]
fn empty_input_prints_the_first_line() {
    assert_eq!(traced(&[][..]), FIRST);
    assert_eq!(watched(&[][..]), FIRST_WATCHED);
}

#[test]
fn short_last_record_is_bad() {
    for kept in 1..16 {
        bad_behind_one(&TRIGGER_7[..kept]);
        assert_eq!(traced(&OPEN_7[..kept]), format!("{FIRST}bad\n"));
    }
}

#[test]
fn bad_values_end_the_run() {
    let connect = changed(changed(TRIGGER_7, 0, 4), 1, 2);
    let far_connect = [4, 1, 0, 0, 0, 0, 0, 7, 0, 1, 0, 0, 0, 0, 0, 0];
    let calling = [6, 0, 0, 3, 0, 0, 0, 7, 0, 0, 0, 0, 0, 0, 0, 0];
    let called = [7, 2, 0, 0, 0, 0, 0, 7, 0, 0, 0, 1, 0, 0, 0, 0];
    for bad in [connect, far_connect, calling, called, changed(OPEN_7, 3, 3), [10; 16]] {
        bad_behind_one(&bad);
    }
    // Before the key is looked at (decision 23).
    bad_behind_one(&changed(changed(OPEN_7, 7, 0), 1, 2));
}

/// Decision 25, and that a call comes back under its own key.
#[test]
fn calls_that_are_not_there_print_zeros() {
    let calling_7 = [6, 0, 0, 0, 0, 0, 0, 7, 0, 0, 0, 0, 0, 0, 0, 0];
    let key_0 = changed(TRIGGER_7, 7, 0);
    let input = [TRIGGER_7, key_0, OPEN_7, OPEN_7, calling_7, TRIGGER_7, OPEN_7].concat();
    let lines = "1 105 0 0 0 0\n2 102 0 0 0 0\n3 0 1 1 0 0\n4 103 1 1 0 0\n5 0 0 0 0 0\n\
        6 105 0 0 0 0\n7 0 1 1 0 0\n";
    assert_eq!(traced(input.as_slice()), format!("{FIRST}{lines}"));
}

#[test]
fn opening_number_65_is_refused() {
    let openings: Vec<u8> = (1..=65).flat_map(|key| changed(OPEN_7, 7, key)).collect();
    let text = traced(openings.as_slice());
    assert!(text.ends_with("\n64 0 1 1 0 0\n65 104 0 0 0 0\n"));
    assert_eq!(text.matches(" 0 1 1 0 0\n").count(), 64);
}

/// Hands out so many octets at once.
struct Pieces<'a>(&'a [u8], usize);

impl Read for Pieces<'_> {
    fn read(&mut self, buffer: &mut [u8]) -> Result<usize> {
        let (piece, rest) = self.0.split_at(self.1.min(self.0.len()).min(buffer.len()));
        buffer[..piece.len()].copy_from_slice(piece);
        self.0 = rest;
        Ok(piece.len())
    }
}

#[test]
fn pieces_of_any_size_print_the_same() {
    let mut input = [OPEN_7, TRIGGER_7, changed(TRIGGER_7, 0, 2), OPEN_7].concat();
    for _ in 0..2 {
        let text = traced(input.as_slice());
        for size in 1..=input.len() {
            assert_eq!(traced(Pieces(&input, size)), text, "pieces of {size}");
        }
        input.pop();
    }
}

/// More than the buffers hold.
#[test]
fn long_inputs_are_read_whole() {
    let records = [OPEN_7, TRIGGER_7].concat().repeat(50_000);
    let text = traced(records.as_slice());
    assert_eq!(text.lines().count(), 100_001);
    assert!(text.ends_with("\n99999 103 4 1 0 0\n100000 0 4 1 0 0\n"));
    let cut = &records[..records.len() - 1];
    assert!(traced(cut).ends_with("\n99999 103 4 1 0 0\nbad\n"));
}

/// What has gone out behind a writer that keeps much.
struct Sent<'a>(&'a RefCell<Vec<u8>>);

impl Write for Sent<'_> {
    fn write(&mut self, octets: &[u8]) -> Result<usize> {
        self.0.borrow_mut().write(octets)
    }

    fn flush(&mut self) -> Result<()> {
        Ok(())
    }
}

/// Hands out pieces, and notes how many line ends or octets had gone out when each was asked for.
struct Asked<'a, Measure> {
    pieces: Pieces<'a>,
    sent: &'a RefCell<Vec<u8>>,
    measure: Measure,
    noted: &'a RefCell<Vec<usize>>,
}

impl<Measure: Fn(&[u8]) -> usize> Read for Asked<'_, Measure> {
    fn read(&mut self, buffer: &mut [u8]) -> Result<usize> {
        self.noted.borrow_mut().push((self.measure)(&self.sent.borrow()));
        self.pieces.read(buffer)
    }
}

/// What had gone out at each read of the input in such pieces.
fn sent_at_each_read(
    input: &[u8],
    size: usize,
    measure: impl Fn(&[u8]) -> usize,
    print: impl Fn(&mut dyn Read, &mut dyn Write),
) -> Vec<usize> {
    let (sent, noted) = (RefCell::new(Vec::new()), RefCell::new(Vec::new()));
    let mut asked = Asked { pieces: Pieces(input, size), sent: &sent, measure, noted: &noted };
    print(&mut asked, &mut BufWriter::with_capacity(1 << 20, Sent(&sent)));
    noted.into_inner()
}

/// Pieces of one record and a half: 0, 1, 3 and 4 records are whole, then the input is at its end.
#[test]
fn whole_records_are_answered_before_the_next_read() {
    let input = [OPEN_7, TRIGGER_7, OPEN_7, TRIGGER_7].concat();
    let lines = |sent: &[u8]| sent.iter().filter(|&&octet| octet == b'\n').count();
    let trace = sent_at_each_read(&input, 24, lines, |mut input, mut out| {
        trace::print(Node::Source, &mut input, &mut out).expect("a vector takes every byte");
    });
    assert_eq!(trace, [1, 2, 4, 5]);
    let watch = sent_at_each_read(&input, 24, lines, |mut input, mut out| {
        watch::print(Node::Source, &mut input, &mut out).expect("a vector takes every byte");
    });
    assert_eq!(watch, [1, 2, 4, 5]);
    let list = sent_at_each_read(&input, 24, lines, |mut input, mut out| {
        list::print(Node::Source, &mut input, &mut out).expect("a vector takes every byte");
    });
    assert_eq!(list, [0, 1, 3, 4]);
}

/// Pieces of 15 octets of lines of 10.
#[test]
fn whole_lines_are_written_before_the_next_read() {
    let script =
        sent_at_each_read(&b"trigger 7\n".repeat(4), 15, <[u8]>::len, |mut input, mut out| {
            script::print(Node::Source, &mut input, &mut out).expect("a vector takes every byte");
        });
    assert_eq!(script, [0, 16, 48, 64]);
}
