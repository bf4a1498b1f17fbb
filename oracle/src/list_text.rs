//! Records listed and read back, and what is said of a bad one.

use crate::event_fault::fault;
use crate::event_record::{decode, encode, EVENT_OCTETS};
use crate::sample_tables::NODES;
use crate::vocabulary::Node;
use crate::words::EventWords;
use crate::{cells, list, script};

const TRIGGER: [u8; EVENT_OCTETS] = [1, 0, 0, 0, 0, 0, 0, 7, 0, 0, 0, 0, 0, 0, 0, 0];

fn listed(node: Node, octets: &[u8]) -> (String, Option<String>) {
    let mut out = Vec::new();
    let complaint = list::print(node, octets, &mut out).expect("a vector takes every byte");
    (String::from_utf8(out).expect("lines are ASCII"), complaint)
}

fn scripted(node: Node, lines: &str) -> Vec<u8> {
    let mut out = Vec::new();
    let complaint = script::print(node, lines.as_bytes(), &mut out);
    let complaint = complaint.expect("a vector takes every byte");
    assert_eq!(complaint, None, "{lines}");
    out
}

/// A good record before the octets given.
fn complaint_of(node: Node, octets: &[u8]) -> String {
    let input = [&TRIGGER, octets, &TRIGGER[..octets.len() / 16]].concat();
    let (lines, complaint) = listed(node, &input);
    assert_eq!(lines, "trigger 7  # 1\n", "{octets:?}");
    complaint.expect("the second record is bad")
}

/// Every kind, with every value that is named in the octets 1 to 3, and in some of the others.
fn heads() -> Vec<[u8; 4]> {
    let mut heads = Vec::new();
    for kind in (0..=11).chain([255]) {
        for first in (0..=3).chain([255]) {
            for second in (0..=3).chain([255]) {
                heads.extend([0, 1, 2, 3, 255].map(|third| [kind, first, second, third]));
            }
        }
    }
    heads
}

fn records() -> Vec<[u8; EVENT_OCTETS]> {
    let numbers = [0, 1, 65_535, 65_536, 16_777_216, u32::MAX];
    let mut records = Vec::new();
    for [kind, first, second, third] in heads() {
        for number in numbers {
            let [n0, n1, n2, n3] = number.to_be_bytes();
            records.push([kind, first, second, third, n3, n2, n1, n0, n0, n1, n2, n3, 9, 9, 9, 9]);
        }
    }
    records
}

/// A record has a fault exactly where it is bad.
#[test]
fn fault_is_found_exactly_in_bad_records() {
    for node in NODES {
        for octets in records() {
            let bad = decode(node, &octets).is_none();
            assert_eq!(fault(node, &octets).is_some(), bad, "{node:?} {octets:?}");
        }
    }
}

/// With the octets that are not read filled, and without.
#[test]
fn listed_records_are_scripted_to_the_same_meaning() {
    for node in NODES {
        let decode = |octets: &_| decode(node, octets);
        let mut good = records();
        good.retain(|octets| decode(octets).is_some());
        let (lines, complaint) = listed(node, &good.concat());
        assert_eq!((lines.lines().count(), complaint), (good.len(), None));
        let again = scripted(node, &lines);
        assert_eq!(again.len(), good.len() * EVENT_OCTETS);
        for (octets, scripted) in good.iter().zip(again.chunks_exact(EVENT_OCTETS)) {
            let scripted = scripted.try_into().expect("a chunk is a record");
            assert_eq!(decode(octets), decode(scripted), "{node:?} {octets:?}");
            assert_eq!(decode(octets).map(|event| encode(node, &event)), Some(*scripted));
        }
        assert_eq!(listed(node, &again).0, lines);
    }
}

/// The words of the cells, with the key behind the first.
#[test]
fn every_event_of_the_cells_is_scripted() {
    for node in NODES {
        for event in cells::events(node) {
            let words = EventWords(node, event).to_string();
            let (name, values) = words.split_once(' ').unwrap_or((&words, ""));
            let octets = scripted(node, &format!("{name} 4294967295 {values}"));
            let (line, complaint) = listed(node, &octets);
            let expected = format!("{name} 4294967295 {values}").trim_end().to_string();
            assert_eq!((line, complaint), (expected + "  # 1\n", None));
        }
    }
}

#[test]
fn bad_records_are_told_by_number_byte_and_value() {
    let connection = "expected 0, since a connection is 0 to 65535";
    for (head, upper, told) in [
        ([10, 0, 0, 0], [0, 0], "byte 0 is 10, expected an event, 0 to 9"),
        ([0, 2, 0, 0], [0, 0], "byte 1 is 2, expected 0 for default services or 1 for named"),
        ([0, 1, 2, 0], [0, 0], "byte 2 is 2, expected hard, 0 or 1"),
        ([0, 1, 0, 3], [0, 0], "byte 3 is 3, expected soft, 0 to 2"),
        ([4, 2, 0, 0], [0, 0], "byte 1 is 2, expected policy, 1 yes or 0 no"),
        ([4, 1, 0, 0], [3, 4], &format!("byte 8 is 3, {connection}")),
        ([4, 1, 0, 0], [0, 4], &format!("byte 9 is 4, {connection}")),
        ([6, 255, 0, 0], [0, 0], "byte 1 is 255, expected cause present, 0 or 1"),
        ([6, 0, 0, 3], [0, 0], "byte 3 is 3, expected crankback, 0 to 2"),
        ([7, 2, 0, 0], [0, 0], "byte 1 is 2, expected cause present, 0 or 1"),
        ([7, 0, 0, 9], [1, 0], "byte 3 is 9, expected crankback, 0 to 2"),
        ([7, 0, 0, 0], [1, 0], &format!("byte 8 is 1, {connection}")),
        ([7, 0, 0, 0], [0, 255], &format!("byte 9 is 255, {connection}")),
    ] {
        assert_eq!(with(Node::Source, head, upper), format!("list: record 2: {told}"));
    }
}

fn with(node: Node, head: [u8; 4], upper: [u8; 2]) -> String {
    let [kind, first, second, third] = head;
    let [n0, n1] = upper;
    complaint_of(node, &[kind, first, second, third, 0, 0, 0, 7, n0, n1, 0, 1, 0, 0, 0, 0])
}

/// Byte 3 is tested of both releases, the connection of the calling side's alone (decision 76).
#[test]
fn bad_records_of_the_destination_are_told_under_its_name() {
    let connection = "expected 0, since a connection is 0 to 65535";
    for (head, upper, told) in [
        ([10, 0, 0, 0], [0, 0], "byte 0 is 10, expected an event, 0 to 9"),
        ([4, 1, 0, 0], [3, 4], &format!("byte 8 is 3, {connection}")),
        ([6, 255, 0, 0], [0, 0], "byte 1 is 255, expected cause present, 0 or 1"),
        ([6, 0, 0, 9], [1, 0], "byte 3 is 9, expected crankback, 0 to 2"),
        ([6, 0, 0, 0], [1, 0], &format!("byte 8 is 1, {connection}")),
        ([6, 0, 0, 0], [0, 255], &format!("byte 9 is 255, {connection}")),
        ([7, 2, 0, 0], [0, 0], "byte 1 is 2, expected cause present, 0 or 1"),
        ([7, 0, 0, 3], [1, 1], "byte 3 is 3, expected crankback, 0 to 2"),
    ] {
        let line = format!("destination_list: record 2: {told}");
        assert_eq!(with(Node::Destination, head, upper), line);
    }
    let unread = [7, 0, 9, 2, 0, 0, 0, 7, 255, 255, 255, 255, 9, 9, 9, 9];
    assert_eq!(listed(Node::Destination, &unread), ("called 7  # 1\n".to_string(), None));
    let read = [6, 1, 4, 2, 0, 0, 0, 7, 0, 0, 1, 2, 9, 9, 9, 9];
    let line = "calling 7 258 cause 4 noalternate  # 1\n".to_string();
    assert_eq!(listed(Node::Destination, &read), (line, None));
}

#[test]
fn record_cut_short_is_told() {
    for kept in 1..16 {
        let told = format!("list: record 2: byte {kept} is missing, expected 16 bytes");
        assert_eq!(complaint_of(Node::Source, &TRIGGER[..kept]), told);
        let told = format!("destination_{told}");
        assert_eq!(complaint_of(Node::Destination, &TRIGGER[..kept]), told);
    }
    for node in NODES {
        assert_eq!(listed(node, &[]), (String::new(), None));
    }
}
