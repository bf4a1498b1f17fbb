//! What damaged inputs promise: they are short, the seed alone decides, and each reason for `bad`
//! comes up, as do inputs that are not bad.

use std::collections::BTreeMap;

use super::{inputs, write, MOST_RECORDS};
use crate::event_fault::fault;
use crate::event_record::EVENT_OCTETS;
use crate::sample_tables::NODES;
use crate::trace;
use crate::vocabulary::Node;

/// The ways of 01, "The trace", to print `bad`: the event's number, or the kind and the octet that
/// is not named, or a record cut short. The release from across the domain has two more than the
/// party's (decision 76).
fn reasons(node: Node) -> [&'static str; 14] {
    match node {
        Node::Source => [
            "event", "0 1", "0 2", "0 3", "4 1", "4 8", "4 9", "6 1", "6 3", "7 1", "7 3", "7 8",
            "7 9", "short",
        ],
        Node::Destination => [
            "event", "0 1", "0 2", "0 3", "4 1", "4 8", "4 9", "6 1", "6 3", "6 8", "6 9", "7 1",
            "7 3", "short",
        ],
    }
}

/// Why the trace of an input ends in `bad`, nothing where it does not.
fn reason(node: Node, octets: &[u8]) -> Option<String> {
    let records = octets.chunks_exact(EVENT_OCTETS);
    let cut_short = !records.remainder().is_empty();
    for record in records {
        let record: &[u8; EVENT_OCTETS] = record.try_into().expect("a chunk is a record");
        if let Some(fault) = fault(node, record) {
            let of_value = format!("{} {}", record[0], fault.octet);
            return Some(if fault.octet == 0 { "event".to_string() } else { of_value });
        }
    }
    cut_short.then(|| "short".to_string())
}

#[test]
fn every_reason_comes_up_in_3000() {
    for (node, seed) in NODES.into_iter().flat_map(|node| [(node, 1), (node, 2)]) {
        let mut counts = BTreeMap::new();
        for octets in inputs(node, seed).take(3_000) {
            *counts.entry(reason(node, &octets)).or_insert(0) += 1;
        }
        for reason in reasons(node) {
            let count = counts.get(&Some(reason.to_string())).copied().unwrap_or(0);
            assert!(count >= 10, "{node:?}, seed {seed}, {reason}: {count}");
        }
        assert_eq!(counts.len(), reasons(node).len() + 1, "{counts:?}");
        assert!(counts[&None] >= 500, "{node:?}, seed {seed}");
    }
}

#[test]
fn reasons_are_those_of_the_trace() {
    for node in NODES {
        for octets in inputs(node, 3).take(900) {
            let mut out = Vec::new();
            trace::print(node, octets.as_slice(), &mut out).expect("a vector takes every byte");
            assert_eq!(out.ends_with(b"\nbad\n"), reason(node, &octets).is_some(), "{octets:?}");
        }
    }
}

#[test]
fn inputs_are_short_and_go_deep() {
    NODES.into_iter().for_each(short_and_deep);
}

fn short_and_deep(node: Node) {
    let all: Vec<Vec<u8>> = inputs(node, 4).take(900).collect();
    assert!(all.iter().all(|octets| octets.len() <= (MOST_RECORDS + 1) * EVENT_OCTETS));
    assert!(all.iter().any(Vec::is_empty));
    assert!(all.iter().any(|octets| octets.len() >= MOST_RECORDS * EVENT_OCTETS));
    let mut states = [0; 8];
    for octets in &all {
        let mut out = Vec::new();
        trace::print(node, octets.as_slice(), &mut out).expect("a vector takes every byte");
        let text = String::from_utf8(out).expect("lines are ASCII");
        for line in text.lines().skip(1).filter(|line| *line != "bad") {
            let state: usize = line.split(' ').nth(2).expect("a state").parse().expect("a number");
            states[state] += 1;
        }
    }
    assert!(states.iter().all(|&count| count >= 100), "{node:?} {states:?}");
}

#[test]
fn files_are_the_inputs_in_order() {
    let folder = std::env::temp_dir().join(format!("make_damaged_{}", std::process::id()));
    write(Node::Destination, 5, 30, &folder).expect("the folder can be made");
    for (octets, number) in inputs(Node::Destination, 5).zip(1..=30) {
        let read = std::fs::read(folder.join(format!("{number:04}"))).expect("the file is there");
        assert_eq!(read, octets);
    }
    let count = std::fs::read_dir(&folder).expect("the folder is there").count();
    std::fs::remove_dir_all(&folder).expect("the folder is there");
    assert_eq!(count, 30);
    let first = |node, seed| inputs(node, seed).take(30).collect::<Vec<Vec<u8>>>();
    assert_ne!(first(Node::Destination, 5), first(Node::Destination, 6));
    assert_ne!(first(Node::Destination, 5), first(Node::Source, 5));
}
