//! What made traces promise: they are bad where and only where that is asked, and every row is
//! reached; and what the table of the trace promises over them.

use std::collections::BTreeSet;

use super::bad::WAY_COUNT;
use super::write;
use crate::call::{Call, Soft, State};
use crate::cells;
use crate::event_record::{decode, EventRecord};
use crate::sample_tables::NODES;
use crate::table::{meet, unfit, Request};
use crate::trace;
use crate::trace_table::TraceTable;
use crate::vocabulary::{Event, Node, SentCause, Signals};
use crate::words::EventWords;

fn made(node: Node, seed: u64, count: u64, last_is_bad: bool) -> Vec<u8> {
    let mut octets = Vec::new();
    write(node, seed, count, last_is_bad, &mut octets).expect("a vector takes every byte");
    octets
}

fn traced(node: Node, octets: &[u8]) -> String {
    let mut out = Vec::new();
    trace::print(node, octets, &mut out).expect("a vector takes every byte");
    String::from_utf8(out).expect("lines are ASCII")
}

fn events(node: Node, octets: &[u8]) -> Vec<EventRecord> {
    let whole = octets.chunks_exact(16).map(|record| record.try_into().expect("16 octets"));
    whole.map(|record| decode(node, record).expect("a made record is not bad")).collect()
}

#[test]
fn seed_decides_alone() {
    for node in NODES {
        let made = |seed, count, last_is_bad| made(node, seed, count, last_is_bad);
        assert_eq!(made(7, 500, false), made(7, 500, false));
        assert_ne!(made(7, 500, false), made(8, 500, false));
        assert!(made(8, 500, false).starts_with(&made(8, 100, false)));
        assert_eq!(made(7, 500, false).len(), 8_000);
        assert_eq!(made(7, 0, true), []);
    }
}

#[test]
fn records_are_bad_only_where_asked() {
    for node in NODES {
        let traced = |seed, count, last_is_bad| traced(node, &made(node, seed, count, last_is_bad));
        assert!(!traced(9, 20_000, false).contains("bad"));
        for seed in 0..4 * WAY_COUNT as u64 {
            let before = traced(seed, 99, false);
            assert_eq!(traced(seed, 100, true), before + "bad\n", "{node:?}, seed {seed}");
            assert!(traced(seed, 1, true).ends_with("number\nbad\n"), "{node:?}, seed {seed}");
        }
    }
}

/// The table of the trace answers as a table that is checked at every event, and that one is fit.
#[test]
fn table_of_the_trace_answers_as_any_table() {
    for node in NODES {
        let mut fast = TraceTable::empty(node);
        let mut plain = [Call::EMPTY; 64];
        for asked in events(node, &made(node, 10, 20_000, false)) {
            let outcome = fast.meet(&asked);
            let reply = meet(node, &mut plain, asked.key, asked.request);
            let same = (outcome.answer, outcome.signals) == (reply.answer, reply.signals);
            assert!(same && fast.calls() == plain, "{node:?} {asked:?}");
            let on_record = plain.iter().find(|call| asked.key != 0 && call.key == asked.key);
            assert_eq!(outcome.call, on_record.copied().unwrap_or(Call::EMPTY), "{asked:?}");
        }
        assert!(!unfit(&plain));
    }
}

/// State before, event, answer, state after and signals, the numbers of connections left out: two
/// events of one row look the same.
type Row = (u8, String, u8, u8, String);

/// The first of its words.
fn name(node: Node, event: Event) -> String {
    let words = EventWords(node, event).to_string();
    words.split(' ').next().unwrap_or_default().to_string()
}

fn shape(signals: &Signals) -> String {
    let shape = signals.map(|signal| {
        let cause = match signal.rerouting_cause {
            SentCause::Absent => "absent".to_string(),
            SentCause::Number(cause) => format!("{cause:?}"),
            SentCause::AsReceived(_) => "as received".to_string(),
        };
        format!("{:?} {cause} {:?}", signal.kind, signal.cause_code)
    });
    shape.join(", ")
}

fn row(node: Node, call: Call, event: Event) -> Row {
    let after = call.after(node, event);
    let answer = after.answer.number();
    let states = (call.state.number(), after.call.state.number());
    (states.0, name(node, event), answer, states.1, shape(&after.signals))
}

/// Whether a run of the source reaches such a record: a hard rerouting is begun with hard on alone,
/// and a soft one with its service alone.
fn reachable_at_source(call: &Call) -> bool {
    let soft = call.soft != Soft::None;
    match call.state {
        State::Null => false,
        State::ReroutingIdle { .. } => true,
        State::HardWaiting => call.hard,
        State::HardUnderway { .. } => call.hard,
        State::SoftRerouteTriggered { .. } => soft,
        State::SoftRerouteProceeding { .. } => soft,
        State::SoftRerouteInitiated { .. } => call.soft == Soft::Symmetric,
        State::AwaitingSwitchover { .. } => call.soft == Soft::Symmetric,
    }
}

/// At the destination a setup brings a call with any service into the Hard states and the two that
/// follow a soft one (decision 58); what this end begins, it begins with symmetric soft.
fn reachable_at_destination(call: &Call) -> bool {
    let service = call.hard || call.soft != Soft::None;
    match call.state {
        State::Null => false,
        State::ReroutingIdle { .. } => true,
        State::HardWaiting => service,
        State::HardUnderway { .. } => service,
        State::SoftRerouteTriggered { .. } => call.soft == Soft::Symmetric,
        State::SoftRerouteProceeding { .. } => call.soft == Soft::Symmetric,
        State::SoftRerouteInitiated { .. } => service,
        State::AwaitingSwitchover { .. } => service,
    }
}

fn reachable(node: Node, call: &Call) -> bool {
    let doubled =
        call.state.incumbent().is_some() && call.state.incumbent() == call.state.rerouting();
    let reached = match node {
        Node::Source => reachable_at_source(call),
        Node::Destination => reachable_at_destination(call),
    };
    reached && !doubled
}

/// The rows of every record that a run reaches, under one condition on its last number.
fn rows(node: Node, wanted: impl Fn(u16) -> bool) -> BTreeSet<Row> {
    let mut rows = BTreeSet::new();
    for call in (1..=7).flat_map(cells::records).filter(|call| reachable(node, call)) {
        if wanted(call.last) {
            rows.extend(cells::events(node).into_iter().map(|event| row(node, call, event)));
        }
    }
    rows
}

/// The rows that made records reach, under one condition on the last number, and the answers.
fn reached(
    node: Node,
    octets: &[u8],
    wanted: impl Fn(u16) -> bool,
) -> (BTreeSet<Row>, BTreeSet<u8>) {
    let mut table = TraceTable::empty(node);
    let (mut rows, mut answers) = (BTreeSet::new(), BTreeSet::new());
    for asked in events(node, octets) {
        let call = table.call(asked.key);
        answers.insert(table.meet(&asked).answer.number());
        match asked.request {
            Request::Event(event) if asked.key != 0 && call.key != 0 && wanted(call.last) => {
                rows.insert(row(node, call, event));
            }
            _ => {}
        }
    }
    (rows, answers)
}

#[test]
fn every_row_is_reached_soon() {
    let below = |last| last < 65_535;
    for (node, seed) in NODES.into_iter().flat_map(|node| [1, 2, 3].map(|seed| (node, seed))) {
        let (reached, answers) = reached(node, &made(node, seed, 60_000, false), below);
        let missing: Vec<Row> = rows(node, below).difference(&reached).cloned().collect();
        assert_eq!(missing, [], "{node:?}, seed {seed}");
        assert!(answers.is_superset(&[0, 102, 103, 104, 105, 106, 107].into()), "seed {seed}");
    }
}

/// The state and the crankback of each release without cause of a rerouting connection that has the
/// last number: the retries that then count as no path.
fn retries_at_the_last_number(node: Node, octets: &[u8]) -> BTreeSet<(u8, String)> {
    let mut table = TraceTable::empty(node);
    let mut retries = BTreeSet::new();
    for asked in events(node, octets) {
        let state = table.call(asked.key).state;
        table.meet(&asked);
        if let Request::Event(Event::FromDomain(release)) = asked.request {
            let last = release.connection == 65_535 && release.cause.is_none();
            if last && state.rerouting() == Some(65_535) {
                retries.insert((state.number(), format!("{:?}", release.crankback)));
            }
        }
    }
    retries
}

/// The last number is spent some 150,000 records after an opening. In this run a setup takes it in
/// two lives of the worn call, so that the next one is soon refused in Soft Initiated.
#[test]
fn rows_at_the_last_number_are_reached() {
    let spent = |last| last == 65_535;
    let octets = made(Node::Source, 3, 1_000_000, false);
    let (reached, answers) = reached(Node::Source, &octets, spent);
    let refused: Vec<Row> =
        rows(Node::Source, spent).into_iter().filter(|row| row.2 == 108).collect();
    let missing: Vec<&Row> = refused.iter().filter(|&row| !reached.contains(row)).collect();
    assert_eq!((refused.len(), missing), (5, vec![]));
    assert!(answers.contains(&108));
    let retries = retries_at_the_last_number(Node::Source, &octets);
    for (state, crankback) in [(3, "None"), (3, "AlternateFound"), (5, "AlternateFound")] {
        assert!(retries.contains(&(state, crankback.to_string())), "{state} {crankback}");
    }
}

/// In 500,000 records the worn call of the destination has three lives. A setup is refused in each
/// of the seven states, a path in one; what this end retries finds no number.
#[test]
fn rows_at_the_last_number_are_reached_at_the_destination() {
    let (node, spent) = (Node::Destination, |last| last == 65_535);
    let (mut met, mut retries) = (BTreeSet::new(), BTreeSet::new());
    for seed in 1..=2 {
        let octets = made(node, seed, 500_000, false);
        met.extend(reached(node, &octets, spent).0);
        retries.extend(retries_at_the_last_number(node, &octets));
    }
    let refused: Vec<Row> = rows(node, spent).into_iter().filter(|row| row.2 == 108).collect();
    let missing: Vec<&Row> = refused.iter().filter(|&row| !met.contains(row)).collect();
    assert_eq!((refused.len(), missing), (8, vec![]));
    for state in [3, 5] {
        assert!(retries.contains(&(state, "AlternateFound".to_string())), "{retries:?}");
    }
}
