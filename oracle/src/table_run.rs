//! The bench run of 01 over a table of 64, B1 to B16, and the places that openings take.

use crate::bench_run::{hard_part, soft_part, symmetric_part, Step, SERVICES};
use crate::call::{Call, Services, Soft, State};
use crate::table::{meet, Request};
use crate::vocabulary::{Event, Node, SILENT};
use crate::words::SignalWords;

const OPENING: Request = Request::Opening(Some(SERVICES));

/// A call that was opened without named services (02, Ask 1).
fn idle(key: u32) -> Call {
    let state = State::ReroutingIdle { incumbent: 1 };
    Call { key, hard: true, soft: Soft::Asymmetric, state, last: 1, remote: 0 }
}

/// The table but for the record at a place.
fn others(table: &[Call], place: usize) -> Vec<Call> {
    [&table[..place], &table[place + 1..]].concat()
}

/// Asks under key 7, whose record is at that place; every other record stays as it was.
fn ask(table: &mut [Call], place: usize, request: Request) -> (u8, String, String) {
    let before = others(table, place);
    let reply = meet(Node::Source, table, 7, request);
    assert_eq!(others(table, place), before, "{request:?}");
    let signals = SignalWords(&reply.signals).to_string();
    (reply.answer.number(), table[place].to_string(), signals)
}

fn expected(answer: u8, record: &str, signals: &str) -> (u8, String, String) {
    (answer, record.to_string(), signals.to_string())
}

fn run(table: &mut [Call], place: usize, steps: &[Step]) {
    for &(event, answer, record, signals) in steps {
        let shown = ask(table, place, Request::Event(event));
        assert_eq!(shown, expected(answer, record, signals), "{event:?}");
    }
}

fn run_b1_to_b16(table: &mut [Call], place: usize) {
    let b1 = expected(0, "7 1 2 1 1 0 1 0", "-");
    // The number of B12, which was rejected with #6 (02, Ask 3).
    let b14 = expected(103, "7 1 2 1 4 0 4 6", "-");
    assert_eq!(ask(table, place, OPENING), b1);
    run(table, place, &symmetric_part());
    run(table, place, &soft_part());
    assert_eq!(ask(table, place, OPENING), b14);
    run(table, place, &hard_part());
    assert_eq!(table[place], Call::EMPTY);
}

#[test]
fn run_over_64_empty_records() {
    run_b1_to_b16(&mut [Call::EMPTY; 64], 0);
}

#[test]
fn run_beside_other_calls_in_every_place() {
    for place in 0..64 {
        let mut table: Vec<Call> = (101..165).map(idle).collect();
        table[place] = Call::EMPTY;
        run_b1_to_b16(&mut table, place);
    }
}

#[test]
fn opening_takes_the_lowest_empty_record() {
    let mut table = [idle(1), Call::EMPTY, idle(2), Call::EMPTY];
    assert_eq!(meet(Node::Source, &mut table, 7, OPENING).answer.number(), 0);
    assert_eq!(table.map(|call| call.key), [1, 7, 2, 0]);
    assert_eq!(meet(Node::Source, &mut table, 8, OPENING).answer.number(), 0);
    assert_eq!(table.map(|call| call.key), [1, 7, 2, 8]);
    assert_eq!(meet(Node::Source, &mut table, 9, OPENING).answer.number(), 104);
    assert_eq!(table.map(|call| call.key), [1, 7, 2, 8]);
}

/// "it may be used again, also under the same key, as a new call"
#[test]
fn emptied_record_is_used_again_under_the_same_key() {
    let old = Call { last: 40, remote: 50, ..idle(7) };
    let mut table = [idle(1), old, Call::EMPTY];
    let ended = meet(Node::Source, &mut table, 7, Request::Event(Event::FromParty { cause: None }));
    assert_eq!((ended.answer.number(), table), (0, [idle(1), Call::EMPTY, Call::EMPTY]));
    let opened = meet(Node::Source, &mut table, 7, Request::Opening(None));
    assert_eq!((opened.answer.number(), opened.signals), (0, SILENT));
    assert_eq!(table, [idle(1), idle(7), Call::EMPTY]);
}

/// Where none are named: hard on and soft asymmetric (02, Ask 1, which amends 01's sentence on the
/// default). Soft none may be named, also with hard off (decision 14).
#[test]
fn services_are_those_named() {
    let bare = Services { hard: false, soft: Soft::None };
    let hard_alone = Services { hard: true, soft: Soft::None };
    for (named, record) in [
        (None, "7 1 1 1 1 0 1 0"),
        (Some(bare), "7 0 0 1 1 0 1 0"),
        (Some(hard_alone), "7 1 0 1 1 0 1 0"),
        (Some(SERVICES), "7 1 2 1 1 0 1 0"),
    ] {
        let mut table = [Call::EMPTY];
        assert_eq!(meet(Node::Source, &mut table, 7, Request::Opening(named)).answer.number(), 0);
        assert_eq!(table[0].to_string(), record);
    }
}
