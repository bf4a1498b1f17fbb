//! What the table of either end refuses: each cause of 101 alone, what 101 does not name, the edges
//! of 01, and the order of the checks where two apply.

use crate::call::{Call, Soft, State};
use crate::sample_tables::{call, idle, idle_calls, NODES, OPENING, PATH_FOUND, TRIGGER};
use crate::table::{meet, meet_unchecked, Reply, Request, CAUSES_OF_UNFITNESS};
use crate::vocabulary::{Crankback, DomainRelease, Event, Node, Policy, SwitchoverCode, SILENT};

const READY: Request = Request::Event(Event::Ready);
const CONNECT_9: Request = Request::Event(Event::Connect { connection: 9, policy: Policy::Yes });
const RELEASE_9: Request = Request::Event(Event::FromDomain(DomainRelease {
    connection: 9,
    cause: None,
    crankback: Crankback::None,
}));

const MANY: u16 = u16::MAX;

fn answer_at(node: Node, table: &[Call], key: u32, request: Request) -> u8 {
    let mut after = table.to_vec();
    let reply = meet(node, &mut after, key, request);
    refusal_changes_nothing(table, &after, reply);
    reply.answer.number()
}

fn answer_unchecked(node: Node, table: &[Call], key: u32, request: Request) -> u8 {
    let mut after = table.to_vec();
    let reply = meet_unchecked(node, &mut after, key, request);
    refusal_changes_nothing(table, &after, reply);
    reply.answer.number()
}

fn refusal_changes_nothing(before: &[Call], after: &[Call], reply: Reply) {
    if reply.answer.number() != 0 {
        assert_eq!((after, reply.signals), (before, SILENT), "{:?}", reply.answer);
    }
}

/// Where both ends must answer alike.
fn answer(table: &[Call], key: u32, request: Request) -> u8 {
    let [source, destination] = NODES.map(|node| answer_at(node, table, key, request));
    assert_eq!(source, destination, "{key} {request:?}");
    source
}

/// The table is unfit for that cause and no other, and 101 comes before every other answer. Where
/// the table is not checked, 101 does not come at all (docs/TABLES.md).
fn unfit_alone(cause: usize, table: &[Call]) {
    for (number, applies) in CAUSES_OF_UNFITNESS.iter().enumerate() {
        assert_eq!(applies(table), number == cause, "cause {number} of {:?}", table.first());
    }
    for key in [0, 1, 7, 9_999] {
        for request in [OPENING, TRIGGER, PATH_FOUND, READY, CONNECT_9, RELEASE_9] {
            assert_eq!(answer(table, key, request), 101, "{key} {request:?}");
            for node in NODES {
                assert_ne!(answer_unchecked(node, table, key, request), 101, "{key} {request:?}");
            }
        }
    }
}

/// The record alone, then between two others, then last.
fn unfit_record(cause: usize, record: Call) {
    unfit_alone(cause, &[record]);
    unfit_alone(cause, &[idle(1), record, Call::EMPTY]);
    unfit_alone(cause, &[Call::EMPTY, idle(1), record]);
}

fn fit(table: &[Call]) {
    assert_eq!(answer(table, 0, OPENING), 102);
    assert_eq!(answer(table, 0, TRIGGER), 102);
}

/// The states that hold a number, on those two.
fn holding_states(incumbent: u16, rerouting: u16) -> Vec<State> {
    [1, 3, 4, 5, 6, 7]
        .into_iter()
        .filter_map(|number| State::of_number(number, incumbent, rerouting))
        .collect()
}

fn holds_two(state: &State) -> bool {
    state.incumbent().is_some() && state.rerouting().is_some()
}

#[test]
fn over_1024_records() {
    unfit_alone(0, &[Call::EMPTY; 1_025]);
    unfit_alone(0, &idle_calls(1_025));
    unfit_alone(0, &idle_calls(1_100));
}

#[test]
fn one_key_in_two_records() {
    unfit_alone(1, &[idle(7), idle(7)]);
    for (first, second) in [(0, 63), (0, 1), (62, 63), (31, 32), (0, 32), (31, 63)] {
        let mut table = idle_calls(64);
        table[second].key = table[first].key;
        unfit_alone(1, &table);
    }
    let mut table = idle_calls(1_024);
    table[1_023] = call(1, State::HardWaiting, 5);
    unfit_alone(1, &table);
}

#[test]
fn empty_record_not_all_empty() {
    for record in [
        Call { hard: true, ..Call::EMPTY },
        Call { soft: Soft::Asymmetric, ..Call::EMPTY },
        Call { soft: Soft::Symmetric, ..Call::EMPTY },
        Call { state: State::HardWaiting, ..Call::EMPTY },
        Call { last: 1, ..Call::EMPTY },
        Call { last: 256, ..Call::EMPTY },
        Call { remote: 1, ..Call::EMPTY },
        Call { remote: 16_777_216, ..Call::EMPTY },
        Call { key: 0, ..idle(7) },
    ] {
        unfit_record(2, record);
    }
}

#[test]
fn call_in_null() {
    unfit_record(3, call(7, State::Null, 1));
    unfit_record(3, call(u32::MAX, State::Null, 65_535));
    unfit_record(3, Call { key: 7, last: 1, ..Call::EMPTY });
}

#[test]
fn call_without_last_number() {
    unfit_record(3, call(7, State::HardWaiting, 0));
    unfit_record(3, Call { key: 7, ..Call::EMPTY });
}

#[test]
fn held_number_zero() {
    for state in holding_states(0, 0).into_iter().filter(|state| !holds_two(state)) {
        unfit_record(4, call(7, state, 3));
    }
    for (incumbent, rerouting) in [(0, 2), (2, 0)] {
        for state in holding_states(incumbent, rerouting).into_iter().filter(holds_two) {
            unfit_record(4, call(7, state, 3));
        }
    }
}

#[test]
fn held_number_above_last() {
    for above in [4, 5, 259, MANY] {
        for state in holding_states(above, above).into_iter().filter(|state| !holds_two(state)) {
            unfit_record(4, call(7, state, 3));
        }
        for (incumbent, rerouting) in [(above, 3), (3, above)] {
            for state in holding_states(incumbent, rerouting).into_iter().filter(holds_two) {
                unfit_record(4, call(7, state, 3));
            }
        }
    }
}

#[test]
fn held_numbers_equal() {
    for last in [1, 3, MANY] {
        for state in holding_states(last, last).into_iter().filter(holds_two) {
            unfit_record(5, call(7, state, last));
        }
    }
}

/// Every pair of causes that one record or two can show is 101 as well.
#[test]
fn causes_in_pairs() {
    let awaiting = |incumbent, rerouting| State::AwaitingSwitchover { incumbent, rerouting };
    let records = [
        Call { remote: 1, ..Call::EMPTY },
        call(7, State::Null, 1),
        call(8, State::HardWaiting, 0),
        call(9, State::ReroutingIdle { incumbent: 0 }, 1),
        call(10, State::HardUnderway { rerouting: 2 }, 1),
        call(11, awaiting(2, 2), 2),
        call(12, awaiting(3, 3), 2),
        call(13, awaiting(0, 0), 2),
        Call { key: 0, ..call(0, State::Null, 1) },
    ];
    for first in records {
        for second in records {
            assert_eq!(answer(&[first, idle(1), second], 1, TRIGGER), 101);
        }
    }
}

#[test]
fn what_101_does_not_name_is_fit() {
    fit(&[]);
    fit(&[Call::EMPTY; 2]);
    fit(&idle_calls(1_024));
    for state in holding_states(1, 2).into_iter().chain(holding_states(2, 1)) {
        fit(&[call(1, state, 2), call(2, state, 2), call(u32::MAX, state, MANY)]);
        let bare = Call { hard: false, soft: Soft::None, remote: u32::MAX, ..call(7, state, 2) };
        fit(&[bare, Call::EMPTY]);
    }
    fit(&[call(7, State::HardWaiting, 1), idle(65_543)]);
    fit(&[call(7, State::SoftRerouteInitiated { incumbent: MANY, rerouting: 1 }, MANY)]);
}

/// 01, "Edges".
#[test]
fn tables_of_none_and_of_1024_records() {
    assert_eq!(answer(&[], 7, OPENING), 104);
    assert_eq!(answer(&[], 7, TRIGGER), 105);
    let mut full = idle_calls(1_024);
    assert_eq!(answer(&full, 1_025, OPENING), 104);
    assert_eq!(answer(&full, 1_024, TRIGGER), 0);
    full[1_023] = Call::EMPTY;
    assert_eq!(answer(&full, 1_025, OPENING), 0);
    full[1_023] = idle(1_024);
    full.push(Call::EMPTY);
    assert_eq!(answer(&full, 1_025, OPENING), 101);
    assert_eq!(answer(&full, 1_024, TRIGGER), 101);
}

/// 01, "Edges": "Last number 65,534 still opens one."
#[test]
fn last_number_65534_still_opens_one() {
    let setup =
        |number| Request::Event(Event::Setup { switchover: SwitchoverCode::CLEARING, number });
    let mut table = [Call { last: 65_534, ..idle(7) }];
    assert_eq!(meet(Node::Source, &mut table, 7, setup(1)).answer.number(), 0);
    assert_eq!(table[0].to_string(), "7 1 2 6 1 65535 65535 1");
    assert_eq!(answer(&table, 7, setup(2)), 108);
    let mut table = [call(7, State::SoftRerouteTriggered { incumbent: 1 }, 65_534)];
    assert_eq!(meet(Node::Source, &mut table, 7, PATH_FOUND).answer.number(), 0);
    assert_eq!(table[0].to_string(), "7 1 2 5 1 65535 65535 0");
}

/// "Checks run in this order; the first that applies is given." 101 stands before the others in
/// `unfit_alone`.
#[test]
fn first_check_that_applies_is_given() {
    let full = idle_calls(3);
    let spent = call(7, State::ReroutingIdle { incumbent: 1 }, MANY);
    let asymmetric = Call { soft: Soft::Asymmetric, ..spent };
    let setup = Event::Setup { switchover: SwitchoverCode::CLEARING, number: 1 };
    // 102 before 104, 105, and the opening of an empty record.
    assert_eq!(answer(&full, 0, OPENING), 102);
    assert_eq!(answer(&[], 0, OPENING), 102);
    assert_eq!(answer(&[], 0, TRIGGER), 102);
    assert_eq!(answer(&[Call::EMPTY], 0, OPENING), 102);
    // 102 before the 106 that a record in Null would give.
    assert_eq!(answer(&[Call::EMPTY], 0, READY), 102);
    // 103 before 104 (decision 14).
    assert_eq!(answer(&full, 3, OPENING), 103);
    assert_eq!(answer(&full, 4, OPENING), 104);
    // 105 before 106 and 107.
    assert_eq!(answer(&full, 4, READY), 105);
    assert_eq!(answer(&full, 4, RELEASE_9), 105);
    // 106 before 107 and 108.
    assert_eq!(answer(&full, 3, CONNECT_9), 106);
    assert_eq!(answer(&[spent], 7, PATH_FOUND), 106);
    assert_eq!(answer_at(Node::Source, &[asymmetric], 7, Request::Event(setup)), 106);
    assert_eq!(answer(&[spent], 7, Request::Event(setup)), 108);
    assert_eq!(answer(&full, 3, RELEASE_9), 107);
}
