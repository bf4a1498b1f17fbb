//! At the source, a setup that is rejected with #6, since a rerouting operation is in progress,
//! stores its number, and nothing else of the record moves (02, Ask 3, which amends 01, "Setup";
//! 6.2.7; decision 79). What must come of each event was derived by hand from the place that stands
//! with it.

use crate::call::{Call, Outcome, Soft, State};
use crate::cells;
use crate::vocabulary::{one, Answer, Event, Node, Policy, ReroutingCause, Signal, SwitchoverCode};
use crate::words::SignalWords;
use crate::{script, watch};

const SOURCE: Node = Node::Source;

/// A line of a script, and what is watched behind its count: answer, state, incumbent, rerouting
/// connection, number on record, last number, signals.
type Step = (&'static str, &'static str);

fn run(steps: &[Step]) {
    let lines: String = steps.iter().map(|(line, _)| format!("{line}\n")).collect();
    let mut octets = Vec::new();
    let complaint = script::print(SOURCE, lines.as_bytes(), &mut octets);
    assert_eq!(complaint.expect("a vector takes every byte"), None);
    let mut watched = Vec::new();
    watch::print(SOURCE, octets.as_slice(), &mut watched).expect("a vector takes every byte");
    let watched = String::from_utf8(watched).expect("lines are ASCII");
    let mut expected = "line answer state incumbent rerouting number last signals\n".to_string();
    for ((_, step), count) in steps.iter().zip(1..) {
        expected += &format!("{count} {step}\n");
    }
    assert_eq!(watched, expected);
}

/// The night of 02, Ask 3: the neighbour's setup comes while the node is rerouting and gets #6, and
/// comes once more when the call is idle. The neighbour has long given it up.
#[test]
fn setup_turned_away_is_not_taken_once_idle() {
    run(&[
        ("open 7 hard symmetric", "0 1 1 0 0 1 -"),
        // 6.2.5.3 case 1: the node reroutes.
        ("trigger 7", "0 4 1 0 0 1 -"),
        ("path 7", "0 5 1 2 0 2 setup 2"),
        // 6.2.7.5: turned away, and the number is on record (02, Ask 3).
        ("setup 7 clearing 8", "0 5 1 2 8 2 reject #6"),
        // 6.2.6.2: Idle again, the number stays.
        ("connect 7 2 yes", "0 1 2 0 8 2 switch 2, release incumbent 1 #4"),
        // 01, "Setup", row 2: not greater than the record, and nothing changes.
        ("setup 7 clearing 8", "0 1 2 0 8 2 reject #5"),
        ("setup 7 clearing 8", "0 1 2 0 8 2 reject #5"),
        ("setup 7 clearing 7", "0 1 2 0 8 2 reject #5"),
        // 01, "Setup", row 4: the next number is accepted; 6.2.7.8; 01, row "Awaiting, incumbent".
        ("setup 7 clearing 9", "0 6 2 3 9 3 -"),
        ("ready 7", "0 7 2 3 9 3 connect 3"),
        ("called 7 2 cause 4", "0 1 3 0 9 3 switch 3"),
    ]);
}

/// One call through the four states (6.2.7.2 to 6.2.7.5). In each the setup is late as soon as its
/// number is stored, also while the operation goes on.
#[test]
fn one_call_is_busy_in_four_ways() {
    run(&[
        ("open 7 hard symmetric", "0 1 1 0 0 1 -"),
        // 6.2.4.2 case 4, then 6.2.7.2.
        ("called 7 1", "0 2 0 0 0 1 timer start"),
        ("setup 7 clearing 1", "0 2 0 0 1 1 reject #6"),
        ("setup 7 clearing 1", "0 2 0 0 1 1 reject #5"),
        // 6.2.5.1, then 6.2.7.3. Another switchover stores nothing, so that 3 is new after it.
        ("path 7", "0 3 0 2 1 2 setup 2"),
        ("setup 7 immediate 3", "0 3 0 2 1 2 reject #8"),
        ("setup 7 2 3", "0 3 0 2 1 2 reject #8"),
        ("setup 7 clearing 3", "0 3 0 2 3 2 reject #6"),
        ("setup 7 clearing 2", "0 3 0 2 3 2 reject #5"),
        // 6.2.6.1, 6.2.5.3 case 1, then 6.2.7.4.
        ("connect 7 2 yes", "0 1 2 0 3 2 timer stop, switch 2"),
        ("trigger 7", "0 4 2 0 3 2 -"),
        ("setup 7 clearing 4", "0 4 2 0 4 2 reject #6"),
        ("setup 7 clearing 4", "0 4 2 0 4 2 reject #5"),
        // 6.2.5.3 case 1, then 6.2.7.5. Numbers need not follow one another.
        ("path 7", "0 5 2 3 4 3 setup 3"),
        ("setup 7 clearing 9", "0 5 2 3 9 3 reject #6"),
        ("setup 7 clearing 5", "0 5 2 3 9 3 reject #5"),
        // 01, row "Soft Proceeding, rerouting", then 01, "Setup", rows 2 and 4.
        ("called 7 3", "0 1 2 0 9 3 -"),
        ("setup 7 clearing 9", "0 1 2 0 9 3 reject #5"),
        ("setup 7 clearing 10", "0 6 2 4 10 4 -"),
        // The record is emptied with its number (01, "The table and its records").
        ("calling 7", "0 0 0 0 0 0 release incumbent 2 #1, release rerouting 4 #1"),
        ("open 7 hard symmetric", "0 1 1 0 0 1 -"),
        ("setup 7 clearing 1", "0 6 1 2 1 2 -"),
    ]);
}

fn call(state: State, last: u16, remote: u32) -> Call {
    Call { key: 7, hard: true, soft: Soft::Symmetric, state, last, remote }
}

/// The two Triggered and the two Proceeding states (01, "Setup", row 3), on those connections.
fn busy_states(incumbent: u16, rerouting: u16) -> [State; 4] {
    [2, 3, 4, 5].map(|number| State::of_number(number, incumbent, rerouting).expect("a state"))
}

fn clearing(number: u32) -> Event {
    Event::Setup { switchover: SwitchoverCode::CLEARING, number }
}

fn rejected(call: Call, cause: ReroutingCause) -> Outcome {
    Outcome { answer: Answer::Done, call, signals: one(Signal::reject(cause)) }
}

/// The number on record, and that of the setup.
const NEWER: [(u32, u32); 5] = [(0, 1), (5, 6), (5, 900), (0, u32::MAX), (u32::MAX - 1, u32::MAX)];

/// Whatever the last number, and whatever the hard service, which no row of a setup reads.
#[test]
fn number_is_stored_in_four_states() {
    for state in busy_states(3, 5) {
        for last in [10, 65_534, 65_535] {
            for (remote, number) in NEWER {
                for hard in [true, false] {
                    let busy = Call { hard, ..call(state, last, remote) };
                    let stored = Call { remote: number, ..busy };
                    let expected = rejected(stored, ReroutingCause::ALREADY_IN_PROGRESS);
                    assert_eq!(busy.after(SOURCE, clearing(number)), expected, "{busy} {number}");
                }
            }
        }
    }
}

/// Answer, record and signals in the words of the cells.
fn shown(outcome: &Outcome) -> (u8, String, String) {
    let signals = SignalWords(&outcome.signals).to_string();
    (outcome.answer.number(), outcome.call.to_string(), signals)
}

/// At 65,535 too: #6 comes before 108 (decision 11), since the setup asks for no connection. Once
/// Idle, a late setup is rejected and a new one refused with 108, which stores nothing.
#[test]
fn number_is_stored_at_the_last_number() {
    let proceeding = State::SoftRerouteProceeding { incumbent: 3, rerouting: 65_535 };
    let connect = Event::Connect { connection: 65_535, policy: Policy::Yes };
    let mut current = call(proceeding, 65_535, 5);
    for (event, answer, record, signals) in [
        (clearing(6), 0, "7 1 2 5 3 65535 65535 6", "reject #6"),
        (clearing(6), 0, "7 1 2 5 3 65535 65535 6", "reject #5"),
        (connect, 0, "7 1 2 1 65535 0 65535 6", "switch 65535, release incumbent 3 #4"),
        (clearing(6), 0, "7 1 2 1 65535 0 65535 6", "reject #5"),
        (clearing(7), 108, "7 1 2 1 65535 0 65535 6", "-"),
        (clearing(7), 108, "7 1 2 1 65535 0 65535 6", "-"),
        (Event::Trigger, 0, "7 1 2 4 65535 0 65535 6", "-"),
        (clearing(7), 0, "7 1 2 4 65535 0 65535 7", "reject #6"),
    ] {
        let outcome = current.after(SOURCE, event);
        let expected = (answer, record.to_string(), signals.to_string());
        assert_eq!(shown(&outcome), expected, "{current} | {event:?}");
        current = outcome.call;
    }
}

/// #8, #5 and 106 store nothing where the node is rerouting.
#[test]
fn other_setups_store_nothing_in_four_states() {
    for busy in busy_states(3, 5).map(|state| call(state, 10, 5)) {
        for (code, number) in [(0, 6), (2, 6), (255, u32::MAX), (0, 5)] {
            let setup = Event::Setup { switchover: SwitchoverCode(code), number };
            let expected = rejected(busy, ReroutingCause::UNSUPPORTED_SWITCHOVER);
            assert_eq!(busy.after(SOURCE, setup), expected, "{busy} {code} {number}");
        }
        for number in [0, 4, 5] {
            let expected = rejected(busy, ReroutingCause::OLD_INCARNATION_NUMBER);
            assert_eq!(busy.after(SOURCE, clearing(number)), expected, "{busy} {number}");
        }
        for soft in [Soft::None, Soft::Asymmetric] {
            let without = Call { soft, ..busy };
            let expected = without.refused(Answer::WithoutMeaning);
            assert_eq!(without.after(SOURCE, clearing(6)), expected, "{without}");
        }
    }
}

fn sends_6(outcome: &Outcome) -> bool {
    outcome.signals.contains(&Signal::reject(ReroutingCause::ALREADY_IN_PROGRESS))
}

/// #6 is given exactly in these cells (01, "Setup", rows 1 to 3), whatever the last number; and
/// never at the destination, where a setup wins over what that end began (decisions 71 and 73).
#[test]
fn rejected_with_6_exactly_where_work_is_in_progress() {
    for node in [Node::Source, Node::Destination] {
        for before in (0..=7).flat_map(cells::records) {
            for event in cells::events(node) {
                let asked = match event {
                    Event::Setup { switchover: SwitchoverCode::CLEARING, number } => Some(number),
                    _ => None,
                };
                let newer = asked.is_some_and(|number| number > before.remote);
                let busy = (2..=5).contains(&before.state.number());
                let meant = node == SOURCE && before.soft == Soft::Symmetric;
                let after = before.after(node, event);
                assert_eq!(sends_6(&after), meant && busy && newer, "{before} | {event:?}");
            }
        }
    }
}
