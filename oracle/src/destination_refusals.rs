//! What the destination node refuses, by decision 60: 106, 107 and 108 exactly where it lists them;
//! and the order of the checks of a setup.

use crate::call::{Call, Soft, State};
use crate::cells;
use crate::table::{meet, Request};
use crate::vocabulary::{
    Answer, Crankback, DomainRelease, Event, Node, Policy, ReroutingCause, Signal, SwitchoverCode,
    SILENT,
};

const DESTINATION: Node = Node::Destination;

fn each_cell(check: impl Fn(Call, Event, Answer)) {
    let events = cells::events(DESTINATION);
    for call in (1..=7).flat_map(cells::records) {
        for &event in &events {
            check(call, event, call.after(DESTINATION, event).answer);
        }
    }
}

/// States 0 to 7 of decision 57.
fn without_meaning(call: Call, event: Event) -> bool {
    let state = call.state.number();
    match event {
        Event::Trigger => call.soft != Soft::Symmetric,
        Event::PathFound | Event::NoPath => state != 4,
        Event::Connect { .. } => state != 5,
        Event::Setup { .. } => !call.hard && call.soft == Soft::None,
        Event::FromParty { .. } | Event::FromDomain(_) => false,
        Event::Ready => state != 3 && state != 6,
        Event::TimerExpiry => state != 2 && state != 3,
    }
}

fn names_wrong_connection(call: Call, event: Event) -> bool {
    let (incumbent, rerouting) = (call.state.incumbent(), call.state.rerouting());
    match event {
        Event::Connect { connection, .. } => {
            Some(connection) != rerouting || Some(connection) == incumbent
        }
        Event::FromDomain(DomainRelease { connection, .. }) => {
            Some(connection) != incumbent && Some(connection) != rerouting
        }
        _ => false,
    }
}

#[test]
fn events_without_meaning_are_106() {
    each_cell(|call, event, answer| {
        let refused = answer == Answer::WithoutMeaning;
        assert_eq!(refused, without_meaning(call, event), "{call} | {event:?}");
    });
}

#[test]
fn wrong_connections_are_107() {
    each_cell(|call, event, answer| {
        let expected = !without_meaning(call, event) && names_wrong_connection(call, event);
        assert_eq!(answer == Answer::WrongConnection, expected, "{call} | {event:?}");
    });
}

/// A path found or a setup, where the same call would give a number if it had one left.
#[test]
fn spent_numbers_are_108() {
    each_cell(|call, event, answer| {
        let needs_number = matches!(event, Event::PathFound | Event::Setup { .. });
        let free = Call { last: 10, ..call };
        let takes = free.after(DESTINATION, event).call.last == 11;
        let expected = call.last == u16::MAX && needs_number && takes;
        assert_eq!(answer == Answer::NumbersSpent, expected, "{call} | {event:?}");
    });
}

#[test]
fn null_refuses_every_event() {
    for call in cells::records(0) {
        for event in cells::events(DESTINATION) {
            let after = call.after(DESTINATION, event);
            let expected = (Answer::WithoutMeaning, call, SILENT);
            assert_eq!((after.answer, after.call, after.signals), expected, "{call} | {event:?}");
        }
    }
}

fn idle(hard: bool, soft: Soft, last: u16) -> Call {
    let state = State::ReroutingIdle { incumbent: 1 };
    Call { key: 7, hard, soft, state, last, remote: 9 }
}

fn setup(code: u8, number: u32) -> Event {
    Event::Setup { switchover: SwitchoverCode(code), number }
}

/// 106, #8, #5, 108: each stands before those behind it (decision 71).
#[test]
fn setup_checks_run_in_order() {
    let bare = idle(false, Soft::None, u16::MAX);
    let spent = idle(true, Soft::None, u16::MAX);
    let rejected = |call: Call, code, number, cause| {
        let after = call.after(DESTINATION, setup(code, number));
        let signals = [Signal::reject(cause), Signal::NONE, Signal::NONE, Signal::NONE];
        let expected = (Answer::Done, call, signals);
        assert_eq!((after.answer, after.call, after.signals), expected, "{call} {code} {number}");
    };
    let answer = |call: Call, code, number| call.after(DESTINATION, setup(code, number)).answer;
    assert_eq!(answer(bare, 2, 9), Answer::WithoutMeaning);
    rejected(spent, 2, 9, ReroutingCause::UNSUPPORTED_SWITCHOVER);
    rejected(spent, 2, 10, ReroutingCause::UNSUPPORTED_SWITCHOVER);
    rejected(spent, 0, 9, ReroutingCause::OLD_INCARNATION_NUMBER);
    rejected(spent, 1, 8, ReroutingCause::OLD_INCARNATION_NUMBER);
    assert_eq!(answer(spent, 0, 10), Answer::NumbersSpent);
    assert_eq!(answer(spent, 1, 10), Answer::NumbersSpent);
    let waiting = Call { state: State::HardWaiting, ..spent };
    rejected(waiting, 2, 9, ReroutingCause::OLD_INCARNATION_NUMBER);
    assert_eq!(answer(waiting, 2, 10), Answer::NumbersSpent);
}

fn asked(table: &mut [Call], event: Event) -> (u8, String) {
    let reply = meet(DESTINATION, table, 7, Request::Event(event));
    (reply.answer.number(), table[0].to_string())
}

/// 01, "Edges": the last number 65,534 still opens one; and a retry that finds none left goes Idle,
/// or waits in Hard Indicated as below it (decision 69).
#[test]
fn last_numbers_are_used_up() {
    let last = |record: &str, answer| (answer, record.to_string());
    let mut table = [idle(false, Soft::Asymmetric, 65_534)];
    assert_eq!(asked(&mut table, setup(0, 10)), last("7 0 1 3 0 65535 65535 10", 0));
    assert_eq!(asked(&mut table, setup(0, 11)), last("7 0 1 3 0 65535 65535 10", 108));
    let released = |connection, crankback| {
        Event::FromDomain(DomainRelease { connection, cause: None, crankback })
    };
    let lost = released(65_535, Crankback::AlternateFound);
    assert_eq!(asked(&mut table, lost), last("7 0 1 2 0 0 65535 10", 0));
    let mut table = [idle(true, Soft::Symmetric, 65_534)];
    assert_eq!(asked(&mut table, Event::Trigger), last("7 1 2 4 1 0 65534 9", 0));
    assert_eq!(asked(&mut table, Event::PathFound), last("7 1 2 5 1 65535 65535 9", 0));
    assert_eq!(asked(&mut table, setup(1, 10)), last("7 1 2 5 1 65535 65535 9", 108));
    assert_eq!(asked(&mut table, lost), last("7 1 2 1 1 0 65535 9", 0));
    assert_eq!(asked(&mut table, Event::Trigger), last("7 1 2 4 1 0 65535 9", 0));
    assert_eq!(asked(&mut table, Event::PathFound), last("7 1 2 4 1 0 65535 9", 108));
}

/// 105 before 106, 106 before 107, through the table.
#[test]
fn first_check_that_applies_is_given() {
    let connect = Event::Connect { connection: 9, policy: Policy::Yes };
    let release =
        Event::FromDomain(DomainRelease { connection: 9, cause: None, crankback: Crankback::None });
    let answer = |key, event| {
        let mut table = [idle(true, Soft::None, 1)];
        meet(DESTINATION, &mut table, key, Request::Event(event)).answer.number()
    };
    assert_eq!(answer(0, connect), 102);
    assert_eq!(answer(8, connect), 105);
    assert_eq!(answer(7, connect), 106);
    assert_eq!(answer(7, release), 107);
    assert_eq!(answer(7, Event::Trigger), 106);
    assert_eq!(answer(7, Event::FromParty { cause: None }), 0);
}
