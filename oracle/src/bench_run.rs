//! The bench run of 01 on one call, hard on and symmetric soft: B1 to B13, B15 and B16. B14 opens a
//! key on record, which is the table's matter: `table_run` has it, between the same steps. B12 to
//! B15 have 6 on record, where 01 has 5 (02, Ask 3).

use crate::call::{Call, Outcome, Services, Soft};
use crate::vocabulary::{
    Crankback, DomainRelease, Event, Node, Policy, ReroutingCause, SwitchoverCode,
};
use crate::words::SignalWords;

/// Event, answer, record after it, signals; records and signals in the words of the cells.
pub type Step = (Event, u8, &'static str, &'static str);

fn setup(switchover: SwitchoverCode, number: u32) -> Event {
    Event::Setup { switchover, number }
}

fn called(connection: u16, cause: Option<ReroutingCause>) -> Event {
    Event::FromDomain(DomainRelease { connection, cause, crankback: Crankback::None })
}

fn shown(outcome: &Outcome) -> (u8, String, String) {
    let signals = SignalWords(&outcome.signals).to_string();
    (outcome.answer.number(), outcome.call.to_string(), signals)
}

/// "Hard on, symmetric soft."
pub const SERVICES: Services = Services { hard: true, soft: Soft::Symmetric };

/// B1.
fn opened() -> Outcome {
    Call::open(7, Some(SERVICES))
}

fn run(steps: &[Step]) -> Call {
    let mut call = opened().call;
    for &(event, answer, record, signals) in steps {
        let outcome = call.after(Node::Source, event);
        let expected = (answer, record.to_string(), signals.to_string());
        assert_eq!(shown(&outcome), expected, "{call} | {event:?}");
        call = outcome.call;
    }
    call
}

/// B2 to B8: the neighbour reroutes, and its switchover comes with cause #4.
pub fn symmetric_part() -> Vec<Step> {
    let (clearing, immediate) = (SwitchoverCode::CLEARING, SwitchoverCode::IMMEDIATE);
    vec![
        (setup(clearing, 3), 0, "7 1 2 6 1 2 2 3", "-"),
        (Event::Ready, 0, "7 1 2 7 1 2 2 3", "connect 2"),
        (setup(clearing, 3), 0, "7 1 2 7 1 2 2 3", "reject #5"),
        (setup(immediate, 9), 0, "7 1 2 7 1 2 2 3", "reject #8"),
        (setup(clearing, 5), 0, "7 1 2 6 1 3 3 5", "release rerouting 2"),
        (Event::Ready, 0, "7 1 2 7 1 3 3 5", "connect 3"),
        (called(1, Some(ReroutingCause::OPERATION_COMPLETE)), 0, "7 1 2 1 3 0 3 5", "switch 3"),
    ]
}

/// B9 to B13: a late release is refused, and the node itself reroutes softly. The setup that comes
/// meanwhile is rejected with #6, and its number stays on record (02, Ask 3).
pub fn soft_part() -> Vec<Step> {
    let connect = Event::Connect { connection: 4, policy: Policy::Yes };
    vec![
        (called(1, None), 107, "7 1 2 1 3 0 3 5", "-"),
        (Event::Trigger, 0, "7 1 2 4 3 0 3 5", "-"),
        (Event::PathFound, 0, "7 1 2 5 3 4 4 5", "setup 4"),
        (setup(SwitchoverCode::CLEARING, 6), 0, "7 1 2 5 3 4 4 6", "reject #6"),
        (connect, 0, "7 1 2 1 4 0 4 6", "switch 4, release incumbent 3 #4"),
    ]
}

/// B15 and B16: the incumbent fails under a soft rerouting, and the timer ends the call.
pub fn hard_part() -> Vec<Step> {
    let ended = "release calling #2, release rerouting 5 #2";
    vec![
        (Event::Trigger, 0, "7 1 2 4 4 0 4 6", "-"),
        (Event::PathFound, 0, "7 1 2 5 4 5 5 6", "setup 5"),
        (called(4, None), 0, "7 1 2 3 0 5 5 6", "timer start"),
        (Event::TimerExpiry, 0, "0 0 0 0 0 0 0 0", ended),
    ]
}

#[test]
fn opening_is_b1() {
    assert_eq!(shown(&opened()), (0, "7 1 2 1 1 0 1 0".to_string(), "-".to_string()));
}

#[test]
fn run_is_b2_to_b16() {
    let steps = [symmetric_part(), soft_part(), hard_part()].concat();
    assert_eq!(run(&steps), Call::EMPTY);
}

/// 01, "Edges": the last number 65,534 still opens one connection, 65,535 none.
#[test]
fn last_numbers_are_used_up() {
    let idle = opened().call;
    let setup = setup(SwitchoverCode::CLEARING, 1);
    let accepted = Call { last: 65_534, ..idle }.after(Node::Source, setup);
    assert_eq!(shown(&accepted), (0, "7 1 2 6 1 65535 65535 1".to_string(), "-".to_string()));
    let spent = Call { last: 65_535, ..idle };
    assert_eq!(spent.after(Node::Source, setup).answer.number(), 108);
    assert_eq!(spent.after(Node::Source, setup).call, spent);
}
