//! The next states of the destination held against Appendix B-3 and C-3 of the standard, which are
//! informative (decision 75). A cell that they call an error must be refused.

use std::collections::BTreeSet;

use crate::call::{Call, Soft, State};
use crate::vocabulary::{
    Crankback, DomainRelease, Event, Node, Policy, ReroutingCause, SwitchoverCode,
};

/// The next state's number (decision 57), or nothing for FSM-ERR.
type Next = Option<u8>;

const NULL: Next = Some(0);
const IDLE: Next = Some(1);
const HARD_INDICATED: Next = Some(2);
const HARD_INITIATED: Next = Some(3);
const SOFT_TRIGGERED: Next = Some(4);
const SOFT_PROCEEDING: Next = Some(5);
const SOFT_INITIATED: Next = Some(6);
const AWAITING: Next = Some(7);
const ERR: Next = None;

/// The columns of C-3, by the numbers of their states. Those of B-3 are the first five.
const COLUMNS: [u8; 7] = [1, 2, 3, 6, 7, 4, 5];

/// The input events of the tables.
#[derive(Clone, Copy, Debug, PartialEq, Eq, PartialOrd, Ord)]
enum Input {
    RelCld,
    RelClgINRc,
    RelClgRNRc,
    RelClgIRc4,
    RelClgIRc,
    RelClgRRc,
    IncHardSet,
    IncSoftSet,
    OutCon,
    Timer,
    TrigSoft,
    Path,
    NoPath,
    IncCon,
}

use Input::*;

#[rustfmt::skip]
const C3: [(Input, [Next; 7]); 14] = [
    (RelCld, [NULL, NULL, NULL, NULL, NULL, NULL, NULL]),
    (RelClgINRc, [HARD_INDICATED, ERR, ERR, HARD_INITIATED, IDLE, HARD_INDICATED, HARD_INDICATED]),
    // Note 3, on crankback in the last column, stands in `by_note_3`.
    (RelClgRNRc, [ERR, ERR, HARD_INDICATED, IDLE, IDLE, ERR, IDLE]),
    (RelClgIRc4, [NULL, ERR, ERR, NULL, IDLE, NULL, NULL]),
    (RelClgIRc, [NULL, ERR, ERR, NULL, NULL, NULL, NULL]),
    (RelClgRRc, [ERR, ERR, NULL, IDLE, NULL, ERR, IDLE]),
    (IncHardSet, [HARD_INITIATED, HARD_INITIATED, HARD_INITIATED, HARD_INITIATED, HARD_INITIATED,
        HARD_INITIATED, HARD_INITIATED]),
    (IncSoftSet, [SOFT_INITIATED, HARD_INITIATED, HARD_INITIATED, SOFT_INITIATED, SOFT_INITIATED,
        SOFT_INITIATED, SOFT_INITIATED]),
    (OutCon, [ERR, ERR, IDLE, AWAITING, ERR, ERR, ERR]),
    (Timer, [ERR, NULL, NULL, ERR, ERR, ERR, ERR]),
    (TrigSoft, [SOFT_TRIGGERED, HARD_INDICATED, HARD_INITIATED, SOFT_INITIATED, AWAITING,
        SOFT_TRIGGERED, SOFT_PROCEEDING]),
    (Path, [ERR, ERR, ERR, ERR, ERR, SOFT_PROCEEDING, ERR]),
    (NoPath, [ERR, ERR, ERR, ERR, ERR, IDLE, ERR]),
    (IncCon, [ERR, ERR, ERR, ERR, ERR, ERR, IDLE]),
];

#[rustfmt::skip]
const B3: [(Input, [Next; 5]); 10] = [
    (RelCld, [NULL, NULL, NULL, NULL, NULL]),
    (RelClgINRc, [HARD_INDICATED, ERR, ERR, HARD_INITIATED, IDLE]),
    (RelClgRNRc, [ERR, ERR, HARD_INDICATED, IDLE, IDLE]),
    (RelClgIRc4, [NULL, ERR, ERR, NULL, IDLE]),
    (RelClgIRc, [NULL, ERR, ERR, NULL, NULL]),
    (RelClgRRc, [ERR, ERR, NULL, IDLE, NULL]),
    (IncHardSet, [HARD_INITIATED, HARD_INITIATED, HARD_INITIATED, HARD_INITIATED, HARD_INITIATED]),
    (IncSoftSet, [SOFT_INITIATED, HARD_INITIATED, HARD_INITIATED, SOFT_INITIATED, SOFT_INITIATED]),
    (OutCon, [ERR, ERR, IDLE, AWAITING, ERR]),
    (Timer, [ERR, NULL, NULL, ERR, ERR]),
];

const CRANKBACKS: [Crankback; 3] =
    [Crankback::None, Crankback::AlternateFound, Crankback::NoneFound];

/// A connection that no state holds.
const NOT_HELD: u16 = 9;

/// Note 3: with crankback the state stays.
fn by_note_3(input: Input, state: u8, crankback: Crankback, next: Next) -> Next {
    if input == RelClgRNRc && state == 5 && crankback != Crankback::None {
        SOFT_PROCEEDING
    } else {
        next
    }
}

/// Every event that an input stands for; of a release with that crankback.
fn events(input: Input, state: State, crankback: Crankback) -> Vec<Event> {
    let incumbent = state.incumbent().unwrap_or(NOT_HELD);
    let rerouting = state.rerouting().unwrap_or(NOT_HELD);
    let releases = |connection, numbers: &[u8]| -> Vec<Event> {
        let of_cause = |cause| Event::FromDomain(DomainRelease { connection, cause, crankback });
        numbers.iter().map(|&number| of_cause(Some(ReroutingCause(number)))).collect()
    };
    let without_cause =
        |connection| vec![Event::FromDomain(DomainRelease { connection, cause: None, crankback })];
    let setup = |switchover| vec![Event::Setup { switchover, number: 101 }];
    match input {
        RelCld => [None, Some(ReroutingCause(1)), Some(ReroutingCause(4))]
            .map(|cause| Event::FromParty { cause })
            .to_vec(),
        RelClgINRc => without_cause(incumbent),
        RelClgRNRc => without_cause(rerouting),
        RelClgIRc4 => releases(incumbent, &[4]),
        RelClgIRc => releases(incumbent, &[0, 1, 2, 3, 5, 255]),
        RelClgRRc => releases(rerouting, &[0, 1, 2, 3, 5, 255]),
        IncHardSet => setup(SwitchoverCode::IMMEDIATE),
        IncSoftSet => setup(SwitchoverCode::CLEARING),
        OutCon => vec![Event::Ready],
        Timer => vec![Event::TimerExpiry],
        TrigSoft => vec![Event::Trigger],
        Path => vec![Event::PathFound],
        NoPath => vec![Event::NoPath],
        IncCon => [Policy::No, Policy::Yes]
            .map(|policy| Event::Connect { connection: rerouting, policy })
            .to_vec(),
    }
}

/// The next state, nothing where the event is refused as one that should not occur.
fn next_state(call: Call, event: Event) -> Next {
    let after = call.after(Node::Destination, event);
    match after.answer.number() {
        0 => Some(after.call.state.number()),
        106 | 107 => None,
        other => panic!("{call} | {event:?}: {other}"),
    }
}

/// The cells in which the rows go elsewhere than the table says. Crankback tells cells apart where
/// the table reads it, for the rerouting connection in Soft Proceeding.
fn differing<const STATES: usize>(
    soft: Soft,
    table: &[(Input, [Next; STATES])],
) -> BTreeSet<(Input, u8, String)> {
    let mut differing = BTreeSet::new();
    for (input, cells) in table {
        for (&number, &next) in COLUMNS.iter().zip(cells) {
            let state = State::of_number(number, 3, 5).expect("a column is a state");
            let call = Call { key: 7, hard: true, soft, state, last: 10, remote: 100 };
            for crankback in CRANKBACKS {
                let expected = by_note_3(*input, number, crankback, next);
                let met = events(*input, state, crankback);
                if met.iter().any(|&event| next_state(call, event) != expected) {
                    let read = number == 5 && matches!(input, RelClgRNRc | RelClgRRc);
                    let told = if read { format!("{crankback:?}") } else { String::new() };
                    differing.insert((*input, number, told));
                }
            }
        }
    }
    differing
}

/// Decision 75: exactly these.
#[test]
fn hard_and_symmetric_differ_in_three_cells_from_c_3() {
    let expected = [
        (RelClgINRc, 4, String::new()),
        (RelClgRNRc, 5, "NoneFound".to_string()),
        (RelClgRRc, 5, "AlternateFound".to_string()),
    ];
    assert_eq!(differing(Soft::Symmetric, &C3), BTreeSet::from(expected));
}

#[test]
fn hard_and_asymmetric_differ_in_no_cell_from_b_3() {
    assert_eq!(differing(Soft::Asymmetric, &B3), BTreeSet::new());
}

/// B-3 is C-3 without what symmetric soft adds.
#[test]
fn b_3_is_the_part_of_c_3_without_symmetric_soft() {
    for ((input, cells), (same, more)) in B3.iter().zip(&C3) {
        assert_eq!((input, cells.as_slice()), (same, &more[..5]));
    }
}
