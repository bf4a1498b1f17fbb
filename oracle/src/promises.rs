//! What must hold in every cell of both ends, said without the rows: refusals change nothing,
//! signals keep their order, the timer follows the Hard states, every connection is accounted for,
//! and a setup's number is stored where the setup is accepted or rejected with #6.

use crate::call::{Call, Outcome, Soft, State};
use crate::cells;
use crate::sample_tables::NODES;
use crate::vocabulary::{
    Answer, Event, Node, ReroutingCause, SentCause, Signal, SignalKind, SwitchoverCode, SILENT,
};

/// A record, what it meets and what becomes of it. The words of a failing check name the cell.
#[derive(Clone, Copy, Debug)]
struct Cell {
    node: Node,
    before: Call,
    event: Event,
    after: Outcome,
}

fn each_cell(check: impl Fn(Cell)) {
    for node in NODES {
        let events = cells::events(node);
        for before in (0..=7).flat_map(cells::records) {
            for &event in &events {
                check(Cell { node, before, event, after: before.after(node, event) });
            }
        }
    }
}

/// The cells in which a number names one connection at most.
fn each_fit_cell(check: impl Fn(Cell)) {
    each_cell(|cell| match (cell.before.state.incumbent(), cell.before.state.rerouting()) {
        (Some(incumbent), Some(rerouting)) if incumbent == rerouting => {}
        _ => check(cell),
    });
}

fn held(call: Call) -> Vec<u16> {
    call.state.incumbent().into_iter().chain(call.state.rerouting()).collect()
}

fn in_hard_states(call: Call) -> bool {
    match call.state {
        State::HardWaiting => true,
        State::HardUnderway { .. } => true,
        State::Null => false,
        State::ReroutingIdle { .. } => false,
        State::SoftRerouteTriggered { .. } => false,
        State::SoftRerouteProceeding { .. } => false,
        State::SoftRerouteInitiated { .. } => false,
        State::AwaitingSwitchover { .. } => false,
    }
}

/// The place of a kind in the order of 01, "Signals".
fn place(kind: SignalKind) -> u8 {
    match kind {
        SignalKind::TimerStart | SignalKind::TimerStop => 1,
        SignalKind::Switch => 2,
        // One place for the release towards the node's own party (decision 63).
        SignalKind::ReleaseCalling | SignalKind::ReleaseCalled => 3,
        SignalKind::ReleaseIncumbent => 4,
        SignalKind::ReleaseRerouting => 5,
        SignalKind::Setup | SignalKind::Connect | SignalKind::Reject => 6,
        SignalKind::None => 7,
    }
}

fn sent(outcome: &Outcome, kind: SignalKind) -> Vec<Signal> {
    outcome.signals.iter().copied().filter(|signal| signal.kind == kind).collect()
}

fn sends(outcome: &Outcome, kind: SignalKind) -> bool {
    !sent(outcome, kind).is_empty()
}

#[test]
fn cells_are_all_printed() {
    let source = "7 1 2 5 3 5 10 100 | called 3 cause 4 alternate | 0 | 0 0 0 0 0 0 0 0 \
                  | release calling #2, release rerouting 5 #2";
    // 6.3.4.5 case 3: the rerouting connection's own release has no Rerouting cause.
    let destination = "7 1 2 6 3 5 10 100 | calling 3 cause 4 alternate | 0 | 0 0 0 0 0 0 0 0 \
                       | release called #2, release rerouting 5";
    for (node, example) in [(Node::Source, source), (Node::Destination, destination)] {
        let mut printed = Vec::new();
        cells::print(node, &b"01234567o\n"[..], &mut printed).expect("a vector takes every byte");
        assert_eq!(printed.iter().filter(|&&byte| byte == b'\n').count(), 198 * 111 + 21);
        let text = String::from_utf8(printed).expect("cells are ASCII");
        assert!(text.lines().any(|line| line == example));
    }
}

/// Releases from the calling side stand before those from the called side at either end.
#[test]
fn cells_stand_in_the_printed_order() {
    for (node, calling, called) in [(Node::Source, 6, 72), (Node::Destination, 72, 6)] {
        let mut printed = Vec::new();
        cells::print(node, &b"1"[..], &mut printed).expect("a vector takes every byte");
        let text = String::from_utf8(printed).expect("cells are ASCII");
        let event = |line: &str| line.split(" | ").nth(1).unwrap_or("").to_string();
        let events: Vec<String> = text.lines().take(111).map(event).collect();
        let named = |name: &str, place: usize| events[place].split(' ').next() == Some(name);
        assert!((31..31 + calling).all(|place| named("calling", place)), "{node:?}");
        let first_called = 31 + calling;
        assert!((first_called..first_called + called).all(|place| named("called", place)));
        assert_eq!(events[..3], ["trigger", "path", "nopath"]);
        assert_eq!(events[109..], ["ready", "expiry"]);
    }
}

#[test]
fn refusals_change_nothing() {
    each_cell(|cell| {
        let Cell { before, after, .. } = cell;
        if after.answer != Answer::Done {
            assert_eq!((after.call, after.signals), (before, SILENT), "{cell:?}");
        }
    });
}

#[test]
fn signals_keep_their_order_from_the_front() {
    each_cell(|cell| {
        for pair in cell.after.signals.windows(2) {
            let (first, second) = (place(pair[0].kind), place(pair[1].kind));
            assert!(first < second || (first, second) == (7, 7), "{cell:?}");
        }
    });
}

/// Two at the source (decision 18), three at the destination (decision 63).
#[test]
fn signals_are_few() {
    for (node, most) in [(Node::Source, 2), (Node::Destination, 3)] {
        let mut met = 0;
        let events = cells::events(node);
        for before in (0..=7).flat_map(cells::records) {
            for &event in &events {
                let signals = before.after(node, event).signals;
                let sent = signals.iter().filter(|signal| signal.kind != SignalKind::None);
                met = met.max(sent.count());
            }
        }
        assert_eq!(met, most, "{node:?}");
    }
}

#[test]
fn timer_follows_the_hard_states() {
    each_cell(|cell| {
        let Cell { before, event, after, .. } = cell;
        let (was, is) = (in_hard_states(before), in_hard_states(after.call));
        let expired = event == Event::TimerExpiry;
        assert_eq!(sends(&after, SignalKind::TimerStart), !was && is, "{cell:?}");
        assert_eq!(sends(&after, SignalKind::TimerStop), was && !is && !expired, "{cell:?}");
    });
}

/// The party is told exactly where the call ends otherwise than by it; nobody else's side is.
#[test]
fn null_is_an_empty_record_and_clears_the_party() {
    each_cell(|cell| {
        let Cell { node, before, event, after } = cell;
        let ended = before.state != State::Null && after.call.state == State::Null;
        let from_party = matches!(event, Event::FromParty { .. });
        assert_eq!(ended, after.call == Call::EMPTY, "{cell:?}");
        let (own, other) = match node {
            Node::Source => (SignalKind::ReleaseCalling, SignalKind::ReleaseCalled),
            Node::Destination => (SignalKind::ReleaseCalled, SignalKind::ReleaseCalling),
        };
        assert_eq!(sends(&after, own), ended && !from_party, "{cell:?}");
        assert!(!sends(&after, other), "{cell:?}");
    });
}

/// A connection that is held no more was released once: by the event that names it or by a signal.
#[test]
fn connections_that_go_are_released_once() {
    each_fit_cell(|cell| {
        let Cell { before, event, after, .. } = cell;
        let mut gone: Vec<u16> = Vec::new();
        if let (Event::FromDomain(release), Answer::Done) = (event, after.answer) {
            gone.push(release.connection);
        }
        for kind in [SignalKind::ReleaseIncumbent, SignalKind::ReleaseRerouting] {
            gone.extend(sent(&after, kind).iter().map(|signal| signal.connection));
        }
        let kept = held(after.call);
        let mut missing: Vec<u16> = held(before);
        missing.retain(|connection| !kept.contains(connection));
        gone.sort_unstable();
        missing.sort_unstable();
        assert_eq!(gone, missing, "{cell:?}");
    });
}

#[test]
fn releases_name_the_connection_of_their_kind() {
    each_cell(|cell| {
        let Cell { before, after, .. } = cell;
        for signal in sent(&after, SignalKind::ReleaseIncumbent) {
            assert_eq!(Some(signal.connection), before.state.incumbent(), "{cell:?}");
        }
        for signal in sent(&after, SignalKind::ReleaseRerouting) {
            assert_eq!(Some(signal.connection), before.state.rerouting(), "{cell:?}");
        }
    });
}

/// A connection not held before takes the last number plus 1, by a setup sent or received; with no
/// new connection the last number stands.
#[test]
fn new_connections_take_the_next_number() {
    each_fit_cell(|cell| {
        let Cell { before, event, after, .. } = cell;
        let mut new: Vec<u16> = held(after.call);
        new.retain(|connection| !held(before).contains(connection));
        let next = before.last.checked_add(1);
        let received = matches!(event, Event::Setup { .. });
        match new.as_slice() {
            [] => {
                let stands = after.call.last == before.last || after.call == Call::EMPTY;
                assert!(stands, "{cell:?}");
            }
            [number] => {
                assert_eq!((Some(*number), after.call.last), (next, *number), "{cell:?}");
                let setups = sent(&after, SignalKind::Setup);
                assert_eq!(setups.is_empty(), received, "{cell:?}");
                assert!(setups.iter().all(|setup| setup.connection == *number));
            }
            _ => panic!("two new connections: {cell:?}"),
        }
    });
}

/// A switch is sent where, and only where, the rerouting connection becomes the incumbent.
#[test]
fn switches_follow_the_connections() {
    each_fit_cell(|cell| {
        let Cell { before, after, .. } = cell;
        let switched: Vec<u16> =
            sent(&after, SignalKind::Switch).iter().map(|signal| signal.connection).collect();
        let expected: Vec<u16> = match (before.state.rerouting(), after.call.state.incumbent()) {
            (Some(rerouting), Some(incumbent)) if rerouting == incumbent => vec![rerouting],
            _ => vec![],
        };
        assert_eq!(switched, expected, "{cell:?}");
    });
}

/// A connect names the rerouting connection as it was held before.
#[test]
fn connects_name_the_rerouting_connection() {
    each_cell(|cell| {
        for signal in sent(&cell.after, SignalKind::Connect) {
            assert_eq!(Some(signal.connection), cell.before.state.rerouting(), "{cell:?}");
        }
    });
}

/// Only a setup stores a number, its own and a greater one.
#[test]
fn remote_number_only_grows() {
    each_cell(|cell| {
        let Cell { before, event, after, .. } = cell;
        if after.call != Call::EMPTY && after.call.remote != before.remote {
            assert!(after.call.remote > before.remote, "{cell:?}");
            let number = match event {
                Event::Setup { number, .. } => Some(number),
                _ => None,
            };
            assert_eq!(number, Some(after.call.remote), "{cell:?}");
        }
    });
}

/// The cause of the one reject of a setup that is rejected.
fn rejected_with(outcome: &Outcome) -> Option<ReroutingCause> {
    match sent(outcome, SignalKind::Reject).as_slice() {
        [] => None,
        [Signal { rerouting_cause: SentCause::Number(cause), .. }] => Some(*cause),
        other => panic!("not one reject with a number: {other:?}"),
    }
}

/// A setup stores its number where it is accepted, on a new connection, and where it is rejected
/// with #6: then the number alone moves. Rejected with #8 or #5 it leaves the whole record (02, Ask
/// 3; 6.2.7; decision 79), and so it does where it is refused (`refusals_change_nothing`).
#[test]
fn setups_store_their_number_accepted_or_rejected_with_6() {
    each_cell(|cell| {
        let Cell { before, event, after, .. } = cell;
        let Event::Setup { number, .. } = event else { return };
        if after.answer != Answer::Done {
            return;
        }
        match rejected_with(&after) {
            None => {
                assert_eq!(after.call.remote, number, "{cell:?}");
                assert_eq!(after.call.state.rerouting(), before.last.checked_add(1), "{cell:?}");
            }
            Some(ReroutingCause::ALREADY_IN_PROGRESS) => {
                assert_eq!(after.call, Call { remote: number, ..before }, "{cell:?}");
            }
            Some(ReroutingCause::UNSUPPORTED_SWITCHOVER)
            | Some(ReroutingCause::OLD_INCARNATION_NUMBER) => {
                assert_eq!(after.call, before, "{cell:?}");
            }
            Some(other) => panic!("{other:?}: {cell:?}"),
        }
    });
}

/// Whether a setup has a meaning for the call: symmetric soft at the source (01, 106), any service
/// at the destination (decision 58).
fn takes_setups(node: Node, call: Call) -> bool {
    match node {
        Node::Source => call.soft == Soft::Symmetric,
        Node::Destination => call.hard || call.soft != Soft::None,
    }
}

/// Whether the end knows that switchover in that state: the source the clearing one alone (01,
/// "Setup" 1), the destination both, and in its Hard states every one (decision 77).
fn knows_switchover(node: Node, call: Call, switchover: SwitchoverCode) -> bool {
    let clearing = switchover == SwitchoverCode::CLEARING;
    match node {
        Node::Source => clearing,
        Node::Destination => {
            clearing || switchover == SwitchoverCode::IMMEDIATE || in_hard_states(call)
        }
    }
}

/// What is done with a late setup: it changes nothing, and is told so with #8 or #5 and nothing
/// else (decision 77).
fn rejected_late(node: Node, call: Call, switchover: SwitchoverCode) -> Outcome {
    let cause = if knows_switchover(node, call, switchover) {
        ReroutingCause::OLD_INCARNATION_NUMBER
    } else {
        ReroutingCause::UNSUPPORTED_SWITCHOVER
    };
    let signals = [Signal::reject(cause), Signal::NONE, Signal::NONE, Signal::NONE];
    Outcome { answer: Answer::Done, call, signals }
}

/// A late setup is rejected, and changes nothing (decision 77).
#[test]
fn late_setups_change_nothing() {
    each_cell(|cell| {
        let Cell { node, before, event, after } = cell;
        let Event::Setup { switchover, number } = event else { return };
        if number > before.remote || before.state == State::Null || !takes_setups(node, before) {
            return;
        }
        assert_eq!(after, rejected_late(node, before, switchover), "{cell:?}");
    });
}

/// Once its number is stored, the same setup is late in whatever state the call is then (02, Ask 3;
/// decision 79).
#[test]
fn setups_are_late_once_their_number_is_stored() {
    each_cell(|cell| {
        let Cell { node, before, event, after } = cell;
        let Event::Setup { switchover, .. } = event else { return };
        if after.call.remote == before.remote {
            return;
        }
        for state in (1..=7).filter_map(|number| State::of_number(number, 3, 5)) {
            let later = Call { state, ..after.call };
            let again = later.after(node, event);
            assert_eq!(again, rejected_late(node, later, switchover), "{cell:?}");
        }
    });
}

/// Key and services stay as long as the call does.
#[test]
fn key_and_services_stay() {
    each_cell(|cell| {
        let Cell { before, after, .. } = cell;
        let named = |call: Call| (call.key, call.hard, call.soft);
        assert!(after.call == Call::EMPTY || named(after.call) == named(before), "{cell:?}");
    });
}

/// A number that is held twice names the incumbent (decision 26): what becomes of it is what
/// becomes of the incumbent beside another rerouting connection.
#[test]
fn number_held_twice_names_the_incumbent() {
    let other = 9;
    let renamed = |number: u16| if number == other { 4 } else { number };
    each_cell(|cell| {
        let Cell { node, before, event, after } = cell;
        let doubled = (before.state.incumbent(), before.state.rerouting()) == (Some(4), Some(4));
        let named = matches!(event, Event::FromDomain(release) if release.connection == 4);
        if !doubled || !named {
            return;
        }
        let apart = State::of_number(before.state.number(), 4, other).expect("a state");
        let beside = Call { state: apart, ..before }.after(node, event);
        let (number, incumbent, rerouting) = beside.call.state.numbers();
        let state = State::of_number(number, renamed(incumbent), renamed(rerouting));
        let signals = beside
            .signals
            .map(|signal| Signal { connection: renamed(signal.connection), ..signal });
        let expected = (beside.answer, state, signals);
        assert_eq!((after.answer, Some(after.call.state), after.signals), expected, "{cell:?}");
    });
}
