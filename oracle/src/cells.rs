//! The cells of an end: for every letter read, the records of a state each with every event, or the
//! openings.
//!
//! The order of records and events is fixed, so that two programs can be compared byte by byte.

use std::io::{BufRead, Result, Write};

use crate::call::{Call, Services, Soft, State};
use crate::vocabulary::{
    Crankback, DomainRelease, Event, Node, Policy, ReroutingCause, Side, SwitchoverCode,
};
use crate::words::{EventWords, SignalWords};

const SOFT_SERVICES: [Soft; 3] = [Soft::None, Soft::Asymmetric, Soft::Symmetric];
const LAST_NUMBERS: [u16; 3] = [10, 65_534, 65_535];
const NAMED_CONNECTIONS: [u16; 4] = [0, 3, 4, 5];
const POLICIES: [Policy; 2] = [Policy::No, Policy::Yes];
const INCARNATION_NUMBERS: [u32; 5] = [0, 99, 100, 101, u32::MAX];
const OPENING_KEYS: [u32; 3] = [0, 7, u32::MAX];
const SWITCHOVER_CODES: [SwitchoverCode; 4] =
    [SwitchoverCode::CLEARING, SwitchoverCode::IMMEDIATE, SwitchoverCode(2), SwitchoverCode(255)];
const CAUSES: [Option<ReroutingCause>; 6] = [
    None,
    Some(ReroutingCause(0)),
    Some(ReroutingCause(1)),
    Some(ReroutingCause(2)),
    Some(ReroutingCause(4)),
    Some(ReroutingCause(255)),
];
const CRANKBACKS: [Crankback; 3] =
    [Crankback::None, Crankback::AlternateFound, Crankback::NoneFound];

/// Prints what each letter names; a letter that names nothing is skipped.
pub fn print(node: Node, letters: impl BufRead, out: &mut impl Write) -> Result<()> {
    for letter in letters.bytes() {
        match letter? {
            digit @ b'0'..=b'7' => print_state(node, digit - b'0', out)?,
            b'o' => print_openings(out)?,
            _ => {}
        }
    }
    out.flush()
}

fn print_state(node: Node, number: u8, out: &mut impl Write) -> Result<()> {
    let events = events(node);
    for call in records(number) {
        for &event in &events {
            let after = call.after(node, event);
            let answer = after.answer.number();
            let (event, signals) = (EventWords(node, event), SignalWords(&after.signals));
            writeln!(out, "{call} | {event} | {answer} | {} | {signals}", after.call)?;
        }
    }
    Ok(())
}

fn print_openings(out: &mut impl Write) -> Result<()> {
    for key in OPENING_KEYS {
        print_opening(key, None, out)?;
        for services in all_services() {
            print_opening(key, Some(services), out)?;
        }
    }
    Ok(())
}

fn print_opening(key: u32, named: Option<Services>, out: &mut impl Write) -> Result<()> {
    let after = Call::open(key, named);
    write!(out, "open {key}")?;
    if let Some(services) = named {
        write!(out, " {services}")?;
    }
    let signals = SignalWords(&after.signals);
    writeln!(out, " | {} | {} | {signals}", after.answer.number(), after.call)
}

/// Hard off, then on; in each every soft service.
fn all_services() -> Vec<Services> {
    let mut all = Vec::new();
    for hard in [false, true] {
        for soft in SOFT_SERVICES {
            all.push(Services { hard, soft });
        }
    }
    all
}

/// The records of the state with that number, none where no state has it.
pub fn records(number: u8) -> Vec<Call> {
    let mut records = Vec::new();
    for Services { hard, soft } in all_services() {
        for last in LAST_NUMBERS {
            for state in held_states(number) {
                records.push(Call { key: 7, hard, soft, state, last, remote: 100 });
            }
        }
    }
    records
}

/// The state with that number on 3 and 5, and where it holds both, on 4 twice.
fn held_states(number: u8) -> Vec<State> {
    let apart = State::of_number(number, 3, 5);
    let doubled = State::of_number(number, 4, 4)
        .filter(|state| state.incumbent().is_some() && state.rerouting().is_some());
    apart.into_iter().chain(doubled).collect()
}

/// Every event that a record meets, in the printed order: the releases from the calling side stand
/// before those from the called side at either end.
pub fn events(node: Node) -> Vec<Event> {
    let mut events = vec![Event::Trigger, Event::PathFound, Event::NoPath];
    events.extend(connects());
    events.extend(setups());
    events.extend(releases(node, Side::Calling));
    events.extend(releases(node, Side::Called));
    events.extend([Event::Ready, Event::TimerExpiry]);
    events
}

fn connects() -> Vec<Event> {
    let mut connects = Vec::new();
    for connection in NAMED_CONNECTIONS {
        for policy in POLICIES {
            connects.push(Event::Connect { connection, policy });
        }
    }
    connects
}

fn setups() -> Vec<Event> {
    let mut setups = Vec::new();
    for switchover in SWITCHOVER_CODES {
        for number in INCARNATION_NUMBERS {
            setups.push(Event::Setup { switchover, number });
        }
    }
    setups
}

fn releases(node: Node, side: Side) -> Vec<Event> {
    if side == node.party() {
        return CAUSES.map(|cause| Event::FromParty { cause }).to_vec();
    }
    let mut releases = Vec::new();
    for connection in NAMED_CONNECTIONS {
        for cause in CAUSES {
            for crankback in CRANKBACKS {
                let release = DomainRelease { connection, cause, crankback };
                releases.push(Event::FromDomain(release));
            }
        }
    }
    releases
}
