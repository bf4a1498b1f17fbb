//! The worn call of the destination. In some lives this end itself looks for paths and retries; in
//! the others setups come from the far side, soft ones on a call with soft none, hard ones on a
//! call with hard off (decision 58).

use super::values::newer_setup;
use crate::call::{Call, Services, Soft, State};
use crate::draw::Draw;
use crate::table::Request;
use crate::vocabulary::{Crankback, DomainRelease, Event, ReroutingCause, SwitchoverCode};

/// What takes the numbers.
#[derive(Clone, Copy, Debug, PartialEq, Eq)]
enum Way {
    /// Alternates found for a connection that this end set up, and the last by a path found. The
    /// retry that then finds no number has that cause, which is not read (decision 69).
    Alternates {
        cause: Option<ReroutingCause>,
    },
    SoftSetups,
    HardSetups,
}

const WAYS: [Way; 4] = [
    Way::Alternates { cause: Some(ReroutingCause::OUTSIDE_ANY_DOMAIN) },
    Way::SoftSetups,
    Way::Alternates { cause: None },
    Way::HardSetups,
];

/// So many lives a seed can begin with.
pub const LIVES: u64 = WAYS.len() as u64;

pub fn request(life: usize, draw: &mut Draw, call: Call) -> Request {
    let way = WAYS[life % WAYS.len()];
    match call.last {
        0 => Request::Opening(Some(services(way))),
        65_535 => Request::Event(last_event(way, draw, call)),
        _ => Request::Event(next_number(way, call)),
    }
}

fn services(way: Way) -> Services {
    match way {
        Way::Alternates { .. } => Services { hard: true, soft: Soft::Symmetric },
        Way::SoftSetups => Services { hard: true, soft: Soft::None },
        Way::HardSetups => Services { hard: false, soft: Soft::Asymmetric },
    }
}

fn next_number(way: Way, call: Call) -> Event {
    match way {
        Way::Alternates { .. } => next_alternate(call),
        Way::SoftSetups => newer_setup(call, SwitchoverCode::CLEARING),
        Way::HardSetups => newer_setup(call, SwitchoverCode::IMMEDIATE),
    }
}

fn next_alternate(call: Call) -> Event {
    match (call.state, call.last) {
        (State::SoftRerouteProceeding { rerouting, .. }, 65_534) => {
            released(rerouting, None, Crankback::None)
        }
        (State::SoftRerouteProceeding { rerouting, .. }, _) => {
            released(rerouting, None, Crankback::AlternateFound)
        }
        (State::SoftRerouteTriggered { .. }, _) => Event::PathFound,
        (_, _) => Event::Trigger,
    }
}

/// Mostly a setup of any kind; now and then what leads on, in the end to Hard Indicated and Null.
fn last_event(way: Way, draw: &mut Draw, call: Call) -> Event {
    let codes = [SwitchoverCode::IMMEDIATE, SwitchoverCode::CLEARING, SwitchoverCode(2)];
    let setup = newer_setup(call, draw.among(codes));
    match (draw.below(24), call.state) {
        (0, _) => leading_on(way, call),
        (1..=2, State::SoftRerouteProceeding { .. }) => leading_on(way, call),
        (1..=2, State::HardUnderway { .. }) => leading_on(way, call),
        (1..=6, State::ReroutingIdle { .. }) => Event::Trigger,
        (1..=6, State::SoftRerouteTriggered { .. }) => Event::PathFound,
        (_, _) => setup,
    }
}

fn leading_on(way: Way, call: Call) -> Event {
    match call.state {
        State::Null => Event::Trigger,
        State::ReroutingIdle { incumbent } => released(incumbent, None, Crankback::None),
        State::HardWaiting => Event::TimerExpiry,
        State::HardUnderway { rerouting } => released(rerouting, None, Crankback::AlternateFound),
        State::SoftRerouteTriggered { .. } => Event::NoPath,
        State::SoftRerouteProceeding { rerouting, .. } => match way {
            Way::Alternates { cause } => released(rerouting, cause, Crankback::AlternateFound),
            Way::SoftSetups | Way::HardSetups => released(rerouting, None, Crankback::None),
        },
        State::SoftRerouteInitiated { .. } => Event::Ready,
        State::AwaitingSwitchover { rerouting, .. } => released(rerouting, None, Crankback::None),
    }
}

fn released(connection: u16, cause: Option<ReroutingCause>, crankback: Crankback) -> Event {
    Event::FromDomain(DomainRelease { connection, cause, crankback })
}
