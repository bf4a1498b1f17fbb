//! The worn call of the source: setups are accepted on it, a connection number each, until the
//! numbers are spent or one is left.

use super::values::newer_setup;
use crate::call::{Call, Services, Soft, State};
use crate::draw::Draw;
use crate::table::Request;
use crate::vocabulary::{Crankback, DomainRelease, Event, ReroutingCause, SwitchoverCode};

/// What takes the last number, and what then becomes of it.
#[derive(Clone, Copy, Debug, PartialEq, Eq)]
enum Way {
    SoftPath,
    HardPathAlternate,
    HardPathAgain,
    /// With hard off, since no path is looked for.
    Setup,
}

const WAYS: [Way; 4] = [Way::SoftPath, Way::HardPathAlternate, Way::HardPathAgain, Way::Setup];

/// So many lives a seed can begin with.
pub const LIVES: u64 = WAYS.len() as u64;

fn way(life: usize) -> Way {
    WAYS[life % WAYS.len()]
}

pub fn request(life: usize, draw: &mut Draw, call: Call) -> Request {
    match call.last {
        0 => {
            let hard = way(life) != Way::Setup;
            Request::Opening(Some(Services { hard, soft: Soft::Symmetric }))
        }
        65_534 if call.hard => Request::Event(last_but_one(life, call)),
        65_535 => Request::Event(last_event(life, draw, call)),
        _ => Request::Event(newer_setup(call, SwitchoverCode::CLEARING)),
    }
}

/// One number is left, for a path found.
fn last_but_one(life: usize, call: Call) -> Event {
    match (call.state.rerouting(), call.state) {
        (Some(rerouting), _) => released(rerouting, Crankback::None),
        (None, State::ReroutingIdle { incumbent }) if way(life) != Way::SoftPath => {
            released(incumbent, Crankback::None)
        }
        (None, State::ReroutingIdle { .. }) => Event::Trigger,
        (None, _) => Event::PathFound,
    }
}

/// A cause, which is not read there (decision 8), in every other life on this way.
fn cause_on_soft_path(life: usize) -> Option<ReroutingCause> {
    let round = life / WAYS.len();
    (round % 2 == 0).then_some(ReroutingCause::OUTSIDE_ANY_DOMAIN)
}

fn last_event(life: usize, draw: &mut Draw, call: Call) -> Event {
    let crankback = match way(life) {
        Way::SoftPath | Way::HardPathAlternate => Crankback::AlternateFound,
        Way::HardPathAgain | Way::Setup => Crankback::None,
    };
    let setup = newer_setup(call, SwitchoverCode::CLEARING);
    match call.state {
        State::Null => Event::Trigger,
        State::ReroutingIdle { incumbent } => {
            // With hard off this release would end the call.
            let release = released(incumbent, crankback);
            let lost = if call.hard { release } else { Event::Trigger };
            draw.among([Event::Trigger, setup, setup, lost])
        }
        State::HardWaiting => Event::PathFound,
        State::HardUnderway { rerouting } => released(rerouting, crankback),
        State::SoftRerouteTriggered { .. } => {
            draw.among([Event::PathFound, Event::PathFound, Event::NoPath])
        }
        State::SoftRerouteProceeding { rerouting, .. } => {
            let cause = cause_on_soft_path(life);
            Event::FromDomain(DomainRelease { connection: rerouting, cause, crankback })
        }
        State::SoftRerouteInitiated { .. } if draw.one_in(8) => Event::Ready,
        State::SoftRerouteInitiated { .. } => setup,
        State::AwaitingSwitchover { rerouting, .. } if draw.one_in(8) => {
            released(rerouting, crankback)
        }
        State::AwaitingSwitchover { .. } => setup,
    }
}

fn released(connection: u16, crankback: Crankback) -> Event {
    Event::FromDomain(DomainRelease { connection, cause: None, crankback })
}
