//! The kinds of event that have a meaning in a state, at each end.

use crate::call::State;
use crate::draw::Draw;
use crate::made_event::{
    CALLED_RELEASE, CALLING_RELEASE, CONNECT, EXPIRY, NO_PATH, OPENING, PATH_FOUND, READY, SETUP,
    TRIGGER,
};
use crate::vocabulary::Node;

/// An event that the state does not refuse with 106, but for its services. What ends a call without
/// more comes less often than what goes on.
pub fn kind_with_meaning(node: Node, draw: &mut Draw, state: State) -> u8 {
    match node {
        Node::Source => kind_at_source(draw, state),
        Node::Destination => kind_at_destination(draw, state),
    }
}

fn kind_at_source(draw: &mut Draw, state: State) -> u8 {
    let ending = if draw.one_in(4) { CALLING_RELEASE } else { TRIGGER };
    match state {
        State::Null => OPENING,
        State::ReroutingIdle { .. } => {
            draw.among([TRIGGER, TRIGGER, SETUP, SETUP, CALLED_RELEASE, CALLED_RELEASE, ending])
        }
        State::HardWaiting => {
            draw.among([PATH_FOUND, PATH_FOUND, PATH_FOUND, NO_PATH, SETUP, ending, EXPIRY])
        }
        State::HardUnderway { .. } => {
            draw.among([CONNECT, CONNECT, CALLED_RELEASE, CALLED_RELEASE, SETUP, ending, EXPIRY])
        }
        State::SoftRerouteTriggered { .. } => {
            draw.among([PATH_FOUND, PATH_FOUND, PATH_FOUND, NO_PATH, SETUP, CALLED_RELEASE, ending])
        }
        State::SoftRerouteProceeding { .. } => {
            draw.among([CONNECT, CONNECT, CALLED_RELEASE, CALLED_RELEASE, SETUP, ending])
        }
        State::SoftRerouteInitiated { .. } => {
            draw.among([READY, READY, SETUP, CALLED_RELEASE, CALLED_RELEASE, ending])
        }
        State::AwaitingSwitchover { .. } => {
            draw.among([SETUP, CALLED_RELEASE, CALLED_RELEASE, CALLED_RELEASE, ending])
        }
    }
}

fn kind_at_destination(draw: &mut Draw, state: State) -> u8 {
    let ending = if draw.one_in(4) { CALLED_RELEASE } else { TRIGGER };
    match state {
        State::Null => OPENING,
        State::ReroutingIdle { .. } => {
            draw.among([TRIGGER, TRIGGER, SETUP, SETUP, CALLING_RELEASE, CALLING_RELEASE, ending])
        }
        State::HardWaiting => draw.among([SETUP, SETUP, SETUP, SETUP, SETUP, ending, EXPIRY]),
        State::HardUnderway { .. } => {
            draw.among([READY, READY, SETUP, CALLING_RELEASE, CALLING_RELEASE, ending, EXPIRY])
        }
        State::SoftRerouteTriggered { .. } => draw.among([
            PATH_FOUND,
            PATH_FOUND,
            PATH_FOUND,
            NO_PATH,
            SETUP,
            CALLING_RELEASE,
            ending,
        ]),
        State::SoftRerouteProceeding { .. } => {
            draw.among([CONNECT, CONNECT, CALLING_RELEASE, CALLING_RELEASE, SETUP, ending])
        }
        State::SoftRerouteInitiated { .. } => {
            draw.among([READY, READY, SETUP, CALLING_RELEASE, CALLING_RELEASE, ending])
        }
        State::AwaitingSwitchover { .. } => {
            draw.among([SETUP, CALLING_RELEASE, CALLING_RELEASE, CALLING_RELEASE, ending])
        }
    }
}
