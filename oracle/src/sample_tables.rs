//! What tests of both ends ask of tables: the ends, calls that are fit, and requests that need no
//! connection.

use crate::call::{Call, Soft, State};
use crate::table::Request;
use crate::vocabulary::{Event, Node};

pub const NODES: [Node; 2] = [Node::Source, Node::Destination];

pub const OPENING: Request = Request::Opening(None);
pub const TRIGGER: Request = Request::Event(Event::Trigger);
pub const PATH_FOUND: Request = Request::Event(Event::PathFound);

pub fn call(key: u32, state: State, last: u16) -> Call {
    Call { key, hard: true, soft: Soft::Symmetric, state, last, remote: 0 }
}

pub fn idle(key: u32) -> Call {
    call(key, State::ReroutingIdle { incumbent: 1 }, 1)
}

/// Calls with the keys from 1 up, all of them Idle.
pub fn idle_calls(count: u32) -> Vec<Call> {
    (1..=count).map(idle).collect()
}
