//! The source node (6.2): what each event does in each state.
//!
//! | Module | What it holds |
//! |---|---|
//! | `rerouting_rows` | the rows of trigger, path, connect, setup, ready and expiry |
//! | `release_rows` | the rows of the two releases |

mod release_rows;
mod rerouting_rows;

use crate::call::{Call, Outcome};
use crate::vocabulary::Event;

/// The node's own party is the calling side.
pub fn after(call: Call, event: Event) -> Outcome {
    match event {
        Event::Trigger => rerouting_rows::trigger(call),
        Event::PathFound => rerouting_rows::path_found(call),
        Event::NoPath => rerouting_rows::no_path(call),
        Event::Connect { connection, policy } => rerouting_rows::connect(call, connection, policy),
        Event::Setup { switchover, number } => rerouting_rows::setup(call, switchover, number),
        Event::FromParty { cause } => release_rows::calling_release(call, cause),
        Event::FromDomain(release) => release_rows::called_release(call, release),
        Event::Ready => rerouting_rows::ready(call),
        Event::TimerExpiry => rerouting_rows::timer_expiry(call),
    }
}
