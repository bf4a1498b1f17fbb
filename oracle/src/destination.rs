//! The destination node (02, Ask 2): what each event does in each state.
//!
//! Document 01 prints no row for this end. The text of 6.3 decides every row, and 01 gives the
//! frame: record, numbering, refusals, signals, the timer's sentence, and that a connection whose
//! release was received is not released again (decision 56).
//!
//! | Module | What it holds |
//! |---|---|
//! | `rerouting_rows` | the rows of trigger, path, connect, ready and expiry (6.3.5.8 to 6.3.7) |
//! | `setup_rows` | the rows of setups from the far side (6.3.5) |
//! | `release_rows` | the rows of the two releases (6.3.4) |

mod release_rows;
mod rerouting_rows;
mod setup_rows;

use crate::call::{Call, Outcome};
use crate::vocabulary::Event;

/// The node's own party is the called side.
pub fn after(call: Call, event: Event) -> Outcome {
    match event {
        Event::Trigger => rerouting_rows::trigger(call),
        Event::PathFound => rerouting_rows::path_found(call),
        Event::NoPath => rerouting_rows::no_path(call),
        Event::Connect { connection, policy } => rerouting_rows::connect(call, connection, policy),
        Event::Setup { switchover, number } => setup_rows::setup(call, switchover, number),
        Event::FromParty { cause } => release_rows::called_release(call, cause),
        Event::FromDomain(release) => release_rows::calling_release(call, release),
        Event::Ready => rerouting_rows::ready(call),
        Event::TimerExpiry => rerouting_rows::timer_expiry(call),
    }
}
