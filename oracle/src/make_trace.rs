//! Event records for a comparison of an end's traces: one run over a table of 64 that the maker
//! itself follows, so that events meet calls in every state and mostly name what they hold.
//!
//! | Module | What it holds |
//! |---|---|
//! | `run` | the run: whose turn it is, and the event that meets the call |
//! | `kinds` | the kinds of event that have a meaning in a state |
//! | `worn` | the call whose connection numbers are spent |
//! | `source_wear`, `destination_wear` | what spends them at each end, and what follows |
//! | `values` | the values of an event, from the call that it meets |
//! | `bad` | the ways in which the last record is bad |

mod bad;
mod destination_wear;
mod kinds;
mod run;
mod source_wear;
mod values;
mod worn;

#[cfg(test)]
mod tests;

use std::io::{Result, Write};

pub use self::bad::record as bad_record;
use self::run::Run;
pub use self::run::FEW_KEYS;
use crate::event_record::EVENT_OCTETS;
use crate::vocabulary::Node;

/// So many records, none of them bad.
pub fn records(node: Node, seed: u64, count: u64) -> impl Iterator<Item = [u8; EVENT_OCTETS]> {
    let mut run = Run::from_seed(node, seed);
    (0..count).map(move |_| run.next_record())
}

/// Writes so many records, the last of them bad if that is asked; the others are the same either
/// way.
pub fn write(
    node: Node,
    seed: u64,
    count: u64,
    last_is_bad: bool,
    out: &mut impl Write,
) -> Result<()> {
    let mut run = Run::from_seed(node, seed);
    for number in 1..=count {
        let octets = run.next_record();
        if last_is_bad && number == count {
            out.write_all(&bad::record(node, seed, octets, &mut run.draw))?;
        } else {
            out.write_all(&octets)?;
        }
    }
    out.flush()
}
