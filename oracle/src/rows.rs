//! The list of an end's rows (rows.txt, destination_rows.txt), and how often a run meets each of
//! them.
//!
//! A list was written from the documents and the standard, and its words decide here: an event goes
//! to the row whose state, event and condition fit it, and what was done must be what the row says.
//! The functions that carry events out have no part in that.
//!
//! | Module | What it holds |
//! |---|---|
//! | `terms` | the terms of a condition, and those that hold as an event meets a call |
//! | `deed` | what was done, in the words of the list |
//! | `list` | the list, read |
//! | `tally` | the events counted by row, and what does not fit |

mod deed;
mod list;
mod tally;
mod terms;

#[cfg(test)]
mod tests;

use std::io::{Read, Result, Write};

use self::list::List;
use self::tally::Tally;
use crate::make_trace;
use crate::vocabulary::Node;
use crate::words::ProgramName;

/// A run to make: its seed, and how many records.
#[derive(Clone, Copy, Debug, PartialEq, Eq)]
pub struct Made {
    pub seed: u64,
    pub count: u64,
}

impl Made {
    /// `SEED:COUNT`
    pub fn of_word(word: &str) -> Option<Self> {
        let (seed, count) = word.split_once(':')?;
        Some(Self { seed: seed.parse().ok()?, count: count.parse().ok()? })
    }
}

/// Where the records to count come from.
pub enum Runs<'a, Input> {
    /// One run, read.
    Read(Input),
    Made(&'a [Made]),
}

/// Prints the count of every row, in the order of the list. Hands back a line for each thing that
/// does not fit; with `all` also for each row that is met though it is unreachable, or not met.
pub fn print(
    node: Node,
    list_text: &str,
    all: bool,
    runs: Runs<impl Read>,
    out: &mut impl Write,
) -> Result<Option<String>> {
    let list = match List::of_text(node, list_text) {
        Ok(list) => list,
        Err(faults) => return Ok(complaint(node, faults)),
    };
    let mut tally = Tally::new(node, &list);
    match runs {
        Runs::Read(mut input) => tally.read_run(&mut input, out)?,
        Runs::Made(made) => {
            for &Made { seed, count } in made {
                tally.made_run(make_trace::records(node, seed, count));
            }
        }
    }
    for (row, count) in tally.counts() {
        writeln!(out, "{count} {}", row.name)?;
    }
    out.flush()?;
    Ok(complaint(node, tally.faults(all)))
}

/// A line each, nothing where there is none.
fn complaint(node: Node, faults: Vec<String>) -> Option<String> {
    let rows = ProgramName(node, "rows");
    let lines: Vec<String> = faults.iter().map(|fault| format!("{rows}: {fault}")).collect();
    Some(lines.join("\n")).filter(|lines| !lines.is_empty())
}
