//! The trace of an end (01, "The trace"): event records over a table of 64, and a line of numbers
//! for each.

use std::io::{Read, Result, Write};

use crate::call::Outcome;
use crate::event_record::decode;
use crate::number_line::{Count, NumberLine};
use crate::record_input::{for_each, End};
use crate::trace_table::TraceTable;
use crate::vocabulary::Node;

/// "The first line is always those fixed bytes"
const FIRST_LINE: &[u8] = b"line answer state incumbent rerouting number\n";

pub fn print(node: Node, input: impl Read, out: &mut impl Write) -> Result<()> {
    let mut line = NumberLine::EMPTY;
    print_outcomes(node, FIRST_LINE, input, out, |count, outcome, out| {
        put_numbers(&mut line, count, outcome, b'\n');
        out.write_all(line.octets())
    })
}

/// The first line, then a line for each record, printed from the count and its outcome; a bad
/// record, or one cut short, prints `bad` and ends the run.
pub fn print_outcomes<Output: Write>(
    node: Node,
    first_line: &[u8],
    mut input: impl Read,
    out: &mut Output,
    mut print_line: impl FnMut(&Count, &Outcome, &mut Output) -> Result<()>,
) -> Result<()> {
    out.write_all(first_line)?;
    let mut table = TraceTable::empty(node);
    let mut count = Count::ZERO;
    let end = for_each(&mut input, out, |octets, out| match decode(node, octets) {
        None => Ok(false),
        Some(asked) => {
            count.next();
            print_line(&count, &table.meet(&asked), out)?;
            Ok(true)
        }
    })?;
    match end {
        End::Whole => {}
        End::CutShort(_) | End::Refused => out.write_all(b"bad\n")?,
    }
    out.flush()
}

/// "record count from 1, answer, state, incumbent, rerouting, incarnation number", and one octet
/// behind them.
#[inline]
pub fn put_numbers(line: &mut NumberLine, count: &Count, outcome: &Outcome, behind: u8) {
    let (state, incumbent, rerouting) = outcome.call.state.numbers();
    line.begin(count);
    line.put_number(outcome.answer.number(), b' ');
    line.put_number(state, b' ');
    line.put_number(incumbent, b' ');
    line.put_number(rerouting, b' ');
    line.put_number(outcome.call.remote, behind);
}
