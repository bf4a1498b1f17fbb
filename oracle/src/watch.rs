//! The trace with the last connection number given and the signals behind each line, in the form
//! of docs/BENCH.md.

use std::io::{Read, Result, Write};

use crate::number_line::NumberLine;
use crate::trace::{print_outcomes, put_numbers};
use crate::vocabulary::Node;
use crate::words::SignalWords;

const FIRST_LINE: &[u8] = b"line answer state incumbent rerouting number last signals\n";

pub fn print(node: Node, input: impl Read, out: &mut impl Write) -> Result<()> {
    let mut line = NumberLine::EMPTY;
    print_outcomes(node, FIRST_LINE, input, out, |count, outcome, out| {
        put_numbers(&mut line, count, outcome, b' ');
        line.put_number(outcome.call.last, b' ');
        out.write_all(line.octets())?;
        writeln!(out, "{}", SignalWords(&outcome.signals))
    })
}
