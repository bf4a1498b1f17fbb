//! Readable lines into event records of an end, in the form of docs/BENCH.md.
//!
//! | Module | What it holds |
//! |---|---|
//! | `line` | the words of a line |
//! | `event` | the event that they name |

mod event;
mod line;

#[cfg(test)]
mod tests;

use std::io::{Read, Result, Write};

use self::event::event;
use self::line::{Line, LENGTH};
use crate::event_record::encode;
use crate::record_input::{read_some, BUFFER_OCTETS};
use crate::vocabulary::Node;
use crate::words::ProgramName;

/// What follows the records before a line that names no event: too short for a record, and no
/// event's number, so that a trace of it ends in `bad`.
const NO_EVENT: [u8; 1] = [255];

/// Writes the record of each line. Where a line names no event the run ends, and the complaint is
/// handed back. What came is written before more is waited for.
pub fn print(node: Node, mut input: impl Read, out: &mut impl Write) -> Result<Option<String>> {
    let mut buffer = vec![0; BUFFER_OCTETS];
    let mut line = Line::EMPTY;
    let mut number: u64 = 1;
    loop {
        out.flush()?;
        let count = read_some(&mut input, &mut buffer)?;
        for &octet in &buffer[..count] {
            // The length is judged before the words are, and nothing more of the line is read.
            let expected = match octet {
                b'\n' => write_line(node, &line, out)?,
                other if line.put(other) => continue,
                _ => Some(LENGTH),
            };
            if let Some(expected) = expected {
                return complaint(node, number, expected, out);
            }
            line = Line::EMPTY;
            number += 1;
        }
        if count == 0 {
            break;
        }
    }
    // The last line may lack its end.
    match write_line(node, &line, out)? {
        Some(expected) => complaint(node, number, expected, out),
        None => out.flush().map(|()| None),
    }
}

fn complaint(
    node: Node,
    number: u64,
    expected: &str,
    out: &mut impl Write,
) -> Result<Option<String>> {
    out.write_all(&NO_EVENT)?;
    out.flush()?;
    let script = ProgramName(node, "script");
    Ok(Some(format!("{script}: line {number}: expected {expected}")))
}

/// Writes the record of a line, nothing for a line without words; hands back what was expected
/// where the line names no event.
fn write_line(node: Node, line: &Line, out: &mut impl Write) -> Result<Option<&'static str>> {
    if line.words().is_empty() {
        return Ok(None);
    }
    match event(node, line.words()) {
        Ok(event) => {
            out.write_all(&encode(node, &event))?;
            Ok(None)
        }
        Err(expected) => Ok(Some(expected)),
    }
}
