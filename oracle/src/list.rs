//! Event records of an end back into the lines of `script`, in the form of docs/BENCH.md.

use std::fmt::{Display, Formatter};
use std::io::{Read, Result, Write};

use crate::event_fault::{fault, Fault};
use crate::event_record::{decode, EventRecord, EVENT_OCTETS};
use crate::record_input::{for_each, End};
use crate::table::Request;
use crate::vocabulary::Node;
use crate::words::{EventWords, ProgramName};

const LIST: &str = "list";

/// Prints the line of each record. Where a record is bad the run ends, and the complaint is handed
/// back.
pub fn print(node: Node, mut input: impl Read, out: &mut impl Write) -> Result<Option<String>> {
    let mut number: u64 = 0;
    let mut complaint = None;
    let end = for_each(&mut input, out, |octets, out| {
        number += 1;
        match decode(node, octets) {
            Some(event) => writeln!(out, "{}  # {number}", RecordWords(node, event))?,
            None => {
                complaint = fault(node, octets).map(|fault| complaint_of(node, number, &fault));
                return Ok(false);
            }
        }
        Ok(true)
    })?;
    out.flush()?;
    Ok(match end {
        End::Whole | End::Refused => complaint,
        End::CutShort(count) => Some(format!(
            "{}: record {}: byte {count} is missing, expected {EVENT_OCTETS} bytes",
            ProgramName(node, LIST),
            number + 1
        )),
    })
}

fn complaint_of(node: Node, number: u64, fault: &Fault) -> String {
    let Fault { octet, value, expected } = fault;
    let list = ProgramName(node, LIST);
    format!("{list}: record {number}: byte {octet} is {value}, expected {expected}")
}

/// The line that `script` reads: the words of `words`, with the key behind the first.
pub struct RecordWords(pub Node, pub EventRecord);

impl Display for RecordWords {
    fn fmt(&self, out: &mut Formatter<'_>) -> std::fmt::Result {
        let Self(node, EventRecord { key, request }) = *self;
        match request {
            Request::Opening(None) => write!(out, "open {key}"),
            Request::Opening(Some(services)) => write!(out, "open {key} {services}"),
            Request::Event(event) => {
                let words = EventWords(node, event).to_string();
                match words.split_once(' ') {
                    Some((name, values)) => write!(out, "{name} {key} {values}"),
                    None => write!(out, "{words} {key}"),
                }
            }
        }
    }
}
