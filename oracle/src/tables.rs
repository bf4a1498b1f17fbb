//! Cases over a whole table of an end, in the form of docs/TABLES.md, read, carried out and
//! printed.

use std::io::{BufRead, Read, Result, Write};

use crate::call::{Call, Soft, State};
use crate::cases::{octets, print_each};
use crate::event_record::{decode, flag, EventRecord};
use crate::table;
use crate::vocabulary::Node;
use crate::words::SignalWords;

pub const RECORD_OCTETS: usize = 20;

/// The most records of a case: more than a fit table has, so that 101 is seen.
pub const MOST_RECORDS_OF_A_CASE: u16 = 1_100;

/// Added to the count of records where the table is not to be checked.
const NOT_TO_BE_CHECKED: u16 = 32_768;

/// Whether the table of a case is checked for the causes of 101 before it meets the event.
#[derive(Clone, Copy, Debug, PartialEq, Eq)]
enum FitnessCheck {
    Made,
    /// Nothing is answered 101, whatever the table holds.
    LeftOut,
}

/// What the first two octets of a case say.
struct Count {
    records: u16,
    check: FitnessCheck,
}

/// A table and the event that it meets.
struct Case {
    check: FitnessCheck,
    table: Vec<Call>,
    event: EventRecord,
}

/// Prints the answer, the signals and the table after each case; a `bad` one ends the run.
pub fn print(node: Node, cases: impl BufRead, out: &mut impl Write) -> Result<()> {
    let mut counted: u64 = 0;
    let case_after = |first, input: &mut _| case_after(node, first, input);
    print_each(cases, out, case_after, |case, out| {
        counted += 1;
        print_case(node, counted, case, out)
    })
}

fn print_case(node: Node, number: u64, case: Case, out: &mut impl Write) -> Result<()> {
    let Case { check, mut table, event } = case;
    let meet = match check {
        FitnessCheck::Made => table::meet,
        FitnessCheck::LeftOut => table::meet_unchecked,
    };
    let reply = meet(node, &mut table, event.key, event.request);
    let (answer, signals) = (reply.answer.number(), SignalWords(&reply.signals));
    writeln!(out, "case {number} answer {answer} n {} {signals}", table.len())?;
    for call in &table {
        writeln!(out, "{call}")?;
    }
    Ok(())
}

/// The case whose count begins with that octet, or nothing where it is `bad`.
fn case_after(node: Node, first: u8, input: &mut impl Read) -> Result<Option<Case>> {
    let Some([second]) = octets(input)? else { return Ok(None) };
    let Some(Count { records, check }) = count([first, second]) else { return Ok(None) };
    let mut table = Vec::with_capacity(usize::from(records));
    for _ in 0..records {
        match octets(input)?.and_then(record) {
            Some(call) => table.push(call),
            None => return Ok(None),
        }
    }
    let event = octets(input)?.and_then(|octets| decode(node, &octets));
    Ok(event.map(|event| Case { check, table, event }))
}

/// Nothing where there are too many records: the bound is the same with and without the check.
fn count(octets: [u8; 2]) -> Option<Count> {
    let number = u16::from_be_bytes(octets);
    let count = match number.checked_sub(NOT_TO_BE_CHECKED) {
        Some(records) => Count { records, check: FitnessCheck::LeftOut },
        None => Count { records: number, check: FitnessCheck::Made },
    };
    (count.records <= MOST_RECORDS_OF_A_CASE).then_some(count)
}

/// One record, or nothing where a value is not named. A connection that the state does not hold is
/// not read, nor are the octets 7, 18 and 19.
fn record(octets: [u8; RECORD_OCTETS]) -> Option<Call> {
    let [k0, k1, k2, k3, hard, soft, state, _, i0, i1, r0, r1, l0, l1, n0, n1, n2, n3, _, _] =
        octets;
    let incumbent = u16::from_be_bytes([i0, i1]);
    let rerouting = u16::from_be_bytes([r0, r1]);
    Some(Call {
        key: u32::from_be_bytes([k0, k1, k2, k3]),
        hard: flag(hard)?,
        soft: Soft::of_number(soft)?,
        state: State::of_number(state, incumbent, rerouting)?,
        last: u16::from_be_bytes([l0, l1]),
        remote: u32::from_be_bytes([n0, n1, n2, n3]),
    })
}
