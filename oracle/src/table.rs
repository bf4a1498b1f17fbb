//! The table of an end: a row of call records, and what an opening or an event does to it.
//!
//! The checks run in the order of 01, "Numbers of refusal": for an opening 101, 102, 103 and 104,
//! for an event 101, 102, 105 and then those of the call on record, 106 to 108. After a refusal
//! nothing has changed and no signal is sent. Everything is searched in the plainest way, place by
//! place.
//!
//! The check for 101 alone may be left out (docs/TABLES.md, "Not to be checked"): the others are
//! then made as ever, and what else an unfit record holds is taken as it stands.

use crate::call::{Call, Services, State};
use crate::vocabulary::{Answer, Event, Node, Signals, SILENT};

/// The most records of a fit table (01, "The table and its records").
pub const MOST_RECORDS: usize = 1_024;

/// What the table is asked under a key: one of the ten events of 01.
#[derive(Clone, Copy, Debug, PartialEq, Eq)]
pub enum Request {
    /// With the services named, or none named.
    Opening(Option<Services>),
    Event(Event),
}

/// What the table hands back beside its records.
#[derive(Clone, Copy, Debug, PartialEq, Eq)]
pub struct Reply {
    pub answer: Answer,
    pub signals: Signals,
}

impl Reply {
    /// All four places are "none" (01, "Numbers of refusal").
    fn refused(answer: Answer) -> Self {
        Self { answer, signals: SILENT }
    }
}

/// Carries out what is asked under a key at that end. An unfit table is 101, whatever is asked.
pub fn meet(node: Node, table: &mut [Call], key: u32, request: Request) -> Reply {
    if unfit(table) {
        return Reply::refused(Answer::TableUnfit);
    }
    meet_unchecked(node, table, key, request)
}

/// The same where the table is not checked, so that nothing is 101, whatever the table holds.
/// Openings are the same at both ends (decision 61).
pub fn meet_unchecked(node: Node, table: &mut [Call], key: u32, request: Request) -> Reply {
    match request {
        Request::Opening(named) => open(table, key, named),
        Request::Event(event) => event_on_record(node, table, key, event),
    }
}

/// An opening: 102, 103, 104 (decision 14), or the lowest empty record is taken. Key 0 marks it;
/// what else an unfit one holds is gone with the opening.
fn open(table: &mut [Call], key: u32, named: Option<Services>) -> Reply {
    if key == 0 {
        return Reply::refused(Answer::KeyZero);
    }
    if table.iter().any(|call| call.key == key) {
        return Reply::refused(Answer::KeyOnRecord);
    }
    match table.iter_mut().find(|call| call.key == 0) {
        None => Reply::refused(Answer::NoEmptyRecord),
        Some(lowest) => {
            let opened = Call::open(key, named);
            *lowest = opened.call;
            Reply { answer: opened.answer, signals: opened.signals }
        }
    }
}

/// An event: 102, 105, or what the call on record makes of it, the lowest where an unfit table has
/// more with that key. A call that reaches Null comes back as an empty record, and one that refuses
/// as it was.
fn event_on_record(node: Node, table: &mut [Call], key: u32, event: Event) -> Reply {
    if key == 0 {
        return Reply::refused(Answer::KeyZero);
    }
    match table.iter_mut().find(|call| call.key == key) {
        None => Reply::refused(Answer::KeyNotOnRecord),
        Some(call) => {
            let after = call.after(node, event);
            *call = after.call;
            Reply { answer: after.answer, signals: after.signals }
        }
    }
}

/// The causes of 101 as 01 prints them, one by one and no others (decision 15).
pub const CAUSES_OF_UNFITNESS: [fn(&[Call]) -> bool; 6] = [
    over_most_records,
    key_doubled,
    empty_record_not_all_empty,
    call_in_null_or_without_last_number,
    held_number_zero_or_above_last,
    held_numbers_equal,
];

pub fn unfit(table: &[Call]) -> bool {
    CAUSES_OF_UNFITNESS.iter().any(|cause| cause(table))
}

/// "over 1,024 records"
fn over_most_records(table: &[Call]) -> bool {
    table.len() > MOST_RECORDS
}

/// "two non-empty records with one key"
fn key_doubled(table: &[Call]) -> bool {
    table.iter().enumerate().any(|(place, call)| {
        call.key != 0 && table.iter().skip(place + 1).any(|later| later.key == call.key)
    })
}

/// "an empty record not all empty": key 0 marks it, and every other value must be an empty
/// record's.
fn empty_record_not_all_empty(table: &[Call]) -> bool {
    table.iter().any(|call| call.key == 0 && *call != Call::EMPTY)
}

/// "a non-empty record in Null or with last number 0"
fn call_in_null_or_without_last_number(table: &[Call]) -> bool {
    table.iter().any(|call| call.key != 0 && (call.state == State::Null || call.last == 0))
}

/// "a held number 0 or above the last"
fn held_number_zero_or_above_last(table: &[Call]) -> bool {
    table.iter().any(|call| {
        let mut held = call.state.incumbent().into_iter().chain(call.state.rerouting());
        held.any(|number| number == 0 || number > call.last)
    })
}

/// "two equal held numbers": in one record, since every call counts from 1.
fn held_numbers_equal(table: &[Call]) -> bool {
    table.iter().any(|call| match (call.state.incumbent(), call.state.rerouting()) {
        (Some(incumbent), Some(rerouting)) => incumbent == rerouting,
        (Some(_), None) => false,
        (None, Some(_)) => false,
        (None, None) => false,
    })
}
