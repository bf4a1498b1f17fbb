//! The entries over a row of records, as crates/call_table and crates/distinct have them. The
//! checked one: one reading of the records, which copies the keys beside them; the keys along
//! chains of 1,024 slots; then the decision, and one record put back. The other: the keys alone are
//! read, up to the record with the key.

use crate::call::{Call, Outcome, Services, State};
use crate::vocabulary::{Answer, Event, Node, Signals, SILENT};

const MOST_RECORDS: usize = 1_024;
const SLOTS: usize = 1_024;
/// Steps along a chain before all earlier keys are compared instead.
const STEPS: usize = 8;

/// What the table is asked under a key.
#[derive(Clone, Copy, Debug, PartialEq, Eq)]
pub enum Request {
    Opening(Option<Services>),
    Event(Event),
}

/// What the table hands back beside its records.
pub struct Reply {
    pub answer: Answer,
    pub signals: Signals,
}

/// What one reading tells: that every record is fit by itself, where that is looked at, and the
/// places of the record with the key and of the lowest empty one.
struct Seen {
    sound: bool,
    found: Option<usize>,
    free: Option<usize>,
}

/// The entry that is counted: under a name of its own, and never a part of its caller.
#[inline(never)]
#[export_name = "same_algorithm::meet"]
pub fn meet(node: Node, table: &mut [Call], key: u32, request: Request) -> Reply {
    let mut keys = [0; MOST_RECORDS];
    let seen = survey(table, key, &mut keys);
    if !(table.len() <= MOST_RECORDS && distinct(&keys[..table.len()]) && seen.sound) {
        return refused(Answer::TableUnfit);
    }
    decide(node, table, &seen, key, request)
}

/// The entry without the check of the table.
pub fn meet_unchecked(node: Node, table: &mut [Call], key: u32, request: Request) -> Reply {
    let seen = look(table, key);
    decide(node, table, &seen, key, request)
}

fn decide(node: Node, table: &mut [Call], seen: &Seen, key: u32, request: Request) -> Reply {
    if key == 0 {
        return refused(Answer::KeyZero);
    }
    match request {
        Request::Opening(named) => open(table, seen, key, named),
        Request::Event(event) => event_on_record(node, table, seen, event),
    }
}

fn open(table: &mut [Call], seen: &Seen, key: u32, named: Option<Services>) -> Reply {
    match (seen.found, seen.free) {
        (Some(_), _) => refused(Answer::KeyOnRecord),
        (None, None) => refused(Answer::NoEmptyRecord),
        (None, Some(place)) => put(table, place, Call::open(key, named)),
    }
}

fn event_on_record(node: Node, table: &mut [Call], seen: &Seen, event: Event) -> Reply {
    match seen.found {
        None => refused(Answer::KeyNotOnRecord),
        Some(place) => put(table, place, table[place].after(node, event)),
    }
}

fn put(table: &mut [Call], place: usize, outcome: Outcome) -> Reply {
    table[place] = outcome.call;
    Reply { answer: outcome.answer, signals: outcome.signals }
}

fn refused(answer: Answer) -> Reply {
    Reply { answer, signals: SILENT }
}

/// The keys alone, up to the one that is sought; for key 0 none.
fn look(table: &[Call], key: u32) -> Seen {
    let mut seen = Seen { sound: true, found: None, free: None };
    if key == 0 {
        return seen;
    }
    for (place, call) in table.iter().enumerate() {
        if call.key == key {
            seen.found = Some(place);
            return seen;
        }
        if seen.free.is_none() && call.key == 0 {
            seen.free = Some(place);
        }
    }
    seen
}

/// One reading: each record once, its key into the array.
fn survey(table: &[Call], key: u32, keys: &mut [u32; MOST_RECORDS]) -> Seen {
    let mut seen = Seen { sound: true, found: None, free: None };
    for (place, call) in table.iter().enumerate() {
        if let Some(kept) = keys.get_mut(place) {
            *kept = call.key;
        }
        seen.sound = seen.sound && is_fit(call);
        if seen.found.is_none() && call.key == key {
            seen.found = Some(place);
        }
        if seen.free.is_none() && call.key == 0 {
            seen.free = Some(place);
        }
    }
    seen
}

fn is_fit(call: &Call) -> bool {
    if call.key == 0 {
        return *call == Call::EMPTY;
    }
    let within = |number: u16| number != 0 && number <= call.last;
    call.last != 0
        && match call.state {
            State::Null => false,
            State::HardWaiting => true,
            State::ReroutingIdle { incumbent } => within(incumbent),
            State::SoftRerouteTriggered { incumbent } => within(incumbent),
            State::HardUnderway { rerouting } => within(rerouting),
            State::SoftRerouteProceeding { incumbent, rerouting }
            | State::SoftRerouteInitiated { incumbent, rerouting }
            | State::AwaitingSwitchover { incumbent, rerouting } => {
                incumbent != rerouting && within(incumbent) && within(rerouting)
            }
        }
}

/// No key but 0 stands twice. A place is kept as itself plus 1, and 0 ends a chain.
fn distinct(keys: &[u32]) -> bool {
    let mut heads = [0_u16; SLOTS];
    let mut next = [0_u16; MOST_RECORDS];
    for (place, &key) in keys.iter().enumerate() {
        let head = &mut heads[slot(key)];
        let first = *head;
        if key != 0 {
            if !is_clear(keys, &next, first, key) && is_among(&keys[..place], key) {
                return false;
            }
            *head = place as u16 + 1;
        }
        next[place] = first;
    }
    true
}

/// The upper bits of the key's product with a number near 2^32 divided by the golden ratio.
fn slot(key: u32) -> usize {
    (u64::from(key) * 2_654_435_761 / 4_194_304 % 1_024) as usize
}

/// Whether the chain ends within its steps, and the key is not on it.
fn is_clear(keys: &[u32], next: &[u16; MOST_RECORDS], first: u16, key: u32) -> bool {
    let mut at = usize::from(first);
    for _ in 0..STEPS {
        if at == 0 {
            return true;
        }
        if keys[at - 1] == key {
            return false;
        }
        at = usize::from(next[at - 1]);
    }
    false
}

/// Every key is looked at, so that the loop goes several keys at a time.
fn is_among(keys: &[u32], key: u32) -> bool {
    keys.iter().fold(false, |found, &other| found | (other == key))
}
