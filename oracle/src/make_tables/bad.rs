//! The ways in which a case is bad: each way that docs/TABLES.md names, and for values each octet
//! that can hold one that is not named.

use super::events::event_of_kind;
use super::{record_count, table, MadeCase};
use crate::draw::Draw;
use crate::made_event::Kind;
use crate::tables::RECORD_OCTETS;
use crate::vocabulary::Node;

const COUNT_OCTETS: usize = 2;

/// An octet holds a value that is not named from `lowest` up.
#[derive(Clone, Copy, Debug)]
struct Unnamed {
    octet: usize,
    lowest: u8,
}

#[derive(Clone, Copy, Debug)]
enum Way {
    CountTooGreat,
    RecordValue(Unnamed),
    EventValue { kind: Kind, unnamed: Unnamed },
    CutInCount,
    CutAfterCount,
    CutInRecords,
    CutBeforeEvent,
    CutInEvent,
}

const fn of_record(octet: usize, lowest: u8) -> Way {
    Way::RecordValue(Unnamed { octet, lowest })
}

const fn of_event(number: u8, octet: usize, lowest: u8) -> Way {
    Way::EventValue { kind: Kind::Numbered(number), unnamed: Unnamed { octet, lowest } }
}

const fn of_release(kind: Kind, octet: usize, lowest: u8) -> Way {
    Way::EventValue { kind, unnamed: Unnamed { octet, lowest } }
}

/// A seed takes the way at the seed's own number, counted round.
const WAYS: [Way; WAY_COUNT] = [
    Way::CountTooGreat,
    // Hard, soft and state of a record.
    of_record(4, 2),
    of_record(5, 3),
    of_record(6, 8),
    // The event's number.
    of_event(0, 0, 10),
    // Opening: named or not, hard, soft.
    of_event(0, 1, 2),
    of_event(0, 2, 2),
    of_event(0, 3, 3),
    // Connect: policy, and the upper octets of the connection, which put it above 65,535.
    of_event(4, 1, 2),
    of_event(4, 8, 1),
    of_event(4, 9, 1),
    // Release from the node's own party: cause present or not, crankback.
    of_release(Kind::FromParty, 1, 2),
    of_release(Kind::FromParty, 3, 3),
    // Release from across the domain: the same, and the upper octets of the connection.
    of_release(Kind::FromDomain, 1, 2),
    of_release(Kind::FromDomain, 3, 3),
    of_release(Kind::FromDomain, 8, 1),
    of_release(Kind::FromDomain, 9, 1),
    Way::CutInCount,
    Way::CutAfterCount,
    Way::CutInRecords,
    Way::CutBeforeEvent,
    Way::CutInEvent,
];

pub const WAY_COUNT: usize = 22;

/// A bad case, in the way that the seed takes. But for that, it is a case like any other.
pub fn case(node: Node, seed: u64, draw: &mut Draw) -> Vec<u8> {
    match WAYS[(seed % WAY_COUNT as u64) as usize] {
        Way::CountTooGreat => with_count_too_great(node, draw),
        Way::RecordValue(unnamed) => with_record_value(node, draw, unnamed),
        Way::EventValue { kind, unnamed } => {
            with_event_value(node, draw, kind.number(node), unnamed)
        }
        Way::CutInCount => cut(node, draw, |_, _| 1),
        Way::CutAfterCount => cut(node, draw, |_, _| COUNT_OCTETS),
        Way::CutInRecords => {
            cut(node, draw, |draw, records| COUNT_OCTETS + 1 + draw.below(records - 1))
        }
        Way::CutBeforeEvent => cut(node, draw, |_, records| COUNT_OCTETS + records),
        Way::CutInEvent => {
            cut(node, draw, |draw, records| COUNT_OCTETS + records + 1 + draw.below(15))
        }
    }
}

/// A case of one record or more, whose event is of the kind given.
fn whole_case(node: Node, draw: &mut Draw, kind: u8) -> MadeCase {
    let count = record_count(draw).max(1);
    let table = table(draw, count);
    MadeCase { event: event_of_kind(node, draw, &table, kind), records: table.octets(draw) }
}

/// All the records follow that the count announces.
fn with_count_too_great(node: Node, draw: &mut Draw) -> Vec<u8> {
    let mut case = whole_case(node, draw, 0);
    let count = draw.among([1_101, 1_101, 2_048, 65_535]);
    case.records.resize(count, [0; RECORD_OCTETS]);
    case.octets()
}

fn with_record_value(node: Node, draw: &mut Draw, unnamed: Unnamed) -> Vec<u8> {
    let mut case = whole_case(node, draw, 0);
    let place = draw.place(case.records.len());
    case.records[place][unnamed.octet] = draw.octet_from(unnamed.lowest);
    case.octets()
}

/// Of an opening the octets 2 and 3 are read only behind a 1, so it names its services here.
fn with_event_value(node: Node, draw: &mut Draw, kind: u8, unnamed: Unnamed) -> Vec<u8> {
    let mut case = whole_case(node, draw, kind);
    if kind == 0 {
        case.event[1] = 1;
        case.event[2] = draw.among([0, 1]);
        case.event[3] = draw.among([0, 1, 2]);
    }
    case.event[unnamed.octet] = draw.octet_from(unnamed.lowest);
    case.octets()
}

/// A case that ends where `kept` says, of the octets that its records take.
fn cut(node: Node, draw: &mut Draw, kept: impl FnOnce(&mut Draw, usize) -> usize) -> Vec<u8> {
    let kind = draw.below(10) as u8;
    let case = whole_case(node, draw, kind);
    let mut octets = case.octets();
    octets.truncate(kept(draw, case.records.len() * RECORD_OCTETS));
    octets
}
