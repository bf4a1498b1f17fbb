//! Cases for a comparison over whole tables of an end.
//!
//! | Module | What it holds |
//! |---|---|
//! | `records` | tables, fit and damaged |
//! | `events` | the event that a table meets |
//! | `bad` | the ways in which a case is bad |
//!
//! Most tables are small, some have 64 records, and about one in 500 stands at the edge of 1,024.

mod bad;
mod events;
mod records;

#[cfg(test)]
mod tests;

use self::events::event;
use self::records::{MadeTable, DAMAGES};
use crate::draw::Draw;
use crate::event_record::EVENT_OCTETS;
use crate::maker::Maker;
use crate::tables::RECORD_OCTETS;
use crate::vocabulary::Node;

/// A case in octets.
struct MadeCase {
    records: Vec<[u8; RECORD_OCTETS]>,
    event: [u8; EVENT_OCTETS],
}

impl MadeCase {
    /// The form of docs/TABLES.md.
    fn octets(&self) -> Vec<u8> {
        let count = u16::try_from(self.records.len()).unwrap_or(u16::MAX);
        [&count.to_be_bytes(), self.records.concat().as_slice(), &self.event].concat()
    }
}

pub fn maker(node: Node) -> Maker {
    match node {
        Node::Source => Maker {
            case: |draw| case(Node::Source, draw).octets(),
            bad_case: |seed, draw| bad::case(Node::Source, seed, draw),
        },
        Node::Destination => Maker {
            case: |draw| case(Node::Destination, draw).octets(),
            bad_case: |seed, draw| bad::case(Node::Destination, seed, draw),
        },
    }
}

fn case(node: Node, draw: &mut Draw) -> MadeCase {
    let count = record_count(draw);
    let table = table(draw, count);
    MadeCase { event: event(node, draw, &table), records: table.octets(draw) }
}

fn record_count(draw: &mut Draw) -> usize {
    match draw.below(1_000) {
        0..=1 => draw.among([1_023, 1_024, 1_024, 1_025, 1_100]),
        2..=21 => 64,
        22..=41 => 0,
        _ => 1 + draw.below(8),
    }
}

/// A table of so many records: of the small ones a quarter is damaged, of the others half; of
/// these, half twice.
fn table(draw: &mut Draw, count: usize) -> MadeTable {
    let mut table = MadeTable::fit(draw, count);
    let rarity = if count < 64 { 4 } else { 2 };
    if draw.one_in(rarity) {
        table.damage(draw.among(DAMAGES), draw);
        if draw.one_in(2) {
            table.damage(draw.among(DAMAGES), draw);
        }
    }
    table
}
