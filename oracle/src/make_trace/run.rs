//! The run: whose turn it is, and the event that meets the call.
//!
//! Three kinds of call take turns. Some few keys open, reroute in every way, end and are opened
//! again. A crowd of others comes until the table refuses one, and leaves. One call is worn until
//! its connection numbers are spent.

use super::kinds::kind_with_meaning;
use super::values::{opening, OfRuns};
use super::worn::{self, WornCall};
use crate::call::Call;
use crate::draw::Draw;
use crate::event_record::{decode, encode, EventRecord, EVENT_OCTETS};
use crate::made_event::{octets, OPENING, TRIGGER};
use crate::table::Request;
use crate::trace_table::{TraceTable, RECORD_COUNT};
use crate::vocabulary::{Event, Node};

/// Some of them alike in their low octets.
pub const FEW_KEYS: [u32; 7] = [1, 2, 3, 7, 257, 16_777_217, u32::MAX];
const FIRST_OF_CROWD: u32 = 1_000;

pub struct Run {
    node: Node,
    pub draw: Draw,
    table: TraceTable,
    crowd: Crowd,
    worn: WornCall,
}

/// The crowd counts on while it comes, and as far while it leaves.
struct Crowd {
    next: u32,
    leaving: bool,
}

impl Run {
    pub fn from_seed(node: Node, seed: u64) -> Self {
        let crowd = Crowd { next: 0, leaving: false };
        let worn = WornCall::from_seed(node, seed);
        let (draw, table) = (Draw::from_seed(seed), TraceTable::empty(node));
        Self { node, draw, table, crowd, worn }
    }

    /// The next record; the run follows it.
    pub fn next_record(&mut self) -> [u8; EVENT_OCTETS] {
        let octets = match self.draw.below(16) {
            0..=1 => self.of_crowd(),
            2..=8 => self.of_worn_call(),
            _ => self.of_few_keys(),
        };
        if let Some(asked) = decode(self.node, &octets) {
            self.table.meet(&asked);
        }
        octets
    }

    /// Openings until some more came than there are records, then as many releases by their
    /// parties.
    fn of_crowd(&mut self) -> [u8; EVENT_OCTETS] {
        let key = FIRST_OF_CROWD + self.crowd.next;
        let leaving = self.crowd.leaving;
        self.crowd.next += 1;
        if self.crowd.next as usize > RECORD_COUNT + 4 {
            self.crowd = Crowd { next: 0, leaving: !leaving };
        }
        let request = if leaving {
            Request::Event(Event::FromParty { cause: None })
        } else {
            Request::Opening(opening(self.node, &mut self.draw))
        };
        encode(self.node, &EventRecord { key, request })
    }

    /// Once its numbers are spent, it also meets events as the few do, but for most of those that
    /// would end it: it took long to come so far.
    fn of_worn_call(&mut self) -> [u8; EVENT_OCTETS] {
        let call = self.table.call(worn::KEY);
        let rarity = match self.node {
            Node::Source => 8,
            Node::Destination => 64,
        };
        if call.last == u16::MAX && self.draw.one_in(rarity) {
            let kind = kind(self.node, &mut self.draw, call);
            let octets = octets::<OfRuns>(self.node, &mut self.draw, kind, worn::KEY, call);
            if !ends(self.node, call, &octets) || self.draw.one_in(8) {
                return octets;
            }
        }
        self.worn.record(&mut self.draw, call)
    }

    /// Seldom key 0, or a key that is not on record and is not opened either.
    fn of_few_keys(&mut self) -> [u8; EVENT_OCTETS] {
        let key = self.draw.among(FEW_KEYS);
        let call = self.table.call(key);
        let kind = kind(self.node, &mut self.draw, call);
        let (kind, key) = match self.draw.below(64) {
            0 => (kind, 0),
            1 => (kind.max(TRIGGER), self.draw.word()),
            _ => (kind, key),
        };
        octets::<OfRuns>(self.node, &mut self.draw, kind, key, call)
    }
}

fn ends(node: Node, call: Call, octets: &[u8; EVENT_OCTETS]) -> bool {
    match decode(node, octets).map(|asked| asked.request) {
        Some(Request::Event(event)) => call.after(node, event).call == Call::EMPTY,
        Some(Request::Opening(_)) => false,
        None => false,
    }
}

/// An event for a call: of its state mostly one with a meaning, and mostly an opening where there
/// is no such call.
fn kind(node: Node, draw: &mut Draw, call: Call) -> u8 {
    let any = draw.below(10) as u8;
    let usual = if call.key == 0 { OPENING } else { kind_with_meaning(node, draw, call.state) };
    if draw.one_in(6) {
        any
    } else {
        usual
    }
}
