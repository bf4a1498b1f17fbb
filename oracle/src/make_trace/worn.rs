//! The worn call: events take one connection number after the other until the numbers are spent;
//! then it goes where the last number matters. It takes its end's ways in turn, one in each of its
//! lives.

use super::{destination_wear, source_wear};
use crate::call::Call;
use crate::draw::Draw;
use crate::event_record::{encode, EventRecord, EVENT_OCTETS};
use crate::vocabulary::Node;

pub const KEY: u32 = 99;

pub struct WornCall {
    node: Node,
    life: usize,
    /// Whether its numbers are spent in this life.
    spent: bool,
}

impl WornCall {
    /// Neighbouring seeds begin with different ways.
    pub fn from_seed(node: Node, seed: u64) -> Self {
        let lives = match node {
            Node::Source => source_wear::LIVES,
            Node::Destination => destination_wear::LIVES,
        };
        Self { node, life: (seed % lives) as usize, spent: false }
    }

    /// The opening, what takes the next number, or where the numbers are spent mostly an event that
    /// would need one.
    pub fn record(&mut self, draw: &mut Draw, call: Call) -> [u8; EVENT_OCTETS] {
        if call.key == 0 && self.spent {
            self.life += 1;
        }
        self.spent = call.last == u16::MAX;
        let request = match self.node {
            Node::Source => source_wear::request(self.life, draw, call),
            Node::Destination => destination_wear::request(self.life, draw, call),
        };
        encode(self.node, &EventRecord { key: KEY, request })
    }
}
