//! The table of an end's trace: 64 records, empty at the start, with their keys beside them.
//!
//! It answers as `table::meet` does over the same records, but for 101: openings and events alone
//! fill it, so that it is fit at every event, and no check of that is made.

use crate::call::{Call, Outcome, Services};
use crate::event_record::EventRecord;
use crate::table::Request;
use crate::vocabulary::{Answer, Event, Node};

pub const RECORD_COUNT: usize = 64;

/// Keys that are compared at once: the search leaves early between such blocks only.
const BLOCK: usize = 16;

pub struct TraceTable {
    node: Node,
    /// The key of each record, so that a search reads nothing else.
    keys: [u32; RECORD_COUNT],
    calls: [Call; RECORD_COUNT],
}

impl TraceTable {
    pub fn empty(node: Node) -> Self {
        Self { node, keys: [0; RECORD_COUNT], calls: [Call::EMPTY; RECORD_COUNT] }
    }

    /// The answer, the signals, and the call with that key after the event, or an empty record
    /// where there is none (decision 25).
    pub fn meet(&mut self, asked: &EventRecord) -> Outcome {
        if asked.key == 0 {
            return Call::EMPTY.refused(Answer::KeyZero);
        }
        match asked.request {
            Request::Opening(named) => self.open(asked.key, named),
            Request::Event(event) => self.event_on_record(asked.key, event),
        }
    }

    /// The call with that key, or an empty record.
    pub fn call(&self, key: u32) -> Call {
        match self.place_of(key) {
            Some(place) => self.calls[place],
            None => Call::EMPTY,
        }
    }

    pub fn is_full(&self) -> bool {
        self.place_of(0).is_none()
    }

    fn open(&mut self, key: u32, named: Option<Services>) -> Outcome {
        if let Some(place) = self.place_of(key) {
            return self.calls[place].refused(Answer::KeyOnRecord);
        }
        match self.place_of(0) {
            None => Call::EMPTY.refused(Answer::NoEmptyRecord),
            Some(lowest) => {
                let opened = Call::open(key, named);
                self.keys[lowest] = key;
                self.calls[lowest] = opened.call;
                opened
            }
        }
    }

    fn event_on_record(&mut self, key: u32, event: Event) -> Outcome {
        match self.place_of(key) {
            None => Call::EMPTY.refused(Answer::KeyNotOnRecord),
            Some(place) => {
                let after = self.calls[place].after(self.node, event);
                self.keys[place] = after.call.key;
                self.calls[place] = after.call;
                after
            }
        }
    }

    /// The lowest place with that key; of key 0 the lowest empty record.
    fn place_of(&self, key: u32) -> Option<usize> {
        for (number, block) in self.keys.chunks_exact(BLOCK).enumerate() {
            if block.iter().fold(false, |found, &other| found | (other == key)) {
                let within = block.iter().position(|&other| other == key)?;
                return Some(number * BLOCK + within);
            }
        }
        None
    }

    #[cfg(test)]
    pub fn calls(&self) -> &[Call] {
        &self.calls
    }
}
