//! The events of runs counted by row, and what does not fit.

use std::collections::BTreeMap;
use std::io::{Read, Result, Write};

use crate::event_record::{decode, EVENT_OCTETS};
use crate::record_input::{for_each, End};
use crate::rows::deed::deed;
use crate::rows::list::{List, Row};
use crate::rows::terms::Met;
use crate::trace_table::TraceTable;
use crate::vocabulary::Node;

pub struct Tally<'a> {
    node: Node,
    list: &'a List,
    counts: Vec<u64>,
    /// How runs ended that did not end behind a good record.
    bad_ends: Vec<String>,
    /// Each thing that does not fit, and how often it came.
    misfits: BTreeMap<String, u64>,
}

impl<'a> Tally<'a> {
    pub fn new(node: Node, list: &'a List) -> Self {
        Self {
            node,
            list,
            counts: vec![0; list.rows.len()],
            bad_ends: Vec::new(),
            misfits: BTreeMap::new(),
        }
    }

    /// A run of records that come from an input. A bad one fits no row and ends the run.
    pub fn read_run(&mut self, input: &mut impl Read, out: &mut impl Write) -> Result<()> {
        let mut table = TraceTable::empty(self.node);
        let mut number: u64 = 0;
        let end = for_each(input, out, |octets, _| {
            number += 1;
            Ok(self.meet(&mut table, octets))
        })?;
        match end {
            End::Whole => {}
            End::Refused => self.bad_ends.push(format!("record {number} is bad")),
            End::CutShort(_) => self.bad_ends.push(format!("record {} is cut short", number + 1)),
        }
        Ok(())
    }

    pub fn made_run(&mut self, records: impl Iterator<Item = [u8; EVENT_OCTETS]>) {
        let mut table = TraceTable::empty(self.node);
        for octets in records {
            if !self.meet(&mut table, &octets) {
                self.bad_ends.push(format!("made record {octets:?} is bad"));
            }
        }
    }

    /// Counts one event, and carries it out; not where it is bad.
    fn meet(&mut self, table: &mut TraceTable, octets: &[u8; EVENT_OCTETS]) -> bool {
        let Some(asked) = decode(self.node, octets) else {
            return false;
        };
        let met = Met::before(self.node, &asked, table);
        let before = table.call(asked.key);
        let done = deed(self.node, before, asked.request, &table.meet(&asked));
        let list = self.list;
        let mut fitting = list.fitting(met);
        match (fitting.next(), fitting.next()) {
            (Some(place), None) => {
                self.counts[place] += 1;
                let row = &list.rows[place];
                if row.done != done {
                    self.misfit(format!("{}: `{done}`, the list has `{}`", row.name, row.done));
                }
            }
            (Some(first), Some(second)) => {
                let [first, second] = [first, second].map(|place| &list.rows[place].name);
                self.misfit(format!("{first} and {second} both fit {met}"));
            }
            (None, _) => self.misfit(format!("no row fits {met}")),
        }
        true
    }

    fn misfit(&mut self, what: String) {
        *self.misfits.entry(what).or_default() += 1;
    }

    pub fn counts(&self) -> impl Iterator<Item = (&'a Row, u64)> + '_ {
        self.list.rows.iter().zip(self.counts.iter().copied())
    }

    /// What does not fit; with `all` also each row that is met though it is unreachable, or is not
    /// met.
    pub fn faults(&self, all: bool) -> Vec<String> {
        let mut faults = self.bad_ends.clone();
        let misfits = self.misfits.iter();
        faults.extend(misfits.map(|(what, count)| format!("{what} (events: {count})")));
        if all {
            faults.extend(self.counts().filter_map(|(row, count)| fault_of_count(row, count)));
        }
        faults
    }
}

fn fault_of_count(row: &Row, count: u64) -> Option<String> {
    match (row.unreachable, count) {
        (false, 0) => Some(format!("{} is not reached", row.name)),
        (true, 1..) => Some(format!("{} is unreachable, and has {count} events", row.name)),
        (false, 1..) | (true, 0) => None,
    }
}
