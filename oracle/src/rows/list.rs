//! The list, read: a row a line, `name; state; event; condition; what is done; place`, and behind
//! that `; unreachable: ` and why, of a row that no run from an empty table reaches.

use crate::rows::terms::{states, Met, Terms, EVENTS, STATE_COUNT};
use crate::vocabulary::Node;

/// What stands in front of the reason.
const UNREACHABLE: &str = "unreachable: ";

#[derive(Clone, Debug, PartialEq, Eq)]
pub struct Row {
    pub name: String,
    pub met: Met,
    pub done: String,
    pub unreachable: bool,
}

#[derive(Debug)]
pub struct List {
    pub rows: Vec<Row>,
    /// The places of the rows of each state and event.
    of_cell: Vec<Vec<usize>>,
}

impl List {
    /// A line each for what is no row, and for rows that are listed twice.
    pub fn of_text(node: Node, text: &str) -> Result<Self, Vec<String>> {
        let (mut rows, mut faults) = (Vec::new(), Vec::new());
        for (place, line) in text.lines().enumerate() {
            if line.is_empty() || line.starts_with('#') {
                continue;
            }
            match row(node, line) {
                Ok(row) => rows.push(row),
                Err(fault) => faults.push(format!("line {}: {fault}", place + 1)),
            }
        }
        faults.extend(listed_twice(&rows));
        if !faults.is_empty() {
            return Err(faults);
        }
        let mut of_cell = vec![Vec::new(); STATE_COUNT * EVENTS.len()];
        for (place, row) in rows.iter().enumerate() {
            of_cell[cell(&row.met)].push(place);
        }
        Ok(Self { rows, of_cell })
    }

    /// The places of the rows that fit what an event meets.
    pub fn fitting(&self, met: Met) -> impl Iterator<Item = usize> + '_ {
        let rows = self.of_cell[cell(&met)].iter().copied();
        rows.filter(move |&place| self.rows[place].met.terms.hold_in(met.terms))
    }
}

fn cell(met: &Met) -> usize {
    met.state * EVENTS.len() + met.event
}

fn row(node: Node, line: &str) -> Result<Row, String> {
    let fields: Vec<&str> = line.split("; ").collect();
    let (fields, reason) = match fields.as_slice() {
        [fields @ .., reason] if fields.len() == 6 => (fields, Some(*reason)),
        fields => (fields, None),
    };
    let [name, state, event, condition, done, _place] = *fields else {
        return Err(format!("{} parts, expected 6 or 7", fields.len()));
    };
    if reason.is_some_and(|reason| !reason.starts_with(UNREACHABLE)) {
        return Err(format!("the last part does not begin with `{UNREACHABLE}`"));
    }
    let state = place_in(states(node), state).ok_or(format!("`{state}` is no state"))?;
    let event = place_in(&EVENTS, event).ok_or(format!("`{event}` is no event"))?;
    let terms = Terms::of_text(condition).map_err(|word| format!("`{word}` is no term"))?;
    Ok(Row {
        name: name.to_string(),
        met: Met { node, state, event, terms },
        done: done.to_string(),
        unreachable: reason.is_some(),
    })
}

fn place_in(words: &[&str], wanted: &str) -> Option<usize> {
    words.iter().position(|&word| word == wanted)
}

/// By its name, or by its state, event and condition.
fn listed_twice(rows: &[Row]) -> Vec<String> {
    let mut faults = Vec::new();
    for (place, row) in rows.iter().enumerate() {
        for later in &rows[place + 1..] {
            if later.name == row.name {
                faults.push(format!("{} is listed twice", row.name));
            } else if later.met == row.met {
                faults.push(format!("{} and {} are one row", row.name, later.name));
            }
        }
    }
    faults
}
