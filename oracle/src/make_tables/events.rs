//! The event that a made table of an end meets, in the 16 octets of 01, "The trace". Most events
//! name a key on record, so that the call itself answers, and mostly a connection that this call
//! holds.

use super::records::MadeTable;
use crate::call::{Call, State};
use crate::draw::Draw;
use crate::event_record::EVENT_OCTETS;
use crate::made_event::{
    octets, Values, CALLED_RELEASE, CALLING_RELEASE, CONNECT, EXPIRY, NO_PATH, OPENING, PATH_FOUND,
    READY, SETUP, TRIGGER,
};
use crate::vocabulary::Node;

/// One event in eight is an opening.
pub fn event(node: Node, draw: &mut Draw, table: &MadeTable) -> [u8; EVENT_OCTETS] {
    if draw.one_in(8) {
        return event_of_kind(node, draw, table, OPENING);
    }
    let key = key(draw, table);
    let call = call_on_record(table, key);
    let kind = if draw.one_in(2) {
        1 + draw.below(9) as u8
    } else {
        kind_with_meaning(node, draw, call.state)
    };
    octets::<OfTables>(node, draw, kind, key, call)
}

pub fn event_of_kind(
    node: Node,
    draw: &mut Draw,
    table: &MadeTable,
    kind: u8,
) -> [u8; EVENT_OCTETS] {
    let key = if kind == OPENING { opening_key(draw, table) } else { key(draw, table) };
    octets::<OfTables>(node, draw, kind, key, call_on_record(table, key))
}

/// An event that the state does not refuse with 106, but for its services.
fn kind_with_meaning(node: Node, draw: &mut Draw, state: State) -> u8 {
    match node {
        Node::Source => kind_at_source(draw, state),
        Node::Destination => kind_at_destination(draw, state),
    }
}

fn kind_at_source(draw: &mut Draw, state: State) -> u8 {
    match state {
        // No call under the key, or a damaged one.
        State::Null => draw.among([TRIGGER, SETUP, CALLING_RELEASE, CALLED_RELEASE]),
        State::ReroutingIdle { .. } => {
            draw.among([TRIGGER, SETUP, CALLING_RELEASE, CALLED_RELEASE])
        }
        State::HardWaiting => draw.among([PATH_FOUND, NO_PATH, CALLING_RELEASE, EXPIRY]),
        State::HardUnderway { .. } => {
            draw.among([CONNECT, CALLING_RELEASE, CALLED_RELEASE, CALLED_RELEASE, EXPIRY])
        }
        State::SoftRerouteTriggered { .. } => {
            draw.among([PATH_FOUND, NO_PATH, CALLING_RELEASE, CALLED_RELEASE])
        }
        State::SoftRerouteProceeding { .. } => {
            draw.among([CONNECT, CALLING_RELEASE, CALLED_RELEASE, CALLED_RELEASE])
        }
        State::SoftRerouteInitiated { .. } => {
            draw.among([SETUP, CALLING_RELEASE, CALLED_RELEASE, CALLED_RELEASE, READY])
        }
        State::AwaitingSwitchover { .. } => {
            draw.among([SETUP, CALLING_RELEASE, CALLED_RELEASE, CALLED_RELEASE])
        }
    }
}

fn kind_at_destination(draw: &mut Draw, state: State) -> u8 {
    match state {
        // No call under the key, or a damaged one.
        State::Null => draw.among([TRIGGER, SETUP, CALLING_RELEASE, CALLED_RELEASE]),
        State::ReroutingIdle { .. } => {
            draw.among([TRIGGER, SETUP, SETUP, CALLING_RELEASE, CALLING_RELEASE, CALLED_RELEASE])
        }
        State::HardWaiting => draw.among([SETUP, SETUP, CALLED_RELEASE, EXPIRY]),
        State::HardUnderway { .. } => draw.among([
            SETUP,
            SETUP,
            READY,
            CALLING_RELEASE,
            CALLING_RELEASE,
            CALLED_RELEASE,
            EXPIRY,
        ]),
        State::SoftRerouteTriggered { .. } => {
            draw.among([PATH_FOUND, NO_PATH, SETUP, SETUP, CALLING_RELEASE, CALLED_RELEASE])
        }
        State::SoftRerouteProceeding { .. } => {
            draw.among([CONNECT, SETUP, SETUP, CALLING_RELEASE, CALLING_RELEASE, CALLED_RELEASE])
        }
        State::SoftRerouteInitiated { .. } => {
            draw.among([SETUP, SETUP, CALLING_RELEASE, CALLING_RELEASE, CALLED_RELEASE, READY])
        }
        State::AwaitingSwitchover { .. } => {
            draw.among([SETUP, SETUP, CALLING_RELEASE, CALLING_RELEASE, CALLED_RELEASE])
        }
    }
}

/// The first call with the key, or an empty record where there is none.
fn call_on_record(table: &MadeTable, key: u32) -> Call {
    let call = table.calls.iter().find(|call| call.key == key);
    call.copied().unwrap_or(Call::EMPTY)
}

/// Mostly the key of a call: of the first one from a place on, counted round.
fn key(draw: &mut Draw, table: &MadeTable) -> u32 {
    let place = draw.place(table.calls.len());
    let mut calls = table.calls.iter().cycle().skip(place).take(table.calls.len());
    match draw.below(16) {
        0 => 0,
        1..=2 => any_key(draw, table),
        _ => match calls.find(|call| call.key != 0) {
            Some(call) => call.key,
            None => any_key(draw, table),
        },
    }
}

fn opening_key(draw: &mut Draw, table: &MadeTable) -> u32 {
    if draw.one_in(16) {
        0
    } else {
        any_key(draw, table)
    }
}

/// A key of the table's places, or one that none of them has.
fn any_key(draw: &mut Draw, table: &MadeTable) -> u32 {
    table.keys.get(draw.below(table.keys.len())).copied().unwrap_or(0)
}

struct OfTables;

impl Values for OfTables {
    /// No services in a third of the openings, else any.
    fn opening(_: Node, draw: &mut Draw, unread: u8) -> [u8; 3] {
        if draw.one_in(3) {
            [0, unread, unread]
        } else {
            [1, draw.among([0, 1]), draw.among([0, 1, 2])]
        }
    }

    /// Mostly such as the end takes.
    fn switchover_code(node: Node, draw: &mut Draw) -> u8 {
        let any = draw.octet();
        match node {
            Node::Source => draw.among([1, 1, 1, 1, 1, 1, 0, 2, 255, any]),
            Node::Destination => draw.among([0, 0, 0, 0, 1, 1, 1, 1, 2, 255, any]),
        }
    }

    /// Below, equal to or above the number on record, or any.
    fn incarnation_number(draw: &mut Draw, call: Call) -> u32 {
        let any = draw.word();
        let above = call.remote.saturating_add(1);
        draw.among([
            call.remote,
            call.remote.wrapping_sub(1),
            above,
            above,
            above,
            u32::MAX,
            0,
            any,
        ])
    }

    /// A connection held, one not held, 0, or one not yet given.
    fn connection(draw: &mut Draw, call: Call) -> u32 {
        let incumbent = call.state.incumbent().unwrap_or(0);
        let rerouting = call.state.rerouting().unwrap_or(incumbent);
        let next = call.last.saturating_add(1);
        let small = draw.number_to(12);
        let named = draw.among([
            incumbent, incumbent, incumbent, rerouting, rerouting, rerouting, call.last, next,
            small, 0,
        ]);
        u32::from(named)
    }

    fn cause_and_crankback(draw: &mut Draw, unread: u8) -> [u8; 3] {
        let any = draw.octet();
        let crankback = draw.among([0, 1, 2]);
        let [present, cause] = draw.among([
            [0, unread],
            [0, unread],
            [1, 0],
            [1, 1],
            [1, 2],
            [1, 4],
            [1, 255],
            [1, any],
        ]);
        [present, cause, crankback]
    }
}
