//! An event in 16 octets, as the trace reads it (01, "The trace").
//!
//! The two ends differ in the releases alone: kind 6 is the calling side's and kind 7 the called
//! side's at both, and the one that comes from across the domain names a connection (decision 76).
//!
//! Whether a value is named is seen from the octets alone, before the key and the state are looked
//! at, and an octet that is not read never makes the event `bad` (decision 23).

use crate::call::{Services, Soft};
use crate::table::Request;
use crate::vocabulary::{
    Crankback, DomainRelease, Event, Node, Policy, ReroutingCause, Side, SwitchoverCode,
};

pub const EVENT_OCTETS: usize = 16;

/// An event and the key that it names.
#[derive(Clone, Copy, Debug, PartialEq, Eq)]
pub struct EventRecord {
    pub key: u32,
    pub request: Request,
}

/// The kind of a release from that side.
pub fn release_kind(side: Side) -> u8 {
    match side {
        Side::Calling => 6,
        Side::Called => 7,
    }
}

/// The event at that end, or nothing where it is `bad`.
pub fn decode(node: Node, octets: &[u8; EVENT_OCTETS]) -> Option<EventRecord> {
    let [kind, first, second, third, k0, k1, k2, k3, n0, n1, n2, n3, ..] = *octets;
    let key = u32::from_be_bytes([k0, k1, k2, k3]);
    let number = u32::from_be_bytes([n0, n1, n2, n3]);
    let request = match kind {
        0 => Request::Opening(services(first, second, third)?),
        1 => Request::Event(Event::Trigger),
        2 => Request::Event(Event::PathFound),
        3 => Request::Event(Event::NoPath),
        4 => Request::Event(connect(first, number)?),
        5 => Request::Event(Event::Setup { switchover: SwitchoverCode(first), number }),
        6 => Request::Event(release(node, Side::Calling, [first, second, third], number)?),
        7 => Request::Event(release(node, Side::Called, [first, second, third], number)?),
        8 => Request::Event(Event::Ready),
        9 => Request::Event(Event::TimerExpiry),
        _ => return None,
    };
    Some(EventRecord { key, request })
}

/// The octets of an event at that end; those that its kind does not use are 0.
pub fn encode(node: Node, event: &EventRecord) -> [u8; EVENT_OCTETS] {
    let ([kind, first, second, third], number) = match event.request {
        Request::Opening(None) => ([0; 4], 0),
        Request::Opening(Some(Services { hard, soft })) => {
            ([0, 1, u8::from(hard), soft.number()], 0)
        }
        Request::Event(event) => event_values(node, event),
    };
    let [k0, k1, k2, k3] = event.key.to_be_bytes();
    let [n0, n1, n2, n3] = number.to_be_bytes();
    [kind, first, second, third, k0, k1, k2, k3, n0, n1, n2, n3, 0, 0, 0, 0]
}

/// The octets 0 to 3, and the number of the octets 8 to 11.
fn event_values(node: Node, event: Event) -> ([u8; 4], u32) {
    match event {
        Event::Trigger => ([1, 0, 0, 0], 0),
        Event::PathFound => ([2, 0, 0, 0], 0),
        Event::NoPath => ([3, 0, 0, 0], 0),
        Event::Connect { connection, policy } => {
            ([4, u8::from(policy == Policy::Yes), 0, 0], u32::from(connection))
        }
        Event::Setup { switchover: SwitchoverCode(code), number } => ([5, code, 0, 0], number),
        Event::FromParty { cause } => (release_octets(node.party(), cause, Crankback::None), 0),
        Event::FromDomain(DomainRelease { connection, cause, crankback }) => {
            (release_octets(node.domain(), cause, crankback), u32::from(connection))
        }
        Event::Ready => ([8, 0, 0, 0], 0),
        Event::TimerExpiry => ([9, 0, 0, 0], 0),
    }
}

fn release_octets(side: Side, cause: Option<ReroutingCause>, crankback: Crankback) -> [u8; 4] {
    let [present, number] = match cause {
        None => [0, 0],
        Some(ReroutingCause(number)) => [1, number],
    };
    let crankback_number = match crankback {
        Crankback::None => 0,
        Crankback::AlternateFound => 1,
        Crankback::NoneFound => 2,
    };
    [release_kind(side), present, number, crankback_number]
}

/// "byte 1 is 0 for default services (bytes 2 and 3 then not read) or 1 for named, byte 2 hard 0 or
/// 1, byte 3 soft 0 to 2". Byte 1 value 0 keeps this meaning under another default (02, Ask 1).
fn services(named: u8, hard: u8, soft: u8) -> Option<Option<Services>> {
    match flag(named)? {
        false => Some(None),
        true => Some(Some(Services { hard: flag(hard)?, soft: Soft::of_number(soft)? })),
    }
}

/// "byte 1 is policy, 1 yes, 0 no"; bytes 2 and 3 are not read (decision 23).
fn connect(policy: u8, number: u32) -> Option<Event> {
    let policy = match flag(policy)? {
        false => Policy::No,
        true => Policy::Yes,
    };
    Some(Event::Connect { connection: connection(number)?, policy })
}

/// Crankback is named of every release, so it is tested of the party's too and then left (decisions
/// 23 and 76). That one names no connection.
fn release(node: Node, side: Side, values: [u8; 3], number: u32) -> Option<Event> {
    let [present, cause, crankback_number] = values;
    let cause = rerouting_cause(present, cause)?;
    let crankback = crankback(crankback_number)?;
    if side == node.party() {
        return Some(Event::FromParty { cause });
    }
    let connection = connection(number)?;
    Some(Event::FromDomain(DomainRelease { connection, cause, crankback }))
}

/// "byte 1 cause present 0 or 1, byte 2 cause"; without a cause byte 2 is not read (decision 23).
fn rerouting_cause(present: u8, cause: u8) -> Option<Option<ReroutingCause>> {
    match flag(present)? {
        false => Some(None),
        true => Some(Some(ReroutingCause(cause))),
    }
}

/// "byte 3 crankback 0 to 2", in the order of 01's words (decision 22).
fn crankback(number: u8) -> Option<Crankback> {
    match number {
        0 => Some(Crankback::None),
        1 => Some(Crankback::AlternateFound),
        2 => Some(Crankback::NoneFound),
        _ => None,
    }
}

/// "a connection number above 65,535" is `bad`; 0 is not (decision 23).
fn connection(number: u32) -> Option<u16> {
    u16::try_from(number).ok()
}

/// An octet that names two values, 0 and 1.
pub fn flag(octet: u8) -> Option<bool> {
    match octet {
        0 => Some(false),
        1 => Some(true),
        _ => None,
    }
}
