//! The ways in which a record is bad: each octet that can hold a value not named, and the record
//! cut short.

use crate::draw::Draw;
use crate::event_record::EVENT_OCTETS;
use crate::made_event::Kind;
use crate::vocabulary::Node;

#[derive(Clone, Copy, Debug)]
enum Way {
    /// In an event of that kind the octet is not named from `lowest` up.
    Value {
        kind: Kind,
        octet: usize,
        lowest: u8,
    },
    CutShort,
}

const fn value(number: u8, octet: usize, lowest: u8) -> Way {
    Way::Value { kind: Kind::Numbered(number), octet, lowest }
}

const fn of_release(kind: Kind, octet: usize, lowest: u8) -> Way {
    Way::Value { kind, octet, lowest }
}

/// A seed takes the way at the seed's own number, counted round.
const WAYS: [Way; WAY_COUNT] = [
    // The event's number.
    value(0, 0, 10),
    // Opening: named or not, hard, soft.
    value(0, 1, 2),
    value(0, 2, 2),
    value(0, 3, 3),
    // Connect: policy, and the upper octets of the connection, which put it above 65,535.
    value(4, 1, 2),
    value(4, 8, 1),
    value(4, 9, 1),
    // Release from the node's own party: cause present or not, crankback.
    of_release(Kind::FromParty, 1, 2),
    of_release(Kind::FromParty, 3, 3),
    // Release from across the domain: the same, and the upper octets of the connection.
    of_release(Kind::FromDomain, 1, 2),
    of_release(Kind::FromDomain, 3, 3),
    of_release(Kind::FromDomain, 8, 1),
    of_release(Kind::FromDomain, 9, 1),
    Way::CutShort,
];

pub const WAY_COUNT: usize = 14;

/// A bad record made of a good one, in the way that the seed takes.
pub fn record(node: Node, seed: u64, good: [u8; EVENT_OCTETS], draw: &mut Draw) -> Vec<u8> {
    let mut octets = good;
    match WAYS[(seed % WAY_COUNT as u64) as usize] {
        Way::Value { kind, octet, lowest } => {
            // But for that octet, all that an event of the kind reads is named.
            octets[..4].copy_from_slice(&[kind.number(node), 1, 1, 1]);
            octets[8..10].fill(0);
            octets[octet] = draw.octet_from(lowest);
            octets.to_vec()
        }
        Way::CutShort => octets[..1 + draw.below(EVENT_OCTETS - 1)].to_vec(),
    }
}
