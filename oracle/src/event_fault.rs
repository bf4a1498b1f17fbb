//! What makes an event record bad: the first octet that holds a value not named, and what was
//! expected of it. `event_record::decode` decides whether a record is bad; this says why.

use crate::event_record::{release_kind, EVENT_OCTETS};
use crate::vocabulary::Node;

#[derive(Clone, Copy, Debug, PartialEq, Eq)]
pub struct Fault {
    pub octet: usize,
    pub value: u8,
    pub expected: &'static str,
}

/// An octet that is named up to a value, and what that says.
#[derive(Clone, Copy)]
struct Named {
    octet: usize,
    greatest: u8,
    expected: &'static str,
}

const fn named(octet: usize, greatest: u8, expected: &'static str) -> Named {
    Named { octet, greatest, expected }
}

const KIND: Named = named(0, 9, "an event, 0 to 9");
const SERVICES_NAMED: Named = named(1, 1, "0 for default services or 1 for named");
const HARD: Named = named(2, 1, "hard, 0 or 1");
const SOFT: Named = named(3, 2, "soft, 0 to 2");
const POLICY: Named = named(1, 1, "policy, 1 yes or 0 no");
const CAUSE_PRESENT: Named = named(1, 1, "cause present, 0 or 1");
const CRANKBACK: Named = named(3, 2, "crankback, 0 to 2");
const CONNECTION_HIGHEST: Named = named(8, 0, "0, since a connection is 0 to 65535");
const CONNECTION_HIGH: Named = named(9, 0, "0, since a connection is 0 to 65535");

/// The octets read that can hold a value not named, in their order. Only a release from across the
/// domain names a connection (decision 76).
fn tested(node: Node, octets: &[u8; EVENT_OCTETS]) -> &'static [Named] {
    match (octets[0], octets[1]) {
        (0, 0) => &[KIND, SERVICES_NAMED],
        (0, _) => &[KIND, SERVICES_NAMED, HARD, SOFT],
        (4, _) => &[KIND, POLICY, CONNECTION_HIGHEST, CONNECTION_HIGH],
        (kind, _) if kind == release_kind(node.party()) => &[KIND, CAUSE_PRESENT, CRANKBACK],
        (kind, _) if kind == release_kind(node.domain()) => {
            &[KIND, CAUSE_PRESENT, CRANKBACK, CONNECTION_HIGHEST, CONNECTION_HIGH]
        }
        _ => &[KIND],
    }
}

/// Nothing where the record is not bad.
pub fn fault(node: Node, octets: &[u8; EVENT_OCTETS]) -> Option<Fault> {
    let named = tested(node, octets).iter().find(|named| octets[named.octet] > named.greatest)?;
    let Named { octet, expected, .. } = *named;
    Some(Fault { octet, value: octets[octet], expected })
}
