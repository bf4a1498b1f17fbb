//! The 16 octets of an event that is made (01, "The trace"): which of them each kind reads, and
//! what stands in the others. How the values are drawn, each maker says for itself.

use crate::call::Call;
use crate::draw::Draw;
use crate::event_record::{release_kind, EVENT_OCTETS};
use crate::vocabulary::Node;

/// The kinds of an event, by their numbers.
pub const OPENING: u8 = 0;
pub const TRIGGER: u8 = 1;
pub const PATH_FOUND: u8 = 2;
pub const NO_PATH: u8 = 3;
pub const CONNECT: u8 = 4;
pub const SETUP: u8 = 5;
pub const CALLING_RELEASE: u8 = 6;
pub const CALLED_RELEASE: u8 = 7;
pub const READY: u8 = 8;
pub const EXPIRY: u8 = 9;

/// A kind of event: one that both ends number alike, or a release.
#[derive(Clone, Copy, Debug)]
pub enum Kind {
    Numbered(u8),
    FromParty,
    FromDomain,
}

impl Kind {
    pub fn number(self, node: Node) -> u8 {
        match self {
            Kind::Numbered(number) => number,
            Kind::FromParty => release_kind(node.party()),
            Kind::FromDomain => release_kind(node.domain()),
        }
    }
}

/// How a maker draws the values that an event of an end reads, from the call that it meets. Of
/// three octets, those that the event does not read hold `unread`.
pub trait Values {
    fn opening(node: Node, draw: &mut Draw, unread: u8) -> [u8; 3];
    fn switchover_code(node: Node, draw: &mut Draw) -> u8;
    fn incarnation_number(draw: &mut Draw, call: Call) -> u32;
    fn connection(draw: &mut Draw, call: Call) -> u32;
    fn cause_and_crankback(draw: &mut Draw, unread: u8) -> [u8; 3];
}

/// What this event does not read is 0 in half of the events and anything in the others.
pub fn octets<V: Values>(
    node: Node,
    draw: &mut Draw,
    kind: u8,
    key: u32,
    call: Call,
) -> [u8; EVENT_OCTETS] {
    let (party_release, domain_release) = (release_kind(node.party()), release_kind(node.domain()));
    let unread = if draw.one_in(2) { 0 } else { draw.octet() };
    let unread_number = u32::from_be_bytes([unread; 4]);
    let ([first, second, third], number) = match kind {
        OPENING => (V::opening(node, draw, unread), unread_number),
        CONNECT => ([draw.among([0, 1]), unread, unread], V::connection(draw, call)),
        SETUP => {
            ([V::switchover_code(node, draw), unread, unread], V::incarnation_number(draw, call))
        }
        kind if kind == party_release => (V::cause_and_crankback(draw, unread), unread_number),
        kind if kind == domain_release => {
            (V::cause_and_crankback(draw, unread), V::connection(draw, call))
        }
        _ => ([unread; 3], unread_number),
    };
    let [k0, k1, k2, k3] = key.to_be_bytes();
    let [n0, n1, n2, n3] = number.to_be_bytes();
    [kind, first, second, third, k0, k1, k2, k3, n0, n1, n2, n3, unread, unread, unread, unread]
}
