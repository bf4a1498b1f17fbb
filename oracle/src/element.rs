//! The cause element sent on (01, "The cause element sent on"): a part of one of two strings that
//! the caller lends, never a copy.

use crate::vocabulary::{SentCause, Signal, SignalKind};

pub const HEADER_OCTETS: usize = 4;

/// A part of the string that the signal names: it lives no longer than that one, whatever becomes
/// of the other.
#[derive(Clone, Copy, Debug, PartialEq, Eq)]
pub enum Part<'received, 'own> {
    Received(&'received [u8]),
    Own(&'own [u8]),
}

/// "the received one for "as received", else the node's own. An absent cause, or a signal that is
/// no release, gives an empty part of the node's own."
pub fn to_send<'received, 'own>(
    signal: &Signal,
    received: &'received [u8],
    own: &'own [u8],
) -> Part<'received, 'own> {
    match (is_release(signal.kind), signal.rerouting_cause) {
        (false, _) => Part::Own(empty(own)),
        (true, SentCause::Absent) => Part::Own(empty(own)),
        (true, SentCause::Number(_)) => Part::Own(element(own)),
        (true, SentCause::AsReceived(_)) => Part::Received(element(received)),
    }
}

/// A reject is none (decision 20).
fn is_release(kind: SignalKind) -> bool {
    match kind {
        SignalKind::ReleaseCalling => true,
        SignalKind::ReleaseCalled => true,
        SignalKind::ReleaseIncumbent => true,
        SignalKind::ReleaseRerouting => true,
        SignalKind::None => false,
        SignalKind::TimerStart => false,
        SignalKind::TimerStop => false,
        SignalKind::Switch => false,
        SignalKind::Setup => false,
        SignalKind::Connect => false,
        SignalKind::Reject => false,
    }
}

/// The element that the string begins with: the header, and as many octets more as its third and
/// fourth say. Octets behind it are left out; the identifier and the content are not tested
/// (decision 21). "A named string under four octets or too short for its length gives an empty part
/// of it."
fn element(string: &[u8]) -> &[u8] {
    let [_, _, high, low, ..] = *string else { return empty(string) };
    let length = usize::from(u16::from_be_bytes([high, low]));
    string.get(..HEADER_OCTETS + length).unwrap_or(empty(string))
}

/// At the start of the string (decision 21).
fn empty(string: &[u8]) -> &[u8] {
    &string[..0]
}
