//! Cases for a comparison of the cause elements sent on.
//!
//! | Module | What it holds |
//! |---|---|
//! | `strings` | strings that begin with an element, and strings that do not |
//! | `bad` | the ways in which a case is bad |
//!
//! Half of the cases take any kind with any cause, the others a release that names a string. Most
//! strings are under 40 octets, and in about one case of 500 one string is long.

mod bad;
mod strings;

#[cfg(test)]
mod tests;

use self::strings::{long_string, string};
use crate::draw::Draw;
use crate::maker::Maker;

pub const MAKER: Maker = Maker { case: |draw| case(draw).octets(), bad_case: bad::case };

const KIND_COUNT: u8 = 11;
const CAUSE_COUNT: u8 = 3;
const RELEASES: [u8; 4] = [4, 5, 6, 10];
const BY_NUMBER: u8 = 1;
const AS_RECEIVED: u8 = 2;

/// The kind of a signal and its cause.
struct MadeSignal {
    kind: u8,
    cause: u8,
}

struct MadeCase {
    signal: MadeSignal,
    /// Of the cause.
    number: u8,
    received: Vec<u8>,
    own: Vec<u8>,
}

impl MadeCase {
    /// The form of docs/ELEMENTS.md.
    fn octets(&self) -> Vec<u8> {
        let MadeSignal { kind, cause } = self.signal;
        let [received, own] = [&self.received, &self.own].map(|string| behind_length(string));
        [[kind, cause, self.number].as_slice(), &received, &own].concat()
    }
}

fn behind_length(string: &[u8]) -> Vec<u8> {
    let length = u16::try_from(string.len()).unwrap_or(u16::MAX);
    [&length.to_be_bytes(), string].concat()
}

fn case(draw: &mut Draw) -> MadeCase {
    if draw.one_in(500) {
        return case_with_long_string(draw);
    }
    let signal = if draw.one_in(2) { any_signal(draw) } else { release(draw) };
    MadeCase { signal, number: number(draw), received: string(draw), own: string(draw) }
}

/// Three times in four the long string is the one that the release names.
fn case_with_long_string(draw: &mut Draw) -> MadeCase {
    let signal = release(draw);
    let received_is_named = signal.cause == AS_RECEIVED;
    let (long, short) = (long_string(draw), string(draw));
    let received_is_long = received_is_named != draw.one_in(4);
    let (received, own) = if received_is_long { (long, short) } else { (short, long) };
    MadeCase { signal, number: number(draw), received, own }
}

fn any_signal(draw: &mut Draw) -> MadeSignal {
    let kind = draw.below(usize::from(KIND_COUNT)) as u8;
    let cause = draw.below(usize::from(CAUSE_COUNT)) as u8;
    MadeSignal { kind, cause }
}

/// A release with a cause, so that it names a string.
fn release(draw: &mut Draw) -> MadeSignal {
    MadeSignal { kind: draw.among(RELEASES), cause: draw.among([BY_NUMBER, AS_RECEIVED]) }
}

fn number(draw: &mut Draw) -> u8 {
    let any = draw.octet();
    draw.among([0, 1, 2, 4, 5, 6, 8, 255, any])
}
