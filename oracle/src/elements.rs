//! Cases of the cause element sent on, in the form of docs/ELEMENTS.md, read and printed.

use std::io::{BufRead, Read, Result, Write};

use crate::cases::{octets, print_each, string};
use crate::element::{to_send, Part};
use crate::vocabulary::{ReroutingCause, SentCause, Signal, SignalKind};

/// A signal and the two strings lent for it.
struct Case {
    signal: Signal,
    received: Vec<u8>,
    own: Vec<u8>,
}

/// Prints the part that each case sends; a `bad` one ends the run.
pub fn print(cases: impl BufRead, out: &mut impl Write) -> Result<()> {
    print_each(cases, out, case_after, print_case)
}

fn print_case(case: Case, out: &mut impl Write) -> Result<()> {
    let (name, part) = match to_send(&case.signal, &case.received, &case.own) {
        Part::Received(part) => ("received", part),
        Part::Own(part) => ("own", part),
    };
    writeln!(out, "{name} {} {}", part.len(), hexadecimal(part))
}

fn hexadecimal(octets: &[u8]) -> String {
    let digit = |value: u8| char::from(b"0123456789abcdef"[usize::from(value)]);
    let mut digits = String::with_capacity(2 * octets.len());
    digits.extend(octets.iter().flat_map(|octet| [digit(octet >> 4), digit(octet & 15)]));
    digits
}

/// The case whose kind is that octet, or nothing where it is `bad`.
fn case_after(kind: u8, input: &mut impl Read) -> Result<Option<Case>> {
    let Some([cause, number]) = octets(input)? else { return Ok(None) };
    let Some(signal) = signal(kind, cause, number) else { return Ok(None) };
    let Some(received) = string(input)? else { return Ok(None) };
    let Some(own) = string(input)? else { return Ok(None) };
    Ok(Some(Case { signal, received, own }))
}

/// The signal's connection and its Cause code do not matter here.
fn signal(kind: u8, cause: u8, number: u8) -> Option<Signal> {
    let rerouting_cause = sent_cause(cause, ReroutingCause(number))?;
    Some(Signal { kind: signal_kind(kind)?, rerouting_cause, ..Signal::NONE })
}

/// In the order of decision 16, and behind them the destination's own (decision 63).
fn signal_kind(number: u8) -> Option<SignalKind> {
    match number {
        0 => Some(SignalKind::None),
        1 => Some(SignalKind::TimerStart),
        2 => Some(SignalKind::TimerStop),
        3 => Some(SignalKind::Switch),
        4 => Some(SignalKind::ReleaseCalling),
        5 => Some(SignalKind::ReleaseIncumbent),
        6 => Some(SignalKind::ReleaseRerouting),
        7 => Some(SignalKind::Setup),
        8 => Some(SignalKind::Connect),
        9 => Some(SignalKind::Reject),
        10 => Some(SignalKind::ReleaseCalled),
        _ => None,
    }
}

fn sent_cause(form: u8, cause: ReroutingCause) -> Option<SentCause> {
    match form {
        0 => Some(SentCause::Absent),
        1 => Some(SentCause::Number(cause)),
        2 => Some(SentCause::AsReceived(cause)),
        _ => None,
    }
}
