//! The event of an end that the words of a line name, or what was expected of the first word that
//! does not fit.

use super::line::Word;
use crate::call::{Services, Soft};
use crate::event_record::EventRecord;
use crate::table::Request;
use crate::vocabulary::{
    Crankback, DomainRelease, Event, Node, Policy, ReroutingCause, Side, SwitchoverCode,
};

/// What stood there, or what was expected.
type Expected<Value> = Result<Value, &'static str>;

const EVENT: &str = "open, trigger, path, nopath, connect, setup, calling, called, ready or expiry";
const KEY: &str = "a key, 0 to 4294967295";
const HARD: &str = "hard, nohard or nothing more";
const SOFT: &str = "none, asymmetric or symmetric";
const CONNECTION: &str = "a connection, 0 to 65535";
const POLICY: &str = "yes or no";
const SWITCHOVER: &str = "clearing, immediate or a switchover code, 0 to 255";
const NUMBER: &str = "an incarnation number, 0 to 4294967295";
const CAUSE_WORD: &str = "cause or nothing more";
const CAUSE: &str = "a cause, 0 to 255";
const CAUSE_OR_CRANKBACK: &str = "cause, alternate, noalternate or nothing more";
const CRANKBACK: &str = "alternate, noalternate or nothing more";
const NOTHING_MORE: &str = "nothing more";

/// Reads the values of one event.
type OfEvent = fn(&mut Rest) -> Expected<Request>;

pub fn event(node: Node, words: &[Word]) -> Expected<EventRecord> {
    let mut rest = Rest(words);
    let name = rest.next().ok_or(EVENT)?.text();
    let of_event: OfEvent = match name {
        b"open" => opening,
        b"trigger" => |_| Ok(Request::Event(Event::Trigger)),
        b"path" => |_| Ok(Request::Event(Event::PathFound)),
        b"nopath" => |_| Ok(Request::Event(Event::NoPath)),
        b"connect" => connect,
        b"setup" => setup,
        b"calling" => of_release(node, Side::Calling),
        b"called" => of_release(node, Side::Called),
        b"ready" => |_| Ok(Request::Event(Event::Ready)),
        b"expiry" => |_| Ok(Request::Event(Event::TimerExpiry)),
        _ => return Err(EVENT),
    };
    let key = rest.number(KEY)?;
    let request = of_event(&mut rest)?;
    match rest.next() {
        None => Ok(EventRecord { key, request }),
        Some(_) => Err(NOTHING_MORE),
    }
}

/// The words not yet read.
struct Rest<'a>(&'a [Word]);

impl<'a> Rest<'a> {
    fn next(&mut self) -> Option<&'a Word> {
        let (first, behind) = self.0.split_first()?;
        self.0 = behind;
        Some(first)
    }

    /// The next word, nothing where there is none.
    fn text(&mut self) -> Option<&'a [u8]> {
        self.next().map(Word::text)
    }

    fn number<Number: TryFrom<u64>>(&mut self, expected: &'static str) -> Expected<Number> {
        self.next().and_then(Word::number).ok_or(expected)
    }

    fn cause(&mut self) -> Expected<ReroutingCause> {
        self.number(CAUSE).map(ReroutingCause)
    }
}

fn opening(rest: &mut Rest) -> Expected<Request> {
    let hard = match rest.text() {
        None => return Ok(Request::Opening(None)),
        Some(b"hard") => true,
        Some(b"nohard") => false,
        Some(_) => return Err(HARD),
    };
    let soft = match rest.text() {
        Some(b"none") => Soft::None,
        Some(b"asymmetric") => Soft::Asymmetric,
        Some(b"symmetric") => Soft::Symmetric,
        _ => return Err(SOFT),
    };
    Ok(Request::Opening(Some(Services { hard, soft })))
}

fn connect(rest: &mut Rest) -> Expected<Request> {
    let connection = rest.number(CONNECTION)?;
    let policy = match rest.text() {
        Some(b"yes") => Policy::Yes,
        Some(b"no") => Policy::No,
        _ => return Err(POLICY),
    };
    Ok(Request::Event(Event::Connect { connection, policy }))
}

fn setup(rest: &mut Rest) -> Expected<Request> {
    let word = rest.next().ok_or(SWITCHOVER)?;
    let switchover = match word.text() {
        b"clearing" => SwitchoverCode::CLEARING,
        b"immediate" => SwitchoverCode::IMMEDIATE,
        _ => word.number().map(SwitchoverCode).ok_or(SWITCHOVER)?,
    };
    let number = rest.number(NUMBER)?;
    Ok(Request::Event(Event::Setup { switchover, number }))
}

/// The release from across the domain names a connection, the party's own does not (decision 76).
fn of_release(node: Node, side: Side) -> OfEvent {
    if side == node.party() {
        party_release
    } else {
        domain_release
    }
}

fn party_release(rest: &mut Rest) -> Expected<Request> {
    let cause = match rest.text() {
        None => None,
        Some(b"cause") => Some(rest.cause()?),
        Some(_) => return Err(CAUSE_WORD),
    };
    Ok(Request::Event(Event::FromParty { cause }))
}

fn domain_release(rest: &mut Rest) -> Expected<Request> {
    let connection = rest.number(CONNECTION)?;
    let (cause, crankback) = match rest.text() {
        Some(b"cause") => (Some(rest.cause()?), crankback(rest.text(), CRANKBACK)?),
        other => (None, crankback(other, CAUSE_OR_CRANKBACK)?),
    };
    Ok(Request::Event(Event::FromDomain(DomainRelease { connection, cause, crankback })))
}

fn crankback(word: Option<&[u8]>, expected: &'static str) -> Expected<Crankback> {
    match word {
        None => Ok(Crankback::None),
        Some(b"alternate") => Ok(Crankback::AlternateFound),
        Some(b"noalternate") => Ok(Crankback::NoneFound),
        Some(_) => Err(expected),
    }
}
