//! The terms of a condition, and those that hold as an event meets a call.

use std::cmp::Ordering;
use std::fmt::{Display, Formatter};

use crate::call::{Call, Services, Soft, State};
use crate::event_record::{release_kind, EventRecord};
use crate::table::Request;
use crate::trace_table::TraceTable;
use crate::vocabulary::{
    Crankback, DomainRelease, Event, Node, Policy, ReroutingCause, SwitchoverCode,
};

/// The words of an end's list for the states 0 to 7, and for what an event meets that meets no
/// call.
pub fn states(node: Node) -> &'static [&'static str; STATE_COUNT] {
    match node {
        Node::Source => &SOURCE_STATES,
        Node::Destination => &DESTINATION_STATES,
    }
}

pub const STATE_COUNT: usize = 10;
const SOURCE_STATES: [&str; STATE_COUNT] = [
    "Null",
    "Idle",
    "Hard Triggered",
    "Hard Proceeding",
    "Soft Triggered",
    "Soft Proceeding",
    "Soft Initiated",
    "Awaiting",
    "none",
    "any",
];
const DESTINATION_STATES: [&str; STATE_COUNT] = [
    "Null",
    "Idle",
    "Hard Indicated",
    "Hard Initiated",
    "Soft Triggered",
    "Soft Proceeding",
    "Soft Initiated",
    "Awaiting",
    "none",
    "any",
];
const NO_CALL: usize = 8;
const ANY: usize = 9;

/// The words of the list for the events 0 to 9.
pub const EVENTS: [&str; 10] = [
    "open", "trigger", "path", "nopath", "connect", "setup", "calling", "called", "ready", "expiry",
];

#[derive(Clone, Copy, Debug, PartialEq, Eq)]
enum Term {
    KeyZero,
    EmptyRecord,
    NoEmptyRecord,
    DefaultServices,
    NamedServices,
    NoService,
    AService,
    HardOff,
    HardOn,
    SoftNone,
    SoftService,
    SoftAsymmetric,
    SoftSymmetric,
    LastBelow,
    LastSpent,
    NamesIncumbent,
    NamesRerouting,
    NamesNoneHeld,
    PolicyNo,
    PolicyYes,
    CodeClearing,
    CodeImmediate,
    CodeUnrecognized,
    NumberGreater,
    NumberEqual,
    NumberLess,
    NoCause,
    ACause,
    Cause1,
    Cause2,
    Cause4,
    OtherCause,
    NoCrankback,
    AlternateFound,
    NoneFound,
}

const TERMS: [(&str, Term); 35] = [
    ("key 0", Term::KeyZero),
    ("empty record", Term::EmptyRecord),
    ("no empty record", Term::NoEmptyRecord),
    ("default services", Term::DefaultServices),
    ("named services", Term::NamedServices),
    ("no service", Term::NoService),
    ("a service", Term::AService),
    ("hard off", Term::HardOff),
    ("hard on", Term::HardOn),
    ("soft none", Term::SoftNone),
    ("soft service", Term::SoftService),
    ("soft asymmetric", Term::SoftAsymmetric),
    ("soft symmetric", Term::SoftSymmetric),
    ("last below 65535", Term::LastBelow),
    ("last 65535", Term::LastSpent),
    ("names incumbent", Term::NamesIncumbent),
    ("names rerouting", Term::NamesRerouting),
    ("names none held", Term::NamesNoneHeld),
    ("policy no", Term::PolicyNo),
    ("policy yes", Term::PolicyYes),
    ("code clearing", Term::CodeClearing),
    ("code immediate", Term::CodeImmediate),
    ("code unrecognized", Term::CodeUnrecognized),
    ("number greater", Term::NumberGreater),
    ("number equal", Term::NumberEqual),
    ("number less", Term::NumberLess),
    ("no cause", Term::NoCause),
    ("a cause", Term::ACause),
    ("cause #1", Term::Cause1),
    ("cause #2", Term::Cause2),
    ("cause #4", Term::Cause4),
    ("other cause", Term::OtherCause),
    ("no crankback", Term::NoCrankback),
    ("alternate found", Term::AlternateFound),
    ("none found", Term::NoneFound),
];

/// A set of terms.
#[derive(Clone, Copy, Debug, Default, PartialEq, Eq)]
pub struct Terms(u64);

impl Terms {
    /// A condition as the list has it, or the word that is no term.
    pub fn of_text(text: &str) -> Result<Self, &str> {
        let mut terms = Self::default();
        if text == "-" {
            return Ok(terms);
        }
        for word in text.split(", ") {
            match TERMS.iter().find(|(known, _)| *known == word) {
                Some(&(_, term)) => terms.add(term),
                None => return Err(word),
            }
        }
        Ok(terms)
    }

    /// Whether all of these are among the others.
    pub fn hold_in(self, others: Self) -> bool {
        self.0 & !others.0 == 0
    }

    fn add(&mut self, term: Term) {
        self.0 |= 1 << term as u64;
    }
}

impl Display for Terms {
    fn fmt(&self, out: &mut Formatter<'_>) -> std::fmt::Result {
        let has = |&&(_, term): &&(&str, Term)| self.0 & 1 << term as u64 != 0;
        let words: Vec<&str> = TERMS.iter().filter(has).map(|&(word, _)| word).collect();
        write!(out, "{}", if words.is_empty() { "-".to_string() } else { words.join(", ") })
    }
}

/// What an event meets: the state and the event, by their places in the words above, and every term
/// that holds.
#[derive(Clone, Copy, Debug, PartialEq, Eq)]
pub struct Met {
    pub node: Node,
    pub state: usize,
    pub event: usize,
    pub terms: Terms,
}

impl Met {
    pub fn before(node: Node, asked: &EventRecord, table: &TraceTable) -> Self {
        let mut met = match asked.request {
            Request::Opening(named) => Self::opening(node, named, table.is_full()),
            Request::Event(event) => Self::event(node, event, table.call(asked.key)),
        };
        met.state = match (asked.key, table.call(asked.key)) {
            (0, _) => ANY,
            (_, Call { key: 0, .. }) => NO_CALL,
            (_, call) => usize::from(call.state.number()),
        };
        if asked.key == 0 {
            met.terms.add(Term::KeyZero);
        }
        met
    }

    fn opening(node: Node, named: Option<Services>, full: bool) -> Self {
        let mut terms = Terms::default();
        terms.add(if full { Term::NoEmptyRecord } else { Term::EmptyRecord });
        match named {
            None => terms.add(Term::DefaultServices),
            Some(services) => {
                terms.add(Term::NamedServices);
                service_terms(&mut terms, node, services);
            }
        }
        Self { node, state: NO_CALL, event: 0, terms }
    }

    /// An event that meets a call, whatever its key.
    pub fn event(node: Node, event: Event, call: Call) -> Self {
        let Call { hard, soft, last, .. } = call;
        let mut terms = Terms::default();
        service_terms(&mut terms, node, Services { hard, soft });
        terms.add(if last == u16::MAX { Term::LastSpent } else { Term::LastBelow });
        let number = event_terms(&mut terms, node, event, call);
        Self { node, state: usize::from(call.state.number()), event: number, terms }
    }
}

impl Display for Met {
    fn fmt(&self, out: &mut Formatter<'_>) -> std::fmt::Result {
        write!(out, "{}; {}; {}", states(self.node)[self.state], EVENTS[self.event], self.terms)
    }
}

/// At the destination alone a row asks for any service at all (decision 58).
fn service_terms(terms: &mut Terms, node: Node, Services { hard, soft }: Services) {
    if node == Node::Destination {
        let none = !hard && soft == Soft::None;
        terms.add(if none { Term::NoService } else { Term::AService });
    }
    terms.add(if hard { Term::HardOn } else { Term::HardOff });
    terms.add(if soft == Soft::None { Term::SoftNone } else { Term::SoftService });
    match soft {
        Soft::None => {}
        Soft::Asymmetric => terms.add(Term::SoftAsymmetric),
        Soft::Symmetric => terms.add(Term::SoftSymmetric),
    }
}

/// The terms of an event's values; hands back its number.
fn event_terms(terms: &mut Terms, node: Node, event: Event, call: Call) -> usize {
    match event {
        Event::Trigger => 1,
        Event::PathFound => 2,
        Event::NoPath => 3,
        Event::Connect { connection, policy } => {
            connection_terms(terms, connection, call.state);
            terms.add(if policy == Policy::Yes { Term::PolicyYes } else { Term::PolicyNo });
            4
        }
        Event::Setup { switchover, number } => {
            setup_terms(terms, switchover, number.cmp(&call.remote));
            5
        }
        Event::FromParty { cause } => {
            cause_terms(terms, cause);
            usize::from(release_kind(node.party()))
        }
        Event::FromDomain(DomainRelease { connection, cause, crankback }) => {
            connection_terms(terms, connection, call.state);
            cause_terms(terms, cause);
            terms.add(match crankback {
                Crankback::None => Term::NoCrankback,
                Crankback::AlternateFound => Term::AlternateFound,
                Crankback::NoneFound => Term::NoneFound,
            });
            usize::from(release_kind(node.domain()))
        }
        Event::Ready => 8,
        Event::TimerExpiry => 9,
    }
}

fn connection_terms(terms: &mut Terms, named: u16, state: State) {
    if state.incumbent() == Some(named) {
        terms.add(Term::NamesIncumbent);
    } else if state.rerouting() == Some(named) {
        terms.add(Term::NamesRerouting);
    } else {
        terms.add(Term::NamesNoneHeld);
    }
}

fn setup_terms(terms: &mut Terms, switchover: SwitchoverCode, number: Ordering) {
    terms.add(match switchover {
        SwitchoverCode::CLEARING => Term::CodeClearing,
        SwitchoverCode::IMMEDIATE => Term::CodeImmediate,
        SwitchoverCode(_) => Term::CodeUnrecognized,
    });
    terms.add(match number {
        Ordering::Greater => Term::NumberGreater,
        Ordering::Equal => Term::NumberEqual,
        Ordering::Less => Term::NumberLess,
    });
}

fn cause_terms(terms: &mut Terms, cause: Option<ReroutingCause>) {
    let Some(ReroutingCause(number)) = cause else {
        terms.add(Term::NoCause);
        return;
    };
    terms.add(Term::ACause);
    terms.add(match number {
        1 => Term::Cause1,
        2 => Term::Cause2,
        4 => Term::Cause4,
        _ => Term::OtherCause,
    });
}
