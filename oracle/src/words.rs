//! Records, events and signals in words, as the cells print them.

use std::fmt::{Display, Formatter, Result};

use crate::call::{Call, Services, Soft};
use crate::vocabulary::{
    CauseCode, Crankback, Event, Node, Policy, ReroutingCause, SentCause, Side, Signal, SignalKind,
    Signals, SwitchoverCode,
};

/// `key hard soft state incumbent rerouting last remote`, 0 for a connection not held.
impl Display for Call {
    fn fmt(&self, out: &mut Formatter<'_>) -> Result {
        let Call { key, last, remote, .. } = *self;
        let (hard, soft) = (u8::from(self.hard), self.soft.number());
        let (state, incumbent, rerouting) = self.state.numbers();
        write!(out, "{key} {hard} {soft} {state} {incumbent} {rerouting} {last} {remote}")
    }
}

impl Display for Services {
    fn fmt(&self, out: &mut Formatter<'_>) -> Result {
        let hard = if self.hard { "hard" } else { "nohard" };
        let soft = match self.soft {
            Soft::None => "none",
            Soft::Asymmetric => "asymmetric",
            Soft::Symmetric => "symmetric",
        };
        write!(out, "{hard} {soft}")
    }
}

impl Display for Side {
    fn fmt(&self, out: &mut Formatter<'_>) -> Result {
        match self {
            Side::Calling => write!(out, "calling"),
            Side::Called => write!(out, "called"),
        }
    }
}

/// The name of a program of that end.
#[derive(Clone, Copy, Debug)]
pub struct ProgramName(pub Node, pub &'static str);

impl Display for ProgramName {
    fn fmt(&self, out: &mut Formatter<'_>) -> Result {
        match self {
            Self(Node::Source, name) => write!(out, "{name}"),
            Self(Node::Destination, name) => write!(out, "destination_{name}"),
        }
    }
}

/// An event as it meets that end: a release is named by the side that it comes from.
pub struct EventWords(pub Node, pub Event);

impl Display for EventWords {
    fn fmt(&self, out: &mut Formatter<'_>) -> Result {
        let Self(node, event) = self;
        match event {
            Event::Trigger => write!(out, "trigger"),
            Event::PathFound => write!(out, "path"),
            Event::NoPath => write!(out, "nopath"),
            Event::Connect { connection, policy } => write!(out, "connect {connection} {policy}"),
            Event::Setup { switchover, number } => write!(out, "setup {switchover} {number}"),
            Event::FromParty { cause } => {
                write!(out, "{}", node.party())?;
                write_cause(out, *cause)
            }
            Event::FromDomain(release) => {
                write!(out, "{} {}", node.domain(), release.connection)?;
                write_cause(out, release.cause)?;
                write!(out, "{}", release.crankback)
            }
            Event::Ready => write!(out, "ready"),
            Event::TimerExpiry => write!(out, "expiry"),
        }
    }
}

fn write_cause(out: &mut Formatter<'_>, cause: Option<ReroutingCause>) -> Result {
    match cause {
        Some(ReroutingCause(number)) => write!(out, " cause {number}"),
        None => Ok(()),
    }
}

impl Display for Policy {
    fn fmt(&self, out: &mut Formatter<'_>) -> Result {
        match self {
            Policy::No => write!(out, "no"),
            Policy::Yes => write!(out, "yes"),
        }
    }
}

impl Display for SwitchoverCode {
    fn fmt(&self, out: &mut Formatter<'_>) -> Result {
        match *self {
            SwitchoverCode::IMMEDIATE => write!(out, "immediate"),
            SwitchoverCode::CLEARING => write!(out, "clearing"),
            SwitchoverCode(other) => write!(out, "{other}"),
        }
    }
}

/// With the blank in front that parts it from the words before.
impl Display for Crankback {
    fn fmt(&self, out: &mut Formatter<'_>) -> Result {
        match self {
            Crankback::None => Ok(()),
            Crankback::AlternateFound => write!(out, " alternate"),
            Crankback::NoneFound => write!(out, " noalternate"),
        }
    }
}

impl Display for Signal {
    fn fmt(&self, out: &mut Formatter<'_>) -> Result {
        let connection = self.connection;
        match self.kind {
            SignalKind::None => write!(out, "none")?,
            SignalKind::TimerStart => write!(out, "timer start")?,
            SignalKind::TimerStop => write!(out, "timer stop")?,
            SignalKind::Switch => write!(out, "switch {connection}")?,
            SignalKind::ReleaseCalling => write!(out, "release calling")?,
            SignalKind::ReleaseIncumbent => write!(out, "release incumbent {connection}")?,
            SignalKind::ReleaseRerouting => write!(out, "release rerouting {connection}")?,
            SignalKind::Setup => write!(out, "setup {connection}")?,
            SignalKind::Connect => write!(out, "connect {connection}")?,
            SignalKind::Reject => write!(out, "reject")?,
            SignalKind::ReleaseCalled => write!(out, "release called")?,
        }
        match self.rerouting_cause {
            SentCause::Absent => {}
            SentCause::Number(ReroutingCause(number)) => write!(out, " #{number}")?,
            SentCause::AsReceived(ReroutingCause(number)) => write!(out, " ={number}")?,
        }
        match self.cause_code {
            CauseCode::Section66 => Ok(()),
            CauseCode::CallRejected => write!(out, " cause 21"),
        }
    }
}

/// The signals of one event, those that are "none" left out; `-` where all are.
pub struct SignalWords<'a>(pub &'a Signals);

impl Display for SignalWords<'_> {
    fn fmt(&self, out: &mut Formatter<'_>) -> Result {
        let mut between = "";
        for signal in self.0.iter().filter(|signal| signal.kind != SignalKind::None) {
            write!(out, "{between}{signal}")?;
            between = ", ";
        }
        if between.is_empty() {
            write!(out, "-")?;
        }
        Ok(())
    }
}
