//! The words that events, answers and signals are made of.
//!
//! Citations, here and in every other file: `01` is the scope document, with the heading or the
//! sentence meant; `02` is the document of follow-up requests, with the ask meant, and what it asks
//! amends 01; a bare number such as 6.2.4.2 is a section of af-cs-0173.000, `D17` an item of its
//! Annex D; `decision 5` is a numbered decision on a point that those leave open.

/// The two ends of a call's rerouting domain: the control of each has a table of its own (02, Ask
/// 2).
#[derive(Clone, Copy, Debug, PartialEq, Eq)]
pub enum Node {
    /// Towards the calling side (6.2).
    Source,
    /// Towards the called side (6.3).
    Destination,
}

/// The side that a release comes from.
#[derive(Clone, Copy, Debug, PartialEq, Eq)]
pub enum Side {
    Calling,
    Called,
}

impl Node {
    /// The side of the node's own party. Across the domain lies the other one.
    pub fn party(self) -> Side {
        match self {
            Node::Source => Side::Calling,
            Node::Destination => Side::Called,
        }
    }

    pub fn domain(self) -> Side {
        match self {
            Node::Source => Side::Called,
            Node::Destination => Side::Calling,
        }
    }
}

/// A Rerouting release cause, by its number.
#[derive(Clone, Copy, Debug, PartialEq, Eq)]
pub struct ReroutingCause(pub u8);

impl ReroutingCause {
    /// #1, release received from outside any rerouting domain.
    pub const OUTSIDE_ANY_DOMAIN: Self = Self(1);
    /// #2, failed to recover the connection using domain-based rerouting.
    pub const FAILED_TO_RECOVER: Self = Self(2);
    /// #4, rerouting operation complete.
    pub const OPERATION_COMPLETE: Self = Self(4);
    /// #5, old incarnation number.
    pub const OLD_INCARNATION_NUMBER: Self = Self(5);
    /// #6, rerouting operation already in progress.
    pub const ALREADY_IN_PROGRESS: Self = Self(6);
    /// #8, unsupported switchover behaviour.
    pub const UNSUPPORTED_SWITCHOVER: Self = Self(8);
}

/// The Rerouting cause of a signal (01, "Signals").
#[derive(Clone, Copy, Debug, PartialEq, Eq)]
pub enum SentCause {
    Absent,
    Number(ReroutingCause),
    AsReceived(ReroutingCause),
}

/// The Cause code of a signal (01, "Signals").
#[derive(Clone, Copy, Debug, PartialEq, Eq)]
pub enum CauseCode {
    /// Coded as section 6.6 says.
    Section66,
    /// #21, call rejected.
    CallRejected,
}

/// The kinds of decision 16, in the order in which 01 fills the places, and behind them the one
/// that the destination alone sends.
#[derive(Clone, Copy, Debug, PartialEq, Eq)]
pub enum SignalKind {
    None,
    TimerStart,
    TimerStop,
    Switch,
    ReleaseCalling,
    ReleaseIncumbent,
    ReleaseRerouting,
    Setup,
    Connect,
    Reject,
    /// In the place of the calling-side release (decision 63).
    ReleaseCalled,
}

/// One of the four signals of an event.
#[derive(Clone, Copy, Debug, PartialEq, Eq)]
pub struct Signal {
    pub kind: SignalKind,
    /// 0 for the calling or called side, the timer and a rejected setup (01, "Signals"; decision
    /// 63).
    pub connection: u16,
    pub rerouting_cause: SentCause,
    pub cause_code: CauseCode,
}

impl Signal {
    pub const NONE: Self = Self::plain(SignalKind::None, 0);
    pub const TIMER_START: Self = Self::plain(SignalKind::TimerStart, 0);
    pub const TIMER_STOP: Self = Self::plain(SignalKind::TimerStop, 0);

    /// Absent cause and section 6.6, which hold wherever no row says otherwise (decision 17).
    const fn plain(kind: SignalKind, connection: u16) -> Self {
        Self {
            kind,
            connection,
            rerouting_cause: SentCause::Absent,
            cause_code: CauseCode::Section66,
        }
    }

    pub fn switch(connection: u16) -> Self {
        Self::plain(SignalKind::Switch, connection)
    }

    pub fn setup(connection: u16) -> Self {
        Self::plain(SignalKind::Setup, connection)
    }

    pub fn connect(connection: u16) -> Self {
        Self::plain(SignalKind::Connect, connection)
    }

    pub fn reject(cause: ReroutingCause) -> Self {
        let rerouting_cause = SentCause::Number(cause);
        Self { rerouting_cause, ..Self::plain(SignalKind::Reject, 0) }
    }

    pub fn release_calling(rerouting_cause: SentCause) -> Self {
        Self { rerouting_cause, ..Self::plain(SignalKind::ReleaseCalling, 0) }
    }

    pub fn release_called(rerouting_cause: SentCause) -> Self {
        Self { rerouting_cause, ..Self::plain(SignalKind::ReleaseCalled, 0) }
    }

    pub fn release_incumbent(connection: u16, rerouting_cause: SentCause) -> Self {
        Self { rerouting_cause, ..Self::plain(SignalKind::ReleaseIncumbent, connection) }
    }

    pub fn release_rerouting(connection: u16, rerouting_cause: SentCause) -> Self {
        Self { rerouting_cause, ..Self::plain(SignalKind::ReleaseRerouting, connection) }
    }

    /// Cause code #21, with the Rerouting cause absent beside it (6.3.5.4; decisions 12 and 72).
    pub fn incumbent_rejected(connection: u16) -> Self {
        let cause_code = CauseCode::CallRejected;
        Self { cause_code, ..Self::plain(SignalKind::ReleaseIncumbent, connection) }
    }

    /// Cause code #21, with the Rerouting cause absent beside it (6.2.6.2, 6.3.7.1; decision 12).
    pub fn rerouting_rejected(connection: u16) -> Self {
        let cause_code = CauseCode::CallRejected;
        Self { cause_code, ..Self::plain(SignalKind::ReleaseRerouting, connection) }
    }
}

/// The signals of one event, filled from the front.
pub type Signals = [Signal; 4];

pub const SILENT: Signals = [Signal::NONE; 4];

pub fn one(first: Signal) -> Signals {
    [first, Signal::NONE, Signal::NONE, Signal::NONE]
}

/// At the source no event fills more places than two (decision 18).
pub fn two(first: Signal, second: Signal) -> Signals {
    [first, second, Signal::NONE, Signal::NONE]
}

/// At the destination no event fills more places than three (decision 63).
pub fn three(first: Signal, second: Signal, third: Signal) -> Signals {
    [first, second, third, Signal::NONE]
}

/// What an event is answered (01, "Numbers of refusal"): by the table the numbers below 106, by the
/// call on record the others.
#[derive(Clone, Copy, Debug, PartialEq, Eq)]
pub enum Answer {
    Done,
    TableUnfit,
    KeyZero,
    KeyOnRecord,
    NoEmptyRecord,
    KeyNotOnRecord,
    WithoutMeaning,
    WrongConnection,
    NumbersSpent,
}

impl Answer {
    pub fn number(self) -> u8 {
        match self {
            Answer::Done => 0,
            Answer::TableUnfit => 101,
            Answer::KeyZero => 102,
            Answer::KeyOnRecord => 103,
            Answer::NoEmptyRecord => 104,
            Answer::KeyNotOnRecord => 105,
            Answer::WithoutMeaning => 106,
            Answer::WrongConnection => 107,
            Answer::NumbersSpent => 108,
        }
    }
}

/// Local policy on the switch to a connected rerouting connection (6.2.6.2).
#[derive(Clone, Copy, Debug, PartialEq, Eq)]
pub enum Policy {
    No,
    Yes,
}

/// The switchover behaviour that a setup asks for, by its code.
#[derive(Clone, Copy, Debug, PartialEq, Eq)]
pub struct SwitchoverCode(pub u8);

impl SwitchoverCode {
    /// Switchover immediately.
    pub const IMMEDIATE: Self = Self(0);
    /// Switchover when receiving the call clearing message.
    pub const CLEARING: Self = Self(1);
}

/// What a release says of crankback.
#[derive(Clone, Copy, Debug, PartialEq, Eq)]
pub enum Crankback {
    None,
    AlternateFound,
    NoneFound,
}

/// A release from across the domain, for a connection: from the called side at the source (01,
/// "Release from the called side"), from the calling side at the destination (6.3.4).
#[derive(Clone, Copy, Debug, PartialEq, Eq)]
pub struct DomainRelease {
    pub connection: u16,
    pub cause: Option<ReroutingCause>,
    pub crankback: Crankback,
}

/// The events that meet a call on record; the tenth event, the opening, makes one.
#[derive(Clone, Copy, Debug, PartialEq, Eq)]
pub enum Event {
    Trigger,
    PathFound,
    NoPath,
    Connect {
        connection: u16,
        policy: Policy,
    },
    Setup {
        switchover: SwitchoverCode,
        number: u32,
    },
    /// A release from the node's own party: from the calling side at the source, from the called
    /// side at the destination.
    FromParty {
        cause: Option<ReroutingCause>,
    },
    FromDomain(DomainRelease),
    Ready,
    TimerExpiry,
}
