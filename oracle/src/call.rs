//! One call: its record, the states with the connections that they hold, and what an event hands
//! back.
//!
//! One record serves both ends of a call. The rows of each end stand in a module of its own,
//! `source` and `destination`; only the functions below make a changed record.

use crate::vocabulary::{one, Answer, Event, Node, ReroutingCause, Signal, Signals, SILENT};
use crate::{destination, source};

/// The soft rerouting service of a call, numbered as decision 22 says.
#[derive(Clone, Copy, Debug, PartialEq, Eq)]
pub enum Soft {
    None,
    Asymmetric,
    Symmetric,
}

impl Soft {
    pub fn number(self) -> u8 {
        match self {
            Soft::None => 0,
            Soft::Asymmetric => 1,
            Soft::Symmetric => 2,
        }
    }

    /// Nothing where no service has that number.
    pub fn of_number(number: u8) -> Option<Self> {
        match number {
            0 => Some(Soft::None),
            1 => Some(Soft::Asymmetric),
            2 => Some(Soft::Symmetric),
            _ => None,
        }
    }
}

/// The services that an opening may name.
#[derive(Clone, Copy, Debug, PartialEq, Eq)]
pub struct Services {
    pub hard: bool,
    pub soft: Soft,
}

impl Services {
    /// Taken where an opening names none (02, Ask 1). It amends the sentence on the default in 01,
    /// "The table and its records", which has soft none.
    pub const UNNAMED: Self = Self { hard: true, soft: Soft::Asymmetric };
}

/// The states of 6.2.3 and of 6.3.3, each with the connection numbers that 01 lets it hold. A
/// number holds the same at both ends (decision 57), and only the two Hard states differ in name.
#[derive(Clone, Copy, Debug, PartialEq, Eq)]
pub enum State {
    Null,
    ReroutingIdle {
        incumbent: u16,
    },
    /// Hard Reroute Triggered at the source, Hard Reroute Indicated at the destination.
    HardWaiting,
    /// Hard Reroute Proceeding at the source, Hard Reroute Initiated at the destination.
    HardUnderway {
        rerouting: u16,
    },
    SoftRerouteTriggered {
        incumbent: u16,
    },
    SoftRerouteProceeding {
        incumbent: u16,
        rerouting: u16,
    },
    SoftRerouteInitiated {
        incumbent: u16,
        rerouting: u16,
    },
    AwaitingSwitchover {
        incumbent: u16,
        rerouting: u16,
    },
}

impl State {
    pub fn number(self) -> u8 {
        match self {
            State::Null => 0,
            State::ReroutingIdle { .. } => 1,
            State::HardWaiting => 2,
            State::HardUnderway { .. } => 3,
            State::SoftRerouteTriggered { .. } => 4,
            State::SoftRerouteProceeding { .. } => 5,
            State::SoftRerouteInitiated { .. } => 6,
            State::AwaitingSwitchover { .. } => 7,
        }
    }

    /// The state with that number, on those of the two connections that it holds; nothing where no
    /// state has it.
    pub fn of_number(number: u8, incumbent: u16, rerouting: u16) -> Option<Self> {
        match number {
            0 => Some(State::Null),
            1 => Some(State::ReroutingIdle { incumbent }),
            2 => Some(State::HardWaiting),
            3 => Some(State::HardUnderway { rerouting }),
            4 => Some(State::SoftRerouteTriggered { incumbent }),
            5 => Some(State::SoftRerouteProceeding { incumbent, rerouting }),
            6 => Some(State::SoftRerouteInitiated { incumbent, rerouting }),
            7 => Some(State::AwaitingSwitchover { incumbent, rerouting }),
            _ => None,
        }
    }

    /// The state's number and the connections that it holds, 0 where it holds none.
    pub fn numbers(self) -> (u8, u16, u16) {
        match self {
            State::Null => (0, 0, 0),
            State::ReroutingIdle { incumbent } => (1, incumbent, 0),
            State::HardWaiting => (2, 0, 0),
            State::HardUnderway { rerouting } => (3, 0, rerouting),
            State::SoftRerouteTriggered { incumbent } => (4, incumbent, 0),
            State::SoftRerouteProceeding { incumbent, rerouting } => (5, incumbent, rerouting),
            State::SoftRerouteInitiated { incumbent, rerouting } => (6, incumbent, rerouting),
            State::AwaitingSwitchover { incumbent, rerouting } => (7, incumbent, rerouting),
        }
    }

    pub fn incumbent(self) -> Option<u16> {
        match self {
            State::Null => None,
            State::ReroutingIdle { incumbent } => Some(incumbent),
            State::HardWaiting => None,
            State::HardUnderway { .. } => None,
            State::SoftRerouteTriggered { incumbent } => Some(incumbent),
            State::SoftRerouteProceeding { incumbent, .. } => Some(incumbent),
            State::SoftRerouteInitiated { incumbent, .. } => Some(incumbent),
            State::AwaitingSwitchover { incumbent, .. } => Some(incumbent),
        }
    }

    pub fn rerouting(self) -> Option<u16> {
        match self {
            State::Null => None,
            State::ReroutingIdle { .. } => None,
            State::HardWaiting => None,
            State::HardUnderway { rerouting } => Some(rerouting),
            State::SoftRerouteTriggered { .. } => None,
            State::SoftRerouteProceeding { rerouting, .. } => Some(rerouting),
            State::SoftRerouteInitiated { rerouting, .. } => Some(rerouting),
            State::AwaitingSwitchover { rerouting, .. } => Some(rerouting),
        }
    }
}

/// The record of one call (01, "The table and its records").
#[derive(Clone, Copy, Debug, PartialEq, Eq)]
pub struct Call {
    pub key: u32,
    pub hard: bool,
    pub soft: Soft,
    pub state: State,
    /// The last connection number given.
    pub last: u16,
    /// The remote incarnation number.
    pub remote: u32,
}

/// What one event hands back.
#[derive(Clone, Copy, Debug, PartialEq, Eq)]
pub struct Outcome {
    pub answer: Answer,
    pub call: Call,
    pub signals: Signals,
}

impl Outcome {
    /// The call reaches Null and its record is emptied (01, "The table and its records").
    pub fn ended(signals: Signals) -> Self {
        Self { answer: Answer::Done, call: Call::EMPTY, signals }
    }
}

impl Call {
    pub const EMPTY: Self =
        Self { key: 0, hard: false, soft: Soft::None, state: State::Null, last: 0, remote: 0 };

    /// A new call, Idle on number 1 (01, "The table and its records"). Keys and places are the
    /// table's matter. Hard off with soft none is allowed (decision 14).
    pub fn open(key: u32, named: Option<Services>) -> Outcome {
        let Services { hard, soft } = named.unwrap_or(Services::UNNAMED);
        let state = State::ReroutingIdle { incumbent: 1 };
        let call = Self { key, hard, soft, state, last: 1, remote: 0 };
        call.kept(SILENT)
    }

    /// The record after an event at that end, with its answer and its signals.
    pub fn after(self, node: Node, event: Event) -> Outcome {
        match node {
            Node::Source => source::after(self, event),
            Node::Destination => destination::after(self, event),
        }
    }

    /// Nothing changes and nothing is sent (01, "Numbers of refusal").
    pub fn refused(self, answer: Answer) -> Outcome {
        Outcome { answer, call: self, signals: SILENT }
    }

    pub fn kept(self, signals: Signals) -> Outcome {
        Outcome { answer: Answer::Done, call: self, signals }
    }

    pub fn moved(self, state: State, signals: Signals) -> Outcome {
        Self { state, ..self }.kept(signals)
    }

    /// The number of a later connection: the last plus 1, or nothing at 65,535.
    pub fn next_number(self) -> Option<u16> {
        self.last.checked_add(1)
    }

    /// A setup sent on a new connection, or nothing at 65,535.
    pub fn setup_sent(self, proceeding: impl FnOnce(u16) -> State) -> Option<Outcome> {
        let rerouting = self.next_number()?;
        let call = Self { last: rerouting, state: proceeding(rerouting), ..self };
        Some(call.kept(one(Signal::setup(rerouting))))
    }

    /// A setup accepted on a new connection, its number stored, or 108 at 65,535.
    pub fn setup_accepted(
        self,
        remote: u32,
        initiated: impl FnOnce(u16) -> State,
        signals: Signals,
    ) -> Outcome {
        match self.next_number() {
            Some(rerouting) => {
                let state = initiated(rerouting);
                Self { last: rerouting, remote, state, ..self }.kept(signals)
            }
            None => self.refused(Answer::NumbersSpent),
        }
    }

    /// A setup rejected with #8 or #5 leaves the record as it was, with answer 0 (01, "Setup"; 02,
    /// Ask 3).
    pub fn rejected(self, cause: ReroutingCause) -> Outcome {
        self.kept(one(Signal::reject(cause)))
    }

    /// A setup rejected with #6, with answer 0: its number is stored, at 65,535 too, and nothing
    /// else of the record moves (02, Ask 3, which amends 01, "Setup"; 6.2.7; decision 79).
    pub fn rejected_in_progress(self, remote: u32) -> Outcome {
        Self { remote, ..self }.kept(one(Signal::reject(ReroutingCause::ALREADY_IN_PROGRESS)))
    }
}
