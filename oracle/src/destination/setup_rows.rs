//! The rows of setups at the destination node (6.3.5).
//!
//! The checks run in the order of decision 71: 106, #8, #5, then 108 with the row. No setup is
//! rejected with #6 at this end: one from the far side wins over what this end began (decision 73).

use crate::call::State::{
    self, HardUnderway as HardRerouteInitiated, HardWaiting as HardRerouteIndicated,
};
use crate::call::{Call, Outcome, Soft};
use crate::vocabulary::{
    one, three, two, Answer, ReroutingCause, SentCause, Signal, Signals, SwitchoverCode, SILENT,
};

/// What the switchover behaviour makes of a setup (6.3.5).
#[derive(Clone, Copy, Debug, PartialEq, Eq)]
enum SetupKind {
    /// Switchover immediately.
    Hard,
    /// Switchover when receiving the call clearing message for the incumbent connection.
    Soft,
    Unrecognized,
}

fn kind_of(switchover: SwitchoverCode) -> SetupKind {
    match switchover {
        SwitchoverCode::IMMEDIATE => SetupKind::Hard,
        SwitchoverCode::CLEARING => SetupKind::Soft,
        SwitchoverCode(_) => SetupKind::Unrecognized,
    }
}

/// A setup from the far side. It is without meaning only where the call has no service at all:
/// 6.3.5 reads none, and a key is given out with any (6.3.2; decision 58). Each rejection comes
/// before the number is stored.
pub fn setup(call: Call, switchover: SwitchoverCode, number: u32) -> Outcome {
    let without_service = !call.hard && call.soft == Soft::None;
    if call.state == State::Null || without_service {
        return call.refused(Answer::WithoutMeaning);
    }
    let kind = kind_of(switchover);
    if kind == SetupKind::Unrecognized && !hard_state(call.state) {
        return call.rejected(ReroutingCause::UNSUPPORTED_SWITCHOVER);
    }
    if number <= call.remote {
        return call.rejected(ReroutingCause::OLD_INCARNATION_NUMBER);
    }
    match kind {
        SetupKind::Hard => hard_setup(call, number),
        SetupKind::Soft => soft_setup(call, number),
        // 6.3.5: in the two Hard states processed as a hard one; elsewhere rejected above.
        SetupKind::Unrecognized => hard_setup(call, number),
    }
}

/// In these the switchover code is not read at all (6.3.5; decision 71).
fn hard_state(state: State) -> bool {
    match state {
        HardRerouteIndicated => true,
        HardRerouteInitiated { .. } => true,
        State::Null => false,
        State::ReroutingIdle { .. } => false,
        State::SoftRerouteTriggered { .. } => false,
        State::SoftRerouteProceeding { .. } => false,
        State::SoftRerouteInitiated { .. } => false,
        State::AwaitingSwitchover { .. } => false,
    }
}

/// A hard setup whose number stood the test. The connect waits for "ready" (decision 62).
fn hard_setup(call: Call, number: u32) -> Outcome {
    match call.state {
        // Decision 26.
        State::Null => call.refused(Answer::WithoutMeaning),
        // 6.3.5.1 case 1.
        State::ReroutingIdle { incumbent } => {
            to_hard_initiated(call, number, incumbent_replaced(incumbent))
        }
        // 6.3.5.2 case 1: the timer runs already.
        HardRerouteIndicated => to_hard_initiated(call, number, SILENT),
        // 6.3.5.3 case 1: the timer runs on.
        HardRerouteInitiated { rerouting } => {
            to_hard_initiated(call, number, one(Signal::rerouting_rejected(rerouting)))
        }
        // 6.3.5.6, as 6.3.5.1 case 1.
        State::SoftRerouteTriggered { incumbent } => {
            to_hard_initiated(call, number, incumbent_replaced(incumbent))
        }
        // 6.3.5.7 case 1.
        State::SoftRerouteProceeding { incumbent, rerouting } => {
            to_hard_initiated(call, number, both_rejected(incumbent, rerouting))
        }
        // 6.3.5.4 case 1.
        State::SoftRerouteInitiated { incumbent, rerouting } => {
            to_hard_initiated(call, number, both_rejected(incumbent, rerouting))
        }
        // 6.3.5.5, as 6.3.5.4 case 1.
        State::AwaitingSwitchover { incumbent, rerouting } => {
            to_hard_initiated(call, number, both_rejected(incumbent, rerouting))
        }
    }
}

/// A soft setup whose number stood the test. The connect waits for "ready" (decision 62).
fn soft_setup(call: Call, number: u32) -> Outcome {
    match call.state {
        // Decision 26.
        State::Null => call.refused(Answer::WithoutMeaning),
        // 6.3.5.1 case 2.
        State::ReroutingIdle { incumbent } => to_soft_initiated(call, number, incumbent, SILENT),
        // 6.3.5.2 case 1: a soft one too.
        HardRerouteIndicated => hard_setup(call, number),
        // 6.3.5.3 case 1: a soft one too.
        HardRerouteInitiated { .. } => hard_setup(call, number),
        // 6.3.5.6, as 6.3.5.1 case 2.
        State::SoftRerouteTriggered { incumbent } => {
            to_soft_initiated(call, number, incumbent, SILENT)
        }
        // 6.3.5.7 case 2.
        State::SoftRerouteProceeding { incumbent, rerouting } => {
            to_soft_initiated(call, number, incumbent, one(Signal::rerouting_rejected(rerouting)))
        }
        // 6.3.5.4 case 2.
        State::SoftRerouteInitiated { incumbent, rerouting } => {
            to_soft_initiated(call, number, incumbent, one(Signal::rerouting_rejected(rerouting)))
        }
        // 6.3.5.5, as 6.3.5.4 case 2.
        State::AwaitingSwitchover { incumbent, rerouting } => {
            to_soft_initiated(call, number, incumbent, one(Signal::rerouting_rejected(rerouting)))
        }
    }
}

fn to_hard_initiated(call: Call, number: u32, signals: Signals) -> Outcome {
    call.setup_accepted(number, |rerouting| HardRerouteInitiated { rerouting }, signals)
}

fn to_soft_initiated(call: Call, number: u32, incumbent: u16, signals: Signals) -> Outcome {
    let initiated = |rerouting| State::SoftRerouteInitiated { incumbent, rerouting };
    call.setup_accepted(number, initiated, signals)
}

/// 6.3.5.1 case 1 names no cause for the incumbent's release: its Cause code is that of section
/// 6.6, not #21 (decision 72).
fn incumbent_replaced(incumbent: u16) -> Signals {
    two(Signal::TIMER_START, Signal::release_incumbent(incumbent, SentCause::Absent))
}

/// 6.3.5.4 case 1 and 6.3.5.7 case 1: both with #21, the Cause code (decision 72).
fn both_rejected(incumbent: u16, rerouting: u16) -> Signals {
    three(
        Signal::TIMER_START,
        Signal::incumbent_rejected(incumbent),
        Signal::rerouting_rejected(rerouting),
    )
}
