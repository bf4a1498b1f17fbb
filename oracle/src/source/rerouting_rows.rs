//! The rows of seven events at the source node: trigger, path found, no path, connect, setup, ready
//! and timer expiry.
//!
//! Each event is one match over the states, every cell written out. The checks of 01, "Numbers of
//! refusal", run in their order: meaning (106), connection (107), numbers (108). Services are not
//! checked against the state (decision 15), but where a row of 106 names a service.

use crate::call::State::{
    self, HardUnderway as HardRerouteProceeding, HardWaiting as HardRerouteTriggered,
};
use crate::call::{Call, Outcome, Soft};
use crate::vocabulary::{
    one, two, Answer, Policy, ReroutingCause, SentCause, Signal, Signals, SwitchoverCode, SILENT,
};

const COMPLETE: SentCause = SentCause::Number(ReroutingCause::OPERATION_COMPLETE);
const FAILED: SentCause = SentCause::Number(ReroutingCause::FAILED_TO_RECOVER);

/// A soft trigger (01, "Soft trigger"; 6.2.5.3). With soft none it is without meaning in every
/// state (01, 106; decision 9).
pub fn trigger(call: Call) -> Outcome {
    if call.soft == Soft::None {
        return call.refused(Answer::WithoutMeaning);
    }
    match call.state {
        // Decision 26.
        State::Null => call.refused(Answer::WithoutMeaning),
        // 6.2.5.3 case 1.
        State::ReroutingIdle { incumbent } => {
            call.moved(State::SoftRerouteTriggered { incumbent }, SILENT)
        }
        // 6.2.5.3 case 2: disregarded, here and in the rest.
        HardRerouteTriggered => call.kept(SILENT),
        // 6.2.5.3 case 2.
        HardRerouteProceeding { .. } => call.kept(SILENT),
        // 6.2.5.3 case 2.
        State::SoftRerouteTriggered { .. } => call.kept(SILENT),
        // 6.2.5.3 case 2.
        State::SoftRerouteProceeding { .. } => call.kept(SILENT),
        // 6.2.5.3 case 2.
        State::SoftRerouteInitiated { .. } => call.kept(SILENT),
        // 6.2.5.3 case 2.
        State::AwaitingSwitchover { .. } => call.kept(SILENT),
    }
}

/// A path was found (01, "Path found").
pub fn path_found(call: Call) -> Outcome {
    match call.state {
        // Decision 26.
        State::Null => call.refused(Answer::WithoutMeaning),
        // 01, 106: a path answer outside the two Triggered states.
        State::ReroutingIdle { .. } => call.refused(Answer::WithoutMeaning),
        // 6.2.5.1; 01, 108 at 65,535. The timer runs on (decision 19).
        HardRerouteTriggered => call
            .setup_sent(|rerouting| HardRerouteProceeding { rerouting })
            .unwrap_or(call.refused(Answer::NumbersSpent)),
        // 01, 106.
        HardRerouteProceeding { .. } => call.refused(Answer::WithoutMeaning),
        // 6.2.5.3 case 1; 01, 108 at 65,535.
        State::SoftRerouteTriggered { incumbent } => call
            .setup_sent(|rerouting| State::SoftRerouteProceeding { incumbent, rerouting })
            .unwrap_or(call.refused(Answer::NumbersSpent)),
        // 01, 106.
        State::SoftRerouteProceeding { .. } => call.refused(Answer::WithoutMeaning),
        // 01, 106.
        State::SoftRerouteInitiated { .. } => call.refused(Answer::WithoutMeaning),
        // 01, 106.
        State::AwaitingSwitchover { .. } => call.refused(Answer::WithoutMeaning),
    }
}

/// No path was found (01, "No path").
pub fn no_path(call: Call) -> Outcome {
    match call.state {
        // Decision 26.
        State::Null => call.refused(Answer::WithoutMeaning),
        // 01, 106: a path answer outside the two Triggered states.
        State::ReroutingIdle { .. } => call.refused(Answer::WithoutMeaning),
        // 01, "No path": it stays and the timer decides. 6.2.5.1 would clear the call.
        HardRerouteTriggered => call.kept(SILENT),
        // 01, 106.
        HardRerouteProceeding { .. } => call.refused(Answer::WithoutMeaning),
        // 01, "No path"; 6.2.5.3 case 1.
        State::SoftRerouteTriggered { incumbent } => {
            call.moved(State::ReroutingIdle { incumbent }, SILENT)
        }
        // 01, 106.
        State::SoftRerouteProceeding { .. } => call.refused(Answer::WithoutMeaning),
        // 01, 106.
        State::SoftRerouteInitiated { .. } => call.refused(Answer::WithoutMeaning),
        // 01, 106.
        State::AwaitingSwitchover { .. } => call.refused(Answer::WithoutMeaning),
    }
}

/// A connect for the connection named (01, "Connect").
pub fn connect(call: Call, named: u16, policy: Policy) -> Outcome {
    match call.state {
        // Decision 26.
        State::Null => call.refused(Answer::WithoutMeaning),
        // 01, 106: a connect outside the two Proceeding states.
        State::ReroutingIdle { .. } => call.refused(Answer::WithoutMeaning),
        // 01, 106.
        HardRerouteTriggered => call.refused(Answer::WithoutMeaning),
        // 6.2.6.1, policy not read; 01, 107.
        HardRerouteProceeding { rerouting } => connect_in_hard_proceeding(call, rerouting, named),
        // 01, 106.
        State::SoftRerouteTriggered { .. } => call.refused(Answer::WithoutMeaning),
        // 6.2.6.2; 01, 107.
        State::SoftRerouteProceeding { incumbent, rerouting } => {
            connect_in_soft_proceeding(call, incumbent, rerouting, named, policy)
        }
        // 01, 106.
        State::SoftRerouteInitiated { .. } => call.refused(Answer::WithoutMeaning),
        // 01, 106.
        State::AwaitingSwitchover { .. } => call.refused(Answer::WithoutMeaning),
    }
}

fn connect_in_hard_proceeding(call: Call, rerouting: u16, named: u16) -> Outcome {
    if named != rerouting {
        return call.refused(Answer::WrongConnection);
    }
    let switched = State::ReroutingIdle { incumbent: rerouting };
    call.moved(switched, two(Signal::TIMER_STOP, Signal::switch(rerouting)))
}

/// A number held twice names the incumbent, so its connect is 107 (decision 26).
fn connect_in_soft_proceeding(
    call: Call,
    incumbent: u16,
    rerouting: u16,
    named: u16,
    policy: Policy,
) -> Outcome {
    if named == incumbent || named != rerouting {
        return call.refused(Answer::WrongConnection);
    }
    match policy {
        Policy::No => {
            let rejected = one(Signal::rerouting_rejected(rerouting));
            call.moved(State::ReroutingIdle { incumbent }, rejected)
        }
        Policy::Yes => {
            let released = Signal::release_incumbent(incumbent, COMPLETE);
            let switched = State::ReroutingIdle { incumbent: rerouting };
            call.moved(switched, two(Signal::switch(rerouting), released))
        }
    }
}

/// A setup from the neighbour (01, "Setup", rows 1 and 2; 6.2.7). Meaning is tested before any
/// rejection (01, 106; decisions 13 and 26). The rejections #8 and #5 come before the number is
/// stored, and leave the record as it was (02, Ask 3; decision 79).
pub fn setup(call: Call, switchover: SwitchoverCode, number: u32) -> Outcome {
    if call.state == State::Null || call.soft != Soft::Symmetric {
        return call.refused(Answer::WithoutMeaning);
    }
    if switchover != SwitchoverCode::CLEARING {
        return call.rejected(ReroutingCause::UNSUPPORTED_SWITCHOVER);
    }
    if number <= call.remote {
        return call.rejected(ReroutingCause::OLD_INCARNATION_NUMBER);
    }
    soft_setup(call, number)
}

/// Rows 3 to 5 of 01, "Setup": the switchover code and the number stood the test. So the number is
/// stored before the state is looked at, and a setup rejected with #6 leaves it on record (6.2.7;
/// 02, Ask 3, which amends 01; decision 79). A setup that is refused stores nothing (01, 108).
fn soft_setup(call: Call, number: u32) -> Outcome {
    match call.state {
        // Decision 26.
        State::Null => call.refused(Answer::WithoutMeaning),
        // Row 4; 6.2.7.1. The connect waits for "ready".
        State::ReroutingIdle { incumbent } => accepted(call, incumbent, number, SILENT),
        // Row 3; 6.2.7.2; 02, Ask 3.
        HardRerouteTriggered => call.rejected_in_progress(number),
        // Row 3; 6.2.7.3; 02, Ask 3.
        HardRerouteProceeding { .. } => call.rejected_in_progress(number),
        // Row 3; 6.2.7.4; 02, Ask 3.
        State::SoftRerouteTriggered { .. } => call.rejected_in_progress(number),
        // Row 3; 6.2.7.5; 02, Ask 3.
        State::SoftRerouteProceeding { .. } => call.rejected_in_progress(number),
        // Row 5; 6.2.7.6.
        State::SoftRerouteInitiated { incumbent, rerouting } => {
            accepted(call, incumbent, number, older_released(rerouting))
        }
        // Row 5; 6.2.7.7.
        State::AwaitingSwitchover { incumbent, rerouting } => {
            accepted(call, incumbent, number, older_released(rerouting))
        }
    }
}

/// The node is ready to connect (01, "Ready"; 6.2.7.8).
pub fn ready(call: Call) -> Outcome {
    match call.state {
        // Decision 26.
        State::Null => call.refused(Answer::WithoutMeaning),
        // 01, 106: "ready" outside Soft Reroute Initiated.
        State::ReroutingIdle { .. } => call.refused(Answer::WithoutMeaning),
        // 01, 106.
        HardRerouteTriggered => call.refused(Answer::WithoutMeaning),
        // 01, 106.
        HardRerouteProceeding { .. } => call.refused(Answer::WithoutMeaning),
        // 01, 106.
        State::SoftRerouteTriggered { .. } => call.refused(Answer::WithoutMeaning),
        // 01, 106.
        State::SoftRerouteProceeding { .. } => call.refused(Answer::WithoutMeaning),
        // 6.2.7.8.
        State::SoftRerouteInitiated { incumbent, rerouting } => {
            let awaiting = State::AwaitingSwitchover { incumbent, rerouting };
            call.moved(awaiting, one(Signal::connect(rerouting)))
        }
        // 01, 106.
        State::AwaitingSwitchover { .. } => call.refused(Answer::WithoutMeaning),
    }
}

/// The hard rerouting timer expires (01, "Timer expiry"; 6.2.5.2). No timer stop is sent
/// (decision 19).
pub fn timer_expiry(call: Call) -> Outcome {
    match call.state {
        // Decision 26.
        State::Null => call.refused(Answer::WithoutMeaning),
        // 01, 106: timer expiry outside the two Hard states.
        State::ReroutingIdle { .. } => call.refused(Answer::WithoutMeaning),
        // 6.2.5.2 item 1.
        HardRerouteTriggered => Outcome::ended(one(Signal::release_calling(FAILED))),
        // 6.2.5.2 item 2.
        HardRerouteProceeding { rerouting } => Outcome::ended(two(
            Signal::release_calling(FAILED),
            Signal::release_rerouting(rerouting, FAILED),
        )),
        // 01, 106.
        State::SoftRerouteTriggered { .. } => call.refused(Answer::WithoutMeaning),
        // 01, 106.
        State::SoftRerouteProceeding { .. } => call.refused(Answer::WithoutMeaning),
        // 01, 106.
        State::SoftRerouteInitiated { .. } => call.refused(Answer::WithoutMeaning),
        // 01, 106.
        State::AwaitingSwitchover { .. } => call.refused(Answer::WithoutMeaning),
    }
}

/// On a new connection, its number stored (01, "Setup", rows 4 and 5).
fn accepted(call: Call, incumbent: u16, number: u32, signals: Signals) -> Outcome {
    let initiated = |rerouting| State::SoftRerouteInitiated { incumbent, rerouting };
    call.setup_accepted(number, initiated, signals)
}

/// The older connection is released on its own number, cause absent (01, "Setup"; decision 11).
fn older_released(rerouting: u16) -> Signals {
    one(Signal::release_rerouting(rerouting, SentCause::Absent))
}
