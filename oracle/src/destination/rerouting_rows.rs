//! The rows of six events at the destination node: trigger, path found, no path, connect, ready and
//! timer expiry.
//!
//! Each event is one match over the states, every cell written out. The checks of 01, "Numbers of
//! refusal", run in their order: meaning (106, as decision 60 lists it for this end), connection
//! (107), numbers (108). Services are not checked against the state (decision 15), but where
//! decision 60 names a service.

use crate::call::State::{
    self, HardUnderway as HardRerouteInitiated, HardWaiting as HardRerouteIndicated,
};
use crate::call::{Call, Outcome, Soft};
use crate::vocabulary::{
    one, three, two, Answer, Policy, ReroutingCause, SentCause, Signal, SILENT,
};

const COMPLETE: SentCause = SentCause::Number(ReroutingCause::OPERATION_COMPLETE);
const FAILED: SentCause = SentCause::Number(ReroutingCause::FAILED_TO_RECOVER);

/// A soft trigger (6.3.6.1, which is for symmetric soft). Without that service it is without
/// meaning in every state (decision 59).
pub fn trigger(call: Call) -> Outcome {
    if call.soft != Soft::Symmetric {
        return call.refused(Answer::WithoutMeaning);
    }
    match call.state {
        // Decision 26.
        State::Null => call.refused(Answer::WithoutMeaning),
        // 6.3.6.1 case 1. The state is taken until the path is answered (decision 59).
        State::ReroutingIdle { incumbent } => {
            call.moved(State::SoftRerouteTriggered { incumbent }, SILENT)
        }
        // 6.3.6.1 case 2: disregarded, here and in the rest.
        HardRerouteIndicated => call.kept(SILENT),
        // 6.3.6.1 case 2.
        HardRerouteInitiated { .. } => call.kept(SILENT),
        // 6.3.6.1 case 2.
        State::SoftRerouteTriggered { .. } => call.kept(SILENT),
        // 6.3.6.1 case 2.
        State::SoftRerouteProceeding { .. } => call.kept(SILENT),
        // 6.3.6.1 case 2.
        State::SoftRerouteInitiated { .. } => call.kept(SILENT),
        // 6.3.6.1 case 2.
        State::AwaitingSwitchover { .. } => call.kept(SILENT),
    }
}

/// A path was found. This end looks for one in Soft Triggered alone (6.3.6.1; decision 60).
pub fn path_found(call: Call) -> Outcome {
    match call.state {
        // Decision 26.
        State::Null => call.refused(Answer::WithoutMeaning),
        // Decision 60: a path answer outside Soft Triggered, here and in the rest.
        State::ReroutingIdle { .. } => call.refused(Answer::WithoutMeaning),
        // Decision 60: the source looks for the hard path.
        HardRerouteIndicated => call.refused(Answer::WithoutMeaning),
        // Decision 60.
        HardRerouteInitiated { .. } => call.refused(Answer::WithoutMeaning),
        // 6.3.6.1 case 1; 01, 108 at 65,535.
        State::SoftRerouteTriggered { incumbent } => call
            .setup_sent(|rerouting| State::SoftRerouteProceeding { incumbent, rerouting })
            .unwrap_or(call.refused(Answer::NumbersSpent)),
        // Decision 60.
        State::SoftRerouteProceeding { .. } => call.refused(Answer::WithoutMeaning),
        // Decision 60. The setup that was accepted here won over a path looked for (decision 73).
        State::SoftRerouteInitiated { .. } => call.refused(Answer::WithoutMeaning),
        // Decision 60.
        State::AwaitingSwitchover { .. } => call.refused(Answer::WithoutMeaning),
    }
}

/// No path was found.
pub fn no_path(call: Call) -> Outcome {
    match call.state {
        // Decision 26.
        State::Null => call.refused(Answer::WithoutMeaning),
        // Decision 60: a path answer outside Soft Triggered, here and in the rest.
        State::ReroutingIdle { .. } => call.refused(Answer::WithoutMeaning),
        // Decision 60.
        HardRerouteIndicated => call.refused(Answer::WithoutMeaning),
        // Decision 60.
        HardRerouteInitiated { .. } => call.refused(Answer::WithoutMeaning),
        // 6.3.6.1 case 1: the trigger is disregarded, and the call is Idle as before it.
        State::SoftRerouteTriggered { incumbent } => {
            call.moved(State::ReroutingIdle { incumbent }, SILENT)
        }
        // Decision 60.
        State::SoftRerouteProceeding { .. } => call.refused(Answer::WithoutMeaning),
        // Decision 60.
        State::SoftRerouteInitiated { .. } => call.refused(Answer::WithoutMeaning),
        // Decision 60.
        State::AwaitingSwitchover { .. } => call.refused(Answer::WithoutMeaning),
    }
}

/// A connect for the connection named (6.3.7, which is for Soft Proceeding alone).
pub fn connect(call: Call, named: u16, policy: Policy) -> Outcome {
    match call.state {
        // Decision 26.
        State::Null => call.refused(Answer::WithoutMeaning),
        // Decision 60: a connect outside Soft Proceeding, here and in the rest.
        State::ReroutingIdle { .. } => call.refused(Answer::WithoutMeaning),
        // Decision 60.
        HardRerouteIndicated => call.refused(Answer::WithoutMeaning),
        // Decision 60: this end answers the hard setup and sends none.
        HardRerouteInitiated { .. } => call.refused(Answer::WithoutMeaning),
        // Decision 60.
        State::SoftRerouteTriggered { .. } => call.refused(Answer::WithoutMeaning),
        // 6.3.7.1; 01, 107.
        State::SoftRerouteProceeding { incumbent, rerouting } => {
            connect_in_soft_proceeding(call, incumbent, rerouting, named, policy)
        }
        // Decision 60. The setup that was accepted here won over the one sent (decision 73).
        State::SoftRerouteInitiated { .. } => call.refused(Answer::WithoutMeaning),
        // Decision 60.
        State::AwaitingSwitchover { .. } => call.refused(Answer::WithoutMeaning),
    }
}

/// A number held twice names the incumbent, so its connect is 107 (decision 26). What is rejected
/// is the rerouting connection itself, though 6.3.7.1 says "in the direction of the called party"
/// (decision 74).
fn connect_in_soft_proceeding(
    call: Call,
    incumbent: u16,
    rerouting: u16,
    named: u16,
    policy: Policy,
) -> Outcome {
    if named == incumbent || named != rerouting {
        return call.refused(Answer::WrongConnection);
    }
    match policy {
        // 6.3.7.1, rejected by local policy.
        Policy::No => {
            let rejected = one(Signal::rerouting_rejected(rerouting));
            call.moved(State::ReroutingIdle { incumbent }, rejected)
        }
        // 6.3.7.1, switched.
        Policy::Yes => {
            let released = Signal::release_incumbent(incumbent, COMPLETE);
            let switched = State::ReroutingIdle { incumbent: rerouting };
            call.moved(switched, two(Signal::switch(rerouting), released))
        }
    }
}

/// The node is ready to connect: an event of its own, though 6.3.5 lets it follow the setup at once
/// (decision 62).
pub fn ready(call: Call) -> Outcome {
    match call.state {
        // Decision 26.
        State::Null => call.refused(Answer::WithoutMeaning),
        // Decision 60: "ready" outside the two Initiated states, here and in the rest.
        State::ReroutingIdle { .. } => call.refused(Answer::WithoutMeaning),
        // Decision 60.
        HardRerouteIndicated => call.refused(Answer::WithoutMeaning),
        // 6.3.5.8. Signals stand in the order of 01, not in the section's (decision 62).
        HardRerouteInitiated { rerouting } => {
            let switched = State::ReroutingIdle { incumbent: rerouting };
            let (switch, connect) = (Signal::switch(rerouting), Signal::connect(rerouting));
            call.moved(switched, three(Signal::TIMER_STOP, switch, connect))
        }
        // Decision 60.
        State::SoftRerouteTriggered { .. } => call.refused(Answer::WithoutMeaning),
        // Decision 60.
        State::SoftRerouteProceeding { .. } => call.refused(Answer::WithoutMeaning),
        // 6.3.5.9.
        State::SoftRerouteInitiated { incumbent, rerouting } => {
            let awaiting = State::AwaitingSwitchover { incumbent, rerouting };
            call.moved(awaiting, one(Signal::connect(rerouting)))
        }
        // Decision 60.
        State::AwaitingSwitchover { .. } => call.refused(Answer::WithoutMeaning),
    }
}

/// The hard rerouting timer expires (6.3.5.10; decision 70). No timer stop is sent (decision 64).
pub fn timer_expiry(call: Call) -> Outcome {
    match call.state {
        // Decision 26.
        State::Null => call.refused(Answer::WithoutMeaning),
        // Decision 60: timer expiry outside the two Hard states, here and in the rest.
        State::ReroutingIdle { .. } => call.refused(Answer::WithoutMeaning),
        // 6.3.5.10 item 1.
        HardRerouteIndicated => Outcome::ended(one(Signal::release_called(FAILED))),
        // 6.3.5.10 item 2.
        HardRerouteInitiated { rerouting } => Outcome::ended(two(
            Signal::release_called(FAILED),
            Signal::release_rerouting(rerouting, FAILED),
        )),
        // Decision 60.
        State::SoftRerouteTriggered { .. } => call.refused(Answer::WithoutMeaning),
        // Decision 60.
        State::SoftRerouteProceeding { .. } => call.refused(Answer::WithoutMeaning),
        // Decision 60.
        State::SoftRerouteInitiated { .. } => call.refused(Answer::WithoutMeaning),
        // Decision 60.
        State::AwaitingSwitchover { .. } => call.refused(Answer::WithoutMeaning),
    }
}
