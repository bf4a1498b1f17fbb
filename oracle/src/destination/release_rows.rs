//! The rows of the two releases at the destination node (6.3.4): from the called side and from the
//! calling side.
//!
//! Each release is one match over the states; what a state does with a release from the calling
//! side stands in a function of its own. The connection whose release was received has ended, so no
//! row releases it again (01, "Events and rows").

use crate::call::State::{
    self, HardUnderway as HardRerouteInitiated, HardWaiting as HardRerouteIndicated,
};
use crate::call::{Call, Outcome};
use crate::vocabulary::{
    one, two, Answer, Crankback, DomainRelease, ReroutingCause, SentCause, Signal, SILENT,
};

const OUTSIDE: SentCause = SentCause::Number(ReroutingCause::OUTSIDE_ANY_DOMAIN);
const FAILED: SentCause = SentCause::Number(ReroutingCause::FAILED_TO_RECOVER);

/// A release from the called side, with a Rerouting cause or none (decision 66).
pub fn called_release(call: Call, cause: Option<ReroutingCause>) -> Outcome {
    match call.state {
        // Decision 26.
        State::Null => call.refused(Answer::WithoutMeaning),
        // 6.3.4.2 cases 1 and 2.
        State::ReroutingIdle { incumbent } => {
            Outcome::ended(one(Signal::release_incumbent(incumbent, passed_on(call, cause))))
        }
        // 6.3.4.3 case 1: no connection is held, so the timer alone is cleared.
        HardRerouteIndicated => Outcome::ended(one(Signal::TIMER_STOP)),
        // 6.3.4.4 cases 1 and 2.
        HardRerouteInitiated { rerouting } => called_release_in_hard_initiated(rerouting, cause),
        // 6.3.4.7; decision 65.
        State::SoftRerouteTriggered { incumbent } => called_release_in_soft_triggered(incumbent),
        // 6.3.4.8 cases 1 and 2.
        State::SoftRerouteProceeding { incumbent, rerouting } => {
            both_released(incumbent, rerouting, passed_on(call, cause))
        }
        // 6.3.4.5 cases 1 and 2.
        State::SoftRerouteInitiated { incumbent, rerouting } => {
            both_released(incumbent, rerouting, passed_on(call, cause))
        }
        // 6.3.4.6 cases 1 and 2.
        State::AwaitingSwitchover { incumbent, rerouting } => {
            both_released(incumbent, rerouting, passed_on(call, cause))
        }
    }
}

/// The cause that goes on towards the calling side: unmodified where one came, else #1 with hard on
/// and none with hard off (6.3.4.2 and 6.3.4.5, cases 1 and 2).
fn passed_on(call: Call, cause: Option<ReroutingCause>) -> SentCause {
    match (cause, call.hard) {
        (Some(received), _) => SentCause::AsReceived(received),
        (None, true) => OUTSIDE,
        (None, false) => SentCause::Absent,
    }
}

fn both_released(incumbent: u16, rerouting: u16, cause: SentCause) -> Outcome {
    Outcome::ended(two(
        Signal::release_incumbent(incumbent, cause),
        Signal::release_rerouting(rerouting, cause),
    ))
}

/// 6.3.4.4 cases 1 and 2: a cause goes on unmodified, and without one #1 is put in whether hard is
/// on or off (decision 66).
fn called_release_in_hard_initiated(rerouting: u16, cause: Option<ReroutingCause>) -> Outcome {
    let sent = match cause {
        Some(received) => SentCause::AsReceived(received),
        None => OUTSIDE,
    };
    Outcome::ended(two(Signal::TIMER_STOP, Signal::release_rerouting(rerouting, sent)))
}

/// 6.3.4.7 refers to 6.3.4.1 alone, taken to the letter (decision 65): normal clearing without a
/// Rerouting cause. Neither the cause nor hard is read, and no #1 is put in: unlike 6.2.4.1,
/// 6.3.4.1 has no case for it.
fn called_release_in_soft_triggered(incumbent: u16) -> Outcome {
    Outcome::ended(one(Signal::release_incumbent(incumbent, SentCause::Absent)))
}

/// A release from the calling side, for the connection that it names (decisions 67 to 69).
pub fn calling_release(call: Call, release: DomainRelease) -> Outcome {
    match call.state {
        // Decision 26.
        State::Null => call.refused(Answer::WithoutMeaning),
        // 6.3.4.2 cases 3 and 4.
        State::ReroutingIdle { incumbent } => calling_release_in_idle(call, incumbent, release),
        // Decisions 60 and 69: nothing is held.
        HardRerouteIndicated => call.refused(Answer::WrongConnection),
        // 6.3.4.4 cases 3 and 4.
        HardRerouteInitiated { rerouting } => {
            calling_release_in_hard_initiated(call, rerouting, release)
        }
        // 6.3.4.7; decision 65.
        State::SoftRerouteTriggered { incumbent } => {
            calling_release_in_soft_triggered(call, incumbent, release)
        }
        // 6.3.4.8 cases 3 to 6.
        State::SoftRerouteProceeding { incumbent, rerouting } => {
            calling_release_in_soft_proceeding(call, incumbent, rerouting, release)
        }
        // 6.3.4.5 cases 3 to 5.
        State::SoftRerouteInitiated { incumbent, rerouting } => {
            calling_release_in_soft_initiated(call, incumbent, rerouting, release)
        }
        // 6.3.4.6 cases 3 to 6.
        State::AwaitingSwitchover { incumbent, rerouting } => {
            calling_release_in_awaiting(call, incumbent, rerouting, release)
        }
    }
}

/// The cause is read also with hard off (6.3.4.2 case 3; decision 68).
fn calling_release_in_idle(call: Call, incumbent: u16, release: DomainRelease) -> Outcome {
    if release.connection != incumbent {
        return call.refused(Answer::WrongConnection);
    }
    match (release.cause, call.hard) {
        // 6.3.4.2 case 3.
        (Some(cause), _) => Outcome::ended(one(Signal::release_called(forwarded(cause)))),
        // 6.3.4.2 case 3, no cause to forward.
        (None, false) => Outcome::ended(one(Signal::release_called(SentCause::Absent))),
        // 6.3.4.2 case 4.
        (None, true) => call.moved(HardRerouteIndicated, one(Signal::TIMER_START)),
    }
}

/// Neither hard nor crankback is read, and no number is taken: case 4 is the same at 65,535
/// (decision 69).
fn calling_release_in_hard_initiated(
    call: Call,
    rerouting: u16,
    release: DomainRelease,
) -> Outcome {
    if release.connection != rerouting {
        return call.refused(Answer::WrongConnection);
    }
    match release.cause {
        // 6.3.4.4 case 3.
        Some(cause) => {
            Outcome::ended(two(Signal::TIMER_STOP, Signal::release_called(forwarded(cause))))
        }
        // 6.3.4.4 case 4: the timer runs on.
        None => call.moved(HardRerouteIndicated, SILENT),
    }
}

/// 6.3.4.7 refers to 6.3.4.1 alone, taken to the letter (decision 65): the call is cleared without
/// a Rerouting cause. Neither hard, cause nor crankback is read.
fn calling_release_in_soft_triggered(
    call: Call,
    incumbent: u16,
    release: DomainRelease,
) -> Outcome {
    if release.connection != incumbent {
        return call.refused(Answer::WrongConnection);
    }
    Outcome::ended(one(Signal::release_called(SentCause::Absent)))
}

fn calling_release_in_soft_proceeding(
    call: Call,
    incumbent: u16,
    rerouting: u16,
    release: DomainRelease,
) -> Outcome {
    if release.connection == incumbent {
        // 6.3.4.8 case 4: the source will send a hard setup, so the connection begun here is
        // cleared. #21 is the Cause code, without a Rerouting cause (decisions 12 and 68).
        let started = two(Signal::TIMER_START, Signal::rerouting_rejected(rerouting));
        return soft_incumbent_cleared(call.hard, rerouting, release.cause)
            .unwrap_or(call.moved(HardRerouteIndicated, started));
    }
    if release.connection != rerouting {
        return call.refused(Answer::WrongConnection);
    }
    let idle = call.moved(State::ReroutingIdle { incumbent }, SILENT);
    // The cause is not read (decision 69).
    match release.crankback {
        // 6.3.4.8 case 5; at 65,535 as if none was found (decision 69).
        Crankback::AlternateFound => call
            .setup_sent(|rerouting| State::SoftRerouteProceeding { incumbent, rerouting })
            .unwrap_or(idle),
        // 6.3.4.8 case 6 item 1.
        Crankback::NoneFound => idle,
        // 6.3.4.8 case 6 item 2.
        Crankback::None => idle,
    }
}

fn calling_release_in_soft_initiated(
    call: Call,
    incumbent: u16,
    rerouting: u16,
    release: DomainRelease,
) -> Outcome {
    if release.connection == incumbent {
        // 6.3.4.5 case 4: the setup that came goes on as a hard one.
        let hard = HardRerouteInitiated { rerouting };
        return soft_incumbent_cleared(call.hard, rerouting, release.cause)
            .unwrap_or(call.moved(hard, one(Signal::TIMER_START)));
    }
    if release.connection != rerouting {
        return call.refused(Answer::WrongConnection);
    }
    // 6.3.4.5 case 5: neither cause nor crankback is read.
    call.moved(State::ReroutingIdle { incumbent }, SILENT)
}

/// Neither hard (decision 68) nor crankback (decision 69) is read here.
fn calling_release_in_awaiting(
    call: Call,
    incumbent: u16,
    rerouting: u16,
    release: DomainRelease,
) -> Outcome {
    if release.connection == incumbent {
        return awaiting_incumbent_released(call, rerouting, release.cause);
    }
    if release.connection != rerouting {
        return call.refused(Answer::WrongConnection);
    }
    match release.cause {
        // 6.3.4.6 case 6, as 6.3.4.5 case 5.
        None => call.moved(State::ReroutingIdle { incumbent }, SILENT),
        // 6.3.4.6 case 5: the incumbent's release has no Rerouting cause, and #4 is a cause like
        // others here (decision 69).
        Some(cause) => Outcome::ended(two(
            Signal::release_called(forwarded(cause)),
            Signal::release_incumbent(incumbent, SentCause::Absent),
        )),
    }
}

/// The incumbent is not released again, as D33-6 and D33-7 would have it (decision 68).
fn awaiting_incumbent_released(
    call: Call,
    rerouting: u16,
    cause: Option<ReroutingCause>,
) -> Outcome {
    let idle = State::ReroutingIdle { incumbent: rerouting };
    let switched = call.moved(idle, one(Signal::switch(rerouting)));
    match cause {
        // 6.3.4.6 case 4 item 1.
        None => switched,
        // 6.3.4.6 case 4 item 2.
        Some(ReroutingCause::OPERATION_COMPLETE) => switched,
        // 6.3.4.6 case 3, with the actions of 6.3.4.5 case 3.
        Some(cause) => called_and_rerouting_released(rerouting, forwarded(cause)),
    }
}

/// 6.3.4.5 case 3, which 6.3.4.8 case 3 shares: the cause is read also with hard off. Nothing where
/// case 4 of either applies: hard on and no cause.
fn soft_incumbent_cleared(
    hard: bool,
    rerouting: u16,
    cause: Option<ReroutingCause>,
) -> Option<Outcome> {
    match (cause, hard) {
        (Some(cause), _) => Some(called_and_rerouting_released(rerouting, forwarded(cause))),
        (None, false) => Some(called_and_rerouting_released(rerouting, SentCause::Absent)),
        (None, true) => None,
    }
}

/// The cause goes on towards the called party alone: of the rerouting connection's own release
/// 6.3.4.5 case 3 says no Rerouting cause (decision 68).
fn called_and_rerouting_released(rerouting: u16, cause: SentCause) -> Outcome {
    Outcome::ended(two(
        Signal::release_called(cause),
        Signal::release_rerouting(rerouting, SentCause::Absent),
    ))
}

/// "Forwarded without modification" for #1, any other cause set to #2 (decision 67).
fn forwarded(cause: ReroutingCause) -> SentCause {
    match cause {
        ReroutingCause::OUTSIDE_ANY_DOMAIN => SentCause::AsReceived(cause),
        _ => FAILED,
    }
}
