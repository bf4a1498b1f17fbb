//! The rows of the two releases at the source node: from the calling side and from the called side.
//!
//! Each release is one match over the states; what a state does with a release from the called
//! side stands in a function of its own. The connection whose release was received has ended, so no
//! row releases it again (01, "Events and rows").

use crate::call::State::{
    self, HardUnderway as HardRerouteProceeding, HardWaiting as HardRerouteTriggered,
};
use crate::call::{Call, Outcome};
use crate::vocabulary::{
    one, two, Answer, Crankback, DomainRelease, ReroutingCause, SentCause, Signal, SILENT,
};

const OUTSIDE: SentCause = SentCause::Number(ReroutingCause::OUTSIDE_ANY_DOMAIN);
const FAILED: SentCause = SentCause::Number(ReroutingCause::FAILED_TO_RECOVER);

/// A release from the calling side, with a Rerouting cause or none.
pub fn calling_release(call: Call, cause: Option<ReroutingCause>) -> Outcome {
    match call.state {
        // Decision 26.
        State::Null => call.refused(Answer::WithoutMeaning),
        // 6.2.4.2 cases 1 and 2.
        State::ReroutingIdle { incumbent } => {
            Outcome::ended(one(Signal::release_incumbent(incumbent, passed_on(call, cause))))
        }
        // 6.2.4.3 case 1: no connection is held, so the timer alone is cleared.
        HardRerouteTriggered => Outcome::ended(one(Signal::TIMER_STOP)),
        // 6.2.4.4 cases 1 and 2.
        HardRerouteProceeding { rerouting } => calling_release_in_hard_proceeding(rerouting, cause),
        // 6.2.4.5; decision 1.
        State::SoftRerouteTriggered { incumbent } => {
            calling_release_in_soft_triggered(call, incumbent, cause)
        }
        // 6.2.4.6 cases 1 and 2.
        State::SoftRerouteProceeding { incumbent, rerouting } => {
            both_released(call, incumbent, rerouting, cause)
        }
        // 01, "Release from the calling side"; D18-1 to D18-3.
        State::SoftRerouteInitiated { incumbent, rerouting } => {
            both_released(call, incumbent, rerouting, cause)
        }
        // 01, "Release from the calling side"; D19-1 to D19-3.
        State::AwaitingSwitchover { incumbent, rerouting } => {
            both_released(call, incumbent, rerouting, cause)
        }
    }
}

/// The cause that goes on towards the called side: unmodified where one came, else #1 with hard
/// on and none with hard off (6.2.4.2 and 6.2.4.6, cases 1 and 2; 01, "Release from the calling
/// side").
fn passed_on(call: Call, cause: Option<ReroutingCause>) -> SentCause {
    match (cause, call.hard) {
        (Some(received), _) => SentCause::AsReceived(received),
        (None, true) => OUTSIDE,
        (None, false) => SentCause::Absent,
    }
}

fn both_released(
    call: Call,
    incumbent: u16,
    rerouting: u16,
    cause: Option<ReroutingCause>,
) -> Outcome {
    let cause = passed_on(call, cause);
    Outcome::ended(two(
        Signal::release_incumbent(incumbent, cause),
        Signal::release_rerouting(rerouting, cause),
    ))
}

/// 6.2.4.5 refers to 6.2.4.1 alone, taken to the letter (decision 1): #1 in its case 1, and
/// normal clearing without a Rerouting cause otherwise, also where one came.
fn calling_release_in_soft_triggered(
    call: Call,
    incumbent: u16,
    cause: Option<ReroutingCause>,
) -> Outcome {
    let sent = match (cause, call.hard) {
        (None, true) => OUTSIDE,
        (None, false) => SentCause::Absent,
        (Some(_), _) => SentCause::Absent,
    };
    Outcome::ended(one(Signal::release_incumbent(incumbent, sent)))
}

/// A release from the called side, for the connection that it names.
pub fn called_release(call: Call, release: DomainRelease) -> Outcome {
    match call.state {
        // Decision 26.
        State::Null => call.refused(Answer::WithoutMeaning),
        // 6.2.4.2 cases 3 and 4.
        State::ReroutingIdle { incumbent } => called_release_in_idle(call, incumbent, release),
        // 01, 107: nothing is held (decision 10).
        HardRerouteTriggered => call.refused(Answer::WrongConnection),
        // 6.2.4.4 cases 3 to 6.
        HardRerouteProceeding { rerouting } => {
            called_release_in_hard_proceeding(call, rerouting, release)
        }
        // 6.2.4.5; decision 1.
        State::SoftRerouteTriggered { incumbent } => {
            called_release_in_soft_triggered(call, incumbent, release)
        }
        // 01, rows "Soft Proceeding"; D17.
        State::SoftRerouteProceeding { incumbent, rerouting } => {
            called_release_in_soft_proceeding(call, incumbent, rerouting, release)
        }
        // 01, rows "Soft Initiated"; D18.
        State::SoftRerouteInitiated { incumbent, rerouting } => {
            called_release_in_soft_initiated(call, incumbent, rerouting, release)
        }
        // 01, rows "Awaiting"; D19.
        State::AwaitingSwitchover { incumbent, rerouting } => {
            called_release_in_awaiting(call, incumbent, rerouting, release)
        }
    }
}

/// The cause is read also with hard off (6.2.4.2 case 3; decision 6).
fn called_release_in_idle(call: Call, incumbent: u16, release: DomainRelease) -> Outcome {
    if release.connection != incumbent {
        return call.refused(Answer::WrongConnection);
    }
    match (release.cause, call.hard) {
        // 6.2.4.2 case 3.
        (Some(cause), _) => Outcome::ended(one(Signal::release_calling(forwarded(cause)))),
        // 6.2.4.2 case 3, no cause to forward.
        (None, false) => Outcome::ended(one(Signal::release_calling(SentCause::Absent))),
        // 6.2.4.2 case 4.
        (None, true) => call.moved(HardRerouteTriggered, one(Signal::TIMER_START)),
    }
}

/// The cause is read before crankback (decision 4), hard not at all (decision 6).
fn called_release_in_hard_proceeding(
    call: Call,
    rerouting: u16,
    release: DomainRelease,
) -> Outcome {
    if release.connection != rerouting {
        return call.refused(Answer::WrongConnection);
    }
    match (release.cause, release.crankback) {
        // 6.2.4.4 case 3.
        (Some(cause), _) => hard_reroute_ended(forwarded(cause)),
        // 6.2.4.4 case 4; at 65,535 no path, as case 5 (01, "Events and rows"; decision 3).
        (None, Crankback::AlternateFound) => call
            .setup_sent(|rerouting| HardRerouteProceeding { rerouting })
            .unwrap_or(hard_reroute_ended(FAILED)),
        // 6.2.4.4 case 5.
        (None, Crankback::NoneFound) => hard_reroute_ended(FAILED),
        // 6.2.4.4 case 6.
        (None, Crankback::None) => retry_without_crankback(call),
    }
}

/// 6.2.4.4 case 6, the node's choice: another attempt from Hard Triggered, with the timer
/// running on (decision 2). At 65,535 no attempt can follow: no path, as case 5 (decision 3).
fn retry_without_crankback(call: Call) -> Outcome {
    match call.next_number() {
        Some(_) => call.moved(HardRerouteTriggered, SILENT),
        None => hard_reroute_ended(FAILED),
    }
}

/// 6.2.4.5 refers to 6.2.4.1 alone, taken to the letter (decision 1): the call is cleared
/// without a Rerouting cause. Neither hard, cause nor crankback is read.
fn called_release_in_soft_triggered(call: Call, incumbent: u16, release: DomainRelease) -> Outcome {
    if release.connection != incumbent {
        return call.refused(Answer::WrongConnection);
    }
    Outcome::ended(one(Signal::release_calling(SentCause::Absent)))
}

fn called_release_in_soft_proceeding(
    call: Call,
    incumbent: u16,
    rerouting: u16,
    release: DomainRelease,
) -> Outcome {
    if release.connection == incumbent {
        // D17-7: the rerouting operation goes on as the hard one.
        let hard = HardRerouteProceeding { rerouting };
        return soft_incumbent_cleared(call.hard, rerouting, release.cause)
            .unwrap_or(call.moved(hard, one(Signal::TIMER_START)));
    }
    if release.connection != rerouting {
        return call.refused(Answer::WrongConnection);
    }
    let idle = call.moved(State::ReroutingIdle { incumbent }, SILENT);
    match release.crankback {
        // 6.2.4.6 case 5, D17-8; at 65,535 as if none was found (decision 8).
        Crankback::AlternateFound => call
            .setup_sent(|rerouting| State::SoftRerouteProceeding { incumbent, rerouting })
            .unwrap_or(idle),
        // 6.2.4.6 case 6 item 1, D17-10.
        Crankback::NoneFound => idle,
        // 6.2.4.6 case 6 item 2, D17-11.
        Crankback::None => idle,
    }
}

fn called_release_in_soft_initiated(
    call: Call,
    incumbent: u16,
    rerouting: u16,
    release: DomainRelease,
) -> Outcome {
    if release.connection == incumbent {
        // D18-7: #21 is the Cause code, without a Rerouting cause (decision 12).
        let started = two(Signal::TIMER_START, Signal::rerouting_rejected(rerouting));
        return soft_incumbent_cleared(call.hard, rerouting, release.cause)
            .unwrap_or(call.moved(HardRerouteTriggered, started));
    }
    if release.connection != rerouting {
        return call.refused(Answer::WrongConnection);
    }
    // 6.2.4.7 case 5, D18-8: neither cause nor crankback is read.
    call.moved(State::ReroutingIdle { incumbent }, SILENT)
}

/// Hard is not read here (decision 6), nor is crankback.
fn called_release_in_awaiting(
    call: Call,
    incumbent: u16,
    rerouting: u16,
    release: DomainRelease,
) -> Outcome {
    if release.connection == incumbent {
        return awaiting_incumbent_released(call, rerouting, release.cause);
    }
    if release.connection != rerouting {
        return call.refused(Answer::WrongConnection);
    }
    match release.cause {
        // 6.2.4.8 case 6, D19-11.
        None => call.moved(State::ReroutingIdle { incumbent }, SILENT),
        // 6.2.4.8 case 5, D19-9 and D19-10: the incumbent's release has no Rerouting cause, and
        // #4 is a cause like others here (decision 7).
        Some(cause) => Outcome::ended(two(
            Signal::release_calling(numbered(cause)),
            Signal::release_incumbent(incumbent, SentCause::Absent),
        )),
    }
}

fn awaiting_incumbent_released(
    call: Call,
    rerouting: u16,
    cause: Option<ReroutingCause>,
) -> Outcome {
    let idle = State::ReroutingIdle { incumbent: rerouting };
    let switched = call.moved(idle, one(Signal::switch(rerouting)));
    match cause {
        // 6.2.4.8 case 4, D19-6.
        None => switched,
        // 6.2.4.8 case 4, D19-7.
        Some(ReroutingCause::OPERATION_COMPLETE) => switched,
        // 6.2.4.8 case 3, D19-4 and D19-5.
        Some(cause) => calling_and_rerouting_released(rerouting, numbered(cause)),
    }
}

/// 6.2.4.4 cases 1 and 2: a cause goes on unmodified, and without one #1 is put in whether hard is
/// on or off (decision 6).
fn calling_release_in_hard_proceeding(rerouting: u16, cause: Option<ReroutingCause>) -> Outcome {
    let sent = match cause {
        Some(received) => SentCause::AsReceived(received),
        None => OUTSIDE,
    };
    Outcome::ended(two(Signal::TIMER_STOP, Signal::release_rerouting(rerouting, sent)))
}

/// The hard rerouting operation has failed: the timer is cleared, and the call with it (6.2.4.4
/// cases 3 and 5).
fn hard_reroute_ended(cause: SentCause) -> Outcome {
    Outcome::ended(two(Signal::TIMER_STOP, Signal::release_calling(cause)))
}

/// The first three rules of 01, row "Soft Proceeding, incumbent", which "Soft Initiated, incumbent"
/// shares. With hard off the cause is not read (decision 6). Nothing where the fourth rule applies:
/// hard on and no cause.
fn soft_incumbent_cleared(
    hard: bool,
    rerouting: u16,
    cause: Option<ReroutingCause>,
) -> Option<Outcome> {
    match (hard, cause) {
        // D17-4, D18-4.
        (false, _) => Some(calling_and_rerouting_released(rerouting, SentCause::Absent)),
        // D17-5 and D17-6, D18-5 and D18-6.
        (true, Some(cause)) => Some(calling_and_rerouting_released(rerouting, numbered(cause))),
        // D17-7, D18-7.
        (true, None) => None,
    }
}

fn calling_and_rerouting_released(rerouting: u16, cause: SentCause) -> Outcome {
    Outcome::ended(two(Signal::release_calling(cause), Signal::release_rerouting(rerouting, cause)))
}

/// "Forwarded without modification" for #1, any other cause set to #2 (6.2.4.2 case 3 and 6.2.4.4
/// case 3; decision 5).
fn forwarded(cause: ReroutingCause) -> SentCause {
    match cause {
        ReroutingCause::OUTSIDE_ANY_DOMAIN => SentCause::AsReceived(cause),
        _ => FAILED,
    }
}

/// "With #1" for #1, "with #2" for any other cause, as 01 prints its rows (decision 5).
fn numbered(cause: ReroutingCause) -> SentCause {
    match cause {
        ReroutingCause::OUTSIDE_ANY_DOMAIN => OUTSIDE,
        _ => FAILED,
    }
}
