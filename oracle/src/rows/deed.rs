//! What was done, in the words of the list.

use crate::call::{Call, Outcome};
use crate::rows::terms::states;
use crate::table::Request;
use crate::vocabulary::{
    Answer, CauseCode, Event, Node, ReroutingCause, SentCause, Signal, SignalKind, Signals,
};

/// `refused N`, `stays: SIGNALS`, `stays, number stored: SIGNALS` or `to STATE: SIGNALS`. A refusal
/// that changed or sent something is none of these.
pub fn deed(node: Node, before: Call, request: Request, after: &Outcome) -> String {
    let stays = after.call == before;
    let signals = signal_words(&after.signals);
    if after.answer != Answer::Done {
        let number = after.answer.number();
        let changed = if stays && signals == NOTHING { "" } else { " with a change" };
        return format!("refused {number}{changed}");
    }
    if stays {
        return format!("stays: {signals}");
    }
    if number_stored(before, request) == Some(after.call) {
        return format!("stays, number stored: {signals}");
    }
    format!("to {}: {signals}", states(node)[usize::from(after.call.state.number())])
}

/// The record with the setup's number, and all else as it was (02, Ask 3).
fn number_stored(before: Call, request: Request) -> Option<Call> {
    match request {
        Request::Event(Event::Setup { number, .. }) => Some(Call { remote: number, ..before }),
        Request::Event(_) => None,
        Request::Opening(_) => None,
    }
}

const NOTHING: &str = "nothing sent";

fn signal_words(signals: &Signals) -> String {
    let sent = signals.iter().filter(|signal| signal.kind != SignalKind::None);
    let words: Vec<String> = sent.map(one_signal).collect();
    if words.is_empty() {
        NOTHING.to_string()
    } else {
        words.join(", ")
    }
}

fn one_signal(signal: &Signal) -> String {
    let kind = match signal.kind {
        SignalKind::None => "none",
        SignalKind::TimerStart => "timer start",
        SignalKind::TimerStop => "timer stop",
        SignalKind::Switch => "switch",
        SignalKind::ReleaseCalling => "release calling",
        SignalKind::ReleaseIncumbent => "release incumbent",
        SignalKind::ReleaseRerouting => "release rerouting",
        SignalKind::Setup => "setup",
        SignalKind::Connect => "connect",
        SignalKind::Reject => "reject",
        SignalKind::ReleaseCalled => "release called",
    };
    let cause = match signal.rerouting_cause {
        SentCause::Absent => String::new(),
        SentCause::Number(ReroutingCause(number)) => format!(" #{number}"),
        SentCause::AsReceived(_) => " as received".to_string(),
    };
    let code = match signal.cause_code {
        CauseCode::Section66 => "",
        CauseCode::CallRejected => " cause 21",
    };
    format!("{kind}{cause}{code}")
}
