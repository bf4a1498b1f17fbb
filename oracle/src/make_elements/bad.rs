//! The ways in which a case is bad: a value that is not named, and an end in each part of a case.

use super::strings::{string_of_shape, Shape};
use super::{any_signal, number, MadeCase, CAUSE_COUNT, KIND_COUNT};
use crate::draw::Draw;

const LENGTH_OCTETS: usize = 2;
/// Kind, cause and number.
const SIGNAL_OCTETS: usize = 3;

#[derive(Clone, Copy, Debug)]
enum Way {
    KindNotNamed,
    CauseNotNamed,
    Cut(Cut),
}

/// Where a case is cut short.
#[derive(Clone, Copy, Debug)]
enum Cut {
    AfterKind,
    AfterCause,
    AfterNumber,
    InReceivedLength,
    BeforeReceived,
    InReceived,
    AfterReceived,
    InOwnLength,
    BeforeOwn,
    InOwn,
}

/// A seed takes the way at the seed's own number, counted round.
const WAYS: [Way; WAY_COUNT] = [
    Way::KindNotNamed,
    Way::CauseNotNamed,
    Way::Cut(Cut::AfterKind),
    Way::Cut(Cut::AfterCause),
    Way::Cut(Cut::AfterNumber),
    Way::Cut(Cut::InReceivedLength),
    Way::Cut(Cut::BeforeReceived),
    Way::Cut(Cut::InReceived),
    Way::Cut(Cut::AfterReceived),
    Way::Cut(Cut::InOwnLength),
    Way::Cut(Cut::BeforeOwn),
    Way::Cut(Cut::InOwn),
];

pub const WAY_COUNT: usize = 12;

/// A bad case, in the way that the seed takes. But for that, it is a case like any other.
pub fn case(seed: u64, draw: &mut Draw) -> Vec<u8> {
    let mut case = whole_case(draw);
    match WAYS[(seed % WAY_COUNT as u64) as usize] {
        Way::KindNotNamed => case.signal.kind = draw.octet_from(KIND_COUNT),
        Way::CauseNotNamed => case.signal.cause = draw.octet_from(CAUSE_COUNT),
        Way::Cut(cut) => {
            let mut octets = case.octets();
            octets.truncate(kept(cut, &case, draw));
            return octets;
        }
    }
    case.octets()
}

/// Both strings have the octets of a header or more, so that each can be cut.
fn whole_case(draw: &mut Draw) -> MadeCase {
    let [received, own] = [(), ()].map(|()| {
        let shape = draw.among([Shape::Exact, Shape::Followed, Shape::FarTooShort]);
        string_of_shape(draw, shape)
    });
    MadeCase { signal: any_signal(draw), number: number(draw), received, own }
}

fn kept(cut: Cut, case: &MadeCase, draw: &mut Draw) -> usize {
    let received = SIGNAL_OCTETS + LENGTH_OCTETS;
    let received_end = received + case.received.len();
    let own = received_end + LENGTH_OCTETS;
    match cut {
        Cut::AfterKind => 1,
        Cut::AfterCause => 2,
        Cut::AfterNumber => SIGNAL_OCTETS,
        Cut::InReceivedLength => SIGNAL_OCTETS + 1,
        Cut::BeforeReceived => received,
        Cut::InReceived => received + 1 + draw.place(case.received.len() - 1),
        Cut::AfterReceived => received_end,
        Cut::InOwnLength => received_end + 1,
        Cut::BeforeOwn => own,
        Cut::InOwn => own + 1 + draw.place(case.own.len() - 1),
    }
}
