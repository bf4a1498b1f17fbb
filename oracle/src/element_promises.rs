//! The cause element sent on: examples from 01, "The cause element sent on", and promises over
//! every kind and cause of a signal that do not mention how the part is found.

use crate::element::{to_send, Part};
use crate::vocabulary::{ReroutingCause, SentCause, Signal, SignalKind};

const KINDS: [SignalKind; 11] = [
    SignalKind::None,
    SignalKind::TimerStart,
    SignalKind::TimerStop,
    SignalKind::Switch,
    SignalKind::ReleaseCalling,
    SignalKind::ReleaseIncumbent,
    SignalKind::ReleaseRerouting,
    SignalKind::Setup,
    SignalKind::Connect,
    SignalKind::Reject,
    SignalKind::ReleaseCalled,
];

/// The called-side release is one like the others (decision 63).
const RELEASES: [SignalKind; 4] = [
    SignalKind::ReleaseCalling,
    SignalKind::ReleaseIncumbent,
    SignalKind::ReleaseRerouting,
    SignalKind::ReleaseCalled,
];

/// The octets that small strings are made of: lengths that fit, that do not fit, and the greatest.
const SMALL: [u8; 4] = [0, 1, 2, 255];

const RECEIVED: [u8; 7] = [0x55, 0x80, 0, 3, 0xA1, 0xA2, 0xA3];
const OWN: [u8; 6] = [0x66, 0x81, 0, 2, 0xB1, 0xB2];

fn signal(kind: SignalKind, rerouting_cause: SentCause) -> Signal {
    Signal { kind, rerouting_cause, ..Signal::NONE }
}

fn causes(number: u8) -> [SentCause; 3] {
    let cause = ReroutingCause(number);
    [SentCause::Absent, SentCause::Number(cause), SentCause::AsReceived(cause)]
}

fn by_number() -> Signal {
    Signal::release_calling(SentCause::Number(ReroutingCause::FAILED_TO_RECOVER))
}

fn as_received() -> Signal {
    Signal::release_calling(SentCause::AsReceived(ReroutingCause::OUTSIDE_ANY_DOMAIN))
}

/// The octets that a release sends of a string that it names, whichever of the two that is.
fn sent(string: &[u8]) -> &[u8] {
    let Part::Received(part) = to_send(&as_received(), string, &OWN) else {
        panic!("the received string is named")
    };
    assert_eq!(to_send(&by_number(), &RECEIVED, string), Part::Own(part));
    part
}

/// Every string of so many small octets.
fn small_strings(count: usize) -> Vec<Vec<u8>> {
    let mut strings = vec![vec![]];
    for _ in 0..count {
        strings = strings
            .iter()
            .flat_map(|string: &Vec<u8>| SMALL.map(|octet| [string.as_slice(), &[octet]].concat()))
            .collect();
    }
    strings
}

/// A header with that length, and so many octets behind it, none of them like its neighbour.
fn behind_header(length: u16, present: usize) -> Vec<u8> {
    let [high, low] = length.to_be_bytes();
    let content = (0..present).map(|place| (place % 251) as u8);
    [0x12, 0x34, high, low].into_iter().chain(content).collect()
}

#[test]
fn release_sends_the_string_that_its_cause_names() {
    for kind in RELEASES {
        let [absent, number, received] = causes(1);
        let part = |cause| to_send(&signal(kind, cause), &RECEIVED, &OWN);
        assert_eq!(part(absent), Part::Own(&[]), "{kind:?}");
        assert_eq!(part(number), Part::Own(&OWN), "{kind:?}");
        assert_eq!(part(received), Part::Received(&RECEIVED), "{kind:?}");
    }
}

/// A reject too (decision 20), also where its cause is as received.
#[test]
fn signals_that_are_no_release_send_an_empty_part_of_the_own() {
    for kind in KINDS.into_iter().filter(|kind| !RELEASES.contains(kind)) {
        for cause in causes(5) {
            let part = to_send(&signal(kind, cause), &RECEIVED, &OWN);
            assert_eq!(part, Part::Own(&[]), "{kind:?} {cause:?}");
        }
    }
    let rejected = Signal::reject(ReroutingCause::OLD_INCARNATION_NUMBER);
    assert_eq!(to_send(&rejected, &RECEIVED, &OWN), Part::Own(&[]));
}

/// Document 01 read by hand: under four octets, header alone, exact, followed, too short.
#[test]
fn elements_read_by_hand() {
    let examples: [(&[u8], &[u8]); 14] = [
        (&[], &[]),
        (&[0], &[]),
        (&[0, 0], &[]),
        (&[0, 0, 0], &[]),
        (&[0, 0, 0, 0], &[0, 0, 0, 0]),
        (&[9, 8, 0, 0], &[9, 8, 0, 0]),
        (&[9, 8, 0, 0, 7], &[9, 8, 0, 0]),
        (&[9, 8, 0, 1], &[]),
        (&[9, 8, 0, 1, 7], &[9, 8, 0, 1, 7]),
        (&[9, 8, 0, 2, 7], &[]),
        (&[9, 8, 0, 2, 7, 6, 5, 4], &[9, 8, 0, 2, 7, 6]),
        (&[9, 8, 1, 0, 7], &[]),
        (&[9, 8, 1, 1, 7], &[]),
        (&[255, 255, 255, 255, 255], &[]),
    ];
    for (string, part) in examples {
        assert_eq!(sent(string), part, "{string:?}");
    }
}

/// A broken string that is named gives an empty part of itself, not of the other.
#[test]
fn broken_string_gives_an_empty_part_of_it() {
    for broken in [&RECEIVED[..0], &RECEIVED[..3], &RECEIVED[..4], &RECEIVED[..6]] {
        assert_eq!(to_send(&as_received(), broken, &OWN), Part::Received(&[]));
        assert_eq!(to_send(&by_number(), &RECEIVED, broken), Part::Own(&[]));
        assert_eq!(to_send(&as_received(), broken, broken), Part::Received(&[]));
    }
}

/// Every part begins where its string does and ends within it: it is no copy, and an empty part
/// stands at the start (decision 21).
#[test]
fn part_never_reaches_past_its_string() {
    let signals: Vec<Signal> =
        KINDS.into_iter().flat_map(|kind| causes(4).map(|cause| signal(kind, cause))).collect();
    for string in (0..=6).flat_map(small_strings) {
        for signal in &signals {
            for (received, own) in [(string.as_slice(), &OWN[..]), (&RECEIVED, &string)] {
                let (part, whole) = match to_send(signal, received, own) {
                    Part::Received(part) => (part, received),
                    Part::Own(part) => (part, own),
                };
                assert_eq!(part.as_ptr(), whole.as_ptr(), "{signal:?} {string:?}");
                assert!(part.len() <= whole.len(), "{signal:?} {string:?}");
            }
        }
    }
}

/// The part is empty or an element: four octets and as many more as it says itself.
#[test]
fn part_is_empty_or_an_element() {
    for string in (0..=7).flat_map(small_strings) {
        match sent(&string) {
            [] => {}
            [_, _, high, low, content @ ..] => {
                assert_eq!(content.len(), 256 * usize::from(*high) + usize::from(*low));
            }
            stub => panic!("{stub:?} of {string:?}"),
        }
    }
}

#[test]
fn element_followed_by_any_octets_is_sent_exactly() {
    for length in (0..=600).chain(65_279..65_282).chain(65_533..=65_535) {
        let element = behind_header(length, usize::from(length));
        for more in [0, 1, 2, 4, 255, 256, 65_536] {
            for octet in SMALL {
                let string = [element.as_slice(), &vec![octet; more]].concat();
                assert_eq!(sent(&string), element, "{length} and {more}");
            }
        }
    }
}

#[test]
fn element_cut_anywhere_sends_nothing() {
    for length in (1..=300).chain([65_535]) {
        let element = behind_header(length, usize::from(length));
        let last = element.len() - 1;
        for kept in (0..=last).filter(|&kept| kept < 300 || kept > last - 2) {
            assert_eq!(sent(&element[..kept]), [], "{kept} of {length}");
        }
    }
}

#[test]
fn string_that_is_not_named_is_not_read() {
    for other in (0..=5).flat_map(small_strings) {
        assert_eq!(to_send(&as_received(), &RECEIVED, &other), Part::Received(&RECEIVED));
        assert_eq!(to_send(&by_number(), &other, &OWN), Part::Own(&OWN));
    }
}

#[test]
fn number_of_the_cause_does_not_choose() {
    for number in 0..=255 {
        for kind in KINDS {
            for (cause, same) in causes(number).into_iter().zip(causes(1)) {
                let part = to_send(&signal(kind, cause), &RECEIVED, &OWN);
                assert_eq!(part, to_send(&signal(kind, same), &RECEIVED, &OWN), "{number}");
            }
        }
    }
}

/// The part lives as long as its own string, though the other is gone.
#[test]
fn part_outlives_the_string_that_is_not_named() {
    let part = {
        let gone = OWN.to_vec();
        match to_send(&as_received(), &RECEIVED, &gone) {
            Part::Received(part) => part,
            Part::Own(_) => panic!("the received string is named"),
        }
    };
    assert_eq!(part, RECEIVED);
}
