//! Events in octets: the bench run, what is not read, and every value that is `bad`; and in what
//! the records of the destination differ.

use crate::bench_run::{hard_part, soft_part, symmetric_part, SERVICES};
use crate::call::{Services, Soft};
use crate::event_record::{decode, EventRecord};
use crate::table::Request;
use crate::vocabulary::{
    Crankback, DomainRelease, Event, Node, Policy, ReroutingCause, SwitchoverCode,
};

type Octets = [u8; 16];

/// The octets 0 to 3, key 7, and a number in the octets 8 to 11.
fn octets(head: [u8; 4], number: u32) -> Octets {
    let [kind, first, second, third] = head;
    let [n0, n1, n2, n3] = number.to_be_bytes();
    [kind, first, second, third, 0, 0, 0, 7, n0, n1, n2, n3, 0, 0, 0, 0]
}

fn decoded(head: [u8; 4], number: u32) -> Option<Request> {
    decode(Node::Source, &octets(head, number)).map(|event| event.request)
}

/// Octets that stand for that event whatever the octets named hold.
fn unread(head: [u8; 4], number: u32, places: &[usize], expected: Request) {
    for &place in places {
        for value in 0..=255 {
            let mut octets = octets(head, number);
            octets[place] = value;
            let event = EventRecord { key: 7, request: expected };
            assert_eq!(decode(Node::Source, &octets), Some(event), "{octets:?}");
        }
    }
}

/// The octet's values from `lowest` up are bad, and none below.
fn bad_from(lowest: u8, place: usize, head: [u8; 4]) {
    for value in 0..=255 {
        let mut octets = octets(head, 1);
        octets[place] = value;
        assert_eq!(decode(Node::Source, &octets).is_none(), value >= lowest, "{octets:?}");
    }
}

fn called(connection: u16, cause: Option<u8>, crankback: Crankback) -> Request {
    let cause = cause.map(ReroutingCause);
    Request::Event(Event::FromDomain(DomainRelease { connection, cause, crankback }))
}

/// B1 to B16 in octets, B15 being three events.
#[test]
fn bench_run_in_octets() {
    let steps = [symmetric_part(), soft_part(), hard_part()].concat();
    let mut expected: Vec<Request> =
        steps.iter().map(|&(event, ..)| Request::Event(event)).collect();
    expected.insert(0, Request::Opening(Some(SERVICES)));
    expected.insert(13, Request::Opening(Some(SERVICES)));
    let run = [
        ([0, 1, 1, 2], 0),
        ([5, 1, 0, 0], 3),
        ([8, 0, 0, 0], 0),
        ([5, 1, 0, 0], 3),
        ([5, 0, 0, 0], 9),
        ([5, 1, 0, 0], 5),
        ([8, 0, 0, 0], 0),
        ([7, 1, 4, 0], 1),
        ([7, 0, 0, 0], 1),
        ([1, 0, 0, 0], 0),
        ([2, 0, 0, 0], 0),
        ([5, 1, 0, 0], 6),
        ([4, 1, 0, 0], 4),
        ([0, 1, 1, 2], 0),
        ([1, 0, 0, 0], 0),
        ([2, 0, 0, 0], 0),
        ([7, 0, 0, 0], 4),
        ([9, 0, 0, 0], 0),
    ];
    let requests: Vec<Request> =
        run.into_iter().filter_map(|(head, number)| decoded(head, number)).collect();
    assert_eq!(requests, expected);
}

#[test]
fn key_and_numbers_are_big_endian() {
    let octets = [5, 255, 9, 9, 1, 2, 3, 4, 5, 6, 7, 8, 9, 9, 9, 9];
    let switchover = SwitchoverCode(255);
    let request = Request::Event(Event::Setup { switchover, number: 0x0506_0708 });
    assert_eq!(decode(Node::Source, &octets), Some(EventRecord { key: 0x0102_0304, request }));
    assert_eq!(decoded([7, 0, 0, 0], 0x0102), Some(called(258, None, Crankback::None)));
}

#[test]
fn opening_values() {
    let opening = |hard, soft| Some(Request::Opening(Some(Services { hard, soft })));
    assert_eq!(decoded([0, 0, 0, 0], 0), Some(Request::Opening(None)));
    assert_eq!(decoded([0, 1, 0, 0], 0), opening(false, Soft::None));
    assert_eq!(decoded([0, 1, 1, 1], 0), opening(true, Soft::Asymmetric));
    assert_eq!(decoded([0, 1, 0, 2], 0), opening(false, Soft::Symmetric));
    bad_from(2, 1, [0, 0, 0, 0]);
    bad_from(2, 2, [0, 1, 0, 0]);
    bad_from(3, 3, [0, 1, 0, 0]);
    unread([0, 0, 9, 9], 0, &[2, 3, 8, 9, 10, 11, 12, 15], Request::Opening(None));
    let bare = Request::Opening(Some(Services { hard: false, soft: Soft::None }));
    unread([0, 1, 0, 0], 0, &[8, 9, 10, 11, 12, 13, 14, 15], bare);
}

#[test]
fn connect_values() {
    let connect = |connection, policy| Some(Request::Event(Event::Connect { connection, policy }));
    assert_eq!(decoded([4, 0, 0, 0], 0), connect(0, Policy::No));
    assert_eq!(decoded([4, 1, 0, 0], 65_535), connect(65_535, Policy::Yes));
    bad_from(2, 1, [4, 0, 0, 0]);
    let yes = Request::Event(Event::Connect { connection: 4, policy: Policy::Yes });
    unread([4, 1, 9, 9], 4, &[2, 3, 12, 13, 14, 15], yes);
}

#[test]
fn connections_above_65535_are_bad() {
    for number in [65_536, 65_537, 65_540, 16_777_216, 16_777_220, u32::MAX] {
        assert_eq!(decoded([4, 1, 0, 0], number), None);
        assert_eq!(decoded([7, 0, 0, 0], number), None);
    }
    for place in [8, 9] {
        bad_from(1, place, [4, 1, 0, 0]);
        bad_from(1, place, [7, 0, 0, 0]);
    }
}

/// Every switchover code and every number is named.
#[test]
fn setup_is_never_bad() {
    for code in 0..=255 {
        for number in [0, 65_536, u32::MAX] {
            let switchover = SwitchoverCode(code);
            let setup = Request::Event(Event::Setup { switchover, number });
            assert_eq!(decoded([5, code, 0, 0], number), Some(setup));
        }
    }
    let switchover = SwitchoverCode::CLEARING;
    let setup = Request::Event(Event::Setup { switchover, number: 3 });
    unread([5, 1, 9, 9], 3, &[2, 3, 12, 13, 14, 15], setup);
}

#[test]
fn calling_release_values() {
    let calling = |cause| Request::Event(Event::FromParty { cause });
    let passed = ReroutingCause(255);
    assert_eq!(decoded([6, 1, 0, 2], 0), Some(calling(Some(ReroutingCause(0)))));
    assert_eq!(decoded([6, 1, 255, 1], 0), Some(calling(Some(passed))));
    bad_from(2, 1, [6, 0, 0, 0]);
    bad_from(3, 3, [6, 0, 0, 0]);
    bad_from(3, 3, [6, 1, 0, 0]);
    unread([6, 0, 9, 0], u32::MAX, &[2, 8, 9, 10, 11, 12, 15], calling(None));
    unread([6, 1, 255, 0], u32::MAX, &[8, 9, 10, 11, 12, 15], calling(Some(passed)));
}

#[test]
fn called_release_values() {
    assert_eq!(decoded([7, 0, 0, 0], 0), Some(called(0, None, Crankback::None)));
    assert_eq!(decoded([7, 1, 0, 1], 3), Some(called(3, Some(0), Crankback::AlternateFound)));
    assert_eq!(decoded([7, 1, 255, 2], 3), Some(called(3, Some(255), Crankback::NoneFound)));
    bad_from(2, 1, [7, 0, 0, 0]);
    bad_from(3, 3, [7, 0, 0, 0]);
    bad_from(3, 3, [7, 1, 0, 0]);
    unread([7, 0, 9, 0], 3, &[2, 12, 13, 14, 15], called(3, None, Crankback::None));
}

/// "Of trigger, path found, no path, ready and expiry only byte 0 and the key are read" (decision
/// 23).
#[test]
fn events_without_values_are_never_bad() {
    let every_octet = [1, 2, 3, 8, 9, 10, 11, 12, 13, 14, 15];
    unread([1, 9, 9, 9], u32::MAX, &every_octet, Request::Event(Event::Trigger));
    unread([2, 9, 9, 9], u32::MAX, &every_octet, Request::Event(Event::PathFound));
    unread([3, 9, 9, 9], u32::MAX, &every_octet, Request::Event(Event::NoPath));
    unread([8, 9, 9, 9], u32::MAX, &every_octet, Request::Event(Event::Ready));
    unread([9, 9, 9, 9], u32::MAX, &every_octet, Request::Event(Event::TimerExpiry));
}

#[test]
fn event_numbers_above_9_are_bad() {
    bad_from(10, 0, [0, 0, 0, 0]);
}

/// The kinds 6 and 7 change places, and no other record means anything else (decision 76).
#[test]
fn records_of_the_destination_differ_in_the_releases_alone() {
    for kind in (0..=11).chain([255]) {
        for first in 0..=3 {
            for third in 0..=4 {
                for number in [0, 3, 65_535, 65_536, u32::MAX] {
                    let [n0, n1, n2, n3] = number.to_be_bytes();
                    let octets = [kind, first, 1, third, 0, 0, 0, 7, n0, n1, n2, n3, 9, 9, 9, 9];
                    let mut turned = octets;
                    turned[0] = match kind {
                        6 => 7,
                        7 => 6,
                        other => other,
                    };
                    let source = decode(Node::Source, &turned);
                    assert_eq!(decode(Node::Destination, &octets), source, "{octets:?}");
                }
            }
        }
    }
}

#[test]
fn releases_of_the_destination() {
    let at_destination = |head, number| decode(Node::Destination, &octets(head, number));
    let asked = |request| Some(EventRecord { key: 7, request });
    let party = |cause| Request::Event(Event::FromParty { cause });
    let calling = asked(called(258, Some(4), Crankback::NoneFound));
    assert_eq!(at_destination([6, 1, 4, 2], 258), calling);
    assert_eq!(at_destination([6, 0, 4, 0], 3), asked(called(3, None, Crankback::None)));
    assert_eq!(at_destination([6, 0, 0, 3], 3), None);
    assert_eq!(at_destination([6, 0, 0, 0], 65_536), None);
    assert_eq!(at_destination([7, 1, 4, 2], u32::MAX), asked(party(Some(ReroutingCause(4)))));
    assert_eq!(at_destination([7, 0, 4, 1], 65_536), asked(party(None)));
    assert_eq!(at_destination([7, 0, 0, 3], 0), None);
}
