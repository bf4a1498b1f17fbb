//! Tables of either end that are not checked (docs/TABLES.md, "Not to be checked"): nothing is 101,
//! the other checks are made on the lowest record with the key or with key 0, what else an unfit
//! record holds is taken as it stands, and a fit table gives what it gives where it is checked.

use crate::call::{Call, Services, Soft, State};
use crate::cells;
use crate::sample_tables::{call, idle, idle_calls, NODES, OPENING, PATH_FOUND, TRIGGER};
use crate::table::{meet, meet_unchecked, unfit, Reply, Request, CAUSES_OF_UNFITNESS};
use crate::vocabulary::{
    Answer, Crankback, DomainRelease, Event, Node, Policy, SwitchoverCode, SILENT,
};
use crate::words::SignalWords;

const FROM_PARTY: Request = Request::Event(Event::FromParty { cause: None });

/// The answer, the places whose records changed with these records, and the signals.
type Shown = (u8, Vec<(usize, String)>, String);

fn release(connection: u16) -> Request {
    let crankback = Crankback::None;
    Request::Event(Event::FromDomain(DomainRelease { connection, cause: None, crankback }))
}

fn connect(connection: u16) -> Request {
    Request::Event(Event::Connect { connection, policy: Policy::Yes })
}

/// Openings without and with named services, and every event of the end's cells.
fn requests(node: Node) -> Vec<Request> {
    let bare = Services { hard: false, soft: Soft::None };
    let openings = [OPENING, Request::Opening(Some(bare))];
    openings.into_iter().chain(cells::events(node).into_iter().map(Request::Event)).collect()
}

fn checked(node: Node, table: &[Call], key: u32, request: Request) -> (Reply, Vec<Call>) {
    let mut after = table.to_vec();
    (meet(node, &mut after, key, request), after)
}

fn unchecked(node: Node, table: &[Call], key: u32, request: Request) -> (Reply, Vec<Call>) {
    let mut after = table.to_vec();
    (meet_unchecked(node, &mut after, key, request), after)
}

fn shown(node: Node, table: &[Call], key: u32, request: Request) -> Shown {
    let (reply, after) = unchecked(node, table, key, request);
    let changed = (0..table.len()).filter(|&place| table[place] != after[place]);
    let records = changed.map(|place| (place, after[place].to_string())).collect();
    (reply.answer.number(), records, SignalWords(&reply.signals).to_string())
}

fn done(place: usize, record: &str, signals: &str) -> Shown {
    (0, vec![(place, record.to_string())], signals.to_string())
}

fn refused(answer: u8) -> Shown {
    (answer, vec![], "-".to_string())
}

/// Tables that are unfit for one cause of 101 alone, behind its place in the list of causes. Key 7
/// is on record in each.
fn unfit_tables() -> Vec<(usize, Vec<Call>)> {
    let awaiting = |incumbent, rerouting| State::AwaitingSwitchover { incumbent, rerouting };
    vec![
        (0, idle_calls(1_025)),
        (1, vec![idle(7), idle(1), idle(7), Call::EMPTY]),
        (2, vec![idle(7), Call { remote: 5, ..Call::EMPTY }]),
        (3, vec![idle(1), call(7, State::Null, 1)]),
        (3, vec![idle(1), call(7, State::HardWaiting, 0)]),
        (4, vec![idle(1), call(7, State::ReroutingIdle { incumbent: 0 }, 3)]),
        (4, vec![idle(1), call(7, awaiting(1, 4), 3)]),
        (5, vec![idle(1), call(7, awaiting(3, 3), 3)]),
    ]
}

#[test]
fn every_cause_has_its_table() {
    for (cause, table) in unfit_tables() {
        for (number, applies) in CAUSES_OF_UNFITNESS.iter().enumerate() {
            assert_eq!(applies(&table), number == cause, "cause {number} of table {cause}");
        }
    }
    let mut causes: Vec<usize> = unfit_tables().into_iter().map(|(cause, _)| cause).collect();
    causes.dedup();
    assert_eq!(causes, (0..CAUSES_OF_UNFITNESS.len()).collect::<Vec<usize>>());
}

#[test]
fn unfit_table_is_not_101() {
    for node in NODES {
        for (cause, table) in unfit_tables() {
            for request in requests(node) {
                for key in [0, 1, 7, 9_999] {
                    let (with_check, _) = checked(node, &table, key, request);
                    let (without, _) = unchecked(node, &table, key, request);
                    assert_eq!(with_check.answer, Answer::TableUnfit, "{cause} {key} {request:?}");
                    assert_ne!(without.answer, Answer::TableUnfit, "{cause} {key} {request:?}");
                }
            }
        }
    }
}

#[test]
fn key_zero_is_102_on_unfit_tables() {
    for node in NODES {
        for (cause, table) in unfit_tables() {
            for request in requests(node) {
                let (reply, after) = unchecked(node, &table, 0, request);
                let expected = (Answer::KeyZero, SILENT, table.clone());
                assert_eq!((reply.answer, reply.signals, after), expected, "{cause} {request:?}");
            }
        }
    }
}

#[test]
fn lowest_of_two_records_takes_the_event() {
    let resting = call(7, State::ReroutingIdle { incumbent: 3 }, 4);
    let triggered = call(7, State::SoftRerouteTriggered { incumbent: 2 }, 2);
    for node in NODES {
        let table = [idle(1), resting, Call::EMPTY, triggered];
        let asked = |request| shown(node, &table, 7, request);
        assert_eq!(asked(TRIGGER), done(1, "7 1 2 4 3 0 4 0", "-"));
        assert_eq!(asked(release(3)), done(1, "7 1 2 2 0 0 4 0", "timer start"));
        assert_eq!(asked(FROM_PARTY), done(1, "0 0 0 0 0 0 0 0", "release incumbent 3 #1"));
        // The other record would take these.
        assert_eq!(asked(PATH_FOUND), refused(106));
        assert_eq!(asked(release(2)), refused(107));
        let table = [idle(1), triggered, Call::EMPTY, resting];
        let asked = |request| shown(node, &table, 7, request);
        assert_eq!(asked(PATH_FOUND), done(1, "7 1 2 5 2 3 3 0", "setup 3"));
        assert_eq!(asked(release(3)), refused(107));
    }
}

/// When the lowest has ended, the next one is the lowest.
#[test]
fn records_with_one_key_end_one_after_the_other() {
    for node in NODES {
        let mut table = [idle(7), idle(1), idle(7)];
        let mut ended = || {
            let reply = meet_unchecked(node, &mut table, 7, FROM_PARTY);
            (reply.answer.number(), table)
        };
        assert_eq!(ended(), (0, [Call::EMPTY, idle(1), idle(7)]));
        assert_eq!(ended(), (0, [Call::EMPTY, idle(1), Call::EMPTY]));
        assert_eq!(ended(), (105, [Call::EMPTY, idle(1), Call::EMPTY]));
    }
}

/// Wherever the empty record stands, and 103 before 104 where there is none.
#[test]
fn opening_of_a_key_in_two_records_is_103() {
    for node in NODES {
        for table in [
            vec![Call::EMPTY, idle(7), idle(7)],
            vec![idle(7), Call::EMPTY, idle(7)],
            vec![idle(7), idle(7), Call::EMPTY],
            vec![idle(7), idle(7)],
        ] {
            assert_eq!(shown(node, &table, 7, OPENING), refused(103));
        }
        assert_eq!(shown(node, &[idle(7), idle(7)], 8, OPENING), refused(104));
        assert_eq!(shown(node, &[idle(7), idle(7)], 8, TRIGGER), refused(105));
    }
}

#[test]
fn opening_takes_the_lowest_empty_record_of_more_than_1024() {
    for node in NODES {
        for count in [1_025, 1_100] {
            let last = count as usize - 1;
            let mut table = idle_calls(count);
            assert_eq!(shown(node, &table, count, OPENING), refused(103));
            assert_eq!(shown(node, &table, 9_999, OPENING), refused(104));
            for place in [last, 1_024, 1_023, 5, 0] {
                table[place] = Call::EMPTY;
                let opened = done(place, "9999 1 1 1 1 0 1 0", "-");
                assert_eq!(shown(node, &table, 9_999, OPENING), opened, "{count}");
            }
        }
    }
}

#[test]
fn event_finds_its_record_among_more_than_1024() {
    for node in NODES {
        let table = idle_calls(1_100);
        assert_eq!(shown(node, &table, 1, TRIGGER), done(0, "1 1 2 4 1 0 1 0", "-"));
        assert_eq!(shown(node, &table, 1_025, TRIGGER), done(1_024, "1025 1 2 4 1 0 1 0", "-"));
        assert_eq!(shown(node, &table, 1_100, TRIGGER), done(1_099, "1100 1 2 4 1 0 1 0", "-"));
        assert_eq!(shown(node, &table, 1_101, TRIGGER), refused(105));
    }
}

/// The lowest record with key 0 is taken, and nothing else that it holds is left in the call.
#[test]
fn opening_takes_an_empty_record_that_is_not_all_empty() {
    for record in [
        Call { hard: true, ..Call::EMPTY },
        Call { soft: Soft::Symmetric, ..Call::EMPTY },
        Call { state: State::HardWaiting, ..Call::EMPTY },
        Call { last: 65_535, ..Call::EMPTY },
        Call { remote: 5, ..Call::EMPTY },
        Call { key: 0, ..idle(7) },
    ] {
        let table = [idle(1), record, Call::EMPTY];
        for node in NODES {
            let opened = done(1, "7 1 1 1 1 0 1 0", "-");
            assert_eq!(shown(node, &table, 7, OPENING), opened, "{record}");
            assert_eq!(shown(node, &table, 1, OPENING), refused(103), "{record}");
            assert_eq!(shown(node, &table, 7, TRIGGER), refused(105), "{record}");
            let triggered = done(0, "1 1 2 4 1 0 1 0", "-");
            assert_eq!(shown(node, &table, 1, TRIGGER), triggered, "{record}");
        }
    }
}

/// Decision 26.
#[test]
fn call_in_null_refuses_every_event() {
    for node in NODES {
        for table in [[call(7, State::Null, 1)], [Call { key: 7, ..Call::EMPTY }]] {
            for event in cells::events(node) {
                let asked = shown(node, &table, 7, Request::Event(event));
                assert_eq!(asked, refused(106), "{event:?}");
            }
            assert_eq!(shown(node, &table, 7, OPENING), refused(103));
        }
    }
}

#[test]
fn call_without_last_number_counts_from_it() {
    let soft = [call(7, State::SoftRerouteTriggered { incumbent: 1 }, 0)];
    for node in NODES {
        let sent = done(0, "7 1 2 5 1 1 1 0", "setup 1");
        assert_eq!(shown(node, &soft, 7, PATH_FOUND), sent);
    }
    let hard = [call(7, State::HardWaiting, 0)];
    let sent = done(0, "7 1 2 3 0 1 1 0", "setup 1");
    assert_eq!(shown(Node::Source, &hard, 7, PATH_FOUND), sent);
    let setup = Event::Setup { switchover: SwitchoverCode::IMMEDIATE, number: 9 };
    let accepted = done(0, "7 1 2 3 0 1 1 9", "-");
    assert_eq!(shown(Node::Destination, &hard, 7, Request::Event(setup)), accepted);
}

#[test]
fn held_numbers_that_are_zero_or_above_the_last_are_held() {
    let zero = [call(7, State::ReroutingIdle { incumbent: 0 }, 3)];
    let above = [call(7, State::SoftRerouteTriggered { incumbent: 9 }, 3)];
    let next = [call(7, State::SoftRerouteTriggered { incumbent: 4 }, 3)];
    for node in NODES {
        assert_eq!(shown(node, &zero, 7, release(3)), refused(107));
        let started = done(0, "7 1 2 2 0 0 3 0", "timer start");
        assert_eq!(shown(node, &zero, 7, release(0)), started);
        let sent = done(0, "7 1 2 5 9 4 4 0", "setup 4");
        assert_eq!(shown(node, &above, 7, PATH_FOUND), sent);
        // The new number is the one that is held already.
        let sent = done(0, "7 1 2 5 4 4 4 0", "setup 4");
        assert_eq!(shown(node, &next, 7, PATH_FOUND), sent);
    }
}

/// A number held twice names the incumbent (decision 26).
#[test]
fn number_held_twice_names_the_incumbent() {
    let table = [call(7, State::SoftRerouteProceeding { incumbent: 3, rerouting: 3 }, 3)];
    for node in NODES {
        assert_eq!(shown(node, &table, 7, connect(3)), refused(107));
    }
    // D17-7.
    let started = done(0, "7 1 2 3 0 3 3 0", "timer start");
    assert_eq!(shown(Node::Source, &table, 7, release(3)), started);
    // 6.3.4.8 case 4.
    let started = done(0, "7 1 2 2 0 0 3 0", "timer start, release rerouting 3 cause 21");
    assert_eq!(shown(Node::Destination, &table, 7, release(3)), started);
}

fn same_without_check(node: Node, table: &[Call], requests: &[Request]) {
    assert!(!unfit(table));
    for &request in requests {
        for key in [0, 1, 7, 9_999] {
            let with_check = checked(node, table, key, request);
            assert_eq!(unchecked(node, table, key, request), with_check, "{key} {request:?}");
        }
    }
}

#[test]
fn fit_table_gives_the_same() {
    for node in NODES {
        let requests = requests(node);
        same_without_check(node, &[], &requests);
        same_without_check(node, &[Call::EMPTY; 64], &requests);
        same_without_check(node, &[idle(1), idle(2)], &requests);
        for call in (1..=7).flat_map(cells::records).filter(|&call| !unfit(&[call])) {
            same_without_check(node, &[idle(1), call, Call::EMPTY], &requests);
        }
    }
}

#[test]
fn fit_table_of_1024_records_gives_the_same() {
    let full = idle_calls(1_024);
    let mut with_room = full.clone();
    with_room[1_023] = Call::EMPTY;
    for node in NODES {
        for table in [&full, &with_room] {
            same_without_check(node, table, &[OPENING, TRIGGER, FROM_PARTY]);
        }
    }
}
