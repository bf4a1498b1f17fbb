//! At the source, a call that was opened without named services has hard on and soft asymmetric
//! (02, Ask 1, which amends 01's sentence on the default). The rows of 01 say what follows: a soft
//! trigger is done, a setup is without meaning as before, and a lost incumbent is rerouted hard.

use crate::bench_run::Step;
use crate::call::{Call, Services, Soft};
use crate::event_record::decode;
use crate::table::{meet, Request};
use crate::vocabulary::{Crankback, DomainRelease, Event, Node, Policy, SwitchoverCode, SILENT};
use crate::words::SignalWords;

fn connect(connection: u16, policy: Policy) -> Event {
    Event::Connect { connection, policy }
}

/// A release from the called side without a cause.
fn called(connection: u16) -> Event {
    Event::FromDomain(DomainRelease { connection, cause: None, crankback: Crankback::None })
}

/// A table of one record, in which key 7 was opened.
fn opened(named: Option<Services>) -> [Call; 1] {
    let mut table = [Call::EMPTY];
    let reply = meet(Node::Source, &mut table, 7, Request::Opening(named));
    assert_eq!((reply.answer.number(), reply.signals), (0, SILENT), "{named:?}");
    table
}

/// A setup takes symmetric soft, and is else 106, whatever it asks for (01, 106; decision 13).
fn setups_are_refused(table: &[Call; 1]) {
    for switchover in [SwitchoverCode::CLEARING, SwitchoverCode::IMMEDIATE, SwitchoverCode(2)] {
        for number in [0, 1, u32::MAX] {
            let setup = Event::Setup { switchover, number };
            let mut after = *table;
            let reply = meet(Node::Source, &mut after, 7, Request::Event(setup));
            let shown = (reply.answer.number(), after, reply.signals);
            assert_eq!(shown, (106, *table, SILENT), "{} | {setup:?}", table[0]);
        }
    }
}

/// The steps of a call without symmetric soft; setups are refused before the first and after each.
fn run(named: Option<Services>, steps: &[Step]) {
    let mut table = opened(named);
    setups_are_refused(&table);
    for &(event, answer, record, signals) in steps {
        let reply = meet(Node::Source, &mut table, 7, Request::Event(event));
        let sent = SignalWords(&reply.signals).to_string();
        let shown = (reply.answer.number(), table[0].to_string(), sent);
        assert_eq!(shown, (answer, record.to_string(), signals.to_string()), "{event:?}");
        setups_are_refused(&table);
    }
}

#[test]
fn hard_is_on_and_soft_asymmetric() {
    let same = Services { hard: true, soft: Soft::Asymmetric };
    assert_eq!(opened(None)[0].to_string(), "7 1 1 1 1 0 1 0");
    assert_eq!(opened(None), opened(Some(same)));
}

/// Byte 1 value 0 stays the word for the default (02, Ask 1); bytes 2 and 3 are then not read (01,
/// "The trace").
#[test]
fn byte_1_value_0_means_the_default() {
    for hard in [0, 1, 2, 255] {
        for soft in [0, 1, 2, 3, 255] {
            let octets = [0, 0, hard, soft, 0, 0, 0, 7, 0, 0, 0, 0, 0, 0, 0, 0];
            let asked = decode(Node::Source, &octets).expect("bytes 2 and 3 are not read");
            let mut table = [Call::EMPTY];
            assert_eq!(meet(Node::Source, &mut table, asked.key, asked.request).answer.number(), 0);
            assert_eq!(table, opened(None), "{octets:?}");
        }
    }
}

/// 01, "Soft trigger", "Path found" and "Connect"; a second trigger is disregarded (6.2.5.3 case
/// 2).
#[test]
fn soft_trigger_is_done() {
    let steps = [
        (Event::Trigger, 0, "7 1 1 4 1 0 1 0", "-"),
        (Event::Trigger, 0, "7 1 1 4 1 0 1 0", "-"),
        (Event::PathFound, 0, "7 1 1 5 1 2 2 0", "setup 2"),
        (Event::Trigger, 0, "7 1 1 5 1 2 2 0", "-"),
        (connect(2, Policy::Yes), 0, "7 1 1 1 2 0 2 0", "switch 2, release incumbent 1 #4"),
    ];
    run(None, &steps);
}

/// Soft none has to be named (02, Ask 1): what is named is taken, and the trigger is 106.
#[test]
fn soft_none_that_is_named_refuses_a_trigger() {
    let hard_alone = Services { hard: true, soft: Soft::None };
    let steps = [
        (Event::Trigger, 106, "7 1 0 1 1 0 1 0", "-"),
        (called(1), 0, "7 1 0 2 0 0 1 0", "timer start"),
        (Event::Trigger, 106, "7 1 0 2 0 0 1 0", "-"),
    ];
    run(Some(hard_alone), &steps);
}

/// 6.2.4.2 case 4, since hard is on; then 01, "Path found" and "Connect". The trigger in a Hard
/// state is disregarded (6.2.5.3 case 2).
#[test]
fn lost_incumbent_is_rerouted_hard() {
    let steps = [
        (called(1), 0, "7 1 1 2 0 0 1 0", "timer start"),
        (Event::Trigger, 0, "7 1 1 2 0 0 1 0", "-"),
        (Event::PathFound, 0, "7 1 1 3 0 2 2 0", "setup 2"),
        (Event::Trigger, 0, "7 1 1 3 0 2 2 0", "-"),
        (connect(2, Policy::No), 0, "7 1 1 1 2 0 2 0", "timer stop, switch 2"),
    ];
    run(None, &steps);
}

/// 01, row "Soft Proceeding, incumbent" (D17), since hard is on: the soft rerouting goes on as a
/// hard one.
#[test]
fn incumbent_lost_in_soft_proceeding_is_rerouted_hard() {
    let steps = [
        (Event::Trigger, 0, "7 1 1 4 1 0 1 0", "-"),
        (Event::PathFound, 0, "7 1 1 5 1 2 2 0", "setup 2"),
        (called(1), 0, "7 1 1 3 0 2 2 0", "timer start"),
    ];
    run(None, &steps);
}
