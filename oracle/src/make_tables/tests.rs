//! What made cases promise: fit tables are fit, each damage is its own cause of 101, cases are bad
//! where and only where that is asked; and what the table promises over all of them.

use std::collections::BTreeSet;

use super::bad::WAY_COUNT;
use super::events::event;
use super::records::{Damage, MadeTable, DAMAGES};
use super::{case, maker, record_count, table};
use crate::call::Call;
use crate::draw::Draw;
use crate::event_record::{decode, EventRecord};
use crate::sample_tables::NODES;
use crate::table::{meet, meet_unchecked, unfit, Reply, Request, CAUSES_OF_UNFITNESS};
use crate::tables;
use crate::vocabulary::{Answer, Node, SILENT};

const COUNTS: [usize; 12] = [0, 1, 2, 3, 4, 5, 8, 64, 1_023, 1_024, 1_025, 1_100];

/// The place of a damage in the causes of 101.
fn cause(damage: Damage) -> usize {
    match damage {
        Damage::KeyDoubled => 1,
        Damage::EmptyNotAllEmpty => 2,
        Damage::CallInNull => 3,
        Damage::LastNumberZero => 3,
        Damage::HeldNumberZero => 4,
        Damage::HeldNumberAboveLast => 4,
        Damage::HeldNumbersEqual => 5,
    }
}

fn causes(table: &MadeTable) -> Vec<usize> {
    let numbered = CAUSES_OF_UNFITNESS.iter().enumerate();
    numbered.filter(|(_, cause)| cause(&table.calls)).map(|(number, _)| number).collect()
}

fn made(node: Node, seed: u64, count: u64, last_is_bad: bool) -> Vec<u8> {
    maker(node).made(seed, count, last_is_bad)
}

fn printed(node: Node, octets: &[u8]) -> String {
    let mut out = Vec::new();
    tables::print(node, octets, &mut out).expect("a vector takes every byte");
    String::from_utf8(out).expect("cases are printed in ASCII")
}

#[test]
fn tables_without_damage_are_unfit_for_their_count_alone() {
    let mut draw = Draw::from_seed(1);
    for count in COUNTS {
        for _ in 0..if count > 64 { 2 } else { 500 } {
            let expected = if count > 1_024 { vec![0] } else { vec![] };
            assert_eq!(causes(&MadeTable::fit(&mut draw, count)), expected);
        }
    }
}

#[test]
fn each_damage_is_its_own_cause() {
    let mut draw = Draw::from_seed(2);
    for damage in DAMAGES {
        for count in COUNTS.into_iter().filter(|&count| (2..=1_024).contains(&count)) {
            for _ in 0..if count > 64 { 1 } else { 100 } {
                let mut table = MadeTable::fit(&mut draw, count);
                table.damage(damage, &mut draw);
                assert_eq!(causes(&table), [cause(damage)], "{damage:?} of {count}");
            }
        }
    }
}

#[test]
fn seed_decides_alone() {
    for node in NODES {
        let made = |seed, count, last_is_bad| made(node, seed, count, last_is_bad);
        assert_eq!(made(7, 200, false), made(7, 200, false));
        assert_ne!(made(7, 200, false), made(8, 200, false));
        assert!(made(8, 200, false).starts_with(&made(8, 100, false)));
        assert_eq!(made(7, 0, true), []);
    }
}

#[test]
fn cases_are_bad_only_where_asked() {
    for node in NODES {
        let printed =
            |seed, count, last_is_bad| printed(node, &made(node, seed, count, last_is_bad));
        assert!(!printed(9, 2_000, false).contains("bad"));
        for seed in 0..4 * WAY_COUNT as u64 {
            let before = printed(seed, 2, false);
            assert_eq!(printed(seed, 3, true), before + "bad\n", "{node:?}, seed {seed}");
            assert_eq!(printed(seed, 1, true), "bad\n", "{node:?}, seed {seed}");
        }
    }
}

fn changed_places(before: &[Call], after: &[Call]) -> Vec<usize> {
    (0..before.len()).filter(|&place| before[place] != after[place]).collect()
}

/// A refusal changes nothing and sends nothing. What is done changes one record at most: the lowest
/// empty one for an opening, the lowest one with the key for another event.
fn changes_one_record_at_most(before: &[Call], after: &[Call], asked: EventRecord, reply: Reply) {
    let changed = changed_places(before, after);
    if reply.answer != Answer::Done {
        assert_eq!((changed, reply.signals), (vec![], SILENT), "{asked:?}");
        return;
    }
    let opening = matches!(asked.request, Request::Opening(_));
    let met = if opening { 0 } else { asked.key };
    let place = before.iter().position(|call| call.key == met);
    assert!(changed.is_empty() && !opening || changed.first().copied() == place, "{asked:?}");
    assert!(changed.len() <= 1, "{asked:?}");
}

/// What is done leaves a fit table fit.
#[test]
fn table_promises_hold_over_made_cases() {
    NODES.into_iter().for_each(table_promises);
}

fn table_promises(node: Node) {
    let mut draw = Draw::from_seed(3);
    for _ in 0..20_000 {
        let count = record_count(&mut draw);
        let table = table(&mut draw, count);
        let asked = decode(node, &event(node, &mut draw, &table)).expect("a made event is not bad");
        let mut after = table.calls.clone();
        let reply = meet(node, &mut after, asked.key, asked.request);
        changes_one_record_at_most(&table.calls, &after, asked, reply);
        if reply.answer == Answer::Done {
            assert!(!unfit(&table.calls) && !unfit(&after), "{asked:?}");
        }
        unchecked_table_promises(node, &table.calls, asked, (reply, after));
    }
}

/// Nothing is 101, and a fit table gives what it gives where it is checked (docs/TABLES.md).
fn unchecked_table_promises(
    node: Node,
    before: &[Call],
    asked: EventRecord,
    checked: (Reply, Vec<Call>),
) {
    let mut after = before.to_vec();
    let reply = meet_unchecked(node, &mut after, asked.key, asked.request);
    changes_one_record_at_most(before, &after, asked, reply);
    assert_ne!(reply.answer, Answer::TableUnfit, "{asked:?}");
    if !unfit(before) {
        assert_eq!((reply, after), checked, "{asked:?}");
    }
}

/// The number of the answer that a single case prints.
fn answer_printed(text: &str) -> &str {
    text.split(' ').nth(3).expect("a case that is not bad prints its answer")
}

/// With 32,768 added to its count, a case that was answered 101 has any other answer, and every
/// other case prints the same.
#[test]
fn made_cases_are_answered_unchecked_too() {
    for node in NODES {
        let mut draw = Draw::from_seed(4);
        let mut answers = BTreeSet::new();
        for _ in 0..10_000 {
            let mut octets = case(node, &mut draw).octets();
            let checked = printed(node, &octets);
            octets[0] += 128;
            let unchecked = printed(node, &octets);
            if answer_printed(&checked) == "101" {
                answers.insert(answer_printed(&unchecked).to_string());
            } else {
                assert_eq!(unchecked, checked);
            }
        }
        let expected = ["0", "102", "103", "104", "105", "106", "107", "108"];
        assert_eq!(answers.iter().collect::<Vec<&String>>(), expected, "{node:?}");
    }
}

/// Every answer, and tables of every size that matters, in few cases.
#[test]
fn every_answer_and_size_comes_up() {
    for node in NODES {
        let text = printed(node, &made(node, 1, 30_000, false));
        let cases: Vec<&str> = text.lines().filter(|line| line.starts_with("case ")).collect();
        assert_eq!(cases.len(), 30_000);
        for answer in [0, 101, 102, 103, 104, 105, 106, 107, 108] {
            let with = format!(" answer {answer} n ");
            assert!(cases.iter().any(|line| line.contains(&with)), "{node:?} {answer}");
        }
        for size in [0, 1, 64, 1_024, 1_025, 1_100] {
            let with = format!(" n {size} ");
            assert!(cases.iter().any(|line| line.contains(&with)), "{node:?} {size}");
        }
    }
}
