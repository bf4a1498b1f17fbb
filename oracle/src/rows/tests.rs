//! That the list has every cell once, with what is done in it; and each way in which a list and a
//! run do not fit.

use std::io::Empty;

use super::deed::deed;
use super::list::List;
use super::terms::Met;
use super::{print, Made, Runs};
use crate::call::Call;
use crate::table::Request;
use crate::vocabulary::Node;
use crate::{cells, script};

const LIST: &str = include_str!("../../rows.txt");
const DESTINATION_LIST: &str = include_str!("../../destination_rows.txt");

/// Each end with its list, and how many rows that has.
const LISTS: [(Node, &str, usize); 2] =
    [(Node::Source, LIST, 263), (Node::Destination, DESTINATION_LIST, 314)];

/// The counts of the source, and the lines of the complaint.
fn counted(list: &str, all: bool, input: &[u8]) -> (String, Vec<String>) {
    counted_at(Node::Source, list, all, input)
}

fn counted_at(node: Node, list: &str, all: bool, input: &[u8]) -> (String, Vec<String>) {
    let mut out = Vec::new();
    let told = print(node, list, all, Runs::Read(input), &mut out);
    let told = told.expect("a vector takes every byte");
    let counts = String::from_utf8(out).expect("lines are text");
    (counts, told.unwrap_or_default().lines().map(String::from).collect())
}

fn scripted(lines: &str) -> Vec<u8> {
    let mut octets = Vec::new();
    let told = script::print(Node::Source, lines.as_bytes(), &mut octets)
        .expect("a vector takes every byte");
    assert_eq!(told, None, "{lines}");
    octets
}

fn numbers_differ(call: &Call) -> bool {
    call.state.incumbent().is_none() || call.state.incumbent() != call.state.rerouting()
}

/// Every event over every record of the cells that a fit table can hold, and the records in Null:
/// one row fits, and says what is done. So the unreachable rows are held to it as well.
#[test]
fn every_cell_has_one_row() {
    for (node, list, _) in LISTS {
        cells_have_one_row(node, list);
    }
}

fn cells_have_one_row(node: Node, list: &str) {
    let list = List::of_text(node, list).expect("the list is sound");
    let mut met_rows = vec![false; list.rows.len()];
    for call in (0..=7).flat_map(cells::records).filter(numbers_differ) {
        for event in cells::events(node) {
            let met = Met::event(node, event, call);
            let rows: Vec<usize> = list.fitting(met).collect();
            assert_eq!(rows.len(), 1, "{met}");
            let row = &list.rows[rows[0]];
            let done = deed(node, call, Request::Event(event), &call.after(node, event));
            assert_eq!(done, row.done, "{}", row.name);
            met_rows[rows[0]] = true;
        }
    }
    let rows = list.rows.iter().zip(&met_rows);
    let missing: Vec<&str> = rows.filter(|&(_, met)| !met).map(|(row, _)| &*row.name).collect();
    // Openings, and keys that are not on record, are the table's matter.
    let of_table = |name: &&str| {
        name.starts_with("key-0-") || name.starts_with("no-call-") || name.contains("open")
    };
    assert_eq!(missing.iter().filter(|name| !of_table(name)).count(), 0, "{missing:?}");
    assert_eq!(missing.len(), 10 + 9 + 7 + 8);
}

#[test]
fn made_runs_fit_the_list() {
    let made = [Made { seed: 1, count: 60_000 }, Made { seed: 2, count: 1_000 }];
    for (node, list, rows) in LISTS {
        let mut out = Vec::new();
        let runs: Runs<Empty> = Runs::Made(&made);
        let told = print(node, list, false, runs, &mut out).expect("a vector takes every byte");
        assert_eq!(told, None);
        let text = String::from_utf8(out).expect("lines are text");
        let count = |line: &str| line.split_once(' ').and_then(|(count, _)| count.parse().ok());
        let counts: Vec<u64> = text.lines().filter_map(count).collect();
        assert_eq!((counts.len(), counts.iter().sum::<u64>()), (rows, 61_000));
    }
}

/// What is not reached soon is unreachable, or needs the last number.
#[test]
fn rows_below_the_last_number_are_reached_soon() {
    let made = [Made { seed: 3, count: 150_000 }];
    for (node, list, _) in LISTS {
        let runs: Runs<Empty> = Runs::Made(&made);
        let told = print(node, list, true, runs, &mut Vec::new());
        for line in told.expect("a vector takes every byte").unwrap_or_default().lines() {
            assert!(line.ends_with("-spent is not reached"), "{line}");
        }
    }
}

/// The runs that docs/BENCH.md names for the destination.
#[test]
fn five_runs_reach_every_row_of_the_destination() {
    let made = [1, 2, 3, 4, 6].map(|seed| Made { seed, count: 500_000 });
    let runs: Runs<Empty> = Runs::Made(&made);
    let mut out = Vec::new();
    let told = print(Node::Destination, DESTINATION_LIST, true, runs, &mut out);
    assert_eq!(told.expect("a vector takes every byte"), None);
    let text = String::from_utf8(out).expect("lines are text");
    let seldom = |line: &&str| ["1 ", "2 ", "3 "].iter().any(|count| line.starts_with(count));
    assert_eq!(text.lines().filter(seldom).count(), 0, "{text}");
}

const TWO_ROWS: &str = "# a comment\n\n\
    opens; none; open; empty record; to Idle: nothing sent; 01\n\
    triggers; Idle; trigger; soft service; to Soft Triggered: nothing sent; 6.2.5.3 case 1\n";

#[test]
fn counts_stand_in_the_order_of_the_list() {
    let run = scripted("open 7 hard symmetric\ntrigger 7\nopen 8 nohard asymmetric");
    assert_eq!(counted(TWO_ROWS, true, &run), ("2 opens\n1 triggers\n".to_string(), vec![]));
    assert_eq!(counted(TWO_ROWS, false, &[]), ("0 opens\n0 triggers\n".to_string(), vec![]));
    assert_eq!(counted(LIST, false, &[]).0.lines().count(), 263);
}

#[test]
fn events_without_a_row_are_told() {
    let run = scripted("open 7 hard symmetric\nready 7\nready 7\nopen 0");
    let (counts, told) = counted(TWO_ROWS, false, &run);
    assert_eq!(counts, "1 opens\n0 triggers\n");
    let services = "hard on, soft service, soft symmetric, last below 65535";
    let idle = format!("rows: no row fits Idle; ready; {services} (events: 2)");
    let key_0 = "rows: no row fits any; open; key 0, empty record, default services (events: 1)";
    assert_eq!(told, [idle, key_0.to_string()]);
}

#[test]
fn rows_not_reached_and_unreachable_rows_reached_are_told() {
    let run = scripted("open 7");
    assert_eq!(counted(TWO_ROWS, true, &run).1, ["rows: triggers is not reached"]);
    let list = TWO_ROWS.replace("sent; 01\n", "sent; 01; unreachable: so\n");
    assert_eq!(counted(&list, false, &run).1, [""; 0]);
    let told = counted(&list, true, &run).1;
    assert_eq!(
        told,
        ["rows: opens is unreachable, and has 1 events", "rows: triggers is not reached"]
    );
    assert_eq!(counted(&list, true, &[]).1, ["rows: triggers is not reached"]);
}

#[test]
fn rows_listed_twice_are_told() {
    let again = TWO_ROWS.to_string() + "opens; Idle; ready; -; refused 106; 01\n";
    assert_eq!(
        counted(&again, false, &[]),
        (String::new(), vec!["rows: opens is listed twice".into()])
    );
    let one = TWO_ROWS.to_string() + "again; Idle; trigger; soft service; refused 106; 01\n";
    assert_eq!(counted(&one, false, &[]).1, ["rows: triggers and again are one row"]);
    let wider = TWO_ROWS.to_string() + "wider; Idle; trigger; -; refused 106; 01\n";
    let told = counted(&wider, false, &scripted("open 7 hard symmetric\ntrigger 7")).1;
    assert_eq!(told.len(), 1);
    assert!(told[0].starts_with("rows: triggers and wider both fit Idle; trigger; "), "{told:?}");
}

#[test]
fn another_deed_than_the_list_has_is_told() {
    let list = TWO_ROWS.replace("to Soft Triggered: nothing sent", "stays: nothing sent");
    let told = counted(&list, false, &scripted("open 7 hard symmetric\ntrigger 7")).1;
    let expected = "rows: triggers: `to Soft Triggered: nothing sent`, the list has \
        `stays: nothing sent` (events: 1)";
    assert_eq!(told, [expected]);
}

/// A row says whether a rejected setup leaves the record as it was, or its number on it (02, Ask
/// 3).
#[test]
fn number_stored_is_another_deed_than_none() {
    let list = "opens; none; open; -; to Idle: nothing sent; 01\n\
        triggers; Idle; trigger; -; to Soft Triggered: nothing sent; 01\n\
        rejects; Soft Triggered; setup; -; stays: reject #6; 01\n";
    let run = "open 7 hard symmetric\ntrigger 7\nsetup 7 clearing 1";
    let told = counted(list, false, &scripted(run)).1;
    let expected = "rows: rejects: `stays, number stored: reject #6`, the list has \
        `stays: reject #6` (events: 1)";
    assert_eq!(told, [expected]);
    let amended = list.replace("stays: reject #6", "stays, number stored: reject #6");
    assert_eq!(counted(&amended, true, &scripted(run)).1, [""; 0]);
    let late = format!("{run}\nsetup 7 clearing 1");
    let expected = "rows: rejects: `stays: reject #5`, the list has \
        `stays, number stored: reject #6` (events: 1)";
    assert_eq!(counted(&amended, true, &scripted(&late)).1, [expected]);
}

#[test]
fn lines_that_are_no_rows_are_told() {
    for (line, fault) in [
        ("a; Idle; ready; -; refused 106", "5 parts, expected 6 or 7"),
        ("a; Idle; ready; -; refused 106; 01; so; so", "8 parts, expected 6 or 7"),
        (
            "a; Idle; ready; -; refused 106; 01; so",
            "the last part does not begin with `unreachable: `",
        ),
        ("a; idle; ready; -; refused 106; 01", "`idle` is no state"),
        ("a; Idle; Ready; -; refused 106; 01", "`Ready` is no event"),
        ("a; Idle; ready; hard on,hard off; refused 106; 01", "`hard on,hard off` is no term"),
        ("a; Idle; ready; ; refused 106; 01", "`` is no term"),
    ] {
        assert_eq!(counted(line, false, &[]).1, [format!("rows: line 1: {fault}")]);
    }
}

#[test]
fn bad_records_fit_no_row() {
    let bad = [&scripted("open 7")[..], &[10; 16], &scripted("open 8")].concat();
    let (counts, told) = counted(TWO_ROWS, false, &bad);
    assert_eq!(counts, "1 opens\n0 triggers\n");
    assert_eq!(told, ["rows: record 2 is bad"]);
    let told = counted(TWO_ROWS, false, &bad[..31]).1;
    assert_eq!(told, ["rows: record 2 is cut short"]);
}

#[test]
fn runs_are_asked_for_by_seed_and_count() {
    assert_eq!(Made::of_word("4:500000"), Some(Made { seed: 4, count: 500_000 }));
    for word in ["", ":", "4", "4:", ":4", "a:1", "1:b", "1:2:3", "-1:2"] {
        assert_eq!(Made::of_word(word), None, "{word}");
    }
}

/// The words of the states are the end's own, and what is said stands under the program's name.
#[test]
fn lists_of_the_destination_have_its_states() {
    let row = "waits; Hard Indicated; ready; -; refused 106; decision 60\n";
    let told = counted_at(Node::Destination, row, true, &[]).1;
    assert_eq!(told, ["destination_rows: waits is not reached"]);
    let fault = ["rows: line 1: `Hard Indicated` is no state"];
    assert_eq!(counted(row, false, &[]).1, fault);
    let run = scripted("open 7 hard none\nready 7");
    let told = counted_at(Node::Destination, TWO_ROWS, false, &run).1;
    let terms = "a service, hard on, soft none, last below 65535";
    let line = format!("destination_rows: no row fits Idle; ready; {terms} (events: 1)");
    assert_eq!(told, [line]);
}
