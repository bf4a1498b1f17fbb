//! Cases read and printed, byte by byte in the form of docs/TABLES.md.

use crate::tables;
use crate::vocabulary::Node;

/// Key 7, hard on, symmetric soft, Soft Reroute Proceeding on 3 and 4, last number 4, remote 5.
const PROCEEDING: [u8; 20] = [0, 0, 0, 7, 1, 2, 5, 0, 0, 3, 0, 4, 0, 4, 0, 0, 0, 5, 0, 0];
/// Key 258, hard off, asymmetric soft, Hard Reroute Triggered, last number 772, with every octet
/// that is not read filled.
const TRIGGERED: [u8; 20] = [0, 0, 1, 2, 0, 1, 2, 9, 9, 9, 9, 9, 3, 4, 5, 6, 7, 8, 9, 9];
/// An empty record, with every octet that is not read filled.
const EMPTY: [u8; 20] = [0, 0, 0, 0, 0, 0, 0, 9, 9, 9, 9, 9, 0, 0, 0, 0, 0, 0, 9, 9];
/// B13: connect 4, policy yes.
const CONNECT: [u8; 16] = [4, 1, 0, 0, 0, 0, 0, 7, 0, 0, 0, 4, 0, 0, 0, 0];
/// An opening of key 9 without named services: hard on, soft asymmetric (02, Ask 1).
const OPENING: [u8; 16] = [0, 0, 0, 0, 0, 0, 0, 9, 0, 0, 0, 0, 0, 0, 0, 0];

const CONNECTED: &str = "7 1 2 1 4 0 4 5\n258 0 1 2 0 0 772 84281096\n0 0 0 0 0 0 0 0\n";
const UNTOUCHED: &str = "7 1 2 5 3 4 4 5\n258 0 1 2 0 0 772 84281096\n";

fn case(records: &[[u8; 20]], event: [u8; 16]) -> Vec<u8> {
    case_with_added(0, records, event)
}

/// The same case with its table not to be checked.
fn unchecked_case(records: &[[u8; 20]], event: [u8; 16]) -> Vec<u8> {
    case_with_added(32_768, records, event)
}

/// All the records follow, whatever is added to their count.
fn case_with_added(added: u16, records: &[[u8; 20]], event: [u8; 16]) -> Vec<u8> {
    let count = added + u16::try_from(records.len()).expect("a test has few records");
    [&count.to_be_bytes(), records.concat().as_slice(), &event].concat()
}

fn printed(input: &[u8]) -> String {
    printed_at(Node::Source, input)
}

fn printed_at(node: Node, input: &[u8]) -> String {
    let mut out = Vec::new();
    tables::print(node, input, &mut out).expect("a vector takes every byte");
    String::from_utf8(out).expect("cases are printed in ASCII")
}

/// One case that is done, and its text; a bad case is put behind it.
fn first_case() -> (Vec<u8>, String) {
    let signals = "switch 4, release incumbent 3 #4";
    let text = format!("case 1 answer 0 n 3 {signals}\n{CONNECTED}");
    (case(&[PROCEEDING, TRIGGERED, EMPTY], CONNECT), text)
}

fn bad_behind_first_case(bad: &[u8]) {
    let (octets, text) = first_case();
    assert_eq!(printed(&[&octets, bad].concat()), text + "bad\n");
    assert_eq!(printed(bad), "bad\n");
}

#[test]
fn empty_input_prints_nothing() {
    assert_eq!(printed(&[]), "");
}

#[test]
fn cases_are_counted_and_printed_whole() {
    let (octets, mut text) = first_case();
    let opened = case(&[PROCEEDING, TRIGGERED, EMPTY], OPENING);
    let full = case(&[PROCEEDING, TRIGGERED], OPENING);
    let unfit = case(&[PROCEEDING, TRIGGERED, PROCEEDING], CONNECT);
    let none = case(&[], OPENING);
    text += &format!("case 2 answer 0 n 3 -\n{UNTOUCHED}9 1 1 1 1 0 1 0\n");
    text += &format!("case 3 answer 104 n 2 -\n{UNTOUCHED}");
    text += &format!("case 4 answer 101 n 3 -\n{UNTOUCHED}7 1 2 5 3 4 4 5\n");
    text += "case 5 answer 104 n 0 -\n";
    assert_eq!(printed(&[octets, opened, full, unfit, none].concat()), text);
}

#[test]
fn count_runs_to_1100() {
    let text = printed(&case(&[EMPTY; 1_100], OPENING));
    assert!(text.starts_with("case 1 answer 101 n 1100 -\n0 0 0 0 0 0 0 0\n"));
    assert_eq!(text.lines().count(), 1_101);
    bad_behind_first_case(&case(&[EMPTY; 1_101], OPENING));
    bad_behind_first_case(&[255, 255]);
}

/// With 32,768 added too: 1,100 records are good, 1,101 are bad though all of them follow.
#[test]
fn count_of_a_case_not_to_be_checked_runs_to_1100() {
    for node in [Node::Source, Node::Destination] {
        for count in [0, 1, 2, 64, 1_024, 1_025, 1_099, 1_100] {
            let text = printed_at(node, &unchecked_case(&vec![EMPTY; count], OPENING));
            let answer = if count == 0 { 104 } else { 0 };
            assert!(text.starts_with(&format!("case 1 answer {answer} n {count} -\n")));
            assert_eq!(text.lines().count(), 1 + count);
        }
        for count in [1_101, 1_102, 2_048, 32_767] {
            let octets = unchecked_case(&vec![EMPTY; count], OPENING);
            assert_eq!(printed_at(node, &octets), "bad\n", "{count}");
        }
    }
    bad_behind_first_case(&unchecked_case(&[EMPTY; 1_101], OPENING));
    // 1,101 with 32,768 and without, and the greatest count of either kind; cut short too.
    for bad in [[132, 77], [4, 77], [127, 255], [255, 255]] {
        bad_behind_first_case(&bad);
    }
}

/// Of a fit table the same is printed, and of an unfit one what the lowest record makes of the
/// event.
#[test]
fn cases_not_to_be_checked_are_printed_whole() {
    let (_, text) = first_case();
    let connected = unchecked_case(&[PROCEEDING, TRIGGERED, EMPTY], CONNECT);
    assert_eq!(printed(&connected), text);
    let unfit = [PROCEEDING, TRIGGERED, PROCEEDING, EMPTY];
    let mut on_record = OPENING;
    on_record[7] = 7;
    let mut key_zero = CONNECT;
    key_zero[7] = 0;
    let events = [CONNECT, OPENING, on_record, key_zero].map(|event| unchecked_case(&unfit, event));
    let behind = "7 1 2 5 3 4 4 5\n";
    let text = [
        "case 1 answer 0 n 4 switch 4, release incumbent 3 #4\n",
        &format!("7 1 2 1 4 0 4 5\n258 0 1 2 0 0 772 84281096\n{behind}0 0 0 0 0 0 0 0\n"),
        &format!("case 2 answer 0 n 4 -\n{UNTOUCHED}{behind}9 1 1 1 1 0 1 0\n"),
        &format!("case 3 answer 103 n 4 -\n{UNTOUCHED}{behind}0 0 0 0 0 0 0 0\n"),
        &format!("case 4 answer 102 n 4 -\n{UNTOUCHED}{behind}0 0 0 0 0 0 0 0\n"),
    ];
    assert_eq!(printed(&events.concat()), text.concat());
    assert_eq!(printed_at(Node::Destination, &events.concat()), text.concat());
}

/// What one case says of the check holds for that case alone.
#[test]
fn each_case_says_whether_it_is_checked() {
    let unfit = [PROCEEDING, PROCEEDING];
    let (checked, unchecked) = (case(&unfit, OPENING), unchecked_case(&unfit, OPENING));
    let text = printed(&[checked.clone(), unchecked.clone(), checked, unchecked].concat());
    let cases: Vec<&str> = text.lines().filter(|line| line.starts_with("case ")).collect();
    let expected = [
        "case 1 answer 101 n 2 -",
        "case 2 answer 104 n 2 -",
        "case 3 answer 101 n 2 -",
        "case 4 answer 104 n 2 -",
    ];
    assert_eq!(cases, expected);
}

#[test]
fn case_cut_short_is_bad() {
    let (octets, text) = first_case();
    for kept in 1..octets.len() {
        bad_behind_first_case(&octets[..kept]);
    }
    assert_eq!(printed(&octets), text);
    let unchecked = unchecked_case(&[PROCEEDING, EMPTY], OPENING);
    for kept in 1..unchecked.len() {
        bad_behind_first_case(&unchecked[..kept]);
    }
    for none in [case(&[], OPENING), unchecked_case(&[], OPENING)] {
        for kept in 1..none.len() {
            bad_behind_first_case(&none[..kept]);
        }
    }
}

/// Hard, soft and state, from the first value that is not named, in each record.
#[test]
fn values_of_records_that_are_not_named_are_bad() {
    for (octet, lowest) in [(4, 2), (5, 3), (6, 8)] {
        for value in 0..=255 {
            for place in 0..3 {
                let mut records = [PROCEEDING, TRIGGERED, EMPTY];
                records[place][octet] = value;
                for octets in [case(&records, OPENING), unchecked_case(&records, OPENING)] {
                    let bad = printed(&octets) == "bad\n";
                    assert_eq!(bad, value >= lowest, "{octet} {value} {place}");
                }
            }
        }
    }
}

/// A bad event is bad over an unfit table too, checked or not, and for key 0 (decision 23).
#[test]
fn bad_event_comes_before_every_check() {
    let mut event = CONNECT;
    event[1] = 2;
    bad_behind_first_case(&case(&[PROCEEDING, PROCEEDING], event));
    bad_behind_first_case(&unchecked_case(&[PROCEEDING, PROCEEDING], event));
    event[7] = 0;
    bad_behind_first_case(&case(&[], event));
    bad_behind_first_case(&unchecked_case(&[], event));
}

#[test]
fn nothing_behind_a_bad_case_is_read() {
    let (octets, text) = first_case();
    let mut bad = OPENING;
    bad[0] = 10;
    let input = [octets.clone(), case(&[EMPTY], bad), octets].concat();
    assert_eq!(printed(&input), text + "bad\n");
}
