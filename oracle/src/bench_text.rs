//! The bench run of 01, B1 to B16, as a technician runs it: written as a script, turned into
//! records, traced and watched. From B12 to B15 the number is 6 (02, Ask 3).

use crate::vocabulary::Node;
use crate::{list, script, trace, watch};

/// B15 is three events.
const SCRIPT: &str = "
open 7 hard symmetric     # B1
setup 7 clearing 3        # B2
ready 7                   # B3
setup 7 clearing 3        # B4
setup 7 immediate 9       # B5
setup 7 clearing 5        # B6
ready 7                   # B7
called 7 1 cause 4        # B8
called 7 1                # B9
trigger 7                 # B10
path 7                    # B11
setup 7 clearing 6        # B12
connect 7 4 yes           # B13
open 7 hard symmetric     # B14
trigger 7                 # B15
path 7
called 7 4
expiry 7                  # B16
";

const WATCHED: &str = "\
line answer state incumbent rerouting number last signals
1 0 1 1 0 0 1 -
2 0 6 1 2 3 2 -
3 0 7 1 2 3 2 connect 2
4 0 7 1 2 3 2 reject #5
5 0 7 1 2 3 2 reject #8
6 0 6 1 3 5 3 release rerouting 2
7 0 7 1 3 5 3 connect 3
8 0 1 3 0 5 3 switch 3
9 107 1 3 0 5 3 -
10 0 4 3 0 5 3 -
11 0 5 3 4 5 4 setup 4
12 0 5 3 4 6 4 reject #6
13 0 1 4 0 6 4 switch 4, release incumbent 3 #4
14 103 1 4 0 6 4 -
15 0 4 4 0 6 4 -
16 0 5 4 5 6 5 setup 5
17 0 3 0 5 6 5 timer start
18 0 0 0 0 0 0 release calling #2, release rerouting 5 #2
";

/// The lines that 01 prints for B1 to B4.
const FOUR_TRACED: &str = "\
line answer state incumbent rerouting number
1 0 1 1 0 0
2 0 6 1 2 3
3 0 7 1 2 3
4 0 7 1 2 3
";

/// The records of a script without a line that names no event.
fn records(lines: &str) -> Vec<u8> {
    let mut octets = Vec::new();
    let complaint = script::print(Node::Source, lines.as_bytes(), &mut octets);
    assert_eq!(complaint.expect("a vector takes every byte"), None);
    octets
}

fn text(octets: Vec<u8>) -> String {
    String::from_utf8(octets).expect("lines are ASCII")
}

fn traced(octets: &[u8]) -> String {
    let mut out = Vec::new();
    trace::print(Node::Source, octets, &mut out).expect("a vector takes every byte");
    text(out)
}

fn watched(octets: &[u8]) -> String {
    let mut out = Vec::new();
    watch::print(Node::Source, octets, &mut out).expect("a vector takes every byte");
    text(out)
}

/// The first six numbers of each line.
fn six_numbers(lines: &str) -> String {
    let six = |line: &str| line.split(' ').take(6).collect::<Vec<&str>>().join(" ") + "\n";
    lines.lines().map(six).collect()
}

#[test]
fn b1_to_b4_trace_as_01_prints() {
    let four: String = SCRIPT.lines().take(5).map(|line| format!("{line}\n")).collect();
    assert_eq!(traced(&records(&four)), FOUR_TRACED);
}

#[test]
fn b1_to_b16_trace() {
    assert_eq!(traced(&records(SCRIPT)), six_numbers(WATCHED));
}

#[test]
fn b1_to_b16_watched() {
    assert_eq!(watched(&records(SCRIPT)), WATCHED);
}

#[test]
fn b1_to_b16_list_to_the_same_records() {
    let octets = records(SCRIPT);
    let mut lines = Vec::new();
    let complaint = list::print(Node::Source, octets.as_slice(), &mut lines);
    assert_eq!(complaint.expect("a vector takes every byte"), None);
    let lines = text(lines);
    assert!(lines.starts_with("open 7 hard symmetric  # 1\nsetup 7 clearing 3  # 2\n"));
    assert_eq!(records(&lines), octets);
}

#[test]
fn empty_script_traces_to_the_first_line() {
    assert_eq!(traced(&records("")), "line answer state incumbent rerouting number\n");
    assert_eq!(records("\n  \n# open 7\n"), []);
}
