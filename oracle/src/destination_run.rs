//! Runs of the destination node, written as scripts and watched. What must come of each event was
//! derived by hand from the section that stands behind it.

use crate::vocabulary::Node;
use crate::{list, script, trace, watch};

/// A line of a script, and what is watched behind its count.
type Step = (&'static str, &'static str);

const FIRST_LINE: &str = "line answer state incumbent rerouting number last signals\n";

fn records(lines: &str) -> Vec<u8> {
    let mut octets = Vec::new();
    let complaint = script::print(Node::Destination, lines.as_bytes(), &mut octets);
    assert_eq!(complaint.expect("a vector takes every byte"), None);
    octets
}

fn text(octets: Vec<u8>) -> String {
    String::from_utf8(octets).expect("lines are ASCII")
}

fn watched(octets: &[u8]) -> String {
    let mut out = Vec::new();
    watch::print(Node::Destination, octets, &mut out).expect("a vector takes every byte");
    text(out)
}

fn traced(octets: &[u8]) -> String {
    let mut out = Vec::new();
    trace::print(Node::Destination, octets, &mut out).expect("a vector takes every byte");
    text(out)
}

fn listed(octets: &[u8]) -> String {
    let mut out = Vec::new();
    let complaint = list::print(Node::Destination, octets, &mut out);
    assert_eq!(complaint.expect("a vector takes every byte"), None);
    text(out)
}

/// The first six numbers of each line.
fn six_numbers(lines: &str) -> String {
    let six = |line: &str| line.split(' ').take(6).collect::<Vec<&str>>().join(" ") + "\n";
    lines.lines().map(six).collect()
}

fn run(steps: &[Step]) {
    let lines: String = steps.iter().map(|(line, _)| format!("{line}\n")).collect();
    let watched_lines = steps.iter().zip(1..);
    let expected: String =
        watched_lines.map(|((_, watched), count)| format!("{count} {watched}\n")).collect();
    let octets = records(&lines);
    let expected = format!("{FIRST_LINE}{expected}");
    assert_eq!(watched(&octets), expected);
    assert_eq!(traced(&octets), six_numbers(&expected));
    assert_eq!(records(&listed(&octets)), octets);
}

/// A hard setup, a soft one with its switchover, a soft move of this end's own, late and unknown
/// setups, a release of what is not held, and the end by the timer.
#[test]
fn bench_run() {
    run(&[
        ("open 7 hard symmetric", "0 1 1 0 0 1 -"),
        // 6.3.5.1 case 1, then 6.3.5.8.
        ("setup 7 immediate 3", "0 3 0 2 3 2 timer start, release incumbent 1"),
        ("ready 7", "0 1 2 0 3 2 timer stop, switch 2, connect 2"),
        // 6.3.5.1 case 2, 6.3.5.9, then 6.3.4.6 case 4.
        ("setup 7 clearing 4", "0 6 2 3 4 3 -"),
        ("ready 7", "0 7 2 3 4 3 connect 3"),
        ("calling 7 2 cause 4", "0 1 3 0 4 3 switch 3"),
        // 01, 107: connection 2 has ended.
        ("calling 7 2", "107 1 3 0 4 3 -"),
        // 6.3.6.1 case 1, then 6.3.7.1.
        ("trigger 7", "0 4 3 0 4 3 -"),
        ("path 7", "0 5 3 4 4 4 setup 4"),
        ("connect 7 3 yes", "107 5 3 4 4 4 -"),
        ("connect 7 4 yes", "0 1 4 0 4 4 switch 4, release incumbent 3 #4"),
        // 6.3.5: the number is not greater; the code is not recognized, whatever the number.
        ("setup 7 immediate 4", "0 1 4 0 4 4 reject #5"),
        ("setup 7 clearing 0", "0 1 4 0 4 4 reject #5"),
        ("setup 7 2 9", "0 1 4 0 4 4 reject #8"),
        ("setup 7 255 1", "0 1 4 0 4 4 reject #8"),
        ("calling 7 5", "107 1 4 0 4 4 -"),
        // 6.3.4.2 case 4. This end looks for no hard path, and holds nothing.
        ("calling 7 4", "0 2 0 0 4 4 timer start"),
        ("path 7", "106 2 0 0 4 4 -"),
        ("calling 7 4", "107 2 0 0 4 4 -"),
        // 6.3.5: here an unrecognized code is a hard setup; 6.3.5.2, 6.3.5.3.
        ("setup 7 255 4", "0 2 0 0 4 4 reject #5"),
        ("setup 7 255 5", "0 3 0 5 5 5 -"),
        ("setup 7 clearing 6", "0 3 0 6 6 6 release rerouting 5 cause 21"),
        ("connect 7 6 yes", "106 3 0 6 6 6 -"),
        // 6.3.4.4 case 4: the timer runs on.
        ("calling 7 6 alternate", "0 2 0 0 6 6 -"),
        ("setup 7 immediate 7", "0 3 0 7 7 7 -"),
        // 6.3.5.10 item 2.
        ("expiry 7", "0 0 0 0 0 0 release called #2, release rerouting 7 #2"),
        ("expiry 7", "105 0 0 0 0 0 -"),
    ]);
}

/// A setup from the far side wins over what this end began (6.3.5.6, 6.3.5.7), and a hard one over
/// a soft one (6.3.5.4, 6.3.5.5). What was begun is then neither answered nor connected (decision
/// 73).
#[test]
fn collisions() {
    run(&[
        ("open 7 hard symmetric", "0 1 1 0 0 1 -"),
        ("trigger 7", "0 4 1 0 0 1 -"),
        ("setup 7 clearing 1", "0 6 1 2 1 2 -"),
        ("path 7", "106 6 1 2 1 2 -"),
        ("setup 7 clearing 2", "0 6 1 3 2 3 release rerouting 2 cause 21"),
        ("ready 7", "0 7 1 3 2 3 connect 3"),
        ("setup 7 clearing 3", "0 6 1 4 3 4 release rerouting 3 cause 21"),
        ("ready 7", "0 7 1 4 3 4 connect 4"),
        (
            "setup 7 immediate 4",
            "0 3 0 5 4 5 timer start, release incumbent 1 cause 21, release rerouting 4 cause 21",
        ),
        ("ready 7", "0 1 5 0 4 5 timer stop, switch 5, connect 5"),
        ("trigger 7", "0 4 5 0 4 5 -"),
        ("path 7", "0 5 5 6 4 6 setup 6"),
        ("setup 7 clearing 5", "0 6 5 7 5 7 release rerouting 6 cause 21"),
        ("connect 7 6 yes", "106 6 5 7 5 7 -"),
        ("calling 7 6", "107 6 5 7 5 7 -"),
        ("calling 7 7 cause 1 alternate", "0 1 5 0 5 7 -"),
        ("trigger 7", "0 4 5 0 5 7 -"),
        ("setup 7 immediate 6", "0 3 0 8 6 8 timer start, release incumbent 5"),
        ("ready 7", "0 1 8 0 6 8 timer stop, switch 8, connect 8"),
        ("trigger 7", "0 4 8 0 6 8 -"),
        ("path 7", "0 5 8 9 6 9 setup 9"),
        (
            "setup 7 immediate 7",
            "0 3 0 10 7 10 timer start, release incumbent 8 cause 21, release rerouting 9 cause 21",
        ),
        ("called 7 cause 9", "0 0 0 0 0 0 timer stop, release rerouting 10 =9"),
    ]);
}

/// A soft move of this end's own: no path, alternates, local policy's no, and both connections lost
/// (6.3.4.8, 6.3.6.1, 6.3.7.1).
#[test]
fn soft_move_from_this_side() {
    run(&[
        ("open 7 nohard symmetric", "0 1 1 0 0 1 -"),
        ("trigger 7", "0 4 1 0 0 1 -"),
        ("nopath 7", "0 1 1 0 0 1 -"),
        ("nopath 7", "106 1 1 0 0 1 -"),
        ("trigger 7", "0 4 1 0 0 1 -"),
        ("trigger 7", "0 4 1 0 0 1 -"),
        ("path 7", "0 5 1 2 0 2 setup 2"),
        ("trigger 7", "0 5 1 2 0 2 -"),
        ("calling 7 2 cause 1 alternate", "0 5 1 3 0 3 setup 3"),
        ("calling 7 3 alternate", "0 5 1 4 0 4 setup 4"),
        ("calling 7 4 noalternate", "0 1 1 0 0 4 -"),
        ("trigger 7", "0 4 1 0 0 4 -"),
        ("path 7", "0 5 1 5 0 5 setup 5"),
        ("connect 7 5 no", "0 1 1 0 0 5 release rerouting 5 cause 21"),
        ("trigger 7", "0 4 1 0 0 5 -"),
        ("path 7", "0 5 1 6 0 6 setup 6"),
        ("calling 7 1", "0 0 0 0 0 0 release called, release rerouting 6"),
    ]);
}

/// How a call ends, or does not, in each state (6.3.4).
#[test]
fn releases() {
    run(&[
        // 6.3.4.2 cases 1 to 3.
        ("open 7 hard none", "0 1 1 0 0 1 -"),
        ("called 7", "0 0 0 0 0 0 release incumbent 1 #1"),
        ("open 7 nohard symmetric", "0 1 1 0 0 1 -"),
        ("called 7", "0 0 0 0 0 0 release incumbent 1"),
        ("open 7 nohard symmetric", "0 1 1 0 0 1 -"),
        ("called 7 cause 4", "0 0 0 0 0 0 release incumbent 1 =4"),
        ("open 7 nohard none", "0 1 1 0 0 1 -"),
        ("calling 7 1 cause 1", "0 0 0 0 0 0 release called =1"),
        ("open 7 hard symmetric", "0 1 1 0 0 1 -"),
        ("calling 7 1 cause 4", "0 0 0 0 0 0 release called #2"),
        ("open 7 nohard symmetric", "0 1 1 0 0 1 -"),
        ("calling 7 1", "0 0 0 0 0 0 release called"),
        // 6.3.4.7, 6.3.4.1: Soft Triggered.
        ("open 7 hard symmetric", "0 1 1 0 0 1 -"),
        ("trigger 7", "0 4 1 0 0 1 -"),
        ("called 7", "0 0 0 0 0 0 release incumbent 1"),
        ("open 7 hard symmetric", "0 1 1 0 0 1 -"),
        ("trigger 7", "0 4 1 0 0 1 -"),
        ("calling 7 1", "0 0 0 0 0 0 release called"),
        ("open 7 hard symmetric", "0 1 1 0 0 1 -"),
        ("trigger 7", "0 4 1 0 0 1 -"),
        ("calling 7 1 cause 1", "0 0 0 0 0 0 release called"),
        // 6.3.4.8 case 4, then 6.3.4.3.
        ("open 7 hard symmetric", "0 1 1 0 0 1 -"),
        ("trigger 7", "0 4 1 0 0 1 -"),
        ("path 7", "0 5 1 2 0 2 setup 2"),
        ("calling 7 1 alternate", "0 2 0 0 0 2 timer start, release rerouting 2 cause 21"),
        ("called 7 cause 3", "0 0 0 0 0 0 timer stop"),
        // 6.3.4.5 case 4, then 6.3.4.4 case 3.
        ("open 7 hard none", "0 1 1 0 0 1 -"),
        ("setup 7 clearing 1", "0 6 1 2 1 2 -"),
        ("calling 7 1 noalternate", "0 3 0 2 1 2 timer start"),
        ("calling 7 2 cause 1 alternate", "0 0 0 0 0 0 timer stop, release called =1"),
        // 6.3.4.5 case 3, hard off with a cause; case 2.
        ("open 7 nohard asymmetric", "0 1 1 0 0 1 -"),
        ("setup 7 clearing 1", "0 6 1 2 1 2 -"),
        ("calling 7 1 cause 1", "0 0 0 0 0 0 release called =1, release rerouting 2"),
        ("open 7 hard asymmetric", "0 1 1 0 0 1 -"),
        ("setup 7 clearing 1", "0 6 1 2 1 2 -"),
        ("called 7", "0 0 0 0 0 0 release incumbent 1 #1, release rerouting 2 #1"),
        // 6.3.4.6 cases 1 and 3 to 6.
        ("open 7 nohard asymmetric", "0 1 1 0 0 1 -"),
        ("setup 7 clearing 1", "0 6 1 2 1 2 -"),
        ("ready 7", "0 7 1 2 1 2 connect 2"),
        ("calling 7 2", "0 1 1 0 1 2 -"),
        ("setup 7 clearing 2", "0 6 1 3 2 3 -"),
        ("ready 7", "0 7 1 3 2 3 connect 3"),
        ("calling 7 1", "0 1 3 0 2 3 switch 3"),
        ("setup 7 clearing 3", "0 6 3 4 3 4 -"),
        ("ready 7", "0 7 3 4 3 4 connect 4"),
        ("calling 7 4 cause 4", "0 0 0 0 0 0 release called #2, release incumbent 3"),
        ("open 7 nohard asymmetric", "0 1 1 0 0 1 -"),
        ("setup 7 clearing 1", "0 6 1 2 1 2 -"),
        ("ready 7", "0 7 1 2 1 2 connect 2"),
        ("calling 7 1 cause 2", "0 0 0 0 0 0 release called #2, release rerouting 2"),
        ("open 7 nohard asymmetric", "0 1 1 0 0 1 -"),
        ("setup 7 clearing 1", "0 6 1 2 1 2 -"),
        ("ready 7", "0 7 1 2 1 2 connect 2"),
        ("called 7", "0 0 0 0 0 0 release incumbent 1, release rerouting 2"),
        // 6.3.4.4 case 2, hard off: #1 all the same. 6.3.5.10 item 1.
        ("open 7 nohard symmetric", "0 1 1 0 0 1 -"),
        ("setup 7 immediate 1", "0 3 0 2 1 2 timer start, release incumbent 1"),
        ("called 7", "0 0 0 0 0 0 timer stop, release rerouting 2 #1"),
        ("open 7 hard none", "0 1 1 0 0 1 -"),
        ("calling 7 1", "0 2 0 0 0 1 timer start"),
        ("expiry 7", "0 0 0 0 0 0 release called #2"),
    ]);
}

/// Without named services: hard on and soft asymmetric at this end too (02, Ask 1; decision 61). A
/// trigger takes symmetric soft here (decision 59), a setup any service (decision 58), and a lost
/// incumbent waits for a hard setup.
#[test]
fn unnamed_services() {
    run(&[
        ("open 7", "0 1 1 0 0 1 -"),
        ("trigger 7", "106 1 1 0 0 1 -"),
        ("setup 7 clearing 1", "0 6 1 2 1 2 -"),
        ("trigger 7", "106 6 1 2 1 2 -"),
        ("ready 7", "0 7 1 2 1 2 connect 2"),
        ("calling 7 1 cause 4", "0 1 2 0 1 2 switch 2"),
        ("calling 7 2", "0 2 0 0 1 2 timer start"),
        ("trigger 7", "106 2 0 0 1 2 -"),
        ("setup 7 immediate 2", "0 3 0 3 2 3 -"),
        ("ready 7", "0 1 3 0 2 3 timer stop, switch 3, connect 3"),
        ("called 7", "0 0 0 0 0 0 release incumbent 3 #1"),
        ("open 7 nohard none", "0 1 1 0 0 1 -"),
        ("setup 7 immediate 1", "106 1 1 0 0 1 -"),
        ("setup 7 2 1", "106 1 1 0 0 1 -"),
        ("trigger 7", "106 1 1 0 0 1 -"),
    ]);
}
