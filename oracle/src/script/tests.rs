//! Each form of a line, what may stand around it, and each way in which a line names no event.

use super::print;
use crate::vocabulary::Node;

type Octets = [u8; 16];

fn scripted(lines: &[u8]) -> (Vec<u8>, Option<String>) {
    scripted_at(Node::Source, lines)
}

fn scripted_at(node: Node, lines: &[u8]) -> (Vec<u8>, Option<String>) {
    let mut out = Vec::new();
    let complaint = print(node, lines, &mut out).expect("a vector takes every byte");
    (out, complaint)
}

/// The octets 0 to 3, key 7, and the octets 8 to 11.
fn octets(head: [u8; 4], number: u32) -> Octets {
    let [kind, first, second, third] = head;
    let [n0, n1, n2, n3] = number.to_be_bytes();
    [kind, first, second, third, 0, 0, 0, 7, n0, n1, n2, n3, 0, 0, 0, 0]
}

fn names(line: &str, head: [u8; 4], number: u32) {
    assert_eq!(scripted(line.as_bytes()), (octets(head, number).to_vec(), None), "{line}");
}

const TRIGGER: [u8; 4] = [1, 0, 0, 0];

/// The line names no event: told under its number, with the record before it and one octet 255.
fn names_nothing(line: &[u8], expected: &str) {
    let lines = [b"trigger 7\n\n", line, b"\ntrigger 7\n"].concat();
    let out = [&octets(TRIGGER, 0)[..], &[255]].concat();
    let complaint = format!("script: line 3: expected {expected}");
    assert_eq!(scripted(&lines), (out, Some(complaint)), "{}", line.escape_ascii());
    let last = [b"trigger 7\n\n", line].concat();
    assert_eq!(scripted(&last), scripted(&lines), "{}", line.escape_ascii());
}

#[test]
fn every_form_is_its_record() {
    names("open 7", [0, 0, 0, 0], 0);
    names("open 7 nohard none", [0, 1, 0, 0], 0);
    names("open 7 nohard asymmetric", [0, 1, 0, 1], 0);
    names("open 7 hard symmetric", [0, 1, 1, 2], 0);
    names("trigger 7", TRIGGER, 0);
    names("path 7", [2, 0, 0, 0], 0);
    names("nopath 7", [3, 0, 0, 0], 0);
    names("connect 7 65535 no", [4, 0, 0, 0], 65_535);
    names("connect 7 0 yes", [4, 1, 0, 0], 0);
    names("setup 7 clearing 4294967295", [5, 1, 0, 0], u32::MAX);
    names("setup 7 immediate 0", [5, 0, 0, 0], 0);
    names("setup 7 255 3", [5, 255, 0, 0], 3);
    names("calling 7", [6, 0, 0, 0], 0);
    names("calling 7 cause 255", [6, 1, 255, 0], 0);
    names("called 7 3", [7, 0, 0, 0], 3);
    names("called 7 3 cause 0", [7, 1, 0, 0], 3);
    names("called 7 3 alternate", [7, 0, 0, 1], 3);
    names("called 7 3 cause 4 noalternate", [7, 1, 4, 2], 3);
    names("ready 7", [8, 0, 0, 0], 0);
    names("expiry 7", [9, 0, 0, 0], 0);
}

#[test]
fn keys_have_32_bits() {
    let key = |line: &[u8]| scripted(line).0[4..8].to_vec();
    assert_eq!(key(b"ready 0"), [0; 4]);
    assert_eq!(key(b"ready 4294967295"), [255; 4]);
    assert_eq!(key(b"ready 16909060"), [1, 2, 3, 4]);
}

#[test]
fn blanks_comments_and_line_ends_are_free() {
    let blanks = " ".repeat(1_300);
    let zeros = "0".repeat(4_000);
    let long_comment = "x # \r".repeat(20_000);
    for line in [
        "trigger 7",
        "trigger 7\n",
        "trigger 7\r\n",
        "\r\n\r\ntrigger\r7\r\n",
        " \t trigger \t 7 \t \n",
        "trigger 7#comment",
        "# comment\ntrigger 7 # comment # \n#",
        "trigger 7 # \u{fc}ber\n",
        "trigger 007\n",
        &format!("{blanks}trigger{blanks}7{blanks}"),
        &format!("trigger {zeros}7 #{blanks}\n"),
        &format!("#{long_comment}\ntrigger 7#{long_comment}\n#{long_comment}"),
    ] {
        names(line, TRIGGER, 0);
    }
    assert_eq!(scripted(b""), (vec![], None));
    assert_eq!(scripted(b"\r\n \n#\n# trigger 7\n\t"), (vec![], None));
}

const EVENT: &str = "open, trigger, path, nopath, connect, setup, calling, called, ready or expiry";
const KEY: &str = "a key, 0 to 4294967295";
const CONNECTION: &str = "a connection, 0 to 65535";
const SWITCHOVER: &str = "clearing, immediate or a switchover code, 0 to 255";

#[test]
fn events_and_keys_that_do_not_fit_are_told() {
    for line in ["close 7", "Open 7", "7", "noalternates 7", "openopenopenopen 7"] {
        names_nothing(line.as_bytes(), EVENT);
    }
    let long_keys = ["4294967296", "18446744073709551623", "99999999999999999999999"];
    for key in ["", "# 7", "x", "-1", "+7", "0x7", "7,"].into_iter().chain(long_keys) {
        names_nothing(format!("trigger {key}").as_bytes(), KEY);
    }
}

#[test]
fn values_that_do_not_fit_are_told() {
    for (line, expected) in [
        ("open 7 soft", "hard, nohard or nothing more"),
        ("open 7 hard", "none, asymmetric or symmetric"),
        ("open 7 hard yes", "none, asymmetric or symmetric"),
        ("connect 7", CONNECTION),
        ("connect 7 65536 yes", CONNECTION),
        ("connect 7 yes", CONNECTION),
        ("connect 7 3", "yes or no"),
        ("connect 7 3 1", "yes or no"),
        ("setup 7", SWITCHOVER),
        ("setup 7 256 3", SWITCHOVER),
        ("setup 7 other 3", SWITCHOVER),
        ("setup 7 clearing", "an incarnation number, 0 to 4294967295"),
        ("setup 7 clearing 4294967296", "an incarnation number, 0 to 4294967295"),
        ("calling 7 3", "cause or nothing more"),
        ("calling 7 alternate", "cause or nothing more"),
        ("calling 7 cause", "a cause, 0 to 255"),
        ("calling 7 cause 256", "a cause, 0 to 255"),
        ("called 7", CONNECTION),
        ("called 7 cause 4", CONNECTION),
        ("called 7 3 crankback", "cause, alternate, noalternate or nothing more"),
        ("called 7 3 cause", "a cause, 0 to 255"),
        ("called 7 3 cause 4 cause 4", "alternate, noalternate or nothing more"),
    ] {
        names_nothing(line.as_bytes(), expected);
    }
}

#[test]
fn words_behind_the_last_are_told() {
    for line in [
        "open 7 hard none 1",
        "trigger 7 7",
        "path 7 7",
        "nopath 7 7",
        "connect 7 3 yes no",
        "setup 7 clearing 3 3",
        "calling 7 cause 4 alternate",
        "called 7 3 alternate cause 4",
        "called 7 3 cause 4 alternate alternate",
        "called 7 3 cause 4 alternate 1 2 3 4 5 6 7 8 9",
        "ready 7 7",
        "expiry 7 7",
    ] {
        names_nothing(line.as_bytes(), "nothing more");
    }
}

/// A line that an event's words would name, were it not for one octet.
#[test]
fn octets_that_are_no_letters_name_nothing() {
    for octet in (0..=255_u8).filter(|octet| !octet.is_ascii_alphanumeric()) {
        if !b" \t\r\n#".contains(&octet) {
            names_nothing(&[b"trigger 7".as_slice(), &[octet]].concat(), KEY);
            names_nothing(&[b"trigger ".as_slice(), &[octet]].concat(), KEY);
            names_nothing(&[b"trigger 7 ".as_slice(), &[octet]].concat(), "nothing more");
        }
    }
    names_nothing(b"\xef\xbb\xbftrigger 7", EVENT);
    names_nothing(&[b'x'; 4_096], EVENT);
    names_nothing(&[b'9'; 4_096], EVENT);
    names_nothing(&[b"trigger ".as_slice(), &[b'9'; 4_088]].concat(), KEY);
}

/// `trigger 7` behind or in front of so many octets that the line has just as many as are allowed,
/// with a comment behind it or none.
#[test]
fn lines_have_4096_octets_at_most() {
    let length = "at most 4096 octets before a comment or the end of the line";
    for filler in ["0", " ", "\t", "\r"] {
        let most = format!("trigger {}7", filler.repeat(4_087));
        assert_eq!(most.len(), 4_096);
        names(&most, TRIGGER, 0);
        names(&format!("{most}\n"), TRIGGER, 0);
        names(&format!("{most}# comment {most}{most}\n"), TRIGGER, 0);
        for more in [" ", "\r", "7", " # comment", "\0"] {
            names_nothing(format!("{most}{more}").as_bytes(), length);
        }
    }
    let blanks = " ".repeat(4_096);
    names(&format!("{blanks}\n{blanks}#\ntrigger 7"), TRIGGER, 0);
    names_nothing(format!("{blanks} ").as_bytes(), length);
    names_nothing(format!("{blanks} #").as_bytes(), length);
}

/// Whatever the words are: the length is judged first.
#[test]
fn length_is_judged_before_the_words() {
    let length = "at most 4096 octets before a comment or the end of the line";
    names_nothing(&[b'x'; 4_097], length);
    names_nothing(&[b'\xff'; 100_000], length);
    names_nothing(format!("close 7 {}", "x ".repeat(2_045)).as_bytes(), length);
    names_nothing(format!("trigger 7 {}", "7 ".repeat(50_000)).as_bytes(), length);
}

/// The words `calling` and `called` change about, and all else is as at the source (decision 76).
#[test]
fn releases_of_the_destination() {
    for (line, head, number) in [
        ("called 7", [7, 0, 0, 0], 0),
        ("called 7 cause 255", [7, 1, 255, 0], 0),
        ("calling 7 3", [6, 0, 0, 0], 3),
        ("calling 7 3 cause 0", [6, 1, 0, 0], 3),
        ("calling 7 3 alternate", [6, 0, 0, 1], 3),
        ("calling 7 3 cause 4 noalternate", [6, 1, 4, 2], 3),
        ("connect 7 65535 no", [4, 0, 0, 0], 65_535),
        ("setup 7 immediate 9", [5, 0, 0, 0], 9),
    ] {
        let expected = (octets(head, number).to_vec(), None);
        assert_eq!(scripted_at(Node::Destination, line.as_bytes()), expected, "{line}");
    }
}

#[test]
fn lines_that_name_nothing_at_the_destination() {
    for (line, expected) in [
        ("close 7", EVENT),
        ("called 7 3", "cause or nothing more"),
        ("called 7 alternate", "cause or nothing more"),
        ("called 7 cause", "a cause, 0 to 255"),
        ("called 7 cause 4 alternate", "nothing more"),
        ("calling 7", CONNECTION),
        ("calling 7 cause 4", CONNECTION),
        ("calling 7 65536", CONNECTION),
        ("calling 7 3 crankback", "cause, alternate, noalternate or nothing more"),
        ("calling 7 3 cause 256", "a cause, 0 to 255"),
        ("calling 7 3 cause 4 cause 4", "alternate, noalternate or nothing more"),
        ("calling 7 3 cause 4 alternate alternate", "nothing more"),
    ] {
        let lines = format!("trigger 7\n\n{line}\ntrigger 7\n");
        let out = [&octets(TRIGGER, 0)[..], &[255]].concat();
        let complaint = format!("destination_script: line 3: expected {expected}");
        let told = scripted_at(Node::Destination, lines.as_bytes());
        assert_eq!(told, (out, Some(complaint)), "{line}");
    }
}
