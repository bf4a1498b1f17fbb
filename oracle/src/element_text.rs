//! Cases of the cause element read and printed, byte by byte in the form of docs/ELEMENTS.md.

use crate::elements;

/// A calling-side release, cause as received, number 1; a received element followed by an octet,
/// and a header alone.
const AS_RECEIVED: [u8; 19] =
    [4, 2, 1, 0, 8, 0x55, 0x80, 0, 3, 0xA1, 0xB2, 0x0C, 0xFF, 0, 4, 0x66, 0x81, 0, 0];
const AS_RECEIVED_LINE: &str = "received 7 55800003a1b20c\n";

fn case(signal: [u8; 3], received: &[u8], own: &[u8]) -> Vec<u8> {
    let length = |string: &[u8]| (string.len() as u16).to_be_bytes();
    [&signal, length(received).as_slice(), received, &length(own), own].concat()
}

pub fn printed(input: &[u8]) -> String {
    let mut out = Vec::new();
    elements::print(input, &mut out).expect("a vector takes every byte");
    String::from_utf8(out).expect("cases are printed in ASCII")
}

fn bad_behind_first_case(bad: &[u8]) {
    let input = [&AS_RECEIVED, bad].concat();
    assert_eq!(printed(&input), AS_RECEIVED_LINE.to_string() + "bad\n", "{bad:?}");
    assert_eq!(printed(bad), "bad\n", "{bad:?}");
}

#[test]
fn empty_input_prints_nothing() {
    assert_eq!(printed(&[]), "");
}

#[test]
fn cases_are_printed_a_line_each() {
    let input = [
        AS_RECEIVED.to_vec(),
        case([6, 1, 2], &[], &[0, 1, 0, 2, 3, 4]),
        case([5, 2, 4], &[0, 1, 0], &[0, 1, 0, 0]),
        case([5, 1, 4], &[0, 1, 0, 0], &[0, 1, 0, 1]),
        case([9, 2, 5], &[0, 1, 0, 0], &[0, 1, 0, 0]),
        case([4, 0, 255], &[0, 1, 0, 0], &[0, 1, 0, 0]),
        case([10, 2, 1], &[0, 1, 0, 1, 9], &[0, 1, 0, 0]),
        case([10, 1, 2], &[0, 1, 0, 1, 9], &[0, 1, 0, 0]),
        case([10, 0, 2], &[0, 1, 0, 1, 9], &[0, 1, 0, 0]),
    ];
    let lines = [
        AS_RECEIVED_LINE,
        "own 6 000100020304\n",
        "received 0 \n",
        "own 0 \n",
        "own 0 \n",
        "own 0 \n",
        "received 5 0001000109\n",
        "own 4 00010000\n",
        "own 0 \n",
    ];
    assert_eq!(printed(&input.concat()), lines.concat());
}

#[test]
fn every_octet_is_two_digits() {
    let content: Vec<u8> = (0..=255).collect();
    let element = [&[0xFE, 0xDC, 1, 0], content.as_slice()].concat();
    let digits: String = element.iter().map(|octet| format!("{octet:02x}")).collect();
    assert_eq!(printed(&case([4, 2, 0], &element, &[])), format!("received 260 {digits}\n"));
}

#[test]
fn strings_run_to_65535_octets() {
    for (length, line) in [(65_530_u16, "own 65534 "), (65_531, "own 65535 "), (65_532, "own 0 ")] {
        let [high, low] = length.to_be_bytes();
        let own = [&[1, 2, high, low], vec![9; 65_531].as_slice()].concat();
        let text = printed(&case([6, 1, 2], &own, &own));
        assert!(text.starts_with(line) && text.ends_with('\n'), "{length}");
        let sent = if length > 65_531 { 0 } else { 4 + usize::from(length) };
        assert_eq!(text.len(), line.len() + 2 * sent + 1, "{length}");
    }
}

#[test]
fn values_that_are_not_named_are_bad() {
    for value in 0..=255 {
        let kind = case([value, 1, 1], &[], &[]);
        let cause = case([4, value, 1], &[], &[]);
        assert_eq!(printed(&kind) == "bad\n", value > 10, "kind {value}");
        assert_eq!(printed(&cause) == "bad\n", value > 2, "cause {value}");
        assert_eq!(printed(&case([4, 0, value], &[], &[])), "own 0 \n", "number {value}");
    }
    bad_behind_first_case(&case([11, 0, 0], &[], &[]));
    bad_behind_first_case(&case([0, 3, 0], &[], &[]));
}

#[test]
fn case_cut_short_is_bad() {
    for kept in 1..AS_RECEIVED.len() {
        bad_behind_first_case(&AS_RECEIVED[..kept]);
    }
    let bare = case([0, 0, 0], &[], &[]);
    for kept in 1..bare.len() {
        bad_behind_first_case(&bare[..kept]);
    }
    assert_eq!(printed(&bare), "own 0 \n");
}

#[test]
fn nothing_behind_a_bad_case_is_read() {
    let input = [&AS_RECEIVED, case([4, 3, 1], &[], &[]).as_slice(), &AS_RECEIVED].concat();
    assert_eq!(printed(&input), AS_RECEIVED_LINE.to_string() + "bad\n");
}
