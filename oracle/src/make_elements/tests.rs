//! What made cases promise: every kind with every cause, strings of every shape and length, each
//! often; cases are bad where and only where that is asked.

use super::bad::WAY_COUNT;
use super::strings::{long_string, string, string_of_shape, Shape, SHAPES};
use super::{case, MadeCase, AS_RECEIVED, BY_NUMBER, CAUSE_COUNT, KIND_COUNT, MAKER, RELEASES};
use crate::draw::Draw;
use crate::element_text::printed;

const CASES: usize = 20_000;

fn cases(seed: u64) -> Vec<MadeCase> {
    let mut draw = Draw::from_seed(seed);
    (0..CASES).map(|_| case(&mut draw)).collect()
}

fn count(cases: &[MadeCase], counted: impl Fn(&MadeCase) -> bool) -> usize {
    cases.iter().filter(|case| counted(case)).count()
}

/// The string that a release names with its cause, if it does.
fn named(case: &MadeCase) -> Option<&[u8]> {
    match (RELEASES.contains(&case.signal.kind), case.signal.cause) {
        (true, BY_NUMBER) => Some(&case.own),
        (true, AS_RECEIVED) => Some(&case.received),
        _ => None,
    }
}

/// The length that a header holds, and how many octets follow it.
fn lengths(string: &[u8]) -> Option<(usize, usize)> {
    match string {
        [_, _, high, low, rest @ ..] => {
            Some((256 * usize::from(*high) + usize::from(*low), rest.len()))
        }
        _ => None,
    }
}

fn is_sound(string: &[u8]) -> bool {
    lengths(string).is_some_and(|(length, present)| length <= present)
}

fn has_shape(string: &[u8], shape: Shape) -> bool {
    match (shape, lengths(string)) {
        (Shape::UnderHeader, None) => true,
        (Shape::HeaderAlone, Some(lengths)) => lengths == (0, 0),
        (Shape::Exact, Some((length, present))) => length == present,
        (Shape::Followed, Some((length, present))) => length < present,
        (Shape::OneOctetShort, Some((length, present))) => length == present + 1,
        (Shape::FarTooShort, Some((length, present))) => length > present + 1,
        _ => false,
    }
}

#[test]
fn strings_have_the_shape_asked() {
    let mut draw = Draw::from_seed(1);
    for shape in SHAPES {
        for _ in 0..5_000 {
            let string = string_of_shape(&mut draw, shape);
            assert!(has_shape(&string, shape), "{shape:?} {string:?}");
        }
    }
}

#[test]
fn most_strings_are_short() {
    let mut draw = Draw::from_seed(2);
    let long = (0..CASES).filter(|_| string(&mut draw).len() >= 40).count();
    assert!((CASES / 200..CASES / 50).contains(&long), "{long}");
}

#[test]
fn every_kind_comes_with_every_cause() {
    let cases = cases(3);
    for kind in 0..KIND_COUNT {
        for cause in 0..CAUSE_COUNT {
            let met = |case: &MadeCase| (case.signal.kind, case.signal.cause) == (kind, cause);
            assert!(count(&cases, met) >= CASES / 100, "{kind} {cause}");
        }
    }
}

#[test]
fn named_strings_have_every_shape_and_length() {
    let cases = cases(4);
    let named_with =
        |asked: &dyn Fn(&[u8]) -> bool| count(&cases, |case| named(case).is_some_and(asked));
    for shape in SHAPES {
        let met = named_with(&|string| has_shape(string, shape));
        assert!(met >= CASES / 20, "{shape:?}: {met}");
    }
    for octets in 0..4 {
        let met = named_with(&|string| string.len() == octets);
        assert!(met >= CASES / 100, "{octets} octets: {met}");
    }
    for length in [0, 1, 2, 3, 12, 24, 255, 256, 65_535] {
        let met = named_with(&|string| lengths(string).is_some_and(|found| found.0 == length));
        assert!(met >= CASES / 200, "length {length}: {met}");
    }
    for length in [255, 256] {
        let met = named_with(&|string| lengths(string) == Some((length, length)));
        assert!(met >= CASES / 2_000, "exactly {length}: {met}");
    }
}

#[test]
fn both_strings_are_broken_or_sound() {
    let cases = cases(5);
    let both = |asked: fn(&[u8]) -> bool, case: &MadeCase| {
        named(case).is_some() && asked(&case.received) && asked(&case.own)
    };
    assert!(count(&cases, |case| both(|string| !is_sound(string), case)) >= CASES / 10);
    let differ = |case: &MadeCase| case.received != case.own && both(is_sound, case);
    assert!(count(&cases, differ) >= CASES / 10);
}

#[test]
fn one_case_in_500_has_one_long_string() {
    let cases = cases(6);
    let long = |case: &MadeCase| [&case.received, &case.own].map(|string| string.len() > 268);
    let met = count(&cases, |case| long(case) != [false, false]);
    assert!((CASES / 750..CASES / 333).contains(&met), "{met}");
    assert_eq!(count(&cases, |case| long(case) == [true, true]), 0);
    let met = count(&cases, |case| named(case).is_some_and(|string| string.len() > 268));
    assert!(met >= CASES / 1_000, "{met}");
}

/// Every long string fits its case, and each edge is met.
#[test]
fn long_strings_stand_at_the_edges() {
    let mut draw = Draw::from_seed(7);
    let met: Vec<(usize, usize)> =
        (0..300).filter_map(|_| lengths(&long_string(&mut draw))).collect();
    assert!(met.iter().all(|&(_, present)| (256..=65_531).contains(&present)));
    assert_eq!(met.len(), 300);
    for length in [0, 255, 256, 65_530, 65_531, 65_532, 65_535] {
        assert!(met.contains(&(length, 65_531)), "{length}");
    }
    assert!(met.contains(&(65_531, 65_530)));
    assert!(met.iter().any(|&(length, present)| length == present && present < 65_531));
    assert!(met.iter().any(|&(length, present)| length == present + 1 && present < 65_530));
}

#[test]
fn seed_decides_alone() {
    assert_eq!(MAKER.made(7, 200, false), MAKER.made(7, 200, false));
    assert_ne!(MAKER.made(7, 200, false), MAKER.made(8, 200, false));
    assert!(MAKER.made(8, 200, false).starts_with(&MAKER.made(8, 100, false)));
    assert_eq!(MAKER.made(7, 0, true), []);
}

#[test]
fn cases_are_bad_only_where_asked() {
    let text = printed(&MAKER.made(9, 5_000, false));
    assert!(text.lines().all(|line| line != "bad"));
    assert_eq!(text.lines().count(), 5_000);
    for seed in 0..20 * WAY_COUNT as u64 {
        let before = printed(&MAKER.made(seed, 2, false));
        assert_eq!(printed(&MAKER.made(seed, 3, true)), before + "bad\n", "seed {seed}");
        assert_eq!(printed(&MAKER.made(seed, 1, true)), "bad\n", "seed {seed}");
    }
}
