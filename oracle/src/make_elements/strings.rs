//! Strings for a signal to name: each way in which a string begins with an element, or does not.

use crate::draw::Draw;
use crate::element::HEADER_OCTETS;

/// The most octets that a case's string has behind the header.
const MOST_BEHIND_HEADER: usize = 65_535 - HEADER_OCTETS;

/// How a string stands to the element that it should begin with.
#[derive(Clone, Copy, Debug, PartialEq, Eq)]
pub enum Shape {
    UnderHeader,
    HeaderAlone,
    Exact,
    Followed,
    OneOctetShort,
    FarTooShort,
}

pub const SHAPES: [Shape; 6] = [
    Shape::UnderHeader,
    Shape::HeaderAlone,
    Shape::Exact,
    Shape::Followed,
    Shape::OneOctetShort,
    Shape::FarTooShort,
];

pub fn string(draw: &mut Draw) -> Vec<u8> {
    let shape = draw.among(SHAPES);
    string_of_shape(draw, shape)
}

pub fn string_of_shape(draw: &mut Draw, shape: Shape) -> Vec<u8> {
    match shape {
        Shape::UnderHeader => under_header(draw),
        Shape::HeaderAlone => behind_header(draw, 0, 0),
        Shape::Exact => {
            let length = length(draw);
            behind_header(draw, length, length)
        }
        Shape::Followed => {
            let (length, more) = (length(draw), 1 + draw.below(8));
            behind_header(draw, length, length + more)
        }
        Shape::OneOctetShort => {
            let length = length(draw).max(1);
            behind_header(draw, length, length - 1)
        }
        Shape::FarTooShort => {
            let present = draw.below(24);
            let length = far_length(draw, present);
            behind_header(draw, length, present)
        }
    }
}

fn under_header(draw: &mut Draw) -> Vec<u8> {
    let count = draw.below(HEADER_OCTETS);
    draw.octets(count)
}

/// A header with any identifier and that length, and so many octets behind it.
fn behind_header(draw: &mut Draw, length: usize, present: usize) -> Vec<u8> {
    let length = u16::try_from(length).unwrap_or(u16::MAX).to_be_bytes();
    [draw.octets(2).as_slice(), &length, &draw.octets(present)].concat()
}

/// Mostly under 25; one in 40 stands where the length begins to fill its second octet.
fn length(draw: &mut Draw) -> usize {
    match draw.below(40) {
        0 => draw.among([255, 256]),
        1..=5 => 0,
        _ => 1 + draw.below(24),
    }
}

/// A length two octets or more above those present (of which there are under 24): also such as
/// would do if one of its octets were not read, or if the two were read the other way round.
fn far_length(draw: &mut Draw, present: usize) -> usize {
    let any = present + 2 + draw.below(usize::from(u16::MAX) - present - 1);
    draw.among([present + 2, 255, 256, 256 + present, 256 * present.max(1), 65_535, any])
}

/// Lengths at the edge of what a string can hold, and any, each with octets enough, one too few or
/// more; and small lengths with many octets behind the element.
pub fn long_string(draw: &mut Draw) -> Vec<u8> {
    const MOST: usize = MOST_BEHIND_HEADER;
    let any = 257 + draw.below(MOST - 256);
    let (length, present) = draw.among([
        (MOST, MOST),
        (MOST, MOST - 1),
        (MOST - 1, MOST),
        (MOST + 1, MOST),
        (65_535, MOST),
        (any, any),
        (any, any - 1),
        (any, MOST),
        (0, MOST),
        (255, MOST),
        (256, MOST),
    ]);
    behind_header(draw, length, present)
}
