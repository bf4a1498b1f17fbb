//! A line of decimal numbers, each with one octet behind it: nothing is formatted or allocated.

/// Room for a count of 20 digits and a watched outcome, 29 digits and 7 blanks, and for the octets
/// that are written behind the last that counts.
const LINE_OCTETS: usize = 80;

const COUNT_DIGITS: usize = 20;

/// The numbers 00 to 99, two digits each.
const PAIRS: [[u8; 2]; 100] = pairs();

const fn pairs() -> [[u8; 2]; 100] {
    let mut pairs = [[b'0'; 2]; 100];
    let mut number = 0;
    while number < 100 {
        pairs[number] = [b'0' + (number / 10) as u8, b'0' + (number % 10) as u8];
        number += 1;
    }
    pairs
}

/// A count in decimal digits, so that counting on divides nothing.
pub struct Count {
    /// Behind them stands a blank.
    digits: [u8; COUNT_DIGITS + 1],
    /// How many digits it has.
    length: usize,
}

impl Count {
    pub const ZERO: Self = {
        let mut digits = [b' '; COUNT_DIGITS + 1];
        digits[0] = b'0';
        Self { digits, length: 1 }
    };

    #[inline]
    pub fn next(&mut self) {
        for digit in self.digits[..self.length].iter_mut().rev() {
            if *digit != b'9' {
                *digit += 1;
                return;
            }
            *digit = b'0';
        }
        // All were 9.
        self.digits[0] = b'1';
        self.digits[self.length] = b'0';
        self.length += 1;
    }
}

pub struct NumberLine {
    octets: [u8; LINE_OCTETS],
    length: usize,
}

impl NumberLine {
    pub const EMPTY: Self = Self { octets: [0; LINE_OCTETS], length: 0 };

    /// Begins a line with a count and the blank behind it.
    #[inline]
    pub fn begin(&mut self, count: &Count) {
        self.length = 0;
        self.put(count.digits, count.length + 1);
    }

    #[inline(always)]
    pub fn put_number(&mut self, number: impl Into<u32>, behind: u8) {
        let number = number.into();
        if number < 10 {
            self.put([b'0' + number as u8, behind], 2);
        } else if number < 100_000 {
            self.put_short(number, behind);
        } else {
            self.put_long(number, behind);
        }
    }

    /// Up to five digits. All five are worked out, and then it is seen how many count: on numbers
    /// that vary in length this costs less than a branch for each digit.
    fn put_short(&mut self, number: u32, behind: u8) {
        let rest = number % 10_000;
        let [d1, d2] = PAIRS[(rest / 100) as usize];
        let [d3, d4] = PAIRS[(rest % 100) as usize];
        let five = [b'0' + (number / 10_000) as u8, d1, d2, d3, d4, behind, 0, 0];
        let zeros = usize::from(number < 10)
            + usize::from(number < 100)
            + usize::from(number < 1_000)
            + usize::from(number < 10_000);
        self.put((u64::from_be_bytes(five) << (8 * zeros)).to_be_bytes(), 6 - zeros);
    }

    /// Six to ten digits.
    fn put_long(&mut self, number: u32, behind: u8) {
        let [d2, d3] = PAIRS[(number % 10_000 / 100) as usize];
        let [d4, d5] = PAIRS[(number % 100) as usize];
        self.put_short(number / 100_000, b'0' + (number / 10_000 % 10) as u8);
        self.put([d2, d3, d4, d5, behind], 5);
    }

    /// The first octets of a row, so many: the others are written over, or are no part of the line.
    #[inline(always)]
    fn put<const COUNT: usize>(&mut self, octets: [u8; COUNT], counted: usize) {
        self.octets[self.length..self.length + COUNT].copy_from_slice(&octets);
        self.length += counted;
    }

    #[inline]
    pub fn octets(&self) -> &[u8] {
        &self.octets[..self.length]
    }
}

#[test]
fn numbers_are_written_as_they_are_formatted() {
    let edges = (0..10).flat_map(|power| {
        let ten = 10_u32.pow(power);
        [ten - 1, ten, ten + 1, 7 * (ten / 9)]
    });
    for number in (0..=100_000).chain(edges).chain([1_234_567_890, u32::MAX]) {
        let mut line = NumberLine::EMPTY;
        line.put_number(number, b'!');
        assert_eq!(line.octets(), format!("{number}!").as_bytes());
    }
}

#[test]
fn counts_are_written_as_they_are_formatted() {
    let mut count = Count::ZERO;
    let mut line = NumberLine::EMPTY;
    for number in 0..=100_001 {
        line.begin(&count);
        assert_eq!(line.octets(), format!("{number} ").as_bytes());
        count.next();
    }
}

/// The widest line: every number the greatest of its kind.
#[test]
fn widest_line_has_room() {
    let mut count = Count { digits: *b"18446744073709551614 ", length: COUNT_DIGITS };
    count.next();
    let mut line = NumberLine::EMPTY;
    line.begin(&count);
    line.put_number(108_u8, b' ');
    line.put_number(7_u8, b' ');
    line.put_number(u16::MAX, b' ');
    line.put_number(u16::MAX, b' ');
    line.put_number(u32::MAX, b' ');
    line.put_number(u16::MAX, b' ');
    let widest = "18446744073709551615 108 7 65535 65535 4294967295 65535 ";
    assert_eq!(line.octets(), widest.as_bytes());
}
