//! The words of one line, taken octet by octet: only what can name something is kept of them.
//!
//! Words are parted by blanks: the space, the tab and the carriage return. `#` ends the last word,
//! and nothing behind it is read. Any other octet is part of a word; only ASCII letters and digits
//! occur in a word that names something.

/// In front of a comment, or of the end of the line.
const MOST_OCTETS: usize = 4_096;

/// Expected of a line that has more.
pub const LENGTH: &str = "at most 4096 octets before a comment or the end of the line";

/// `called KEY CONNECTION cause N noalternate` is the longest, at the destination `calling ..`, and
/// one word more is one too many.
const MOST_WORDS: usize = 6 + 1;

/// `noalternate` is the longest of the words that are no numbers.
const MOST_LETTERS: usize = 11;

#[derive(Clone, Copy, Debug)]
pub struct Word {
    letters: [u8; MOST_LETTERS],
    /// As far as it fits; a word with more letters names nothing.
    length: usize,
    /// Its value where all its letters are digits. One that fits no number stays too great.
    number: Option<u64>,
}

impl Word {
    const EMPTY: Self = Self { letters: [0; MOST_LETTERS], length: 0, number: Some(0) };

    fn put(&mut self, letter: u8) {
        if let Some(free) = self.letters.get_mut(self.length) {
            *free = letter;
        }
        self.length = self.length.saturating_add(1);
        self.number = match (self.number, letter) {
            (Some(before), b'0'..=b'9') => {
                Some(before.saturating_mul(10).saturating_add(u64::from(letter - b'0')))
            }
            (Some(_), _) => None,
            (None, _) => None,
        };
    }

    /// The word, or nothing that is named anywhere.
    pub fn text(&self) -> &[u8] {
        self.letters.get(..self.length).unwrap_or(b"")
    }

    /// The decimal number that the word is, if it fits.
    pub fn number<Number: TryFrom<u64>>(&self) -> Option<Number> {
        self.number.and_then(|number| Number::try_from(number).ok())
    }
}

#[derive(Clone, Copy, Debug)]
pub struct Line {
    words: [Word; MOST_WORDS],
    /// How many words have begun, up to the most.
    begun: usize,
    /// The octets in front of a comment.
    octets: usize,
    within_word: bool,
    within_comment: bool,
}

impl Line {
    pub const EMPTY: Self = Self {
        words: [Word::EMPTY; MOST_WORDS],
        begun: 0,
        octets: 0,
        within_word: false,
        within_comment: false,
    };

    /// Takes one more octet, which is no line end. Hands back whether there was room for it.
    pub fn put(&mut self, octet: u8) -> bool {
        if octet == b'#' {
            self.within_comment = true;
        }
        if self.within_comment {
            return true;
        }
        self.octets += 1;
        match octet {
            b' ' | b'\t' | b'\r' => self.within_word = false,
            letter => self.put_letter(letter),
        }
        self.octets <= MOST_OCTETS
    }

    /// Words behind the most are dropped: the one too many is there already.
    fn put_letter(&mut self, letter: u8) {
        if !self.within_word {
            self.within_word = true;
            self.begun = self.begun.saturating_add(1);
        }
        if let Some(word) = self.words.get_mut(self.begun - 1) {
            word.put(letter);
        }
    }

    pub fn words(&self) -> &[Word] {
        &self.words[..self.begun.min(MOST_WORDS)]
    }
}
