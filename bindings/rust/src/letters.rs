//! Letters, and what reading two lines back answers.

use std::fmt;

use crate::{Code, Refusal};

/// A letter of a string: a rule opened or closed, by its number, or a symbol passed, by its code.
#[derive(Clone, Copy, Debug, PartialEq, Eq, Hash)]
pub enum Letter {
    /// The rule of this number is opened; its word is `(2`.
    Opening(u16),
    /// The rule of this number is closed; its word is `)2`.
    Closing(u16),
    /// The symbol of this code is passed; its word is its name.
    Symbol(Code),
}

/// How often an entry counts a letter's kind.
const KIND: u32 = 65_536;

impl Letter {
    /// The letter of an entry of a row that [`read_back`](crate::read_back) wrote; none for a number that is no letter's.
    ///
    /// ```
    /// use ambiguity::Letter;
    ///
    /// assert_eq!(Letter::of_entry(2 * 65_536 + 7), Some(Letter::Closing(7)));
    /// assert_eq!(Letter::of_entry(7), None);
    /// ```
    #[must_use]
    pub fn of_entry(entry: u32) -> Option<Letter> {
        let number = (entry % KIND) as u16;
        match entry / KIND {
            1 => Some(Letter::Opening(number)),
            2 => Some(Letter::Closing(number)),
            3 => Some(Letter::Symbol(number)),
            _ => None,
        }
    }

    /// The entry of a row that stands for this letter.
    #[must_use]
    pub fn entry(self) -> u32 {
        let (kind, number) = match self {
            Letter::Opening(rule) => (1, u32::from(rule)),
            Letter::Closing(rule) => (2, u32::from(rule)),
            Letter::Symbol(code) => (3, u32::from(code)),
        };
        kind * KIND + number
    }
}

/// How many letters were read back.
#[derive(Clone, Copy, Debug, PartialEq, Eq)]
pub struct ReadBack {
    /// The letters of the left string.
    pub left: usize,
    /// The letters of the right string.
    pub right: usize,
}

/// What reading back refuses.
#[derive(Clone, Copy, Debug, PartialEq, Eq)]
pub enum Part {
    /// The grammar's text.
    Grammar,
    /// The two lines, or a row that is too short for them.
    Lines,
}

/// A refusal of reading back, and which part is refused: both have lines.
#[derive(Clone, Copy, Debug, PartialEq, Eq)]
pub struct PartRefusal {
    /// The part.
    pub part: Part,
    /// Its refusal.
    pub refusal: Refusal,
}

/// `refused=17 at=2 part=lines`.
impl fmt::Display for PartRefusal {
    fn fmt(&self, f: &mut fmt::Formatter) -> fmt::Result {
        let part = match self.part {
            Part::Grammar => "grammar",
            Part::Lines => "lines",
        };
        write!(f, "{} part={part}", self.refusal)
    }
}

impl std::error::Error for PartRefusal {}

#[cfg(test)]
mod tests {
    use super::*;
    use crate::{Cause, START};

    #[test]
    fn entries_of_letters() {
        for letter in [Letter::Opening(0), Letter::Closing(400), Letter::Symbol(34_767), Letter::Opening(u16::MAX)] {
            assert_eq!(Letter::of_entry(letter.entry()), Some(letter));
        }
        assert_eq!(Letter::Symbol(START).entry(), 3 * 65_536 + 32_768);
        for entry in [0, 65_535, 4 * 65_536, u32::MAX] {
            assert_eq!(Letter::of_entry(entry), None);
        }
        assert_eq!(std::mem::size_of::<Letter>(), 4);
    }

    #[test]
    fn the_part_stands_behind_the_numbers() {
        let refusal = Refusal { cause: Cause::NameUnknown, at: 2 };
        assert_eq!(PartRefusal { part: Part::Lines, refusal }.to_string(), "refused=17 at=2 part=lines");
        assert_eq!(PartRefusal { part: Part::Grammar, refusal }.to_string(), "refused=17 at=2 part=grammar");
    }
}
