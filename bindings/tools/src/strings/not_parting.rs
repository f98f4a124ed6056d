//! Why two strings do not part, in words.

use ambiguity::Letter;

use super::row::Walk;
use super::sets::END;
use super::turn::{is_terminal, Stop};
use crate::words;

/// Where two strings do not part: the line, how many of its letters stand before that place, and why.
#[derive(Debug, PartialEq, Eq)]
pub struct NotParting {
    pub line: usize,
    pub place: usize,
    pub message: String,
}

const PARTING: &str = "at the parting one line closes a rule, and the other closes another rule or passes a terminal";

impl Walk<'_> {
    fn fault(&self, side: usize, message: String) -> NotParting {
        NotParting { line: side + 1, place: self.sides[side].passed(), message }
    }

    fn word(&self, letter: Letter) -> String {
        format!("`{}`", self.grammar.word(letter).expect("a letter of the grammar"))
    }

    /// Where a side stands, and what can follow there.
    fn stands(&mut self, side: usize) -> String {
        let set = self.sides[side].set();
        let states = self.sets.states(set);
        if states == [END] {
            return "the reading has ended".to_string();
        }
        let verb = if states.len() == 1 { "stands" } else { "may stand" };
        let places: Vec<String> = states.iter().map(|state| format!("`{}`", words::state(self.grammar, *state))).collect();
        let nonterminals = self.layer == 0;
        let mut letters = self.sets.following(set);
        letters.retain(|letter| nonterminals || !matches!(letter, Letter::Symbol(code) if !is_terminal(*code)));
        let letters: Vec<String> = letters.into_iter().map(|letter| self.word(letter)).collect();
        let follows = if letters.is_empty() { "nothing".to_string() } else { words::one_of(&letters) };
        format!("the reading {verb} at {}, where {follows} can follow", words::one_of(&places))
    }

    pub fn cannot_follow(&mut self, side: usize, letter: Letter) -> NotParting {
        let (word, stands) = (self.word(letter), self.stands(side));
        self.fault(side, format!("{word} cannot follow: {stands}"))
    }

    /// A side with no letter left is not at the end.
    pub fn unfinished(&mut self, side: usize) -> NotParting {
        let stands = self.stands(side);
        self.fault(side, format!("line {} ends too early: {stands}", side + 1))
    }

    /// The next letters of both sides, seen from this one, and why they do not go together.
    fn beside(&self, side: usize, why: &str) -> NotParting {
        let here = self.sides[side].next().map_or(String::new(), |letter| self.word(letter));
        let (line, place) = (2 - side, self.sides[1 - side].passed() + 1);
        let there = match self.sides[1 - side].next() {
            Some(letter) => format!("letter {place} of line {line} is {}", self.word(letter)),
            None => format!("line {line} has ended"),
        };
        self.fault(side, format!("{here} is found, and {there}: {why}"))
    }

    /// Why no move follows.
    pub fn stopped(&mut self, stop: Stop) -> NotParting {
        if self.layer == 0 {
            return match stop {
                Stop::OtherSymbol => self.beside(1, "before the parting both lines have the same symbols"),
                Stop::SameClosing => self.beside(1, PARTING),
                Stop::Nonterminal(side) => self.beside(side, PARTING),
                Stop::Ends(side) if self.sides[1 - side].next().is_none() => {
                    self.fault(side, "both lines end before the parting".to_string())
                }
                Stop::Ends(side) => self.fault(side, format!("line {} ends before the parting", side + 1)),
            };
        }
        let same = "behind the parting both lines have the same terminals";
        match stop {
            Stop::Nonterminal(side) => self.beside(side, "behind the parting both lines have terminals alone"),
            Stop::Ends(side) => self.ended(side).err().unwrap_or_else(|| self.beside(1 - side, same)),
            Stop::OtherSymbol | Stop::SameClosing => self.beside(1, same),
        }
    }
}
