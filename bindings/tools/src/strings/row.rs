//! The row of triples that two strings give if they part, in document 01's sense.

use ambiguity::{Grammar, Letter, Strings};

use super::not_parting::NotParting;
use super::sets::{Set, Sets, END};
use super::turn::{self, BOTH};

/// A string, and the sets of states before each of its letters that were passed.
pub struct Side<'a> {
    letters: &'a [Letter],
    sets: Vec<Set>,
}

impl Side<'_> {
    /// How many letters were passed.
    pub fn passed(&self) -> usize {
        self.sets.len() - 1
    }

    pub fn next(&self) -> Option<Letter> {
        self.letters.get(self.passed()).copied()
    }

    pub fn set(&self) -> Set {
        self.sets[self.passed()]
    }

    /// The states of a way to the end: one before each letter, and the end.
    fn way(&self, sets: &mut Sets) -> Vec<u32> {
        let mut way = vec![END as u32; self.sets.len()];
        for place in (0..self.letters.len()).rev() {
            way[place] = sets.before(self.sets[place], self.letters[place], way[place + 1] as usize) as u32;
        }
        way
    }
}

/// Two strings that are walked through together.
pub struct Walk<'a> {
    pub grammar: &'a Grammar,
    pub sets: Sets,
    pub layer: usize,
    pub sides: [Side<'a>; 2],
}

/// The indices of the triples of two strings that part.
pub fn of(grammar: &Grammar, strings: &Strings) -> Result<Vec<u32>, NotParting> {
    let mut sets = Sets::new(grammar);
    let start = sets.start();
    let sides = [&strings.left, &strings.right].map(|letters| Side { letters, sets: vec![start] });
    let mut walk = Walk { grammar, sets, layer: 0, sides };
    while walk.moves()? {}
    Ok(walk.row())
}

impl Walk<'_> {
    /// Makes the next move; false at the end.
    fn moves(&mut self) -> Result<bool, NotParting> {
        let letters = [self.sides[0].next(), self.sides[1].next()];
        let (turn, layer) = match turn::next(self.layer, letters) {
            Ok(next) => next,
            Err(stop) => {
                // A letter that cannot follow on its own line tells more.
                self.after(0)?;
                self.after(1)?;
                return Err(self.stopped(stop));
            }
        };
        for side in turn {
            let after = self.after(*side)?;
            self.sides[*side].sets.extend(after);
        }
        if layer > self.layer && turn != BOTH {
            // The other side stays at the parting: it stands before its terminal.
            self.after(1 - turn[0])?;
        }
        self.layer = layer;
        if turn.is_empty() {
            self.ended(0)?;
            self.ended(1)?;
        }
        Ok(!turn.is_empty())
    }

    /// The states behind the next letter of a side.
    fn after(&mut self, side: usize) -> Result<Option<Set>, NotParting> {
        let Some(letter) = self.sides[side].next() else { return Ok(None) };
        match self.sets.after(self.sides[side].set(), letter) {
            None => Err(self.cannot_follow(side, letter)),
            set => Ok(set),
        }
    }

    /// That a side with no letter left is at the end.
    pub fn ended(&mut self, side: usize) -> Result<(), NotParting> {
        if self.sets.states(self.sides[side].set()).contains(&END) {
            return Ok(());
        }
        Err(self.unfinished(side))
    }

    /// The triples in the order of the moves.
    fn row(mut self) -> Vec<u32> {
        let states = self.grammar.states() as u32;
        let ways = [0, 1].map(|side: usize| self.sides[side].way(&mut self.sets));
        let (mut layer, mut at, mut row) = (0, [0, 0], vec![0]);
        loop {
            let letters = [0, 1].map(|side: usize| self.sides[side].letters.get(at[side]).copied());
            let (turn, then) = turn::next(layer, letters).expect("the walk came to its end");
            if turn.is_empty() {
                return row;
            }
            layer = then;
            turn.iter().for_each(|side| at[*side] += 1);
            row.push((layer as u32 * states + ways[0][at[0]]) * states + ways[1][at[1]]);
        }
    }
}
