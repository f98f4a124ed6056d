//! Values by symbol: a place for each declared code, and one for code 0, which stands for nothing that is declared.

use std::ops::{Index, IndexMut};

use crate::{Code, Grammar, START};

/// A value for each symbol of a grammar.
#[derive(Clone, Debug, PartialEq, Eq)]
pub struct ByCode<T> {
    terminals: usize,
    values: Vec<T>,
}

impl<T: Clone> ByCode<T> {
    /// The same value for all.
    pub fn new(grammar: &Grammar, value: T) -> ByCode<T> {
        let terminals = grammar.terminals().len();
        ByCode { terminals, values: vec![value; 1 + terminals + grammar.nonterminals().len()] }
    }

    /// One value for the terminals, another for all else.
    pub fn with_terminals(grammar: &Grammar, terminal: T, other: T) -> ByCode<T> {
        let mut by_code = ByCode::new(grammar, other);
        by_code.values[1..=by_code.terminals].fill(terminal);
        by_code
    }
}

impl<T> ByCode<T> {
    /// The terminals have the places 1 to t, the nonterminals those behind them.
    fn place(&self, code: Code) -> usize {
        match code.checked_sub(START) {
            None => code as usize,
            Some(nonterminal) => 1 + self.terminals + nonterminal as usize,
        }
    }
}

impl<T> Index<Code> for ByCode<T> {
    type Output = T;

    fn index(&self, code: Code) -> &T {
        &self.values[self.place(code)]
    }
}

impl<T> IndexMut<Code> for ByCode<T> {
    fn index_mut(&mut self, code: Code) -> &mut T {
        let place = self.place(code);
        &mut self.values[place]
    }
}

#[cfg(test)]
mod tests {
    use super::*;

    #[test]
    fn a_place_for_each_symbol() {
        let grammar = Grammar::read(b"terminals=a,b\nnonterminals=S,T\nrule=S: a\n").unwrap();
        let mut by_code = ByCode::with_terminals(&grammar, 1, 0);
        assert_eq!([0, 1, 2, START, START + 1].map(|code| by_code[code]), [0, 1, 1, 0, 0]);
        for (value, code) in [0, 1, 2, START, START + 1].into_iter().enumerate() {
            by_code[code] = value;
        }
        assert_eq!([0, 1, 2, START, START + 1].map(|code| by_code[code]), [0, 1, 2, 3, 4]);
    }
}
