//! The sets of states that a string can lead to. A closing may lead to several states. Each set, and what a letter makes of it, is
//! found once: a string is walked through in a time that its length gives, whatever it holds.

use std::collections::HashMap;

use ambiguity::two_trees::items::{Items, FIRST};
use ambiguity::{Grammar, Letter};

/// The states at which every string begins and ends.
pub const START: usize = 0;
pub const END: usize = 1;

/// A set of states, by its number.
#[derive(Clone, Copy, Debug, PartialEq, Eq, Hash)]
pub struct Set(u32);

pub struct Sets {
    items: Items,
    /// By state its moves, once they were asked for.
    moves: Vec<Option<Vec<(Letter, usize)>>>,
    /// By set its states, ascending.
    states: Vec<Vec<usize>>,
    numbers: HashMap<Vec<usize>, Set>,
    after: HashMap<(Set, Letter), Option<Set>>,
    before: HashMap<(Set, Letter, usize), usize>,
}

/// The moves of a state: each letter with the state that it leads to. What a sentence does not use has none.
fn moves(items: &Items, state: usize) -> Vec<(Letter, usize)> {
    if state == START {
        return vec![(Letter::Opening(0), FIRST)];
    }
    let opened = items.opened(state).iter().map(|to| (Letter::Opening(items.rule(*to) as u16), *to));
    let closed = items.returns(state).into_iter().map(|to| (Letter::Closing(items.rule(state) as u16), to));
    let passed = items.next(state).map(|code| (Letter::Symbol(code), state + 1));
    opened.chain(closed).chain(passed).collect()
}

impl Sets {
    pub fn new(grammar: &Grammar) -> Self {
        let items = Items::new(grammar, ambiguity::START, None);
        let moves = vec![None; grammar.states()];
        let (states, numbers) = (Vec::new(), HashMap::new());
        Sets { items, moves, states, numbers, after: HashMap::new(), before: HashMap::new() }
    }

    /// The set of these states, which ascend.
    fn set(&mut self, states: Vec<usize>) -> Set {
        if let Some(set) = self.numbers.get(&states) {
            return *set;
        }
        let set = Set(self.states.len() as u32);
        self.states.push(states.clone());
        self.numbers.insert(states, set);
        set
    }

    /// The set of the start alone.
    pub fn start(&mut self) -> Set {
        self.set(vec![START])
    }

    pub fn states(&self, set: Set) -> &[usize] {
        &self.states[set.0 as usize]
    }

    /// All moves of a set's states, with the state that each is of.
    fn moves(&mut self, set: Set) -> impl Iterator<Item = (usize, Letter, usize)> + '_ {
        let states = &self.states[set.0 as usize];
        for state in states {
            self.moves[*state].get_or_insert_with(|| moves(&self.items, *state));
        }
        let of = |state: usize| self.moves[state].iter().flatten().map(move |(letter, to)| (state, *letter, *to));
        states.iter().flat_map(move |state| of(*state))
    }

    /// The letters that can follow.
    pub fn following(&mut self, set: Set) -> Vec<Letter> {
        let mut letters: Vec<Letter> = Vec::new();
        for (_, letter, _) in self.moves(set) {
            if !letters.contains(&letter) {
                letters.push(letter);
            }
        }
        letters
    }

    /// The states to which a letter leads from those of a set; none where it cannot follow.
    pub fn after(&mut self, set: Set, letter: Letter) -> Option<Set> {
        if let Some(known) = self.after.get(&(set, letter)) {
            return *known;
        }
        let to = self.moves(set).filter(|(_, by, _)| *by == letter).map(|(_, _, to)| to);
        let mut states: Vec<usize> = to.collect();
        states.sort_unstable();
        states.dedup();
        let found = if states.is_empty() { None } else { Some(self.set(states)) };
        self.after.insert((set, letter), found);
        found
    }

    /// The first state of a set from which a letter leads to this state.
    pub fn before(&mut self, set: Set, letter: Letter, to: usize) -> usize {
        if let Some(known) = self.before.get(&(set, letter, to)) {
            return *known;
        }
        let found = self.moves(set).find(|(_, by, there)| *by == letter && *there == to);
        let (state, _, _) = found.expect("a letter led here");
        self.before.insert((set, letter, to), state);
        state
    }
}
