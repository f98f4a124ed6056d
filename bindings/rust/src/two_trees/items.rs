//! The items of the live rules, numbered as the states of the position automaton, and their moves.

use crate::{Code, Grammar, START};

use super::codes::ByCode;
use super::live;

/// A state of the position automaton.
pub type State = usize;

/// The end.
pub const END: State = 1;

/// The item of rule 0 before the start symbol.
pub const FIRST: State = 2;

/// The code that stands for the primed start, which no rule has.
const PRIMED: Code = 0;

#[derive(Clone, Copy)]
struct Item {
    rule: usize,
    left: Code,
    next: Option<Code>,
    previous: Option<Code>,
    /// Symbols behind the dot.
    rest: usize,
}

/// The items by state; the two states in front have none.
pub struct Items {
    items: Vec<Option<Item>>,
    /// By nonterminal the items at dot 0 of its live rules, those at their ends, and the items of live rules before it.
    openings: ByCode<Vec<State>>,
    ends: ByCode<Vec<State>>,
    callers: ByCode<Vec<State>>,
    visible: live::Marks,
    /// By nonterminal with a live rule its number, from 0; the primed start has one too.
    numbers: ByCode<usize>,
    numbered: usize,
}

impl Items {
    /// The items of the rules that finite trees with this root use; rule 0 leads to the root. Of the rules only some may be taken.
    pub fn new(grammar: &Grammar, root: Code, only: Option<&[bool]>) -> Items {
        let mut live = live::rules_under(grammar, root);
        live.iter_mut().zip(only.into_iter().flatten()).for_each(|(live, taken)| *live &= taken);
        let by_code = || ByCode::new(grammar, Vec::new());
        let mut items = Items {
            items: vec![None; FIRST],
            openings: by_code(),
            ends: by_code(),
            callers: by_code(),
            visible: live::visible(grammar),
            numbers: ByCode::new(grammar, 0),
            numbered: 0,
        };
        items.add(0, PRIMED, &[root], true);
        for (place, rule) in grammar.rules().iter().enumerate() {
            items.add(place + 1, rule.left, &rule.right, live[place]);
        }
        items
    }

    fn add(&mut self, rule: usize, left: Code, right: &[Code], live: bool) {
        let first = self.items.len();
        for dot in 0..=right.len() {
            let previous = dot.checked_sub(1).map(|place| right[place]);
            let item = Item { rule, left, next: right.get(dot).copied(), previous, rest: right.len() - dot };
            self.items.push(live.then_some(item));
        }
        if live {
            if self.openings[left].is_empty() {
                self.numbers[left] = self.numbered;
                self.numbered += 1;
            }
            self.openings[left].push(first);
            self.ends[left].push(first + right.len());
            for (dot, code) in right.iter().enumerate().filter(|(_, code)| **code >= START) {
                self.callers[*code].push(first + dot);
            }
        }
    }

    pub fn states(&self) -> usize {
        self.items.len()
    }

    /// The number of a live item's rule.
    pub fn rule(&self, state: State) -> usize {
        self.items[state].expect("a live item").rule
    }

    /// The rules of two live items, the smaller number first.
    pub fn rules(&self, one: State, other: State) -> (usize, usize) {
        let (one, other) = (self.rule(one), self.rule(other));
        (one.min(other), one.max(other))
    }

    /// The symbols behind the dot.
    pub fn rest(&self, state: State) -> usize {
        self.items[state].map_or(0, |item| item.rest)
    }

    pub fn next(&self, state: State) -> Option<Code> {
        self.items[state]?.next
    }

    /// Whether a symbol may be passed in a layer: behind the parting it must have a sentence that is not empty.
    pub fn passable(&self, layer: usize, code: Code) -> bool {
        layer == 0 || self.visible[code]
    }

    pub fn before_terminal(&self, state: State) -> bool {
        self.next(state).is_some_and(|code| code < START)
    }

    /// Whether the dot is at the end, so that the rule closes.
    pub fn closes(&self, state: State) -> bool {
        self.items[state].is_some_and(|item| item.next.is_none())
    }

    /// The items that an opening leads to.
    pub fn opened(&self, state: State) -> &[State] {
        match self.next(state) {
            Some(code) if code >= START => &self.openings[code],
            _ => &[],
        }
    }

    /// The nonterminal whose opening leads here.
    pub fn begun(&self, state: State) -> Option<Code> {
        Some(self.items[state]?).filter(|item| item.previous.is_none()).map(|item| item.left)
    }

    /// The items of live rules before a nonterminal.
    pub fn callers(&self, nonterminal: Code) -> &[State] {
        &self.callers[nonterminal]
    }

    /// The states that the closing of a rule leads to from its end.
    pub fn returns(&self, state: State) -> Vec<State> {
        match self.items[state] {
            Some(Item { left: PRIMED, next: None, .. }) => vec![END],
            Some(Item { left, next: None, .. }) => self.callers[left].iter().map(|caller| caller + 1).collect(),
            _ => Vec::new(),
        }
    }

    /// How many nonterminals have live rules, the primed start among them, and the number of one of them, from 0.
    pub fn nonterminals(&self) -> usize {
        self.numbered
    }

    pub fn number(&self, nonterminal: Code) -> usize {
        self.numbers[nonterminal]
    }

    /// The item from which a symbol leads here, with the symbol.
    pub fn shifter(&self, state: State) -> Option<(State, Code)> {
        Some((state - 1, self.items[state]?.previous?))
    }

    /// The nonterminal that a closing leads here from; the primed start leads to the end.
    pub fn returned(&self, state: State) -> Option<Code> {
        if state == END {
            return Some(PRIMED);
        }
        self.items[state]?.previous.filter(|code| *code >= START)
    }

    /// The items at the ends of a nonterminal's live rules.
    pub fn ends(&self, nonterminal: Code) -> &[State] {
        &self.ends[nonterminal]
    }
}

#[cfg(test)]
mod tests {
    use super::*;

    #[test]
    fn numbered_as_the_states() {
        let text = b"terminals=a\nnonterminals=S,U\nrule=S: a S\nrule=U: S\nrule=S:\n";
        let items = Items::new(&Grammar::read(text).unwrap(), START, None);
        assert_eq!(items.states(), 10);
        assert_eq!((items.opened(FIRST), items.opened(5)), (&[4, 9][..], &[4, 9][..]));
        assert_eq!((items.begun(4), items.begun(5), items.callers(START)), (Some(START), None, &[FIRST, 5][..]));
        assert_eq!((items.ends(START), items.ends(PRIMED), items.nonterminals()), (&[6, 9][..], &[FIRST + 1][..], 2));
        assert_eq!((items.returns(6), items.returns(FIRST + 1), items.returns(5)), (vec![FIRST + 1, 6], vec![END], vec![]));
        assert_eq!((items.next(7), items.shifter(6), items.returned(6)), (None, Some((5, START)), Some(START)));
    }
}
