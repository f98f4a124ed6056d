//! Stacks of items: each item below the top stands before the nonterminal whose rule lies above it. Equal stacks have equal numbers.

use std::collections::HashMap;

use super::items::{Items, State, END};

/// A stack's number.
pub type Stack = u32;

/// The stack without items: its side has closed rule 0.
pub const EMPTY: Stack = 0;

struct Kept {
    below: Stack,
    top: State,
    /// Items, each of which is still to be closed.
    depth: u32,
    /// Symbols that are still to be passed, those under the open rules not counted.
    rest: u32,
}

pub struct Stacks<'a> {
    items: &'a Items,
    kept: Vec<Kept>,
    numbers: HashMap<(Stack, State), Stack>,
}

impl<'a> Stacks<'a> {
    pub fn new(items: &'a Items) -> Stacks<'a> {
        let empty = Kept { below: EMPTY, top: END, depth: 0, rest: 0 };
        Stacks { items, kept: vec![empty], numbers: HashMap::new() }
    }

    /// The item on top; the end for the empty stack.
    pub fn top(&self, stack: Stack) -> State {
        self.kept[stack as usize].top
    }

    /// The closings that are still to come, and the symbols that are at least still to be passed.
    pub fn ahead(&self, stack: Stack) -> (u32, u32) {
        let kept = &self.kept[stack as usize];
        (kept.depth, kept.rest)
    }

    /// The stack with one item more.
    pub fn push(&mut self, below: Stack, top: State) -> Stack {
        let (depth, rest) = self.ahead(below);
        let opened = u32::from(below != EMPTY);
        let kept = Kept { below, top, depth: depth + 1, rest: rest - opened + self.items.rest(top) as u32 };
        *self.numbers.entry((below, top)).or_insert_with(|| {
            self.kept.push(kept);
            self.kept.len() as Stack - 1
        })
    }

    /// The stack after its top has passed a symbol.
    pub fn shifted(&mut self, stack: Stack) -> Stack {
        let kept = &self.kept[stack as usize];
        let (below, top) = (kept.below, kept.top);
        self.push(below, top + 1)
    }

    /// The stack after its top rule is closed: the caller has passed its nonterminal.
    pub fn closed(&mut self, stack: Stack) -> Stack {
        match self.kept[stack as usize].below {
            EMPTY => EMPTY,
            caller => self.shifted(caller),
        }
    }
}

#[cfg(test)]
mod tests {
    use super::super::items::FIRST;
    use super::*;

    #[test]
    fn equal_stacks_have_equal_numbers() {
        let grammar = crate::Grammar::read(b"terminals=a\nnonterminals=S\nrule=S: a S\nrule=S:\n").unwrap();
        let items = Items::new(&grammar, crate::START, None);
        let mut stacks = Stacks::new(&items);
        let first = stacks.push(EMPTY, FIRST);
        let opened = stacks.push(first, 4);
        assert_eq!((stacks.ahead(first), stacks.ahead(opened)), ((1, 1), (2, 2)));
        let called = stacks.shifted(opened);
        let inner = stacks.push(called, 7);
        assert_eq!((stacks.ahead(inner), stacks.top(inner)), ((3, 0), 7));
        let ended = stacks.closed(inner);
        assert_eq!((ended, stacks.top(ended)), (stacks.shifted(called), 6));
        let last = stacks.closed(ended);
        assert_eq!((stacks.top(last), stacks.closed(last)), (FIRST + 1, EMPTY));
    }
}
