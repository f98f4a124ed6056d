//! The step at which two readings part, in one sentence.

use ambiguity::two_trees::tree::Node;
use ambiguity::{Code, Grammar, Move, Step, START};

use crate::words::{self, Naming};

/// Symbols that are shown of those before a parting.
const MOST_PASSED: usize = 16;

/// What a reading does next: a symbol, or the end of a rule.
#[derive(Clone, Copy, Debug, PartialEq, Eq)]
pub enum Next {
    Symbol(Code),
    Closing(usize),
}

impl Next {
    /// Does it end a rule?
    fn ends(self) -> bool {
        matches!(self, Next::Closing(_))
    }
}

/// One side at the parting.
#[derive(Clone, Copy, Debug, PartialEq, Eq)]
pub struct Side {
    pub next: Next,
    /// The rule that ends, or the one that goes on with a symbol; 0 for the end of what is read.
    pub rule: usize,
    /// Where that is in the tree, by the place of its node; none for rule 0, and without trees.
    pub node: Option<usize>,
}

/// The symbols up to the parting, and what either side does next.
#[derive(Debug, PartialEq, Eq)]
pub struct Parting {
    /// What is read: the start for a sentence.
    pub root: Code,
    pub passed: Vec<Code>,
    pub left: Side,
    pub right: Side,
}

/// Symbols and closings of a tree in order; last comes the closing of rule 0.
fn walk(grammar: &Grammar, tree: &[Node]) -> Vec<Side> {
    let mut walk = Vec::new();
    // The open rules and their places, each with the number of children that are still to come.
    let mut open = vec![(0, None, 1)];
    for (place, node) in tree.iter().enumerate() {
        let (rule, _, missing) = open.last_mut().expect("a tree ends with its last node");
        *missing -= 1;
        match *node {
            Node::Leaf(code) => walk.push(Side { next: Next::Symbol(code), rule: *rule, node: Some(place) }),
            Node::Rule(number) => open.push((number, Some(place), grammar.rules()[number - 1].right.len())),
        }
        while let Some((number, place, 0)) = open.last() {
            walk.push(Side { next: Next::Closing(*number), rule: *number, node: *place });
            open.pop();
        }
    }
    walk
}

/// Where two different trees of one root and one row part.
pub fn of_trees(grammar: &Grammar, root: Code, left: &[Node], right: &[Node]) -> Parting {
    let (left, right) = (walk(grammar, left), walk(grammar, right));
    let place = left.iter().zip(&right).position(|(left, right)| left.next != right.next).expect("the trees differ");
    let symbols = left[..place].iter().filter_map(|side| match side.next {
        Next::Symbol(code) => Some(code),
        Next::Closing(_) => None,
    });
    Parting { root, passed: symbols.collect(), left: left[place], right: right[place] }
}

/// Where the two strings of a witness part: its step from layer 0 to layer 1.
pub fn of_witness(grammar: &Grammar, witness: &[u32], steps: &[Step]) -> Parting {
    let place = steps.iter().position(|step| step.layer == 1).expect("a witness ends in layer 1");
    let symbols = steps[..place].iter().filter_map(|step| match step.on_left {
        Move::Symbol(code) => Some(code as Code),
        _ => None,
    });
    let (_, left, right) = words::triple(grammar, witness[place] as usize);
    let side = |moved: Move, state: usize| {
        let (rule, symbol) = words::item_at(grammar, state);
        let next = match (moved, symbol) {
            (Move::Closing(_), _) | (_, None) => Next::Closing(rule),
            (_, Some(code)) => Next::Symbol(code),
        };
        Side { next, rule, node: None }
    };
    let step = &steps[place];
    let (left, right) = (side(step.on_left, left), side(step.on_right, right));
    Parting { root: START, passed: symbols.collect(), left, right }
}

/// How far two sides are alike: by what they do, by the rule, and by ending a rule or not.
fn likeness(one: Side, other: Side) -> usize {
    4 * usize::from(one.next == other.next)
        + 2 * usize::from(one.rule == other.rule)
        + usize::from(one.next.ends() == other.next.ends())
}

impl Parting {
    /// Whether left and right of another parting are more alike when they change places.
    pub fn is_mirrored(&self, other: &Parting) -> bool {
        let same = likeness(self.left, other.left) + likeness(self.right, other.right);
        let crossed = likeness(self.left, other.right) + likeness(self.right, other.left);
        crossed > same
    }

    /// The two rules, the smaller number first.
    pub fn rules(&self) -> (usize, usize) {
        (self.left.rule.min(self.right.rule), self.left.rule.max(self.right.rule))
    }

    /// The side whose rule has to be mended, and the other: one that ends a rule of the text.
    pub fn sides(&self) -> (Side, Side) {
        if self.left.next.ends() && self.left.rule > 0 {
            (self.left, self.right)
        } else {
            (self.right, self.left)
        }
    }

    /// ``after `if S` ``
    fn place(&self, grammar: &Grammar) -> String {
        match &self.passed[..] {
            [] => "at the beginning".to_string(),
            passed => format!("after `{}`", words::short_row(grammar, passed, MOST_PASSED)),
        }
    }

    /// What rule 0 ends.
    fn whole(&self, grammar: &Grammar) -> String {
        match self.root {
            START => "the sentence".to_string(),
            code => format!("the {}", words::symbol(grammar, code)),
        }
    }

    /// ``after `if S`: left goes on with `else`, right ends `S: if S`, line 3``
    pub fn sentence(&self, grammar: &Grammar, naming: Naming) -> String {
        let next = |side: Side| match side.next {
            Next::Symbol(code) => format!("goes on with `{}`", words::symbol(grammar, code)),
            Next::Closing(0) => format!("ends {}", self.whole(grammar)),
            Next::Closing(rule) => format!("ends `{}`, {}", words::rule(grammar, rule), naming.of(&[rule])),
        };
        format!("{}: left {}, right {}", self.place(grammar), next(self.left), next(self.right))
    }

    /// ``after `if S` this rule ends, or line 4 goes on with `else` ``, said of the rule of the first of the two sides.
    pub fn at_rule(&self, grammar: &Grammar) -> String {
        let other = match self.sides().1 {
            Side { next: Next::Closing(0), .. } => format!("{} ends", self.whole(grammar)),
            Side { next: Next::Closing(rule), .. } => format!("line {} ends", words::line_of_rule(rule)),
            Side { next: Next::Symbol(code), rule, .. } => {
                format!("line {} goes on with `{}`", words::line_of_rule(rule), words::symbol(grammar, code))
            }
        };
        format!("{} this rule ends, or {other}", self.place(grammar))
    }
}

#[cfg(test)]
mod tests {
    use super::Node::{Leaf, Rule};
    use super::*;

    #[test]
    fn trees() {
        let text = b"terminals=if,else,x\nnonterminals=S\nrule=S: if S\nrule=S: if S else S\nrule=S: x\nrule=S: S\n";
        let grammar = Grammar::read(text).unwrap();
        let left = [Rule(1), Leaf(1), Rule(2), Leaf(1), Leaf(START), Leaf(2), Leaf(START)];
        let right = [Rule(2), Leaf(1), Rule(1), Leaf(1), Leaf(START), Leaf(2), Leaf(START)];
        let said = of_trees(&grammar, START, &left, &right).sentence(&grammar, Naming::Lines);
        assert_eq!(said, "after `if if S`: left goes on with `else`, right ends `S: if S`, line 3");
        let said =
            of_trees(&grammar, START, &[Rule(3), Leaf(3)], &[Rule(4), Rule(3), Leaf(3)]).sentence(&grammar, Naming::Rules);
        assert_eq!(said, "after `x`: left ends the sentence, right ends `S: S`, rule 4");
    }

    /// A side is known by what it does, by its rule, and by whether that ends.
    #[test]
    fn mirrored() {
        let side = |next, rule| Side { next, rule, node: None };
        let (ends, other, goes) = (side(Next::Closing(1), 1), side(Next::Closing(2), 2), side(Next::Symbol(2), 2));
        let parting = |left, right| Parting { root: START, passed: Vec::new(), left, right };
        for (one, two, mirrored) in [
            (parting(ends, goes), parting(ends, goes), false),
            (parting(ends, goes), parting(goes, ends), true),
            (parting(ends, other), parting(other, ends), true),
            (parting(ends, other), parting(goes, ends), true),
            (parting(other, goes), parting(ends, goes), false),
        ] {
            assert_eq!(one.is_mirrored(&two), mirrored, "{one:?} {two:?}");
        }
    }

    #[test]
    fn at_the_beginning() {
        let grammar = Grammar::read(b"terminals=\nnonterminals=S,A,B\nrule=S: A\nrule=S: B\nrule=A:\nrule=B:\n").unwrap();
        let said = of_trees(&grammar, START, &[Rule(1), Rule(3)], &[Rule(2), Rule(4)]).sentence(&grammar, Naming::Lines);
        assert_eq!(said, "at the beginning: left ends `A:`, line 5, right ends `B:`, line 6");
    }
}
