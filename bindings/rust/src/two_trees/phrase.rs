//! The smallest part of two trees in which they differ, and a sentence that it stands in.

use super::live;
use super::tree::{self, Node, Tree};
use crate::{Code, Grammar, MAX_ROW, START};

use super::sentences::{self, Around};

/// A sentence of more terminals is not shown: the library's entry does not take it.
pub const LONGEST: usize = MAX_ROW;

/// A row with two trees of one nonterminal. Where that is not the start, it stands in a tree of some sentence.
#[derive(Debug, PartialEq, Eq)]
pub struct Phrase {
    /// The nonterminal.
    pub root: Code,
    /// The row; a nonterminal in it stands for itself.
    pub row: Vec<Code>,
    /// One tree.
    pub left: Tree,
    /// The other one.
    pub right: Tree,
}

/// A sentence of terminals that has two trees.
#[derive(Debug, PartialEq, Eq)]
pub enum Example {
    /// It is short enough to be shown.
    Sentence(Vec<Code>),
    /// It has more than [`LONGEST`] terminals, or a tree too large to be filled in.
    TooLong,
}

/// The children of a tree's root, each as a tree.
fn below<'a>(grammar: &Grammar, tree: &'a [Node]) -> Vec<&'a [Node]> {
    let mut children = Vec::new();
    let mut start = 1;
    while start < tree.len() {
        let end = tree::end(grammar, tree, start);
        children.push(&tree[start..end]);
        start = end;
    }
    children
}

/// The smallest part of two trees with one row in which they differ: below equal rules it is a child that differs and has one row.
pub fn smallest(grammar: &Grammar, root: Code, left: &[Node], right: &[Node]) -> Phrase {
    let visible = live::visible(grammar);
    let (mut root, mut left, mut right) = (root, left, right);
    while let (Some(Node::Rule(rule)), true) = (left.first(), left.first() == right.first()) {
        let symbols = &grammar.rules()[rule - 1].right;
        let children = below(grammar, left).into_iter().zip(below(grammar, right));
        let mut parts = symbols
            .iter()
            .zip(children)
            .filter(|(code, (left, right))| left != right && tree::shared_row(grammar, &visible, **code, left, right).is_ok());
        match parts.next() {
            Some((code, part)) => (root, (left, right)) = (*code, part),
            None => break,
        }
    }
    let row = tree::row(grammar, root, left).unwrap_or_default();
    Phrase { root, row, left: left.to_vec(), right: right.to_vec() }
}

impl Phrase {
    /// A short sentence that has two trees, since this phrase has.
    pub fn example(&self, grammar: &Grammar) -> Example {
        let inside = sentences::of_trees(grammar, &self.left, &self.right, LONGEST);
        let around = sentences::around(grammar, self.root, LONGEST);
        match (inside, around) {
            (Some(inside), Some(Around::Short(before, behind))) if before.len() + inside.len() + behind.len() <= LONGEST => {
                Example::Sentence([before, inside, behind].concat())
            }
            _ => Example::TooLong,
        }
    }

    /// Whether it is a sentence by itself.
    pub fn is_sentence(&self) -> bool {
        self.root == START
    }
}

#[cfg(test)]
mod tests {
    use super::Node::{Leaf, Rule};
    use super::*;

    #[test]
    fn what_differs() {
        let text = b"terminals=a,b\nnonterminals=S,E\nrule=S: b E b\nrule=E: E a E\nrule=E: b\n";
        let grammar = Grammar::read(text).unwrap();
        let (a, b, e) = (Leaf(1), Leaf(2), Leaf(START + 1));
        let left = [Rule(1), b, Rule(2), Rule(2), e, a, e, a, e, b];
        let right = [Rule(1), b, Rule(2), e, a, Rule(2), e, a, e, b];
        let phrase = smallest(&grammar, START, &left, &right);
        assert_eq!((phrase.root, &phrase.left[..]), (START + 1, &left[2..9]));
        assert_eq!(phrase.row, [START + 1, 1, START + 1, 1, START + 1]);
        assert_eq!(phrase.right, right[2..9]);
        let Example::Sentence(sentence) = phrase.example(&grammar) else { panic!("it is short") };
        assert_eq!(sentence, [2, 2, 1, 2, 1, 2, 2]);
    }

    /// Of two children that differ the first is taken, if its rows are the same.
    #[test]
    fn two_children_differ() {
        let text = b"terminals=a\nnonterminals=S,W,X\nrule=S: W W\nrule=W: a\nrule=W: X\nrule=X: a\n";
        let grammar = Grammar::read(text).unwrap();
        let (a, one, other) = (Leaf(1), [Rule(2), Leaf(1)], [Rule(3), Rule(4), Leaf(1)]);
        let left = [&[Rule(1)][..], &one, &other].concat();
        let right = [&[Rule(1)][..], &other, &one].concat();
        let phrase = smallest(&grammar, START, &left, &right);
        assert_eq!((phrase.root, phrase.row, phrase.left), (START + 1, vec![1], vec![Rule(2), a]));
    }
}
