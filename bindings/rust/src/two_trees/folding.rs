//! What two trees have in common is folded: a subtree that stands in both over the same part of the row becomes a leaf.

use std::collections::HashSet;

use crate::Grammar;

use super::tree::{Node, Tree};

/// A subtree: where its nodes begin and end, and where its part of the row begins and ends.
#[derive(Clone, Copy)]
struct Subtree {
    nodes: (usize, usize),
    row: (usize, usize),
}

impl Subtree {
    /// What tells it from other subtrees: where it begins in the row, and its nodes.
    fn of<'a>(&self, tree: &'a [Node]) -> (usize, &'a [Node]) {
        (self.row.0, &tree[self.nodes.0..self.nodes.1])
    }
}

/// The subtrees below the root that apply a rule and have a part of the row, in the order of their nodes.
fn subtrees(grammar: &Grammar, tree: &[Node]) -> Vec<Subtree> {
    let mut found: Vec<Option<Subtree>> = vec![None; tree.len()];
    let mut passed = 0;
    // Open nodes, each with the number of children still to come and the place in the row where it began.
    let mut open: Vec<(usize, usize, usize)> = Vec::new();
    for (place, node) in tree.iter().enumerate() {
        if let Some((_, missing, _)) = open.last_mut() {
            *missing -= 1;
        }
        match node {
            Node::Leaf(_) => passed += 1,
            Node::Rule(number) => open.push((place, grammar.rules()[number - 1].right.len(), passed)),
        }
        while let Some((first, 0, start)) = open.last().copied() {
            found[first] = Some(Subtree { nodes: (first, place + 1), row: (start, passed) });
            open.pop();
        }
    }
    found.into_iter().flatten().filter(|part| part.nodes.0 > 0 && part.row.0 < part.row.1).collect()
}

/// The tree with leaves in place of its largest subtrees that the other tree has too.
fn without(grammar: &Grammar, tree: &[Node], other: &[Node]) -> Tree {
    let common: HashSet<(usize, &[Node])> = subtrees(grammar, other).iter().map(|part| part.of(other)).collect();
    let mut folded = Vec::new();
    let mut done = 0;
    for part in subtrees(grammar, tree).iter().filter(|part| common.contains(&part.of(tree))) {
        let (start, end) = part.nodes;
        if let (true, Node::Rule(number)) = (start >= done, tree[start]) {
            folded.extend_from_slice(&tree[done..start]);
            folded.push(Node::Leaf(grammar.rules()[number - 1].left));
            done = end;
        }
    }
    folded.extend_from_slice(&tree[done..]);
    folded
}

/// Both trees with their common subtrees folded. They still have one row, and still differ.
pub fn folded(grammar: &Grammar, left: &[Node], right: &[Node]) -> (Tree, Tree) {
    (without(grammar, left, right), without(grammar, right, left))
}

#[cfg(test)]
mod tests {
    use super::Node::{Leaf, Rule};
    use super::*;
    use crate::START;

    #[test]
    fn common_subtrees() {
        let text = b"terminals=a\nnonterminals=S,W\nrule=S: S S\nrule=S: W\nrule=W: a\nrule=S:\n";
        let grammar = Grammar::read(text).unwrap();
        let (s, a) = (Leaf(START), Leaf(1));
        let left = [Rule(1), Rule(1), s, s, Rule(2), Rule(3), a];
        let right = [Rule(1), s, Rule(1), s, Rule(2), Rule(3), a];
        assert_eq!(folded(&grammar, &left, &right), (vec![Rule(1), Rule(1), s, s, s], vec![Rule(1), s, Rule(1), s, s]));
        let other = Leaf(START + 1);
        // The root is kept, and so is what has no part of the row.
        let (left, right) = ([Rule(2), Rule(3), a], [Rule(1), Rule(2), Rule(3), a, Rule(4)]);
        assert_eq!(folded(&grammar, &left, &right), (vec![Rule(2), other], vec![Rule(1), Rule(2), other, Rule(4)]));
    }
}
