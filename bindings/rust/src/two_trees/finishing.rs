//! What is done to two trees that were found before they are checked and shown.

use crate::{Code, Grammar, START};

use super::codes::ByCode;
use super::folding;
use super::live;
use super::tree::{Node, Tree};

/// Nodes of a tree that is shown.
const MOST_NODES: usize = 4_000;

/// Two trees that were found, finished. Where one is the root standing for itself, a rule is applied to it in both. Leaves that
/// have the empty sentence alone get their subtrees, and what both trees have in common is folded. None if they get too large.
pub fn finished(grammar: &Grammar, root: Code, mut left: Tree, mut right: Tree) -> Option<(Tree, Tree)> {
    if [&left, &right].iter().any(|tree| tree[..] == [Node::Leaf(root)]) {
        let rule = plainest_rule(grammar, root);
        left = with_rule(grammar, &left, rule);
        right = with_rule(grammar, &right, rule);
    }
    let (left, right) = (grounded(grammar, &left)?, grounded(grammar, &right)?);
    Some(folding::folded(grammar, &left, &right))
}

/// The tree with an empty subtree for each leaf that has the empty sentence alone; none if it gets too large.
fn grounded(grammar: &Grammar, tree: &[Node]) -> Option<Tree> {
    let visible = live::visible(grammar);
    let empty = empty_rules(grammar);
    let mut grounded = Vec::new();
    let mut rest: Vec<Node> = tree.iter().rev().copied().collect();
    while let Some(node) = rest.pop() {
        match node {
            Node::Leaf(code) if !visible[code] => {
                let rule = empty[code]?;
                grounded.push(Node::Rule(rule));
                rest.extend(grammar.rules()[rule - 1].right.iter().rev().map(|code| Node::Leaf(*code)));
            }
            _ => grounded.push(node),
        }
        if grounded.len() > MOST_NODES {
            return None;
        }
    }
    Some(grounded)
}

/// By code a rule that begins a least deep empty tree.
fn empty_rules(grammar: &Grammar) -> ByCode<Option<usize>> {
    let mut found = ByCode::new(grammar, None);
    loop {
        let known = found.clone();
        for (place, rule) in grammar.rules().iter().enumerate() {
            let left = &mut found[rule.left];
            if left.is_none() && rule.right.iter().all(|code| known[*code].is_some()) {
                *left = Some(place + 1);
            }
        }
        if found == known {
            return found;
        }
    }
}

/// The live rule of the root with the fewest nonterminals, then the shortest one.
fn plainest_rule(grammar: &Grammar, root: Code) -> usize {
    let live = live::rules_under(grammar, root);
    let rules = grammar.rules().iter().enumerate().filter(|(place, rule)| live[*place] && rule.left == root);
    let nonterminals = |row: &[Code]| row.iter().filter(|code| **code >= START).count();
    let least = rules.min_by_key(|(_, rule)| (nonterminals(&rule.right), rule.right.len()));
    least.expect("a root that was passed has a tree").0 + 1
}

/// The tree with a rule applied to the first leaf that is its left side.
fn with_rule(grammar: &Grammar, tree: &[Node], rule: usize) -> Tree {
    let applied = std::iter::once(Node::Rule(rule)).chain(grammar.rules()[rule - 1].right.iter().map(|code| Node::Leaf(*code)));
    let root = Node::Leaf(grammar.rules()[rule - 1].left);
    let place = tree.iter().position(|node| *node == root).expect("the row is the root alone");
    let mut tree = tree.to_vec();
    tree.splice(place..=place, applied);
    tree
}

#[cfg(test)]
mod tests {
    use super::*;

    #[test]
    fn leaves_with_the_empty_sentence_alone() {
        let text = b"terminals=a\nnonterminals=S,N,W,X\nrule=S: N S\nrule=S: a\nrule=N: W X\nrule=W:\nrule=X: W W\n";
        let grammar = Grammar::read(text).unwrap();
        let tree = [Node::Rule(1), Node::Leaf(START + 1), Node::Leaf(START)];
        let expected = [1, 3, 4, 5, 4, 4].map(Node::Rule);
        assert_eq!(grounded(&grammar, &tree), Some([&expected[..], &[Node::Leaf(START)]].concat()));
    }

    #[test]
    fn an_empty_tree_past_all_numbers() {
        let names: Vec<String> = (0..80).map(|i| format!("A{i}")).collect();
        let doubled: String = (1..80).map(|i| format!("rule=A{}: A{i} A{i}\n", i - 1)).collect();
        let text = format!("terminals=\nnonterminals={}\n{doubled}rule=A79:\n", names.join(","));
        assert_eq!(grounded(&Grammar::read(text.as_bytes()).unwrap(), &[Node::Leaf(START)]), None);
    }
}
