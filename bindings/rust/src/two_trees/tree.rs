//! Derivation trees, and the test that two of them belong to one row. What finds the trees is elsewhere: nothing here relies on it.

use crate::{Code, Grammar, START};

use super::live::{self, Marks};

/// A node of a tree.
#[derive(Clone, Copy, Debug, PartialEq, Eq, Hash)]
pub enum Node {
    /// A rule that is applied, by its number from 1.
    Rule(usize),
    /// A symbol that stands for itself.
    Leaf(Code),
}

impl Node {
    /// The symbol that stands for itself.
    pub fn leaf(self) -> Option<Code> {
        match self {
            Node::Leaf(code) => Some(code),
            Node::Rule(_) => None,
        }
    }
}

/// A tree as the list of its nodes, each before its children, children left to right.
pub type Tree = Vec<Node>;

/// Why two lists of nodes are no two trees of one row.
#[derive(Debug, PartialEq, Eq)]
pub enum Fault {
    /// A node is not what stands at its place in the rule above, or no such rule exists.
    Node,
    /// Nodes are missing, or left over.
    Length,
    /// The root applies no rule.
    Root,
    /// A nonterminal that stands for itself has no sentence, or the empty one alone.
    Invisible,
    /// The rows differ.
    Rows,
    /// The trees are the same.
    Same,
}

/// The row of a tree with this root: every node applies its rule, and each child stands for its symbol.
pub fn row(grammar: &Grammar, root: Code, tree: &[Node]) -> Result<Vec<Code>, Fault> {
    let mut row = Vec::new();
    let mut expected = vec![root];
    for node in tree {
        let symbol = expected.pop().ok_or(Fault::Length)?;
        match *node {
            Node::Leaf(code) if code == symbol => row.push(code),
            Node::Rule(number) => {
                let rule = number.checked_sub(1).and_then(|place| grammar.rules().get(place)).ok_or(Fault::Node)?;
                if rule.left != symbol {
                    return Err(Fault::Node);
                }
                expected.extend(rule.right.iter().rev());
            }
            Node::Leaf(_) => return Err(Fault::Node),
        }
    }
    if expected.is_empty() {
        Ok(row)
    } else {
        Err(Fault::Length)
    }
}

/// The tree of the start that applies these rules, each node before its children: terminals stand for themselves.
pub fn of_rules(grammar: &Grammar, rules: &[u16]) -> Result<Tree, Fault> {
    let (mut tree, mut expected, mut rules) = (Tree::new(), vec![START], rules.iter());
    while let Some(symbol) = expected.pop() {
        if symbol < START {
            tree.push(Node::Leaf(symbol));
            continue;
        }
        let number = usize::from(*rules.next().ok_or(Fault::Length)?);
        let rule = number.checked_sub(1).and_then(|place| grammar.rules().get(place)).ok_or(Fault::Node)?;
        if rule.left != symbol {
            return Err(Fault::Node);
        }
        tree.push(Node::Rule(number));
        expected.extend(rule.right.iter().rev());
    }
    if rules.next().is_none() {
        Ok(tree)
    } else {
        Err(Fault::Length)
    }
}

/// The end of the subtree that begins at a place.
pub fn end(grammar: &Grammar, tree: &[Node], start: usize) -> usize {
    let (mut missing, mut place) = (1, start);
    while missing > 0 {
        missing -= 1;
        if let Node::Rule(number) = tree[place] {
            missing += grammar.rules()[number - 1].right.len();
        }
        place += 1;
    }
    place
}

/// The common row of two different trees with one root. Each nonterminal in it has a sentence that is not empty, so where the root
/// is the start, or stands in a tree of some sentence, some sentence has two trees:
/// for each such leaf the same subtree is put in either tree. They still differ then. For if they were equal, both copies of a
/// subtree would be the node over the same part of the sentence with the same nodes below it; that part is not empty, so there is
/// only one such node, and the leaves had been at the same place.
pub fn common_row(grammar: &Grammar, root: Code, left: &[Node], right: &[Node]) -> Result<Vec<Code>, Fault> {
    shared_row(grammar, &live::visible(grammar), root, left, right)
}

/// The common row, by marks for the symbols that have a sentence which is not empty.
pub fn shared_row(grammar: &Grammar, visible: &Marks, root: Code, left: &[Node], right: &[Node]) -> Result<Vec<Code>, Fault> {
    let common = row(grammar, root, left)?;
    if row(grammar, root, right)? != common {
        return Err(Fault::Rows);
    }
    if left == right {
        return Err(Fault::Same);
    }
    if [left, right].iter().any(|tree| !matches!(tree.first(), Some(Node::Rule(_)))) {
        return Err(Fault::Root);
    }
    if common.iter().any(|code| !visible[*code]) {
        return Err(Fault::Invisible);
    }
    Ok(common)
}

#[cfg(test)]
mod tests {
    use super::Node::{Leaf, Rule};
    use super::*;

    const IF: Code = 1;
    const ELSE: Code = 2;
    const S: Code = START;

    fn dangling() -> Grammar {
        let text = "terminals=if,else,x\nnonterminals=S,Endless\nrule=S: if S\nrule=S: if S else S\nrule=S: x\n\
                    rule=S: Endless\nrule=S: Endless Endless\nrule=Endless: Endless\n";
        Grammar::read(text.as_bytes()).unwrap()
    }

    #[test]
    fn two_trees_of_one_row() {
        let left = [Rule(2), Leaf(IF), Rule(1), Leaf(IF), Leaf(S), Leaf(ELSE), Leaf(S)];
        let right = [Rule(1), Leaf(IF), Rule(2), Leaf(IF), Leaf(S), Leaf(ELSE), Leaf(S)];
        assert_eq!(common_row(&dangling(), S, &left, &right), Ok(vec![IF, IF, S, ELSE, S]));
    }

    #[test]
    fn trees_of_rules() {
        let (if_, else_, x) = (Leaf(IF), Leaf(ELSE), Leaf(3));
        let tree = of_rules(&dangling(), &[2, 1, 3, 3]).unwrap();
        assert_eq!(tree, [Rule(2), if_, Rule(1), if_, Rule(3), x, else_, Rule(3), x]);
        assert_eq!(row(&dangling(), S, &tree), Ok(vec![IF, IF, 3, ELSE, 3]));
        assert_eq!((end(&dangling(), &tree, 2), end(&dangling(), &tree, 0), end(&dangling(), &tree, 1)), (6, 9, 2));
        for (rules, fault) in [
            (&[][..], Fault::Length),
            (&[1], Fault::Length),
            (&[3, 3], Fault::Length),
            (&[6], Fault::Node),
            (&[0], Fault::Node),
        ] {
            assert_eq!(of_rules(&dangling(), rules), Err(fault), "{rules:?}");
        }
    }

    #[test]
    fn what_is_no_pair() {
        let one = [Rule(1), Leaf(IF), Leaf(S)];
        let deeper = [Rule(1), Leaf(IF), Rule(1), Leaf(IF), Leaf(S)];
        let endless = [Rule(4), Leaf(S + 1)];
        for (left, right, fault) in [
            (&one[..], &one[..], Fault::Same),
            (&one, &deeper, Fault::Rows),
            (&one, &[Rule(1), Leaf(ELSE), Leaf(S)], Fault::Node),
            (&one, &[Rule(1), Leaf(IF), Rule(6), Leaf(S + 1)], Fault::Node),
            (&[Rule(0), Leaf(S)], &one, Fault::Node),
            (&[Rule(9)], &one, Fault::Node),
            (&one, &one[..2], Fault::Length),
            (&[], &one, Fault::Length),
            (&[Rule(1), Leaf(IF), Leaf(S), Leaf(S)], &one, Fault::Length),
            (&[Leaf(S)], &[Leaf(S)], Fault::Same),
            (&endless, &[Rule(4), Rule(6), Leaf(S + 1)], Fault::Invisible),
        ] {
            assert_eq!(common_row(&dangling(), S, left, right), Err(fault), "{left:?} {right:?}");
        }
        // S has one tree: which of the two empty parts stands for itself makes no difference.
        let empty = Grammar::read(b"terminals=\nnonterminals=S,N\nrule=S: N N\nrule=N:\n").unwrap();
        let pair = ([Rule(1), Leaf(S + 1), Rule(2)], [Rule(1), Rule(2), Leaf(S + 1)]);
        assert_eq!(common_row(&empty, S, &pair.0, &pair.1), Err(Fault::Invisible));
        let cycle = Grammar::read(b"terminals=a\nnonterminals=S\nrule=S: S\nrule=S: a\n").unwrap();
        assert_eq!(common_row(&cycle, S, &[Leaf(S)], &[Rule(1), Leaf(S)]), Err(Fault::Root));
        assert_eq!(common_row(&cycle, S, &[Rule(2), Leaf(1)], &[Rule(1), Rule(2), Leaf(1)]), Ok(vec![1]));
    }
}
