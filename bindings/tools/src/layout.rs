//! Lines no wider than a page: wrapped sentences, and trees as indented lines.

use ambiguity::two_trees::tree::Node;
use ambiguity::Grammar;

use crate::words::{self, Naming};

/// Columns of a page.
pub const WIDTH: usize = 80;

/// Columns between two trees that stand side by side.
const GAP: usize = 4;

/// Deeper nodes are not indented further; they tell their depth.
const DEEPEST: usize = 16;

/// A text broken at its spaces into lines of at most `width` bytes, the later ones indented. A longer word stands alone.
pub fn wrapped(text: &str, width: usize, indent: usize) -> Vec<String> {
    let mut lines: Vec<String> = Vec::new();
    for word in text.split(' ') {
        match lines.last_mut() {
            Some(line) if line.len() + 1 + word.len() <= width => {
                line.push(' ');
                line.push_str(word);
            }
            Some(_) => lines.push(format!("{:indent$}{word}", "")),
            None => lines.push(word.to_string()),
        }
    }
    lines
}

/// A line of a tree: a rule with its line in the text or its number, or leaves that stand side by side.
#[derive(Debug, PartialEq, Eq)]
pub struct Line {
    pub depth: usize,
    pub text: String,
}

/// What is still to be laid out: a node by its place, or a run of leaves.
enum Part {
    Node(usize),
    Leaves(Vec<ambiguity::Code>),
}

/// A tree as lines. A rule whose children are all leaves shows them itself, and a rule with a single child stands before it.
pub fn lines(grammar: &Grammar, tree: &[Node], naming: Naming) -> Vec<Line> {
    let children = children(grammar, tree);
    let mut lines = Vec::new();
    let mut rest = vec![(0, Part::Node(0))];
    while let Some((depth, part)) = rest.pop() {
        let text = match part {
            Part::Leaves(codes) => words::row(grammar, &codes),
            Part::Node(first) => {
                let chain = chain(tree, &children, first);
                let last = chain[chain.len() - 1];
                rest.extend(parts(tree, &children[last]).into_iter().rev().map(|part| (depth + 1, part)));
                chain_text(grammar, tree, &chain, naming)
            }
        };
        lines.push(Line { depth, text });
    }
    lines
}

/// A node, its only child if that applies a rule too, and so on.
fn chain(tree: &[Node], children: &[Vec<usize>], first: usize) -> Vec<usize> {
    let only_child = |place: &usize| match children[*place][..] {
        [child] if matches!(tree[child], Node::Rule(_)) => Some(child),
        _ => None,
    };
    std::iter::successors(Some(first), only_child).collect()
}

/// The rules of a chain: `A: B: b c  (lines 3, 5)`.
fn chain_text(grammar: &Grammar, tree: &[Node], chain: &[usize], naming: Naming) -> String {
    let rules: Vec<usize> = chain.iter().filter_map(|place| rule_at(tree, *place)).collect();
    let Some((last, before)) = rules.split_last() else { return String::new() };
    let name = |number: &usize| format!("{}: ", words::symbol(grammar, grammar.rules()[number - 1].left));
    let names: String = before.iter().map(name).collect();
    let empty = if grammar.rules()[last - 1].right.is_empty() { " (empty)" } else { "" };
    format!("{names}{}{empty}  ({})", words::rule(grammar, *last), naming.of(&rules))
}

fn rule_at(tree: &[Node], place: usize) -> Option<usize> {
    match tree[place] {
        Node::Rule(number) => Some(number),
        Node::Leaf(_) => None,
    }
}

/// The places of each node's children.
pub fn children(grammar: &Grammar, tree: &[Node]) -> Vec<Vec<usize>> {
    let mut children = vec![Vec::new(); tree.len()];
    // Open nodes, each with the number of children that are still to come.
    let mut open: Vec<(usize, usize)> = Vec::new();
    for (place, node) in tree.iter().enumerate() {
        if let Some((parent, missing)) = open.last_mut() {
            children[*parent].push(place);
            *missing -= 1;
        }
        if let Node::Rule(number) = node {
            open.push((place, grammar.rules()[number - 1].right.len()));
        }
        while let Some((_, 0)) = open.last() {
            open.pop();
        }
    }
    children
}

/// The children that need lines of their own, runs of leaves put together.
fn parts(tree: &[Node], children: &[usize]) -> Vec<Part> {
    let mut parts = Vec::new();
    for place in children {
        match (tree[*place], parts.last_mut()) {
            (Node::Leaf(code), Some(Part::Leaves(codes))) => codes.push(code),
            (Node::Leaf(code), _) => parts.push(Part::Leaves(vec![code])),
            (Node::Rule(_), _) => parts.push(Part::Node(*place)),
        }
    }
    if parts.iter().all(|part| matches!(part, Part::Leaves(_))) {
        parts.clear();
    }
    parts
}

impl Line {
    /// The line as text of at most `width` columns, which may take several.
    fn printed(&self, width: usize) -> Vec<String> {
        let indent = 2 * self.depth.min(DEEPEST);
        let depth = if self.depth > DEEPEST { format!("[{}] ", self.depth) } else { String::new() };
        let text = format!("{:indent$}{depth}{}", "", self.text);
        // The indentation is no place to break a line at.
        let lines = wrapped(text.trim_start(), width - indent, 4);
        lines.into_iter().map(|line| format!("{:indent$}{line}", "")).collect()
    }
}

/// Lines of a tree that are shown, those in front and those at the end; what lies between is left out.
const FRONT: usize = 60;
const BACK: usize = 20;

fn column(grammar: &Grammar, tree: &[Node], width: usize) -> Vec<String> {
    let lines = lines(grammar, tree, Naming::Lines);
    let mut column: Vec<String> = lines.iter().flat_map(|line| line.printed(width)).collect();
    if column.len() > FRONT + BACK + 1 {
        let left_out = column.len() - FRONT - BACK;
        column.splice(FRONT..FRONT + left_out, [format!("... ({left_out} lines are left out; --json has all nodes)")]);
    }
    column
}

/// One tree, whole, with the numbers of its rules.
pub fn tree(grammar: &Grammar, tree: &[Node]) -> String {
    let lines = lines(grammar, tree, Naming::Rules);
    lines.iter().flat_map(|line| line.printed(WIDTH)).map(|line| format!("{line}\n")).collect()
}

/// Two trees side by side if the page is wide enough, else one below the other.
pub fn trees(grammar: &Grammar, left: &[Node], right: &[Node]) -> String {
    let titled = |title: &str, mut lines: Vec<String>| {
        lines.insert(0, title.to_string());
        lines
    };
    let left = titled("left tree:", column(grammar, left, WIDTH));
    let right = titled("right tree:", column(grammar, right, WIDTH));
    let widest = |lines: &[String]| lines.iter().map(String::len).max().unwrap_or(0);
    let second = widest(&left) + GAP;
    if second + widest(&right) > WIDTH {
        return format!("{}\n{}\n", left.join("\n"), right.join("\n"));
    }
    let cell = |lines: &[String], place: usize| lines.get(place).cloned().unwrap_or_default();
    let rows = (0..left.len().max(right.len())).map(|place| (cell(&left, place), cell(&right, place)));
    rows.map(|(left, right)| format!("{}\n", format!("{left:second$}{right}").trim_end())).collect()
}

#[cfg(test)]
mod tests {
    use super::*;

    #[test]
    fn wrapping() {
        assert_eq!(wrapped("a bb ccc", 4, 1), ["a bb", " ccc"]);
        assert_eq!(wrapped("aaaaaa b", 4, 2), ["aaaaaa", "  b"]);
    }

    #[test]
    fn deep_and_wide_trees_keep_the_width() {
        let names: Vec<String> = (0..40).map(|i| format!("Nonterminal-{i}")).collect();
        let mut rules: Vec<String> = (0..39).map(|i| format!("rule={}: x {}\n", names[i], names[i + 1])).collect();
        rules.push(format!("rule={}:{}\n", names[39], " terminal-letter".repeat(12)));
        let text = format!("terminals=terminal-letter,x\nnonterminals={}\n{}", names.join(","), rules.concat());
        let grammar = Grammar::read(text.as_bytes()).unwrap();
        let mut tree: Vec<Node> = (1..40).flat_map(|rule| [Node::Rule(rule), Node::Leaf(2)]).collect();
        tree.push(Node::Rule(40));
        tree.extend([Node::Leaf(1); 12]);
        let printed = trees(&grammar, &tree, &tree);
        assert!(printed.lines().all(|line| line.len() <= WIDTH), "{printed}");
        assert_eq!(printed.matches("terminal-letter").count(), 24);
        assert!(printed.contains("[39] Nonterminal-39: "));
    }

    #[test]
    fn the_middle_of_a_long_tree_is_left_out() {
        let grammar = Grammar::read(b"terminals=a\nnonterminals=S\nrule=S: a S\nrule=S: a\n").unwrap();
        let mut tree: Vec<Node> = (0..900).flat_map(|_| [Node::Rule(1), Node::Leaf(1)]).collect();
        tree.extend([Node::Rule(2), Node::Leaf(1)]);
        let printed = trees(&grammar, &tree, &tree);
        assert_eq!(printed.lines().count(), 2 * (1 + 60 + 1 + 20));
        assert!(printed.contains("... (1721 lines are left out; --json has all nodes)\n"), "{printed}");
    }

    #[test]
    fn a_chain_takes_one_line() {
        let text = b"terminals=x\nnonterminals=S,A,B\nrule=S: A\nrule=A: B\nrule=B: x A\nrule=A:\n";
        let grammar = Grammar::read(text).unwrap();
        let tree = [Node::Rule(1), Node::Rule(2), Node::Rule(3), Node::Leaf(1), Node::Rule(4)];
        let lines = lines(&grammar, &tree, Naming::Lines).into_iter();
        let lines: Vec<(usize, String)> = lines.map(|line| (line.depth, line.text)).collect();
        let expected = [(0, "S: A: B: x A  (lines 3, 4, 5)"), (1, "x"), (1, "A: (empty)  (line 6)")];
        assert_eq!(lines, expected.map(|(depth, text)| (depth, text.to_string())));
        assert_eq!(super::tree(&grammar, &tree), "S: A: B: x A  (rules 1, 2, 3)\n  x\n  A: (empty)  (rule 4)\n");
    }
}
