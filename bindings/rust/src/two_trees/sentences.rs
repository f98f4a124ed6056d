//! Shortest sentences: what the row of two trees may stand for, and the sentence around it.

use super::codes::ByCode;
use super::live;
use super::tree::{Node, Tree};
use crate::{Code, Grammar, Rule, START};

/// Nodes of a tree that is filled in.
const MOST_NODES: usize = 4_000;

/// A shortest sentence of a symbol: its length, the rule that begins it, and the place in that rule that must not be empty.
#[derive(Clone, Copy)]
struct Shortest {
    length: usize,
    rule: usize,
    shown: Option<usize>,
}

/// By code the shortest sentence, and the shortest one that is not empty.
struct Table {
    any: ByCode<Option<Shortest>>,
    shown: ByCode<Option<Shortest>>,
}

impl Table {
    fn new(grammar: &Grammar) -> Table {
        let known = ByCode::with_terminals(grammar, Some(Shortest { length: 1, rule: 0, shown: None }), None);
        let mut table = Table { any: known.clone(), shown: known };
        while grammar.rules().iter().enumerate().filter(|(place, rule)| table.improve(*place, rule)).count() > 0 {}
        table
    }

    /// The length of a row, in which the symbol at a place is not empty.
    fn length(&self, row: &[Code], shown: Option<usize>) -> Option<usize> {
        row.iter().enumerate().try_fold(0, |sum: usize, (place, code)| {
            let known = if shown == Some(place) { &self.shown } else { &self.any };
            Some(sum.saturating_add(known[*code]?.length))
        })
    }

    /// Whether a rule begins a shorter sentence than is known.
    fn improve(&mut self, place: usize, rule: &Rule) -> bool {
        let of = |length, shown| Shortest { length, rule: place, shown };
        let any = self.length(&rule.right, None).map(|length| of(length, None));
        let shown =
            (0..rule.right.len()).filter_map(|at| self.length(&rule.right, Some(at)).map(|length| of(length, Some(at))));
        let shown = shown.min_by_key(|found| found.length);
        replace(&mut self.any[rule.left], any) | replace(&mut self.shown[rule.left], shown)
    }

    /// A tree with a shortest sentence for each leaf, that of a nonterminal not empty where it is to be shown; none if it gets too
    /// large.
    fn filled(&self, grammar: &Grammar, tree: &[Node], shown: &[bool]) -> Option<Tree> {
        let mut filled = Vec::new();
        let mut shown = shown.iter();
        let mut rest = Vec::new();
        for node in tree {
            match *node {
                Node::Rule(_) => filled.push(*node),
                Node::Leaf(code) => rest.push((code, *shown.next()?)),
            }
            while let Some((code, shown)) = rest.pop() {
                if code < START {
                    filled.push(Node::Leaf(code));
                    continue;
                }
                let found = if shown { &self.shown } else { &self.any }[code]?;
                filled.push(Node::Rule(found.rule + 1));
                let right = grammar.rules()[found.rule].right.iter().enumerate();
                rest.extend(right.map(|(place, code)| (*code, found.shown == Some(place))).rev());
                if filled.len() + rest.len() > MOST_NODES {
                    return None;
                }
            }
        }
        Some(filled)
    }
}

fn replace(known: &mut Option<Shortest>, found: Option<Shortest>) -> bool {
    let shorter = found.is_some_and(|found| known.as_ref().map_or(true, |known| found.length < known.length));
    if shorter {
        *known = found;
    }
    shorter
}

fn leaves(tree: &[Node]) -> Vec<Code> {
    tree.iter().filter_map(|node| node.leaf()).collect()
}

/// A short row of terminals with two trees: those of a common row with all its nonterminals filled in alike. As many nonterminals
/// stand for nothing as keep the trees different. None if it has more than `most` terminals, or if the trees get too large.
pub fn of_trees(grammar: &Grammar, left: &[Node], right: &[Node], most: usize) -> Option<Vec<Code>> {
    let table = Table::new(grammar);
    let symbols = leaves(left).len();
    // First no leaf has to be shown, then one of them, then all: with all of them the trees differ in any case.
    let one = (0..symbols).map(|shown| (0..symbols).map(|place| place == shown).collect::<Vec<_>>());
    let choices = std::iter::once(vec![false; symbols]).chain(one).chain([vec![true; symbols]]);
    let pairs = choices.map(|shown| {
        let left = table.filled(grammar, left, &shown)?;
        let right = table.filled(grammar, right, &shown)?;
        (left != right).then(|| leaves(&left))
    });
    pairs.flatten().next().filter(|row| row.len() <= most)
}

/// The least that stands before and behind a nonterminal in a sentence.
pub enum Around {
    /// The terminals before and behind it.
    Short(Vec<Code>, Vec<Code>),
    /// More terminals than asked for.
    Long,
}

/// What stands around a nonterminal in a shortest sentence that has it; none if no sentence uses it.
pub fn around(grammar: &Grammar, nonterminal: Code, most: usize) -> Option<Around> {
    let table = Table::new(grammar);
    let steps = ways(grammar, &table);
    let (length, _) = steps[nonterminal]?;
    if length > most {
        return Some(Around::Long);
    }
    let (mut before, mut behind) = (Vec::new(), Vec::new());
    let mut code = nonterminal;
    while let Some((_, Some((rule, place)))) = steps[code] {
        let right = &grammar.rules()[rule].right;
        let row = |part: &[Code]| {
            let tree: Tree = part.iter().map(|code| Node::Leaf(*code)).collect();
            table.filled(grammar, &tree, &vec![false; tree.len()]).map(|tree| leaves(&tree))
        };
        let (Some(front), Some(back)) = (row(&right[..place]), row(&right[place + 1..])) else { return Some(Around::Long) };
        before.splice(0..0, front);
        behind.extend(back);
        code = grammar.rules()[rule].left;
    }
    Some(Around::Short(before, behind))
}

/// How many terminals stand around a symbol, and the rule and the place in it that lead there; the start has none.
type Way = (usize, Option<(usize, usize)>);

/// By code the shortest way from the start. A round tries every rule; each round settles at least one nonterminal.
fn ways(grammar: &Grammar, table: &Table) -> ByCode<Option<Way>> {
    let live = live::live_rules(grammar);
    let mut ways: ByCode<Option<Way>> = ByCode::new(grammar, None);
    ways[START] = Some((0, None));
    let mut better = true;
    while std::mem::replace(&mut better, false) {
        for (number, rule) in grammar.rules().iter().enumerate().filter(|(number, _)| live[*number]) {
            let Some((before, _)) = ways[rule.left] else { continue };
            for (place, code) in rule.right.iter().enumerate().filter(|(_, code)| **code >= START) {
                let others = [&rule.right[..place], &rule.right[place + 1..]].concat();
                let Some(length) = table.length(&others, None).map(|length| length.saturating_add(before)) else { continue };
                if ways[*code].map_or(true, |(known, _)| length < known) {
                    ways[*code] = Some((length, Some((number, place))));
                    better = true;
                }
            }
        }
    }
    ways
}

#[cfg(test)]
mod tests {
    use super::Node::{Leaf, Rule};
    use super::*;

    #[test]
    fn what_need_not_be_shown_is_left_out() {
        // Where S stands for nothing its two trees still differ in N; where N does, they do not.
        let text = b"terminals=a,b\nnonterminals=S,N\nrule=S: N S\nrule=S: S N\nrule=S:\nrule=N:\nrule=N: b\n";
        let grammar = Grammar::read(text).unwrap();
        let (left, right) = ([Rule(1), Leaf(START + 1), Rule(3)], [Rule(2), Rule(3), Leaf(START + 1)]);
        assert_eq!(of_trees(&grammar, &left, &right, 9), Some(vec![]));
        let pairs = Grammar::read(b"terminals=b\nnonterminals=S,N\nrule=S: N N\nrule=N:\nrule=N: b\n").unwrap();
        let (left, right) = ([Rule(1), Leaf(START + 1), Rule(2)], [Rule(1), Rule(2), Leaf(START + 1)]);
        assert_eq!(of_trees(&pairs, &left, &right, 9), Some(vec![1]));
        assert_eq!(of_trees(&pairs, &left, &right, 0), None);
    }

    #[test]
    fn a_sentence_past_all_numbers() {
        let names: Vec<String> = (0..80).map(|i| format!("A{i}")).collect();
        let doubled: String = (1..80).map(|i| format!("rule=A{}: A{i} A{i}\n", i - 1)).collect();
        let text = format!("terminals=a,b\nnonterminals={}\n{doubled}rule=A79: a\nrule=A79: a b\n", names.join(","));
        let grammar = Grammar::read(text.as_bytes()).unwrap();
        assert_eq!(of_trees(&grammar, &[Leaf(START), Leaf(1)], &[Leaf(1), Leaf(START)], 1000), None);
        assert!(matches!(around(&grammar, START + 79, 1000), Some(Around::Long)));
        assert!(
            matches!(around(&grammar, START, 0), Some(Around::Short(before, behind)) if before.is_empty() && behind.is_empty())
        );
    }

    #[test]
    fn the_shortest_sentence_around() {
        let text = b"terminals=a,b,c\nnonterminals=S,N,E,U\nrule=S: a a N b\nrule=S: E N c\nrule=E:\nrule=N: c\nrule=U: N\n";
        let grammar = Grammar::read(text).unwrap();
        let Some(Around::Short(before, behind)) = around(&grammar, START + 1, 9) else { panic!("it is short") };
        assert_eq!((before, behind), (vec![], vec![3]));
        assert!(around(&grammar, START + 3, 9).is_none());
    }
}
