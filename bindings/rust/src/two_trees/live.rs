//! What sentences use: the rules that stand in their trees, and the symbols that have sentences. The library counts these rules alone, and
//! has no entry that tells them.

use crate::{Code, Grammar, START};

use super::codes::ByCode;

/// Marks for symbols.
pub type Marks = ByCode<bool>;

/// By code, whether a symbol has a sentence: terminals have, and nonterminals with a finite tree.
pub fn productive(grammar: &Grammar) -> Marks {
    // By rule how many symbols of its right side are not marked; by code the rules that have it there, as often as they do.
    let mut missing: Vec<usize> = grammar.rules().iter().map(|rule| rule.right.len()).collect();
    let users = users(grammar);
    let mut marks = Marks::new(grammar, false);
    let mut rest: Vec<Code> = (1..=grammar.terminals().len() as Code).collect();
    rest.extend(grammar.rules().iter().filter(|rule| rule.right.is_empty()).map(|rule| rule.left));
    while let Some(code) = rest.pop() {
        if !std::mem::replace(&mut marks[code], true) {
            for user in &users[code] {
                missing[*user] -= 1;
                if missing[*user] == 0 {
                    rest.push(grammar.rules()[*user].left);
                }
            }
        }
    }
    marks
}

/// By code the rules on whose right sides it stands, by their places, each as often as it stands there.
fn users(grammar: &Grammar) -> ByCode<Vec<usize>> {
    let mut users = ByCode::new(grammar, Vec::new());
    for (place, rule) in grammar.rules().iter().enumerate() {
        for code in &rule.right {
            users[*code].push(place);
        }
    }
    users
}

/// By code, whether a symbol has a sentence that is not empty.
pub fn visible(grammar: &Grammar) -> Marks {
    let productive = productive(grammar);
    let users = users(grammar);
    let mut marks = Marks::new(grammar, false);
    let mut rest: Vec<Code> = (1..=grammar.terminals().len() as Code).collect();
    while let Some(code) = rest.pop() {
        if !std::mem::replace(&mut marks[code], true) {
            let rules = users[code].iter().map(|place| &grammar.rules()[*place]);
            rest.extend(rules.filter(|rule| all(&productive, &rule.right)).map(|rule| rule.left));
        }
    }
    marks
}

fn all(marks: &Marks, row: &[Code]) -> bool {
    row.iter().all(|code| marks[*code])
}

/// By code, whether a symbol is reached from a root through rules whose symbols all have sentences.
fn reached(grammar: &Grammar, productive: &Marks, root: Code) -> Marks {
    let mut marks = Marks::new(grammar, false);
    let mut rest = vec![root];
    while let Some(code) = rest.pop() {
        if !std::mem::replace(&mut marks[code], true) {
            let rules = grammar.rules().iter().filter(|rule| rule.left == code && all(productive, &rule.right));
            rest.extend(rules.flat_map(|rule| &rule.right));
        }
    }
    marks
}

/// For each stored rule whether some sentence has a tree that uses it.
pub fn live_rules(grammar: &Grammar) -> Vec<bool> {
    rules_under(grammar, START)
}

/// For each stored rule whether some finite tree with this root uses it.
pub fn rules_under(grammar: &Grammar, root: Code) -> Vec<bool> {
    let productive = productive(grammar);
    let reached = reached(grammar, &productive, root);
    grammar.rules().iter().map(|rule| reached[rule.left] && all(&productive, &rule.right)).collect()
}

/// The nonterminals beside the start that stand in a tree of some sentence.
pub fn other_live(grammar: &Grammar) -> Vec<Code> {
    let live = live_rules(grammar);
    let has_rule = |code: &Code| grammar.rules().iter().zip(&live).any(|(rule, live)| *live && rule.left == *code);
    (1..grammar.nonterminals().len()).map(|place| START + place as Code).filter(has_rule).collect()
}

#[cfg(test)]
mod tests {
    use super::*;

    fn read(text: &str) -> Grammar {
        Grammar::read(text.as_bytes()).unwrap()
    }

    #[test]
    fn live() {
        let grammar = read("terminals=a\nnonterminals=S,W,X\nrule=S: a\nrule=S: W\nrule=W: W\nrule=X: a\nrule=S: X W\n");
        assert_eq!(live_rules(&grammar), [true, false, false, false, false]);
        assert_eq!(live_rules(&read("terminals=\nnonterminals=S\nrule=S: S\nrule=S:\n")), [true, true]);
    }

    #[test]
    fn empty_sentences() {
        let grammar =
            read("terminals=a\nnonterminals=S,N,E,W\nrule=S: N\nrule=N:\nrule=N: E a\nrule=E:\nrule=E: N W\nrule=W: W a\n");
        let marks = visible(&grammar);
        assert_eq!([1, START, START + 1, START + 2, START + 3].map(|code| marks[code]), [true, true, true, false, false]);
    }
}
