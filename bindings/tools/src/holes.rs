//! Holes of a grammar: what no sentence uses. It has no moves, so that verdict and size are those of the grammar without it; a
//! half-finished grammar shows in it.

use ambiguity::two_trees::live::{live_rules, productive};
use ambiguity::{Code, Grammar, START};

use crate::words;

/// A warning, with the line of the text that it is about.
#[derive(Debug, PartialEq, Eq)]
pub struct Warning {
    pub line: usize,
    /// The name that it is about, if that stands in a list; a rule otherwise.
    pub name: Option<String>,
    pub message: String,
}

/// Terminals that stand in no rule, nonterminals without rules, and rules that no sentence uses.
pub fn warnings(grammar: &Grammar) -> Vec<Warning> {
    let mut found = Vec::new();
    for (place, name) in grammar.terminals().iter().enumerate() {
        let code = 1 + place as Code;
        if !grammar.rules().iter().any(|rule| rule.right.contains(&code)) {
            found.push(listed(1, name, format!("the terminal '{name}' stands in no rule")));
        }
    }
    for (place, name) in grammar.nonterminals().iter().enumerate() {
        let code = START + place as Code;
        if !grammar.rules().iter().any(|rule| rule.left == code) {
            found.push(listed(2, name, format!("the nonterminal '{name}' has no rule")));
        }
    }
    let productive = productive(grammar);
    for (place, _) in live_rules(grammar).iter().enumerate().filter(|(_, live)| !**live) {
        let rule = &grammar.rules()[place];
        let reason = match rule.right.iter().find(|code| !productive[**code]) {
            Some(code) => format!("'{}' has no finite tree", words::symbol(grammar, *code)),
            None => format!("'{}' is not reached from '{}'", words::symbol(grammar, rule.left), grammar.nonterminals()[0]),
        };
        let message = format!("no sentence uses this rule: {reason}");
        found.push(Warning { line: words::line_of_rule(place + 1), name: None, message });
    }
    found
}

fn listed(line: usize, name: &str, message: String) -> Warning {
    Warning { line, name: Some(name.to_string()), message }
}

#[cfg(test)]
mod tests {
    use super::*;

    fn read(text: &str) -> Grammar {
        Grammar::read(text.as_bytes()).unwrap()
    }

    #[test]
    fn each_hole_is_told() {
        let grammar = read(
            "terminals=a,b\nnonterminals=S,None,Endless,Apart\nrule=S: a\nrule=S: None a\nrule=S: Endless\nrule=Endless: Endless a\n\
             rule=Apart: a Apart\nrule=Apart: a\n",
        );
        let told: Vec<(usize, String)> =
            warnings(&grammar).into_iter().map(|warning| (warning.line, warning.message)).collect();
        let unused = |line: usize, reason: &str| (line, format!("no sentence uses this rule: {reason}"));
        let expected = [
            (1, "the terminal 'b' stands in no rule".to_string()),
            (2, "the nonterminal 'None' has no rule".to_string()),
            unused(4, "'None' has no finite tree"),
            unused(5, "'Endless' has no finite tree"),
            unused(6, "'Endless' has no finite tree"),
            unused(7, "'Apart' is not reached from 'S'"),
            unused(8, "'Apart' is not reached from 'S'"),
        ];
        assert_eq!(told, expected);
        assert_eq!(warnings(&read("terminals=a\nnonterminals=S\nrule=S: a S\nrule=S:\n")), []);
    }
}
