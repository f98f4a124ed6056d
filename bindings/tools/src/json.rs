//! What is known of a file as one line of JSON. docs/MANUAL.md says what the keys mean.

use ambiguity::two_trees::phrase::{Example, Phrase};
use ambiguity::two_trees::tree::Node;
use ambiguity::{Code, Grammar, Refusal, Searched};

use crate::answers::Fault;
use crate::callers::Verdict;
use crate::command::VERSION;
use crate::confirmation::Counted;
use crate::diagnosis::Finding;
use crate::explanation::{Explanation, Found, More, Other};
use crate::lines::{self, Form};
use crate::parting::{Next, Parting, Side};
use crate::warnings::Told;
use crate::words;

/// A text in quotes.
pub fn text(text: &str) -> String {
    let mut quoted = String::from("\"");
    for letter in text.chars() {
        match letter {
            '"' => quoted.push_str("\\\""),
            '\\' => quoted.push_str("\\\\"),
            '\n' => quoted.push_str("\\n"),
            '\0'..='\x1F' | '\x7F' => quoted.push_str(&format!("\\u{:04x}", letter as u32)),
            _ => quoted.push(letter),
        }
    }
    quoted.push('"');
    quoted
}

fn list(values: impl Iterator<Item = String>) -> String {
    format!("[{}]", values.collect::<Vec<_>>().join(","))
}

fn numbers(numbers: &[usize]) -> String {
    list(numbers.iter().map(usize::to_string))
}

/// Keys and values that are JSON already.
fn object(members: &[(&str, String)]) -> String {
    let members: Vec<String> = members.iter().map(|(key, value)| format!("{}:{value}", text(key))).collect();
    format!("{{{}}}", members.join(","))
}

fn row(grammar: &Grammar, codes: &[Code]) -> String {
    list(codes.iter().map(|code| text(words::symbol(grammar, *code))))
}

/// A tree's nodes, each before its children: a number applies that rule, a name stands for itself.
fn tree(grammar: &Grammar, nodes: &[Node]) -> String {
    list(nodes.iter().map(|node| match *node {
        Node::Rule(number) => number.to_string(),
        Node::Leaf(code) => text(words::symbol(grammar, code)),
    }))
}

/// One side of a parting; the place is that of its rule, and rule 0 has none.
fn side(grammar: &Grammar, side: Side) -> String {
    let does = match side.next {
        Next::Closing(_) => vec![("does", text("ends"))],
        Next::Symbol(code) => vec![("does", text("goes-on")), ("symbol", text(words::symbol(grammar, code)))],
    };
    let rule = vec![("rule", side.rule.to_string())];
    let line = words::line_of_rule(side.rule);
    let place = vec![("line", line.to_string()), ("column", (words::key(line).len() + 1).to_string())];
    object(&[does, rule, if side.rule > 0 { place } else { Vec::new() }].concat())
}

fn parting(grammar: &Grammar, parting: &Parting) -> String {
    object(&[
        ("after", row(grammar, &parting.passed)),
        ("left", side(grammar, parting.left)),
        ("right", side(grammar, parting.right)),
    ])
}

/// A phrase with its two trees, a sentence with it, and whether the library's entry confirms that: it does wherever there is one.
fn phrase(grammar: &Grammar, phrase: &Phrase, example: &Example) -> Vec<(&'static str, String)> {
    let (sentence, confirmed) = match example {
        Example::Sentence(sentence) => (row(grammar, sentence), true),
        Example::TooLong => ("null".to_string(), false),
    };
    vec![
        ("nonterminal", text(words::symbol(grammar, phrase.root))),
        ("phrase", row(grammar, &phrase.row)),
        ("left-tree", tree(grammar, &phrase.left)),
        ("right-tree", tree(grammar, &phrase.right)),
        ("sentence", sentence),
        ("confirmed", confirmed.to_string()),
    ]
}

/// How many trees the library's entry counts of a sentence that is not called ambiguous for it.
fn denied(grammar: &Grammar, sentence: &[Code], counted: &Counted) -> String {
    let trees = match counted {
        Counted::None => "none",
        Counted::One => "one",
        Counted::Several => "several",
        Counted::Refused(_) => "refused",
    };
    object(&[("sentence", row(grammar, sentence)), ("trees", text(trees))])
}

/// What is said of a potential verdict.
fn explained(grammar: &Grammar, explanation: &Explanation) -> Vec<(&'static str, String)> {
    let mut members = vec![("parting", parting(grammar, &explanation.parting))];
    match &explanation.found {
        Found::Two(found, example) => {
            members.extend(phrase(grammar, found, example));
            let also = |other: &Other| {
                let parting = vec![("parting", parting(grammar, &other.parting))];
                object(&[parting, phrase(grammar, &other.phrase, &other.example)].concat())
            };
            members.push(("also", list(explanation.also.iter().map(also))));
            let more = |more| text(if more == More::Shown { "shown" } else { "limit" });
            members.push(("more", explanation.more.map_or("null".to_string(), more)));
        }
        Found::Denied(sentence, counted) => members.push(("denied", denied(grammar, sentence, counted))),
        Found::Not(_) => (),
    }
    members
}

fn head(file: &str, verdict: &str) -> Vec<(&'static str, String)> {
    told_head(file, "verdict", verdict)
}

/// Version, file, and what is told of it.
fn told_head(file: &str, key: &'static str, told: &str) -> Vec<(&'static str, String)> {
    vec![("version", text(VERSION.trim_end())), ("file", text(file)), (key, text(told))]
}

/// A file with a verdict. `strings` are the two lines of a potential one.
pub fn judged(
    file: &str,
    grammar: &Grammar,
    verdict: &Verdict,
    explanation: Option<&Explanation>,
    strings: &str,
    warnings: &[Told],
) -> String {
    let Verdict { callers, states, searched, tried, too_many_states, .. } = verdict;
    let word = match explanation {
        None => "unambiguous",
        Some(explanation) => explanation.headline(grammar).0,
    };
    let mut members = head(file, word);
    members.extend([("states", states.to_string()), ("callers", callers.to_string())]);
    members.extend([("tried", numbers(tried)), ("too-many-states", numbers(too_many_states))]);
    members.extend([("rules", grammar.rules().len().to_string()), ("looked", searched.looked().to_string())]);
    if let Searched::Unambiguous { certificate, size, .. } = searched {
        members.push(("size", size.to_string()));
        let lines = lines::written(grammar, *callers, *size, certificate, Form::usual(*states));
        members.push(("certificate", text(&lines)));
    }
    for line in strings.lines() {
        if let Some((key, value)) = line.split_once('=') {
            members.push((if key == "left" { "left" } else { "right" }, text(value)));
        }
    }
    members.extend(explanation.map_or(Vec::new(), |explanation| explained(grammar, explanation)));
    let warning = |warning: &Told| {
        let (line, column) = (warning.line.to_string(), warning.column.to_string());
        object(&[("line", line), ("column", column), ("message", text(&warning.message))])
    };
    members.push(("warnings", list(warnings.iter().map(warning))));
    object(&members) + "\n"
}

fn refused_head(file: &str, refusal: Refusal) -> Vec<(&'static str, String)> {
    let numbers = vec![("refused", refusal.cause.number().to_string()), ("at", refusal.at.to_string())];
    [head(file, "refused"), numbers].concat()
}

/// Where something is wrong, and what.
fn place(finding: &Finding) -> Vec<(&'static str, String)> {
    let message = text(&finding.message);
    vec![("line", finding.line.to_string()), ("column", finding.column.to_string()), ("message", message)]
}

/// A file that is refused.
pub fn refused(file: &str, refusal: Refusal, finding: &Finding) -> String {
    object(&[refused_head(file, refusal), place(finding)].concat()) + "\n"
}

/// The key of how many trees a sentence has.
const TREES: &str = "trees";

/// A sentence of a line that is not refused, and what more is told of it.
pub fn trees(
    file: &str,
    line: usize,
    grammar: &Grammar,
    sentence: &[Code],
    found: &str,
    more: Vec<(&'static str, String)>,
) -> String {
    let mut members = told_head(file, TREES, found);
    members.extend([("line", line.to_string()), ("sentence", row(grammar, sentence))]);
    members.extend(more);
    object(&members) + "\n"
}

/// The one tree, with its rules.
pub fn one(grammar: &Grammar, nodes: &[Node], rules: &[u16]) -> Vec<(&'static str, String)> {
    vec![("rules", list(rules.iter().map(u16::to_string))), ("tree", tree(grammar, nodes))]
}

/// Where a sentence goes wrong, and what is expected there.
pub fn fault(grammar: &Grammar, fault: &Fault, column: usize) -> Vec<(&'static str, String)> {
    let Fault { place, expected, may_end } = fault;
    vec![
        ("fault", place.to_string()),
        ("column", column.to_string()),
        ("expected", row(grammar, expected)),
        ("may-end", may_end.to_string()),
    ]
}

/// A sentence that is refused, or the grammar for which there are sentences.
pub fn refused_sentence(file: &str, refusal: Refusal, finding: &Finding) -> String {
    let numbers = vec![("refused", refusal.cause.number().to_string()), ("at", refusal.at.to_string())];
    object(&[told_head(file, TREES, "refused"), numbers, place(finding)].concat()) + "\n"
}

/// A file that has too many states with the callers that are asked for: no place of it is at fault.
pub fn unfit(file: &str, callers: usize, refusal: Refusal, message: &str) -> String {
    let mut members = refused_head(file, refusal);
    members.extend([("callers", callers.to_string()), ("message", text(message))]);
    object(&members) + "\n"
}

#[cfg(test)]
mod tests {
    use super::*;

    #[test]
    fn what_needs_escaping() {
        assert_eq!(text("a \"b\" \\ \n \u{1} é"), "\"a \\\"b\\\" \\\\ \\n \\u0001 é\"");
        assert_eq!(object(&[("a", list(std::iter::empty())), ("b", "1".to_string())]), "{\"a\":[],\"b\":1}");
    }
}
