//! What is wrong with a line that edits a draft. The library's refusal decides; the line is looked at to put it into words.

use std::collections::HashMap;

use ambiguity::{Cause, Draft, Refusal, MARKS, MAX_RULES, MAX_STATES, START};

use super::malformed::shown;
use super::{declared, found, nearest, Found, Word, EMPTY_WORDS, MAX_RIGHT};
use crate::drafts::line::Rule;
use crate::drafts::names::{rules, Names};
use crate::words::{self, key, small, LISTS};

/// What is refused of the lists of a draft that begins, whose text this is; the place is that in the last list that is given.
pub fn of_lists(text: &[u8], refusal: Refusal) -> Found {
    let lines: Vec<&[u8]> = text.split(|byte| *byte == b'\n').collect();
    if refusal.cause == Cause::NameRepeated {
        return repeated(&lines, refusal.at);
    }
    let finding = found(text, None, refusal);
    (finding.column - 1, finding.message)
}

/// A name of a list that is declared twice, first in it or among the terminals.
fn repeated(lines: &[&[u8]], number: usize) -> Found {
    let mut earlier: HashMap<Vec<u8>, (usize, Word)> = HashMap::new();
    for line in 1..=number {
        for name in declared(lines, line) {
            let (first_line, first) = *earlier.entry(small(name.bytes)).or_insert((line, name));
            if line == number && (first_line, first.at) != (line, name.at) {
                let among = if first_line < LISTS { "terminals" } else { "nonterminals" };
                let rest = if first.bytes == name.bytes {
                    "; take one of them out".to_string()
                } else {
                    format!(" as {}: case does not count; take one of them out, or give it another name", first.quoted())
                };
                return (name.at, format!("{} is declared twice, first among the {among}{rest}", name.quoted()));
            }
        }
    }
    (key(number).len(), "a name is declared twice".to_string())
}

/// What is refused of a rule that is to be added, first what the library says; then other names of it that are at fault.
pub fn of_added(names: &Names, draft: &Draft, rule: &Rule, refusal: Refusal) -> Vec<Found> {
    let (counts, at) = (draft.counts(), rule.left.at);
    match refusal.cause {
        Cause::TooManyRules => vec![(at, format!("there are {MAX_RULES} rules, and that is the limit; withdraw one first"))],
        Cause::LeftUndeclared => {
            let right = rule.right.iter().filter_map(|word| of_name(names, rule, *word));
            distinct(std::iter::once(of_left(names, rule.left)).chain(right))
        }
        Cause::RuleTooLong => {
            let (symbols, place) = (rule.right.len(), rule.right.get(MAX_RIGHT).map_or(at, |word| word.at));
            let rest = format!("the limit is {MAX_RIGHT}: put some of them into a rule of their own");
            vec![(place, format!("the right side has {symbols} symbols; {rest}"))]
        }
        Cause::CodeUndeclared => distinct(rule.right.iter().filter_map(|word| of_name(names, rule, *word))),
        Cause::RuleRepeated => {
            let code = |word: &Word| names.code(word.bytes).unwrap_or(0);
            let codes: Vec<_> = std::iter::once(code(&rule.left)).chain(rule.right.iter().map(code)).collect();
            let same = |known: &&[u16]| known[0] == codes[0] && known[2..] == codes[1..];
            let number = rules(draft.table()).iter().position(same).map_or(0, |place| place + 1);
            vec![(at, format!("this rule equals rule {number}; it is there already"))]
        }
        Cause::TooManyStates => {
            let states = counts.states + rule.right.len() + 1;
            vec![(at, format!("with this rule there are {states} states; the limit is {MAX_STATES}: withdraw a rule first"))]
        }
        cause => vec![(at, cause.to_string())],
    }
}

/// Each message once.
fn distinct(found: impl Iterator<Item = Found>) -> Vec<Found> {
    let mut said: Vec<Found> = Vec::new();
    for (place, message) in found {
        if said.iter().all(|(_, before)| *before != message) {
            said.push((place, message));
        }
    }
    said
}

/// What to do about a name that is not declared and like no other.
const ANOTHER: &str = "a draft keeps the names that it began with: begin another one with it";

/// A byte of a word that no name has.
fn of_byte(word: Word) -> Option<Found> {
    let place = word.bytes.iter().position(|byte| !byte.is_ascii_alphanumeric() && *byte != b'-')?;
    let message = match word.bytes[place] {
        b'|' => "'|' is found; add a rule for each alternative".to_string(),
        b'>' if word.bytes[..place].ends_with(b"-") => {
            "'->' is found; it stands once in a rule, behind the left name".to_string()
        }
        byte => format!("{} is found in {}; a name has letters, digits and hyphens", shown(byte), word.quoted()),
    };
    Some((word.at + place, message))
}

/// A left name that is no nonterminal's.
fn of_left(names: &Names, left: Word) -> Found {
    if let Some(code) = names.code(left.bytes) {
        return (left.at, format!("'{}' is a terminal; only a nonterminal has rules", names.name(code)));
    }
    of_byte(left).unwrap_or_else(|| (left.at, undeclared(left, names.nonterminals())))
}

/// A name of a right side that is not declared.
fn of_name(names: &Names, rule: &Rule, word: Word) -> Option<Found> {
    if names.code(word.bytes).is_some() {
        return None;
    }
    if rule.right.len() == 1 && EMPTY_WORDS.iter().any(|nothing| word.bytes.eq_ignore_ascii_case(nothing.as_bytes())) {
        let left = names.code(rule.left.bytes).filter(|code| *code >= START).map_or("S", |code| names.name(code));
        return Some((word.at, format!("{} is not declared; for an empty right side write 'add {left} ->'", word.quoted())));
    }
    let known = [names.terminals(), names.nonterminals()].concat();
    Some(of_byte(word).unwrap_or_else(|| (word.at, undeclared(word, &known))))
}

fn undeclared(word: Word, known: &[String]) -> String {
    let meant = nearest::nearest(word.bytes, known.iter().map(|name| name.as_bytes()));
    let rest = meant.map_or(ANOTHER.to_string(), |place| format!("is '{}' meant?", known[place]));
    format!("{} is not declared; {rest}", word.quoted())
}

/// Why there is no rule of a number.
pub fn of_rule_number(draft: &Draft, number: usize) -> String {
    match draft.counts().rules {
        0 => format!("there is no rule {number}: the draft has no rules"),
        1 => format!("there is no rule {number}; the draft has rule 1 alone"),
        last => format!("there is no rule {number}; the draft has the rules 1 to {last}"),
    }
}

/// Why there is no mark of a number, or nothing to return to.
pub fn of_mark(draft: &Draft, mark: usize) -> String {
    if !(1..=MARKS).contains(&mark) {
        return format!("there is no mark {mark}; marks are 1 to {MARKS}");
    }
    let set: Vec<String> = (1..=MARKS).filter(|mark| draft.kept(*mark).is_some()).map(|mark| mark.to_string()).collect();
    let rest = match &set[..] {
        [] => "no mark is set yet".to_string(),
        [one] => format!("mark {one} is set"),
        several => format!("the marks {} are set", words::all_of(several)),
    };
    format!("mark {mark} is empty; {rest}, and 'mark {mark}' sets it")
}
