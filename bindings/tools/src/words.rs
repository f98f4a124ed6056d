//! Symbols, rules and states of a grammar in words. A rule is written as the grammar's text has it, each name as it is declared.

use ambiguity::{Code, Grammar, START};

/// What the lines of a grammar's text begin with: the two lists, then each rule.
const KEYS: [&str; 3] = ["terminals=", "nonterminals=", "rule="];

/// The lines that hold the lists.
pub const LISTS: usize = 2;

/// What a line of a grammar's text begins with; lines count from 1.
pub fn key(line: usize) -> &'static str {
    KEYS[line.min(KEYS.len()) - 1]
}

/// A name in small letters. Names that are equal so are the same name: case does not count, and only ASCII has it.
pub fn small(name: &[u8]) -> Vec<u8> {
    name.to_ascii_lowercase()
}

/// The name of a declared symbol, as it is declared.
pub fn symbol(grammar: &Grammar, code: Code) -> &str {
    grammar.name(code).expect("a grammar that was read has no undeclared code")
}

/// The names of a row of symbols, one space between them.
pub fn row(grammar: &Grammar, codes: &[Code]) -> String {
    codes.iter().map(|code| symbol(grammar, *code)).collect::<Vec<_>>().join(" ")
}

/// The names of a row; of more than so many symbols the first and the last ones, and dots between them.
pub fn short_row(grammar: &Grammar, codes: &[Code], most: usize) -> String {
    if codes.len() <= most {
        return row(grammar, codes);
    }
    let (front, back) = (most / 2, most - most / 2);
    format!("{} ... {}", row(grammar, &codes[..front]), row(grammar, &codes[codes.len() - back..]))
}

/// The line of the text that has a rule: the lists stand before, and each rule has a line.
pub fn line_of_rule(number: usize) -> usize {
    LISTS + number
}

/// How a tree names the rules that it applies: by their lines in the text, or by their numbers.
#[derive(Clone, Copy, Debug, PartialEq, Eq)]
pub enum Naming {
    Lines,
    Rules,
}

impl Naming {
    /// `line 3`, `lines 3, 5`; `rule 1`, `rules 1, 3`.
    pub fn of(self, rules: &[usize]) -> String {
        let (word, number): (_, fn(usize) -> usize) = match self {
            Naming::Lines => ("line", line_of_rule),
            Naming::Rules => ("rule", |rule| rule),
        };
        let numbers: Vec<String> = rules.iter().map(|rule| number(*rule).to_string()).collect();
        format!("{word}{} {}", if rules.len() == 1 { "" } else { "s" }, numbers.join(", "))
    }
}

/// The left name and the right side of a rule. Rule 0 leads from the primed start to the start.
fn sides(grammar: &Grammar, number: usize) -> (String, &[Code]) {
    match number.checked_sub(1) {
        None => (format!("{}'", symbol(grammar, START)), &[START]),
        Some(place) => {
            let rule = &grammar.rules()[place];
            (symbol(grammar, rule.left).to_string(), &rule.right)
        }
    }
}

/// A rule by its number, as the text has it, with the names as they are declared: `S: a b`.
pub fn rule(grammar: &Grammar, number: usize) -> String {
    let (left, right) = sides(grammar, number);
    format!("{left}: {}", row(grammar, right)).trim_end().to_string()
}

/// A rule with its dot before the symbol at a place: `S: a . b`.
fn item(grammar: &Grammar, number: usize, dot: usize) -> String {
    let (left, right) = sides(grammar, number);
    let mut words: Vec<&str> = right.iter().map(|code| symbol(grammar, *code)).collect();
    words.insert(dot, ".");
    format!("{left}: {}", words.join(" "))
}

/// A state of the position automaton at 0 callers: the start, the end, or an item.
pub fn state(grammar: &Grammar, state: usize) -> String {
    match state {
        0 => return "start".to_string(),
        1 => return "end".to_string(),
        2 | 3 => return item(grammar, 0, state - 2),
        _ => (),
    }
    let mut dot = state - 4;
    for (place, rule) in grammar.rules().iter().enumerate() {
        if dot <= rule.right.len() {
            return item(grammar, place + 1, dot);
        }
        dot -= rule.right.len() + 1;
    }
    unreachable!("state {state} of {}", grammar.states())
}

/// The rule of an item and the symbol behind its dot. The start and the end are taken for rule 0's.
pub fn item_at(grammar: &Grammar, state: usize) -> (usize, Option<Code>) {
    let mut first = 4;
    for (place, rule) in grammar.rules().iter().enumerate() {
        if (first..=first + rule.right.len()).contains(&state) {
            return (place + 1, rule.right.get(state - first).copied());
        }
        first += rule.right.len() + 1;
    }
    (0, (state == 2).then_some(START))
}

/// Names of which one holds: `'a', 'b' or 'c'`. Of many the first ones stand, and how many there are besides.
pub fn one_of(names: &[String]) -> String {
    const MOST: usize = 6;
    match names {
        [] => String::new(),
        [name] => name.clone(),
        [front @ .., last] if names.len() <= MOST => format!("{} or {last}", front.join(", ")),
        names => format!("{} or {} others", names[..MOST - 1].join(", "), names.len() + 1 - MOST),
    }
}

/// Names that all hold: `'a', 'b' and 'c'`.
pub fn all_of(names: &[String]) -> String {
    match names {
        [] => String::new(),
        [name] => name.clone(),
        [front @ .., last] => format!("{} and {last}", front.join(", ")),
    }
}

/// Layer, left and right of a triple's index, at 0 callers.
pub fn triple(grammar: &Grammar, index: usize) -> (usize, usize, usize) {
    let states = grammar.states();
    (index / states / states, index / states % states, index % states)
}
