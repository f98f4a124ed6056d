//! What is wrong with two texts that are joined, though each is well formed. Places are the module's.

use std::collections::HashMap;

use ambiguity::{Cause, Grammar, Refusal, MAX_NONTERMINALS, MAX_RULES, MAX_STATES, MAX_TERMINALS};

use super::{declared, rule_words, Finding, Word, MOST_BESIDE};
use crate::joins::{lines, Pair};
use crate::words::{key, small, LISTS};

/// The kind of the names of a list's line.
fn kind(line: usize) -> &'static str {
    ["terminal", "nonterminal"][line - 1]
}

/// What a refusal of the join says, first the one that the library gives.
pub fn of_join(pair: &Pair, refusal: Refusal) -> Vec<Finding> {
    match refusal.cause {
        Cause::KindsClash => clashes(pair),
        Cause::OutOfRange => vec![too_many_names(pair, refusal.at)],
        cause => vec![of_rule(pair, cause, refusal.at)],
    }
}

/// The module's names that the robot declares as the other kind.
fn clashes(pair: &Pair) -> Vec<Finding> {
    let (robot, module) = (lines(pair.robot), lines(pair.module));
    let found = (1..=LISTS).flat_map(|line| {
        let other = 1 + LISTS - line;
        let others: HashMap<Vec<u8>, Word> =
            declared(&robot, other).into_iter().map(|name| (small(name.bytes), name)).collect();
        let clash = |name: Word| {
            let first = others.get(&small(name.bytes))?;
            let same = first.bytes == name.bytes;
            let (spelled, case) = match same {
                true => (String::new(), ""),
                false => (format!("{} ", first.quoted()), ": case does not count"),
            };
            let there = format!("{}, line {other}, column {}", pair.robot_file, first.at + 1);
            let message = format!(
                "{} is a {} here, and {spelled}a {} in {there}{case}; give one of them another name",
                name.quoted(),
                kind(line),
                kind(other)
            );
            Some(Finding { line, column: name.at + 1, message })
        };
        declared(&module, line).into_iter().filter_map(clash).collect::<Vec<_>>()
    });
    found.take(1 + MOST_BESIDE).collect()
}

/// The module's name with which a joined list passes its limit.
fn too_many_names(pair: &Pair, line: usize) -> Finding {
    let most = if line == 1 { MAX_TERMINALS } else { MAX_NONTERMINALS };
    let of_robot = declared(&lines(pair.robot), line);
    let known: HashMap<Vec<u8>, ()> = of_robot.iter().map(|name| (small(name.bytes), ())).collect();
    let module = lines(pair.module);
    let mut added = declared(&module, line).into_iter().filter(|name| !known.contains_key(&small(name.bytes)));
    let (column, name) = match added.nth(most - of_robot.len()) {
        Some(name) => (name.at + 1, name.quoted()),
        None => (key(line).len() + 1, "this list".to_string()),
    };
    let (kind, count) = (kind(line), of_robot.len());
    let message =
        format!("with {name} there are {} {kind}s; {} alone has {count}, and the limit is {most}", most + 1, pair.robot_file);
    Finding { line, column, message }
}

/// The module's rule with which the joined rules pass a limit, by its offset in the joined table.
fn of_rule(pair: &Pair, cause: Cause, offset: usize) -> Finding {
    let robot = Grammar::read(pair.robot).expect("the robot's text is read before what is joined");
    let module = lines(pair.module);
    let (mut end, mut rules, mut states) = (robot.table().rules.len(), robot.rules().len(), robot.states());
    let mut line = LISTS + 1;
    for added in pair.added() {
        let words = rule_words(module[added - 1]).len();
        (line, rules, states) = (added, rules + 1, states + words);
        if end >= offset {
            break;
        }
        end += 1 + words;
    }
    let message = match cause {
        Cause::TooManyRules => {
            let alone = robot.rules().len();
            format!(
                "with this rule there are {rules} rules; {} alone has {alone}, and the limit is {MAX_RULES}",
                pair.robot_file
            )
        }
        Cause::TooManyStates => {
            let alone = robot.states();
            format!(
                "with this rule there are {states} states; {} alone has {alone}, and the limit is {MAX_STATES}",
                pair.robot_file
            )
        }
        cause => cause.to_string(),
    };
    Finding { line, column: key(line).len() + 1, message }
}
