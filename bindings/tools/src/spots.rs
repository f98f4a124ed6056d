//! What the states are where callers are remembered: document 02's words, as the library numbers them.

use ambiguity::two_trees::live;
use ambiguity::{Code, Grammar, START};

use crate::words;

/// A state: an item, or the start or the end, by its number at 0 callers; and the nearest calling items.
#[derive(Clone, Debug, PartialEq, Eq)]
pub struct Spot {
    pub item: usize,
    pub callers: Vec<usize>,
}

/// The items of a rule, by their numbers at 0 callers: rule 0 has 2 and 3.
struct Items {
    number: usize,
    left: Option<Code>,
    right: Vec<Code>,
    first: usize,
}

fn items(grammar: &Grammar) -> Vec<Items> {
    let mut found = vec![Items { number: 0, left: None, right: vec![START], first: 2 }];
    let mut first = 4;
    for (number, rule) in (1..).zip(grammar.rules()) {
        found.push(Items { number, left: Some(rule.left), right: rule.right.clone(), first });
        first += rule.right.len() + 1;
    }
    found
}

/// The chains of so many nearest callers that a rule can have, in the order of the calling items; shorter ones end in rule 0.
fn chains(rules: &[&Items], of: &Items, callers: usize) -> Vec<Vec<usize>> {
    let (Some(left), true) = (of.left, callers > 0) else { return vec![Vec::new()] };
    let mut found = Vec::new();
    for rule in rules {
        let places = (0..rule.right.len()).filter(|dot| rule.right[*dot] == left);
        for caller in places.map(|dot| rule.first + dot) {
            let farther = chains(rules, rule, callers - 1).into_iter();
            found.extend(farther.map(|chain| [&[caller][..], &chain].concat()));
        }
    }
    found
}

/// The states with so many callers, by number. With callers, items of rules that no sentence uses are none.
pub fn spots(grammar: &Grammar, callers: usize) -> Vec<Spot> {
    let live = live::live_rules(grammar);
    let all = items(grammar);
    let is_live = |rule: &&Items| callers == 0 || rule.number == 0 || live[rule.number - 1];
    let rules: Vec<&Items> = all.iter().filter(is_live).collect();
    let mut spots = [0, 1].map(|item| Spot { item, callers: Vec::new() }).to_vec();
    for rule in &rules {
        let chains = chains(&rules, rule, callers);
        for dot in 0..=rule.right.len() {
            spots.extend(chains.iter().map(|chain| Spot { item: rule.first + dot, callers: chain.clone() }));
        }
    }
    spots
}

/// A state with so many callers in words: `A: . e called at S: b . A c`.
pub fn state(grammar: &Grammar, callers: usize, state: usize) -> String {
    if callers == 0 {
        return words::state(grammar, state);
    }
    let Spot { item, callers } = &spots(grammar, callers)[state];
    let at: Vec<String> = callers.iter().map(|caller| words::state(grammar, *caller)).collect();
    let called = if at.is_empty() { String::new() } else { format!(" called at {}", at.join(", ")) };
    words::state(grammar, *item) + &called
}
