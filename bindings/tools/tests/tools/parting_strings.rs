//! Document 01's "Parting strings", tried word for word on the grammar, with document 02's live rules: another way than that of the
//! tools, and without the library.

use std::collections::{BTreeMap, BTreeSet};

use ambiguity::{Code, Grammar, Letter, START};

/// A state of the position automaton.
#[derive(Clone, Copy, Debug, PartialEq, Eq)]
enum State {
    Begin,
    End,
    /// A rule, 0 among them, with its dot before the symbol at a place.
    Item(usize, usize),
}

/// The left and the right side of a rule. Rule 0 has no left side among the symbols.
fn sides(grammar: &Grammar, rule: usize) -> (Option<Code>, Vec<Code>) {
    match rule.checked_sub(1).map(|place| &grammar.rules()[place]) {
        None => (None, vec![START]),
        Some(rule) => (Some(rule.left), rule.right.clone()),
    }
}

/// "A rule is live if some sentence has a tree that uses it; rule 0 is live if there is a sentence." Found by the rules that the
/// finite trees of each nonterminal use.
fn live(grammar: &Grammar) -> BTreeSet<usize> {
    let mut used: BTreeMap<Code, BTreeSet<usize>> = BTreeMap::new();
    loop {
        let before = used.clone();
        for (place, rule) in grammar.rules().iter().enumerate() {
            let below: Option<Vec<_>> = rule.right.iter().filter(|code| **code >= START).map(|code| used.get(code)).collect();
            if let Some(below) = below {
                let mut rules: BTreeSet<usize> = below.into_iter().flatten().copied().collect();
                rules.insert(place + 1);
                used.entry(rule.left).or_default().extend(rules);
            }
        }
        if used == before {
            let sentence = used.remove(&START);
            return sentence.map_or(BTreeSet::new(), |rules| rules.into_iter().chain([0]).collect());
        }
    }
}

/// Every item of a live rule with its dot just past this nonterminal.
fn past(grammar: &Grammar, live: &BTreeSet<usize>, nonterminal: Code) -> Vec<State> {
    let items = live.iter().flat_map(|&rule| {
        let right = sides(grammar, rule).1;
        (0..right.len()).filter(move |dot| right[*dot] == nonterminal).map(move |dot| State::Item(rule, dot + 1))
    });
    items.collect()
}

/// The states to which a letter leads. None is an item of a rule that is not live.
fn moved(grammar: &Grammar, live: &BTreeSet<usize>, state: State, letter: Letter) -> Vec<State> {
    let opened = |rule: usize| live.contains(&rule).then_some(State::Item(rule, 0)).into_iter().collect();
    let ahead = match state {
        State::Item(rule, dot) => sides(grammar, rule).1.get(dot).copied(),
        _ => None,
    };
    match (letter, state) {
        (Letter::Opening(0), State::Begin) => opened(0),
        (Letter::Opening(rule), _) if ahead.is_some() && sides(grammar, rule.into()).0 == ahead => opened(rule.into()),
        (Letter::Closing(rule), State::Item(of, _)) if of == usize::from(rule) && ahead.is_none() => {
            sides(grammar, of).0.map_or(vec![State::End], |left| past(grammar, live, left))
        }
        (Letter::Symbol(code), State::Item(rule, dot)) if ahead == Some(code) => vec![State::Item(rule, dot + 1)],
        _ => Vec::new(),
    }
}

/// "The automaton accepts u".
pub fn accepts(grammar: &Grammar, string: &[Letter]) -> bool {
    let live = live(grammar);
    let mut states = vec![State::Begin];
    for letter in string {
        let mut next: Vec<State> = Vec::new();
        for state in states.iter().flat_map(|state| moved(grammar, &live, *state, *letter)) {
            if !next.contains(&state) {
                next.push(state);
            }
        }
        states = next;
    }
    states.contains(&State::End)
}

fn symbols(string: &[Letter]) -> Vec<Letter> {
    string.iter().copied().filter(|letter| matches!(letter, Letter::Symbol(_))).collect()
}

fn is_nonterminal(letter: &Letter) -> bool {
    matches!(letter, Letter::Symbol(code) if *code >= START)
}

/// "One of z, w begins with closing i; the other begins with a terminal or with closing j, j ≠ i."
fn begin_apart(one: &[Letter], other: &[Letter]) -> bool {
    let (Some(Letter::Closing(i)), Some(next)) = (one.first(), other.first()) else { return false };
    match next {
        Letter::Symbol(_) => !is_nonterminal(next),
        Letter::Closing(j) => i != j,
        Letter::Opening(_) => false,
    }
}

/// Whether z and w follow the same symbols as they must.
fn go_on(z: &[Letter], w: &[Letter]) -> bool {
    (begin_apart(z, w) || begin_apart(w, z)) && !z.iter().chain(w).any(is_nonterminal) && symbols(z) == symbols(w)
}

/// The fronts of a string that hold only openings and shifts, as their lengths.
fn fronts(string: &[Letter]) -> std::ops::RangeInclusive<usize> {
    0..=string.iter().take_while(|letter| !matches!(letter, Letter::Closing(_))).count()
}

/// Whether u and v are parting strings: u = xz and v = yw in any way.
pub fn part(grammar: &Grammar, u: &[Letter], v: &[Letter]) -> bool {
    if !accepts(grammar, u) || !accepts(grammar, v) {
        return false;
    }
    let mut splits = fronts(u).flat_map(|x| fronts(v).map(move |y| (x, y)));
    splits.any(|(x, y)| symbols(&u[..x]) == symbols(&v[..y]) && go_on(&u[x..], &v[y..]))
}

/// All strings of at most so many letters that the automaton accepts, and at most so many of them.
pub fn accepted(grammar: &Grammar, longest: usize, most: usize) -> Vec<Vec<Letter>> {
    let live = live(grammar);
    let rules = 0..=grammar.rules().len() as u16;
    let terminals = (1..).take(grammar.terminals().len());
    let nonterminals = (START..).take(grammar.nonterminals().len());
    let letters: Vec<Letter> = rules
        .flat_map(|rule| [Letter::Opening(rule), Letter::Closing(rule)])
        .chain(terminals.chain(nonterminals).map(Letter::Symbol))
        .collect();
    let mut found = Vec::new();
    let mut fronts = vec![(Vec::new(), vec![State::Begin])];
    while let Some((string, states)) = fronts.pop() {
        if states.contains(&State::End) {
            found.push(string);
        } else if string.len() < longest && found.len() < most {
            for letter in &letters {
                let next: Vec<State> = states.iter().flat_map(|state| moved(grammar, &live, *state, *letter)).collect();
                if !next.is_empty() {
                    fronts.push(([&string[..], &[*letter]].concat(), next));
                }
            }
        }
    }
    found
}
