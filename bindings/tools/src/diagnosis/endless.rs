//! Which nonterminals have no finite tree, where the start has none.

use std::collections::HashSet;

use super::{declared, rule_words, Found, Word};
use crate::words::{self, key, small, LISTS};

/// Of more nonterminals than this few are named.
const MOST_NAMED: usize = 127;
const FEW_NAMED: usize = 20;

/// The fault of a text without a sentence. It is told at the start's name, which is the first of those that are named.
pub fn found(lines: &[&[u8]]) -> Found {
    let names: Vec<String> = without_tree(lines).iter().map(Word::quoted).collect();
    let message = match &names[..] {
        [name] => format!("{name} has no finite tree; give it a rule without it on the right side"),
        names => {
            let others = |shown: &[String]| format!("{} and {} others", shown.join(", "), names.len() - shown.len());
            let shown = if names.len() > MOST_NAMED { others(&names[..FEW_NAMED]) } else { words::all_of(names) };
            format!("{shown} have no finite tree; give one of them a rule without any of them on the right side")
        }
    };
    (key(LISTS).len(), format!("there is no sentence: {message}"))
}

/// The nonterminals without a finite tree, in the order of their list, where every name is declared.
fn without_tree<'a>(lines: &[&'a [u8]]) -> Vec<Word<'a>> {
    let small_words = |line: &&[u8]| rule_words(line).iter().map(|word| small(word.bytes)).collect();
    let rules: Vec<Vec<Vec<u8>>> = lines.iter().skip(LISTS).map(small_words).collect();
    let names = declared(lines, LISTS);
    let mut without: HashSet<Vec<u8>> = names.iter().map(|name| small(name.bytes)).collect();
    while let Some(left) = rules.iter().find_map(|rule| left_with_tree(&without, rule)) {
        without.remove(left);
    }
    names.into_iter().filter(|name| without.contains(&small(name.bytes))).collect()
}

/// The left name of a rule, if it is among these and its right side does without them.
fn left_with_tree<'a>(without: &HashSet<Vec<u8>>, rule: &'a [Vec<u8>]) -> Option<&'a Vec<u8>> {
    let (left, right) = rule.split_first()?;
    (without.contains(left) && !right.iter().any(|word| without.contains(word))).then_some(left)
}

#[cfg(test)]
mod tests {
    use super::*;

    #[test]
    fn names_in_the_order_of_the_text() {
        for (text, named) in [
            ("terminals=\nnonterminals=S\n", "'S'"),
            ("terminals=a\nnonterminals=S,W\nrule=W: a\n", "'S'"),
            ("terminals=a\nnonterminals=S,W,X,Y\nrule=S: Y\nrule=Y: a S\nrule=X: W W\nrule=W:\n", "'S' and 'Y'"),
            ("terminals=a\nnonterminals=S,Z,W,X\nrule=W: X\nrule=S: W a\nrule=X: X\nrule=Z: a\n", "'S', 'W' and 'X'"),
            ("terminals=a\nnonterminals=S,W,X\nrule=X: a\nrule=W: X X\nrule=S: W S\nrule=S: X S W\n", "'S'"),
            (
                "terminals=a\nnonterminals=S,Up,Down\nrule=s: UP\nrule=uP: A down\nrule=DOWN: S\nrule=Down: UP A\n",
                "'S', 'Up' and 'Down'",
            ),
            ("terminals=a\nnonterminals=S,Up,Down\nrule=s: s UP\nrule=uP: A down\nrule=DOWN: a\n", "'S'"),
        ] {
            let lines: Vec<&[u8]> = text.as_bytes().split(|byte| *byte == b'\n').collect();
            let (place, message) = found(&lines);
            assert_eq!((place, &lines[1][place..=place]), (13, &b"S"[..]));
            assert!(message.starts_with(&format!("there is no sentence: {named} ha")), "{message}");
        }
    }
}
