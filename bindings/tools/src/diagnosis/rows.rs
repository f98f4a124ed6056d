//! What is wrong with the words of a sentence. The library's refusal decides; the words are looked at to put it into words.

use std::collections::HashMap;

use ambiguity::{Grammar, Refusal, MAX_ROW, START};

use super::malformed::{shown, MAX_NAME};
use super::{nearest, Finding, Word};
use crate::rows::Sentence;
use crate::words::small;

/// Different names for which the nearest is looked for: a file may have very many.
const MOST_NEAREST: usize = 100;

/// What is wrong with sentences of a grammar.
pub struct Rows<'a> {
    grammar: &'a Grammar,
    /// By name in small letters what to do about it.
    remedies: HashMap<Vec<u8>, String>,
}

impl<'a> Rows<'a> {
    pub fn new(grammar: &'a Grammar) -> Rows<'a> {
        Rows { grammar, remedies: HashMap::new() }
    }

    /// The findings for a refusal of this sentence with 22, first the one at the place that it names. A message that came before is not
    /// repeated.
    pub fn findings(&mut self, sentence: &Sentence, refusal: Refusal) -> Vec<Finding> {
        let mut findings: Vec<Finding> = Vec::new();
        for place in refusal.at..sentence.words.len().min(MAX_ROW + 1) {
            let Some((at, message)) = self.fault(sentence, place) else { continue };
            if findings.iter().all(|finding| finding.message != message) {
                findings.push(Finding { line: sentence.line, column: at + 1, message });
            }
        }
        findings
    }

    /// What is wrong with the word at a place, and where.
    fn fault(&mut self, sentence: &Sentence, place: usize) -> Option<(usize, String)> {
        let (word, code) = (sentence.words[place], sentence.row[place]);
        let quoted = word.quoted();
        if place == MAX_ROW {
            return Some((word.at, format!("{quoted} is word {} of the sentence; the limit is {MAX_ROW}", MAX_ROW + 1)));
        }
        if code >= START {
            let name = Word { at: 0, bytes: self.grammar.name(code)?.as_bytes() }.quoted();
            return Some((word.at, format!("{name} is a nonterminal; a sentence has terminals alone")));
        }
        if code > 0 {
            return None;
        }
        if let Some(place) = word.bytes.iter().position(|byte| !byte.is_ascii_alphanumeric() && *byte != b'-') {
            let found = shown(word.bytes[place]);
            let rest = "a name has letters, digits and hyphens, and spaces stand between names";
            return Some((word.at + place, format!("{found} is found in {quoted}; {rest}")));
        }
        Some((word.at, format!("{quoted} is no terminal of the grammar{}", self.remedy(word.bytes))))
    }

    /// The terminal that was probably meant, as `; is 'take' meant?`.
    fn remedy(&mut self, name: &[u8]) -> String {
        if let Some(remedy) = self.remedies.get(&small(name)) {
            return remedy.clone();
        }
        if name.len() > 2 * MAX_NAME || self.remedies.len() == MOST_NEAREST {
            return String::new();
        }
        let terminals = self.grammar.terminals();
        let remedy = match nearest::nearest(name, terminals.iter().map(|terminal| terminal.as_bytes())) {
            Some(place) => format!("; is '{}' meant?", terminals[place]),
            None => String::new(),
        };
        self.remedies.insert(small(name), remedy.clone());
        remedy
    }
}
