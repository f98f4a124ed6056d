//! Sentences that stand in lines: names of terminals, in any case, with spaces between them.
//!
//! Every line is a sentence, and one without words is the empty sentence; only a line whose first word begins with `#` is none: it is a
//! comment. Tabs, and byte 13 at a line's end, are spaces here; a byte-order mark, and a last line without its end, are taken.

use std::collections::HashMap;

use ambiguity::{Code, Grammar, START};

use crate::diagnosis::Word;
use crate::joins::lines;
use crate::words::small;

/// Bytes of a file of sentences.
pub const MOST_BYTES: usize = 1 << 20;

const BYTE_ORDER_MARK: &[u8] = b"\xEF\xBB\xBF";

/// A line with its words.
#[derive(Debug, PartialEq, Eq)]
pub struct Sentence<'a> {
    /// From 1.
    pub line: usize,
    pub words: Vec<Word<'a>>,
    /// The codes of the words, nonterminals' too; 0, which is no code, for a name that is not declared.
    pub row: Vec<Code>,
}

/// The words of a line, each with its place.
fn words(line: &[u8]) -> Vec<Word<'_>> {
    let mut words = Vec::new();
    let mut at = 0;
    for bytes in line.split(|byte| matches!(byte, b' ' | b'\t' | b'\r')) {
        if !bytes.is_empty() {
            words.push(Word { at, bytes });
        }
        at += bytes.len() + 1;
    }
    words
}

/// The sentences of a text.
pub fn read<'a>(grammar: &Grammar, text: &'a [u8]) -> Vec<Sentence<'a>> {
    let named = |names: &[String], first: Code| {
        let names = names.iter().map(|name| small(name.as_bytes()));
        names.zip(first..).collect::<Vec<_>>()
    };
    let codes: HashMap<Vec<u8>, Code> =
        [named(grammar.terminals(), 1), named(grammar.nonterminals(), START)].concat().into_iter().collect();
    let mut sentences = Vec::new();
    for (number, line) in (1..).zip(lines(text)) {
        let mut words = words(line);
        // The mark is no part of the first word, which keeps its place in the file.
        if let Some(first) = words.first_mut().filter(|word| number == 1 && word.bytes.starts_with(BYTE_ORDER_MARK)) {
            *first = Word { at: first.at + BYTE_ORDER_MARK.len(), bytes: &first.bytes[BYTE_ORDER_MARK.len()..] };
        }
        words.retain(|word| !word.bytes.is_empty());
        if words.first().is_some_and(|word| word.bytes.starts_with(b"#")) {
            continue;
        }
        let row = words.iter().map(|word| codes.get(&small(word.bytes)).copied().unwrap_or(0)).collect();
        sentences.push(Sentence { line: number, words, row });
    }
    sentences
}

#[cfg(test)]
mod tests {
    use super::*;

    #[test]
    fn lines_of_words() {
        let grammar = Grammar::read(b"terminals=Take,vol\nnonterminals=Step\nrule=Step: take vol\n").unwrap();
        let rows = |text: &[u8]| -> Vec<(usize, Vec<Code>)> {
            read(&grammar, text).into_iter().map(|sentence| (sentence.line, sentence.row)).collect()
        };
        assert_eq!(rows(b"take vol\nTAKE  Vol step tkae \n"), [(1, vec![1, 2]), (2, vec![1, 2, START, 0])]);
        assert_eq!(rows(b"\n# take\n \t \r\n  #\ntake\tvol\r\nvol"), [(1, vec![]), (3, vec![]), (5, vec![1, 2]), (6, vec![2])]);
        assert_eq!((rows(b""), rows(b"\n"), rows(b"#\n")), (vec![], vec![(1, vec![])], vec![]));
        assert_eq!((rows(b"\xEF\xBB\xBFvol\n"), rows(b"\xEF\xBB\xBF\n")), (vec![(1, vec![2])], vec![(1, vec![])]));
        assert_eq!(read(&grammar, b"\xEF\xBB\xBFvol")[0].words, [Word { at: 3, bytes: b"vol" }]);
        assert_eq!(read(&grammar, b" a  b")[0].words, [Word { at: 1, bytes: b"a" }, Word { at: 4, bytes: b"b" }]);
    }
}
