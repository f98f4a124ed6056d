//! The names of a draft's symbols: a draft is begun from grammar text, perhaps without a sentence, and written as grammar text.

use std::collections::HashMap;

use ambiguity::{write_text, written_length, Cause, Code, Draft, Grammar, Refusal, START};

use crate::joins::lines;
use crate::words::{key, small, LISTS};

/// Names as they are declared, terminals first.
pub struct Names {
    names: Vec<String>,
    terminals: usize,
    /// By name in small letters.
    codes: HashMap<Vec<u8>, Code>,
}

/// The rules of a table, each with its left code and length.
pub fn rules(mut table: &[Code]) -> Vec<&[Code]> {
    let mut rules = Vec::new();
    while let Some(length) = table.get(1) {
        let (rule, rest) = table.split_at(2 + usize::from(*length));
        rules.push(rule);
        table = rest;
    }
    rules
}

/// A draft of a text and its names. The text may lack sentences; otherwise the library's reader decides.
///
/// # Errors
///
/// Those of the reader, but for 19.
pub fn begun(text: &[u8]) -> Result<(Names, Draft), Refusal> {
    match Grammar::read(text) {
        Ok(grammar) => Ok((Names::of(&grammar), grammar.draft())),
        Err(Refusal { cause: Cause::NoSentence, .. }) => Ok(without_sentence(text)),
        Err(refusal) => Err(refusal),
    }
}

/// A draft of a text whose only fault is that it has no sentence. The reader reads its rules in two parts, each behind an empty rule of the
/// start, which the text does not have: so there is a sentence, and no limit is passed.
fn without_sentence(text: &[u8]) -> (Names, Draft) {
    let lines = lines(text);
    let (lists, rules) = lines.split_at(LISTS);
    let start = lists[LISTS - 1][key(LISTS).len()..].split(|byte| *byte == b',').next().unwrap_or_default();
    let ended = |part: &[&[u8]]| part.iter().map(|line| [*line, b"\n"].concat()).collect::<Vec<_>>().concat();
    let empty = [key(LISTS + 1).as_bytes(), start, b":\n"].concat();
    let (front, back) = rules.split_at(rules.len() / 2);
    let [front, back] = [front, back].map(|part| {
        let text = [ended(lists), empty.clone(), ended(part)].concat();
        Grammar::read(&text).expect("a text without fault and with a sentence is read")
    });
    let table = [&front, &back].map(|part| part.table().rules[2..].to_vec()).concat();
    let draft = Draft::new(front.terminals().len(), front.nonterminals().len(), &table);
    (Names::of(&front), draft.expect("the table of a text without fault is taken"))
}

impl Names {
    fn of(grammar: &Grammar) -> Names {
        let names = [grammar.terminals(), grammar.nonterminals()].concat();
        let codes = (1..=grammar.terminals().len() as Code).chain(START..);
        let codes = names.iter().map(|name| small(name.as_bytes())).zip(codes).collect();
        Names { names, terminals: grammar.terminals().len(), codes }
    }

    pub fn terminals(&self) -> &[String] {
        &self.names[..self.terminals]
    }

    pub fn nonterminals(&self) -> &[String] {
        &self.names[self.terminals..]
    }

    /// The code of a name in any case; none if it is not declared.
    pub fn code(&self, name: &[u8]) -> Option<Code> {
        self.codes.get(&small(name)).copied()
    }

    /// The declared name of a code.
    pub fn name(&self, code: Code) -> &str {
        let place = if code < START { usize::from(code) - 1 } else { self.terminals + usize::from(code - START) };
        &self.names[place]
    }

    /// A rule as it is listed: `S: a b`.
    pub fn rule(&self, rule: &[Code]) -> String {
        let right: String = rule[2..].iter().map(|code| format!(" {}", self.name(*code))).collect();
        format!("{}:{right}", self.name(rule[0]))
    }

    /// The draft as grammar text, by the library's writer.
    ///
    /// # Errors
    ///
    /// 19 at 0, if there is no sentence.
    pub fn written(&self, draft: &Draft) -> Result<String, Refusal> {
        let lengths: Vec<u32> = self.names.iter().map(|name| name.len() as u32).collect();
        let starts: Vec<u32> = lengths.iter().scan(0, |end, length| Some(std::mem::replace(end, *end + length))).collect();
        let bytes = self.names.concat();
        let names = ambiguity::Names { bytes: bytes.as_bytes(), starts: &starts, lengths: &lengths };
        let mut text = vec![0; written_length(draft.as_table(), names)?];
        write_text(draft.as_table(), names, &mut text)?;
        Ok(String::from_utf8(text).expect("grammar text is ASCII"))
    }

    /// Its lines as they would be written, also where there is no sentence: for messages.
    pub fn lines(&self, draft: &Draft) -> String {
        let list = |line: usize, names: &[String]| format!("{}{}\n", key(line), names.join(","));
        let rules = rules(draft.table()).into_iter().map(|rule| format!("{}{}\n", key(LISTS + 1), self.rule(rule)));
        list(1, self.terminals()) + &list(2, self.nonterminals()) + &rules.collect::<String>()
    }
}

#[cfg(test)]
mod tests {
    use super::*;

    #[test]
    fn texts_with_and_without_sentences() {
        for text in [
            "terminals=\nnonterminals=S\n",
            "terminals=a\nnonterminals=Step,W\nrule=STEP: A step\n",
            "terminals=a,b\nnonterminals=S,W\nrule=S: a S\nrule=S: W\nrule=W: b w\n",
            "terminals=a\nnonterminals=S\nrule=S: a\n",
            "terminals=a\nnonterminals=S\nrule=S: a S a\nrule=S:\n",
        ] {
            let (names, draft) = begun(text.as_bytes()).ok().unwrap();
            assert!(names.lines(&draft).eq_ignore_ascii_case(text), "{text}");
            match Grammar::read(text.as_bytes()) {
                Ok(grammar) => assert_eq!(names.written(&draft), Ok(grammar.write())),
                Err(refusal) => assert_eq!(names.written(&draft), Err(refusal)),
            }
        }
        let refused = |text: &[u8]| begun(text).err().unwrap().to_string();
        assert_eq!(refused(b"terminals=a\nnonterminals=S\nrule=S: S\nrule=S: s\n"), "refused=6 at=3");
        assert_eq!(refused(b"terminals=a\nnonterminals=\n"), "refused=1 at=2");
    }

    /// The most rules, and the most states, without a sentence.
    #[test]
    fn full_texts() {
        let names = |letter: &str, count: usize| (0..count).map(|i| format!("{letter}{i}")).collect::<Vec<_>>().join(",");
        let units: String = (0..400).map(|i| format!("rule=N0: t{i} N0\n")).collect();
        let long: String = (0..78).map(|i| format!("rule=N{i}:{}\n", " N0".repeat(12))).collect();
        for (rules, states, count) in [
            (units.replace(" N0\n", "\n").replace("N0:", "N1:"), 804, 400),
            (format!("{long}rule=N0:{}\n", " N0".repeat(5)), 1024, 79),
        ] {
            let text = format!("terminals={}\nnonterminals={}\n{rules}", names("t", 400), names("N", 400));
            assert_eq!(Grammar::read(text.as_bytes()).unwrap_err().to_string(), "refused=19 at=0");
            let (names, draft) = begun(text.as_bytes()).ok().unwrap();
            assert_eq!((draft.counts().states, draft.counts().rules), (states, count));
            assert_eq!(names.lines(&draft), text);
        }
    }
}
