//! A draft with its names, and what each command does with it.

use std::ffi::OsStr;
use std::fs;

use ambiguity::{Code, Draft, MARKS};

use super::line::Rule;
use super::names::{self, Names};
use super::No;
use crate::command;
use crate::diagnosis::{self, Word};
use crate::layout::{wrapped, WIDTH};

/// A draft with the names of its symbols.
pub struct Work {
    pub names: Names,
    pub draft: Draft,
}

/// `no rules`, `1 rule`, `2 rules`
fn counted(rules: usize) -> String {
    match rules {
        0 => "no rules".to_string(),
        1 => "1 rule".to_string(),
        rules => format!("{rules} rules"),
    }
}

impl Work {
    /// `2 terminals, 1 nonterminal, 3 rules`
    pub fn size(&self) -> String {
        let named = |count: usize, name: &str| format!("{count} {name}{}", if count == 1 { "" } else { "s" });
        let counts = self.draft.counts();
        let (terminals, nonterminals) = (named(counts.terminals, "terminal"), named(counts.nonterminals, "nonterminal"));
        format!("{terminals}, {nonterminals}, {}", counted(counts.rules))
    }

    /// The rule of a number, as it is listed.
    fn rule(&self, number: usize) -> String {
        let rules = names::rules(self.draft.table());
        format!("rule {number}, {}", self.names.rule(rules[number - 1]))
    }

    /// Adds a rule; a name that is not declared gets the code 0, which is none.
    pub fn add(&mut self, rule: &Rule) -> Result<String, No> {
        let code = |word: &Word| self.names.code(word.bytes).unwrap_or(0);
        let length = Code::try_from(rule.right.len()).unwrap_or(Code::MAX);
        let entries: Vec<Code> = [code(&rule.left), length].into_iter().chain(rule.right.iter().map(code)).collect();
        match self.draft.add(&entries) {
            Ok(()) => Ok(format!("added: {}\n", self.rule(self.draft.counts().rules))),
            Err(refusal) => Err(No::Refused(diagnosis::of_added(&self.names, &self.draft, rule, refusal), refusal)),
        }
    }

    pub fn withdraw(&mut self, at: usize, number: usize) -> Result<String, No> {
        let before = self.draft.counts().rules;
        let withdrawn = (1..=before).contains(&number).then(|| self.rule(number));
        match self.draft.withdraw(number) {
            Ok(()) => {
                let moved = match before - number {
                    0 => String::new(),
                    1 => format!("; rule {before} moves down by one"),
                    _ => format!("; rules {} to {before} move down by one", number + 1),
                };
                Ok(format!("withdrawn: {}{moved}\n", withdrawn.unwrap_or_default()))
            }
            Err(refusal) => Err(No::Refused(vec![(at, diagnosis::of_rule_number(&self.draft, number))], refusal)),
        }
    }

    pub fn mark(&mut self, at: usize, mark: usize) -> Result<String, No> {
        match self.draft.mark(mark) {
            Ok(()) => Ok(format!("mark {mark} keeps {}\n", counted(self.draft.counts().rules))),
            Err(refusal) => Err(No::Refused(vec![(at, diagnosis::of_mark(&self.draft, mark))], refusal)),
        }
    }

    pub fn return_to(&mut self, at: usize, mark: usize) -> Result<String, No> {
        match self.draft.return_to(mark) {
            Ok(()) => Ok(format!("returned to mark {mark}: {}\n", counted(self.draft.counts().rules))),
            Err(refusal) => Err(No::Refused(vec![(at, diagnosis::of_mark(&self.draft, mark))], refusal)),
        }
    }

    /// The rules with their numbers, a line each.
    pub fn list(&self) -> String {
        let rules = names::rules(self.draft.table());
        if rules.is_empty() {
            return "no rules\n".to_string();
        }
        let width = rules.len().to_string().len();
        (1..).zip(rules).map(|(number, rule)| format!("{number:width$}  {}\n", self.names.rule(rule))).collect()
    }

    /// The names of both lists.
    pub fn declared(&self) -> String {
        let list = |kind: &str, names: &[String]| {
            let names = if names.is_empty() { "none".to_string() } else { names.join(" ") };
            wrapped(&format!("{kind}: {names}"), WIDTH, 2).join("\n") + "\n"
        };
        list("terminals", self.names.terminals()) + &list("nonterminals", self.names.nonterminals())
    }

    /// The marks that are set.
    pub fn marks(&self) -> String {
        let set = (1..=MARKS).filter_map(|mark| Some((mark, self.draft.kept(mark)?)));
        let said: String = set.map(|(mark, rules)| format!("mark {mark} keeps {}\n", counted(rules))).collect();
        if said.is_empty() {
            return "no mark is set\n".to_string();
        }
        said
    }

    /// The draft as grammar text.
    pub fn text(&self) -> Result<String, No> {
        self.names.written(&self.draft).map_err(|refusal| {
            let finding = diagnosis::of(self.names.lines(&self.draft).as_bytes(), refusal);
            No::Refused(vec![(0, finding.message)], refusal)
        })
    }

    pub fn write(&self, path: &OsStr) -> Result<String, No> {
        let text = self.text()?;
        let shown = command::printable(&path.to_string_lossy());
        match fs::write(path, text) {
            Ok(()) => Ok(format!("written: {shown}, {}\n", counted(self.draft.counts().rules))),
            Err(error) => Err(No::File(format!("{shown}: error: {error}"))),
        }
    }
}
