//! Grammar text made of what people write: slips of the own form, BNF, EBNF and grammars for bison. What was changed is told. The
//! library reads only what comes out, and stays as strict as it is.

mod names;
mod notation;
mod own;
mod tokens;

use crate::diagnosis::{foreign, Finding};

/// Something that was changed, with the line where it shows first.
#[derive(Debug, PartialEq, Eq)]
pub struct Note {
    pub line: usize,
    pub message: String,
}

/// Names and rules of a text; more than the library takes.
const MOST: usize = 8_000;

/// A grammar with the names that people wrote.
#[derive(Debug, Default)]
struct Draft {
    terminals: Vec<String>,
    nonterminals: Vec<String>,
    /// Left name and right side.
    rules: Vec<(String, Vec<String>)>,
    notes: Vec<Note>,
}

impl Draft {
    /// Whether there is more than can become a grammar.
    fn is_too_large(&self) -> bool {
        self.terminals.len() + self.nonterminals.len() > MOST || self.rules.len() > MOST
    }

    /// Tells a change, once for each kind.
    fn note(&mut self, line: usize, message: impl Into<String>) {
        let message = message.into();
        if !self.notes.iter().any(|note| note.message == message) {
            self.notes.push(Note { line, message });
        }
    }
}

/// The text that comes out, and what was changed.
pub struct Fixed {
    pub text: String,
    pub notes: Vec<Note>,
}

/// Makes grammar text of a text; or says where it cannot be understood.
pub fn fixed(text: &[u8]) -> Result<Fixed, Finding> {
    let mut draft = match foreign::kind(text) {
        Some(kind @ ("JSON" | "HTML" | "a grammar for ANTLR")) => {
            let message = format!("this looks like {kind}; slips of grammar text, BNF, EBNF and bison are understood");
            return Err(Finding { line: 1, column: 1, message });
        }
        Some("a grammar for bison") => notation::bison(&String::from_utf8_lossy(text))?,
        Some(_) => notation::rules(&String::from_utf8_lossy(text))?,
        None => own::draft(text)?,
    };
    let text = names::written(&mut draft);
    Ok(Fixed { text, notes: draft.notes })
}
