//! Warnings with their places in the text.

use ambiguity::Grammar;

use crate::holes::{self, Warning};
use crate::refusals::message;
use crate::words;

/// A warning at its place.
pub struct Told {
    pub line: usize,
    pub column: usize,
    pub message: String,
}

/// The column of what a warning is about: a name in its list, or the rule behind its key.
fn column(grammar: &Grammar, warning: &Warning) -> usize {
    let names = match warning.line {
        1 => grammar.terminals(),
        2 => grammar.nonterminals(),
        _ => &[],
    };
    let before = names.iter().take_while(|name| Some(*name) != warning.name.as_ref());
    words::key(warning.line).len() + 1 + before.map(|name| name.len() + 1).sum::<usize>()
}

/// The warnings about a grammar.
pub fn of(grammar: &Grammar) -> Vec<Told> {
    let told = |warning: Warning| {
        let column = column(grammar, &warning);
        Told { line: warning.line, column, message: warning.message }
    };
    holes::warnings(grammar).into_iter().map(told).collect()
}

/// Warnings about a file, a line each.
pub fn told(file: &str, warnings: &[Told]) -> String {
    let said = |warning: &Told| message(file, warning.line, warning.column, "warning", &warning.message);
    warnings.iter().map(said).collect()
}
