//! The verdict of a draft's text, in few lines: those of `ambig-certify --quiet`, and what they mean.

use ambiguity::Grammar;

use crate::callers;
use crate::certify;
use crate::explanation::{self, Found};
use crate::layout::{wrapped, WIDTH};
use crate::words::Naming;

/// The verdict of a text that was written by the library; with `quiet` without what it means.
pub fn told(text: &str, quiet: bool) -> String {
    let grammar = Grammar::read(text.as_bytes()).expect("what the library writes it reads");
    let verdict = callers::verdict(&grammar, None).expect("at 0 callers the states of a grammar fit");
    let lines = certify::lines(text.as_bytes(), &grammar, &verdict);
    let paragraph = |text: &str| wrapped(text, WIDTH, 2).join("\n") + "\n";
    match &verdict.witness {
        _ if quiet => lines,
        None => {
            let with = match verdict.callers {
                0 => String::new(),
                callers => format!(", with {} remembered", callers::counted(callers)),
            };
            lines + &paragraph(&format!("unambiguous{with}: no sentence has two derivation trees"))
        }
        Some(witness) => {
            let explanation = explanation::of(&grammar, witness);
            let parting = paragraph(&explanation.parting.sentence(&grammar, Naming::Rules));
            let said = match &explanation.found {
                Found::Two(phrase, example) => {
                    let said = explanation::ambiguous(&grammar, phrase, example);
                    paragraph(&said) + &paragraph(&explanation::confirmation(example)) + &parting
                }
                Found::Not(extent) => parting + &paragraph(&explanation::not_found(extent)),
                Found::Denied(sentence, counted) => parting + &paragraph(&explanation::denied(&grammar, sentence, counted)),
            };
            lines + &certify::tried(&verdict) + &said
        }
    }
}
