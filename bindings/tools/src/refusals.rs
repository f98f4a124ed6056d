//! Refusals in words: `FILE:LINE:COLUMN: error: what is wrong`, and behind it the library's number and position.

use ambiguity::{Cause, Grammar, JoinPart, JoinRefusal, Refusal};

use crate::diagnosis::{self, Finding};
use crate::joins::Pair;
use crate::lines::{Certificate, Malformed};
use crate::spots;
use crate::strings::{self, NotParting};

/// The lines of a refusal for scripts, as the program `ambig` prints them.
pub fn numbers(refusal: Refusal) -> String {
    format!("refused={}\nat={}\n", refusal.cause.number(), refusal.at)
}

/// A message about a place in a file; its kind is a word that editors know, or one of a verdict.
pub fn message(file: &str, line: usize, column: usize, kind: &str, text: &str) -> String {
    format!("{file}:{line}:{column}: {kind}: {text}\n")
}

/// A message that something is refused.
fn error(file: &str, line: usize, column: usize, text: &str) -> String {
    message(file, line, column, "error", text)
}

/// A refusal of grammar text, and what else is wrong with it. Only the first has the library's number and position.
pub fn of_text(file: &str, text: &[u8], refusal: Refusal) -> String {
    let mut findings = vec![diagnosis::of(text, refusal)];
    findings.extend(diagnosis::beside(text, refusal));
    of_findings(file, &findings, refusal)
}

/// Findings in a file, of which the first has the library's number and position.
pub fn of_findings(file: &str, findings: &[Finding], refusal: Refusal) -> String {
    let said = |(place, finding): (usize, &Finding)| {
        let numbers = if place == 0 { format!(" ({refusal})") } else { String::new() };
        error(file, finding.line, finding.column, &format!("{}{numbers}", finding.message))
    };
    findings.iter().enumerate().map(said).collect()
}

/// A refusal of two texts that are joined; the file is the one at fault.
pub fn of_join(pair: &Pair, JoinRefusal { part, refusal }: JoinRefusal) -> String {
    match part {
        JoinPart::Robot => of_text(pair.robot_file, pair.robot, refusal),
        JoinPart::Module => of_findings(pair.module_file, &diagnosis::of_module(pair, refusal), refusal),
        JoinPart::Join => of_findings(pair.module_file, &diagnosis::of_join(pair, refusal), refusal),
    }
}

/// Lines of a certificate that are malformed.
pub fn of_lines(file: &str, faults: &[Malformed]) -> String {
    faults.iter().map(|fault| error(file, fault.line, fault.column, &fault.message)).collect()
}

/// A triple with so many callers by its index, in words.
fn triple(grammar: &Grammar, callers: usize, index: usize) -> String {
    let states = grammar.room(callers).map_or(1, |room| room.states);
    let (layer, left, right) = (index / states / states, index / states % states, index % states);
    let [left, right] = [left, right].map(|state| spots::state(grammar, callers, state));
    format!("layer {layer}, left '{left}', right '{right}'")
}

/// A refusal of a certificate. The position is that of the byte that holds the triple, or would hold it.
pub fn of_certificate(file: &str, certificate: &Certificate, refusal: Refusal, grammar: &Grammar) -> String {
    let at = refusal.at;
    let triple = |index: usize| triple(grammar, certificate.callers, index);
    let words = match refusal.cause {
        Cause::SpareBit => format!("bit {at} stands past the last triple and is set"),
        Cause::StartMissing => format!("the certificate lacks {}", triple(0)),
        Cause::EndPresent => format!("the certificate holds {}", triple(at)),
        Cause::SuccessorMissing => format!("the certificate lacks a successor of {}", triple(at)),
        cause => cause.to_string(),
    };
    let (line, column) = certificate.place(at / 8);
    error(file, line, column, &format!("{words} ({refusal})"))
}

/// A refusal of the lines of two strings.
pub fn of_strings(file: &str, grammar: &Grammar, lines: &[u8], refusal: Refusal) -> String {
    of_findings(file, &[diagnosis::of_strings(grammar, lines, refusal)], refusal)
}

/// Two strings that do not part.
pub fn of_not_parting(file: &str, lines: &[u8], fault: &NotParting) -> String {
    error(file, fault.line, strings::column(lines, fault.line, fault.place), &fault.message)
}
