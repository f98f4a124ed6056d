//! Slips of the own form: what editors add, and what other notations write otherwise.

use std::collections::{HashMap, HashSet};

use super::{Draft, MOST};
use crate::diagnosis::Finding;

const COMMENTS: [&str; 6] = ["#", "//", ";", "%", "--", "/*"];
const EMPTY: [&str; 8] = ["epsilon", "eps", "empty", "lambda", "ε", "ϵ", "λ", "%empty"];
const DEFINES: [&str; 6] = ["::=", ":=", "->", "=>", "→", ":"];

/// The lists and rules of a text.
pub fn draft(text: &[u8]) -> Result<Draft, Finding> {
    let mut draft = Draft::default();
    let bytes = text.strip_prefix(b"\xEF\xBB\xBF").unwrap_or(text);
    if bytes.len() < text.len() {
        draft.note(1, "the byte-order mark is taken out");
    }
    let text = match String::from_utf8(bytes.to_vec()) {
        Ok(text) => text,
        Err(error) => {
            let line = 1 + bytes[..error.utf8_error().valid_up_to()].iter().filter(|byte| **byte == b'\n').count();
            return Err(Finding { line, column: 1, message: "the text is neither ASCII nor UTF-8".to_string() });
        }
    };
    let lines: Vec<&str> = text.split('\n').collect();
    if lines.last().is_some_and(|last| !last.is_empty()) {
        draft.note(lines.len(), "the last line gets its end");
    }
    let whole = lines.len() - usize::from(lines.last() == Some(&""));
    let mut rule_lines = Vec::new();
    for (place, line) in lines[..whole].iter().enumerate() {
        self::line(&mut draft, place + 1, line)?;
        rule_lines.resize(draft.rules.len(), place + 1);
        if draft.is_too_large() {
            let message = format!("there are more than {MOST} names or rules");
            return Err(Finding { line: place + 1, column: 1, message });
        }
    }
    spell_as_declared(&mut draft, &rule_lines);
    Ok(draft)
}

/// Each use of a name gets the spelling of its declaration; `rule_lines` has the line of each rule. Two declarations that differ in
/// case are left: each keeps the uses that are spelled as it is.
fn spell_as_declared(draft: &mut Draft, rule_lines: &[usize]) {
    let declared: HashSet<String> = draft.nonterminals.iter().chain(&draft.terminals).cloned().collect();
    let mut spelled: HashMap<String, String> = HashMap::new();
    for name in draft.nonterminals.iter().chain(&draft.terminals) {
        spelled.entry(name.to_ascii_lowercase()).or_insert_with(|| name.clone());
    }
    let mut changed = None;
    for ((left, right), line) in draft.rules.iter_mut().zip(rule_lines) {
        for word in std::iter::once(left).chain(right).filter(|word| !declared.contains(*word)) {
            // Where no declaration is found, the first use counts.
            let name = spelled.entry(word.to_ascii_lowercase()).or_insert_with(|| word.clone());
            if word != name {
                word.clone_from(name);
                changed = changed.or(Some(*line));
            }
        }
    }
    if let Some(line) = changed {
        draft.note(line, "each use of a name is spelled as the name is declared");
    }
}

/// Reads one line.
fn line(draft: &mut Draft, number: usize, whole: &str) -> Result<(), Finding> {
    let line = whole.strip_suffix('\r').unwrap_or(whole);
    if line.len() < whole.len() {
        draft.note(number, "line ends are written as byte 10 alone");
    }
    let content = without_comment(line).trim();
    if content.len() < line.trim().len() {
        draft.note(number, "comments are taken out");
    }
    if content.is_empty() {
        if line.trim().is_empty() {
            draft.note(number, "blank lines are taken out");
        }
        return Ok(());
    }
    let fault = |column: usize, message: &str| Err(Finding { line: number, column, message: message.to_string() });
    let Some((key, value)) = content.split_once('=') else {
        return fault(1, "no '=' is found; a line is 'terminals=a,b', 'nonterminals=S' or 'rule=S: a b'");
    };
    let key = key.trim();
    if key != key.to_ascii_lowercase() {
        draft.note(number, "keys are written in small letters");
    }
    match key.to_ascii_lowercase().as_str() {
        "terminals" | "terminal" => draft.terminals.extend(names(value)),
        "nonterminals" | "nonterminal" => draft.nonterminals.extend(names(value)),
        "rule" | "rules" => return rule(draft, number, value.trim()),
        _ => return fault(1, "this key is not known; a line is 'terminals=a,b', 'nonterminals=S' or 'rule=S: a b'"),
    }
    let list = value.split(',').map(|name| name.to_string()).collect::<Vec<_>>();
    if !value.is_empty() && names(value).collect::<Vec<_>>() != list {
        draft.note(number, "names are parted by one comma, without spaces and quotes");
    }
    Ok(())
}

/// The line up to a comment.
fn without_comment(line: &str) -> &str {
    if COMMENTS.iter().any(|mark| line.trim_start().starts_with(mark)) {
        return "";
    }
    let place = [" #", "\t#", " //", " /*"].iter().filter_map(|mark| line.find(mark)).min();
    &line[..place.unwrap_or(line.len())]
}

/// A name without quotes.
fn bare(word: &str) -> String {
    word.trim_matches(|letter: char| "\"'`".contains(letter) || ('\u{2018}'..='\u{201F}').contains(&letter)).to_string()
}

fn names(value: &str) -> impl Iterator<Item = String> + '_ {
    let parts = value.split(|letter: char| letter == ',' || letter == ';' || letter.is_whitespace());
    parts.map(bare).filter(|name| !name.is_empty())
}

/// A rule, or several that stand in one line.
fn rule(draft: &mut Draft, number: usize, value: &str) -> Result<(), Finding> {
    let found = DEFINES.iter().filter_map(|mark| value.find(mark).map(|place| (place, *mark))).min_by_key(|(place, _)| *place);
    let Some((place, mark)) = found else {
        return Err(Finding { line: number, column: 1, message: "no colon is found; a rule is 'rule=S: a b'".to_string() });
    };
    if mark != ":" {
        draft.note(number, format!("'{mark}' is written ':'"));
    }
    let left = bare(value[..place].trim());
    let right = value[place + mark.len()..].trim_end_matches([';', ' ']);
    if value.ends_with(';') {
        draft.note(number, "';' at a rule's end is taken out");
    }
    let choices: Vec<&str> = right.split('|').collect();
    if choices.len() > 1 {
        draft.note(number, "each alternative gets a rule of its own");
    }
    for choice in choices {
        let mut symbols: Vec<String> = choice.split_whitespace().map(bare).filter(|name| !name.is_empty()).collect();
        let declared =
            |word: &String| draft.terminals.iter().chain(&draft.nonterminals).any(|name| name.eq_ignore_ascii_case(word));
        if matches!(&symbols[..], [word] if EMPTY.contains(&&word[..]) && !declared(word)) {
            draft.note(number, format!("'{}' is an empty right side", symbols[0]));
            symbols.clear();
        }
        let line = format!(" {}", symbols.join(" "));
        if mark == ":" && !symbols.is_empty() && choice.trim_end() != line.as_str() && !right.contains('|') {
            draft.note(number, "one space stands before each symbol, and names have no quotes");
        }
        draft.rules.push((left.clone(), symbols));
    }
    Ok(())
}
