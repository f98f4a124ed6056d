//! What is wrong with the two lines of a pair of strings. The library's refusal decides; the line that it names is looked at to find
//! the place and the words.

use std::collections::HashSet;

use ambiguity::{Cause, Grammar, Refusal};

use super::malformed::{of_encoding, shown, MAX_NAME};
use super::{nearest, Finding, Found, Word};
use crate::strings::KEYS;
use crate::words::small;

/// Keys of other lines that the programs print.
const OTHER_KEYS: [&str; 5] = ["states=", "verdict=", "reached=", "refused=", "at="];

/// The finding for a refusal of these lines.
pub fn of_strings(grammar: &Grammar, lines: &[u8], refusal: Refusal) -> Finding {
    let (place, message) = match refusal.cause {
        Cause::NameUnknown => unknown_name(grammar, lines, refusal.at),
        _ => malformed(grammar, lines, refusal.at),
    };
    Finding { line: refusal.at, column: place + 1, message }
}

/// The letters of a line's value, with their places.
fn letters(line: &[u8], key: usize) -> impl Iterator<Item = Word<'_>> {
    let mut at = key;
    line.get(key..).unwrap_or_default().split(|byte| *byte == b' ').map(move |bytes| {
        let word = Word { at, bytes };
        at += bytes.len() + 1;
        word
    })
}

fn unknown_name(grammar: &Grammar, lines: &[u8], number: usize) -> Found {
    let line = lines.split(|byte| *byte == b'\n').nth(number - 1).unwrap_or_default();
    let names: Vec<&[u8]> = grammar.terminals().iter().chain(grammar.nonterminals()).map(|name| name.as_bytes()).collect();
    let known: HashSet<Vec<u8>> = names.iter().map(|name| small(name)).collect();
    let is_unknown =
        |word: &Word| !word.bytes.starts_with(b"(") && !word.bytes.starts_with(b")") && !known.contains(&small(word.bytes));
    let Some(unknown) = letters(line, KEYS[number - 1].len()).find(is_unknown) else {
        return (0, "a name is none of the grammar's".to_string());
    };
    let meant = nearest::nearest(unknown.bytes, names.iter().copied());
    let hint = meant.map_or(String::new(), |place| format!("; is {} meant?", Word { at: 0, bytes: names[place] }.quoted()));
    (unknown.at, format!("{} is no name of the grammar{hint}", unknown.quoted()))
}

fn malformed(grammar: &Grammar, lines: &[u8], number: usize) -> Found {
    let key = KEYS[number - 1];
    let mut parts = lines.split_inclusive(|byte| *byte == b'\n').skip(number - 1);
    let Some(line) = parts.next() else {
        let what = if number == 1 { "the file is empty" } else { "the file ends here" };
        return (0, format!("{what}; line {number} begins with '{key}'"));
    };
    let content = line.strip_suffix(b"\n").unwrap_or(line);
    let fault = of_encoding(content, number)
        .or_else(|| of_key(content, number))
        .or_else(|| letters(content, key.len()).find_map(|word| of_letter(grammar, content, key, word)));
    fault.unwrap_or_else(|| {
        let behind = if content.len() < line.len() {
            "more is found behind this line; line 2 is the last"
        } else {
            "the line does not end with byte 10; put a line break behind it"
        };
        (content.len(), behind.to_string())
    })
}

fn of_key(line: &[u8], number: usize) -> Option<Found> {
    let key = KEYS[number - 1];
    if line.starts_with(key.as_bytes()) {
        return None;
    }
    let Some(equals) = line.iter().position(|byte| *byte == b'=') else {
        return Some((0, format!("no '=' is found; line {number} begins with '{key}'")));
    };
    let found = Word { at: 0, bytes: &line[..=equals] };
    let is = |other: &str| other.as_bytes() == found.bytes;
    let hint = if OTHER_KEYS.iter().any(|other| is(other)) {
        "; the file has the lines 'left=' and 'right=' alone"
    } else if is("certificate-form=") {
        "; a certificate is checked without --lines"
    } else if found.bytes.eq_ignore_ascii_case(key.as_bytes()) {
        "; case counts in a key, though not in a name"
    } else {
        ""
    };
    Some((0, format!("{} is found; line {number} begins with '{key}'{hint}", found.quoted())))
}

/// What is wrong with what stands between two spaces; an empty line's value has no letter.
fn of_letter(grammar: &Grammar, line: &[u8], key: &str, word: Word) -> Option<Found> {
    match word.bytes {
        [] if line.len() == key.len() => None,
        [] if word.at == key.len() => {
            Some((word.at, format!("a space is found behind '{key}'; the first letter follows at once")))
        }
        [] if word.at == line.len() => Some((word.at - 1, "a space is found at the line's end; take it out".to_string())),
        [] => Some((word.at, "two spaces are found; one space stands between two letters".to_string())),
        [b'(' | b')', digits @ ..] => of_number(grammar, word, digits),
        _ => of_name(word),
    }
}

/// What is wrong with an opening or a closing.
fn of_number(grammar: &Grammar, word: Word, digits: &[u8]) -> Option<Found> {
    let (last, quoted) = (grammar.rules().len(), word.quoted());
    let message = if digits.is_empty() {
        format!("{quoted} has no rule number; rule 1 is opened by '(1' and closed by ')1'")
    } else if let Some(place) = digits.iter().position(|byte| !byte.is_ascii_digit()) {
        return Some((
            word.at + 1 + place,
            format!("{} is found in {quoted}; a rule number has digits alone", shown(digits[place])),
        ));
    } else if digits.len() > 1 && digits[0] == b'0' {
        format!("{quoted} has a leading zero; take it out")
    } else {
        let number = std::str::from_utf8(digits).ok().and_then(|digits| digits.parse::<usize>().ok());
        if number.is_some_and(|number| number <= last) {
            return None;
        }
        format!("{quoted} has the number of no rule; the grammar has the rules 0 to {last}")
    };
    Some((word.at, message))
}

/// What is wrong with a symbol's name.
fn of_name(word: Word) -> Option<Found> {
    let (length, quoted) = (word.bytes.len(), word.quoted());
    match word.bytes.iter().position(|byte| !byte.is_ascii_alphanumeric() && *byte != b'-') {
        Some(place) => {
            let hint = match word.bytes[place] {
                b'(' | b')' => "one space stands between two letters",
                b',' => "letters are parted by one space",
                _ => "a name has letters, digits and hyphens",
            };
            Some((word.at + place, format!("{} is found in {quoted}; {hint}", shown(word.bytes[place]))))
        }
        None if length > MAX_NAME => Some((word.at, format!("{quoted} has {length} letters; the limit is {MAX_NAME}"))),
        None => None,
    }
}
