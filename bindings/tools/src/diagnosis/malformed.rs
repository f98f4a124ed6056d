//! What makes a line malformed: the first thing in it that does not belong there.

use super::{foreign, words, Found, Word};
use crate::words::{key, LISTS};

pub const MAX_NAME: usize = 15;
const NAME: &str = "a name has letters, digits and hyphens";
const EXAMPLE: &str = "a rule is written 'rule=S: a b'";

/// The fault of a line that the reader refused as malformed or missing.
pub fn found(text: &[u8], number: usize) -> Found {
    let mut lines = text.split_inclusive(|byte| *byte == b'\n').skip(number - 1);
    let expected = key(number);
    let Some(line) = lines.next() else {
        let what = if number == 1 { "the text is empty" } else { "the text ends here" };
        return (0, format!("{what}; line {number} begins with '{expected}'"));
    };
    if let Some(fault) = foreign::found(text).filter(|_| number == 1) {
        return fault;
    }
    let last = lines.next().is_none();
    of_line(line, number, last).unwrap_or_else(|| (0, "the line is malformed".to_string()))
}

/// The fault of a line, which may have its end; none if it is well formed.
pub fn of_line(line: &[u8], number: usize, last: bool) -> Option<Found> {
    let content = line.strip_suffix(b"\n").unwrap_or(line);
    let ended = content.len() < line.len();
    let fault = of_encoding(content, number)
        .or_else(|| of_whole_line(content, ended && last))
        .or_else(|| of_key(content, number))
        .or_else(|| if number <= LISTS { of_list(content, key(number).len()) } else { of_rule(content) });
    let unended = || (content.len(), "the last line does not end with byte 10; put a line break behind it".to_string());
    fault.or_else(|| (!ended).then(unended))
}

/// A byte as it is shown.
pub fn shown(byte: u8) -> String {
    if byte.is_ascii_graphic() {
        format!("'{}'", byte as char)
    } else {
        format!("byte {byte}")
    }
}

/// Signs of another encoding than ASCII, or of other line ends.
pub fn of_encoding(line: &[u8], number: usize) -> Option<Found> {
    if number == 1 && line.starts_with(b"\xEF\xBB\xBF") {
        return Some((0, "a byte-order mark is found, bytes 239 187 191; save the text without it, as ASCII".to_string()));
    }
    if number == 1 && (line.starts_with(b"\xFF\xFE") || line.starts_with(b"\xFE\xFF")) {
        return Some((0, format!("byte {} is found, a mark of UTF-16; save the text as ASCII", line[0])));
    }
    if line.last() == Some(&b'\r') {
        return Some((
            line.len() - 1,
            "byte 13 is found at the line's end; save the text with Unix line ends (LF)".to_string(),
        ));
    }
    let tab = line.iter().position(|byte| *byte == b'\t')?;
    Some((tab, "a tab is found, byte 9; symbols are parted by one space, and nothing is indented".to_string()))
}

/// Lines that are no lines of a grammar at all.
fn of_whole_line(line: &[u8], last: bool) -> Option<Found> {
    let spaces = line.iter().take_while(|byte| **byte == b' ').count();
    let text = &line[spaces..];
    if text.is_empty() {
        let place = if last { " at the end" } else { "" };
        return Some((0, format!("a blank line is found{place}; take it out")));
    }
    if ["#", "//", ";", "%", "--", "/*", "(*"].iter().any(|mark| text.starts_with(mark.as_bytes())) {
        return Some((spaces, "a comment is found; the text has no comments, take it out".to_string()));
    }
    (spaces > 0).then(|| (0, "a space is found in front; take the indentation out".to_string()))
}

fn of_key(line: &[u8], number: usize) -> Option<Found> {
    let expected = key(number);
    if line.starts_with(expected.as_bytes()) {
        return None;
    }
    let Some(equals) = line.iter().position(|byte| *byte == b'=') else {
        return Some((0, format!("no '=' is found; line {number} begins with '{expected}'{}", rule_hint(number))));
    };
    let found = Word { at: 0, bytes: &line[..equals] };
    let is = |other: &str| other.as_bytes() == &line[..=equals];
    let hint = if line[..=equals].eq_ignore_ascii_case(expected.as_bytes()) {
        "case counts in a key, though not in a name".to_string()
    } else if is("certificate-form=") {
        "this is a certificate, and no grammar's text".to_string()
    } else if is(key(LISTS + 1)) {
        "the two lists come before the rules".to_string()
    } else if let Some(place) = (1..=LISTS).find(|place| is(key(*place))) {
        format!("'{}' is line {place}", key(place))
    } else if found.bytes.ends_with(b" ") {
        "no space stands before '='".to_string()
    } else {
        return Some((0, format!("{} is found; line {number} begins with '{expected}'{}", found.quoted(), rule_hint(number))));
    };
    Some((0, format!("{} is found where '{expected}' is expected; {hint}", found.quoted())))
}

fn rule_hint(number: usize) -> String {
    if number > LISTS {
        format!(", and {EXAMPLE}")
    } else {
        String::new()
    }
}

fn of_list(line: &[u8], start: usize) -> Option<Found> {
    let names = words(line, start, |byte| *byte == b',');
    if line.len() == start {
        return None;
    }
    names.iter().find_map(|name| {
        if name.bytes.is_empty() {
            return Some((name.at, "a name is missing at this comma; names are parted by one comma".to_string()));
        }
        of_name(*name, "names are parted by one comma, without a space")
    })
}

fn of_rule(line: &[u8]) -> Option<Found> {
    let Some(colon) = line.iter().position(|byte| *byte == b':') else {
        let arrow = line.windows(2).position(|pair| pair == b"->" || pair == b"=>");
        return Some(match arrow {
            Some(place) => {
                (place, format!("'{}' is found in place of a colon; {EXAMPLE}", line[place..place + 2].escape_ascii()))
            }
            None => (line.len(), format!("no colon is found; {EXAMPLE}")),
        });
    };
    let start = key(LISTS + 1).len();
    let left = Word { at: start, bytes: &line[start..colon] };
    if left.bytes.is_empty() {
        return Some((colon, format!("the left name is missing before the colon; {EXAMPLE}")));
    }
    if let Some(fault) = of_name(left, "the colon follows the left name at once") {
        return Some(fault);
    }
    let symbols = words(line, colon + 1, |byte| *byte == b' ');
    let front = symbols[0];
    match front.bytes {
        [] => symbols[1..].iter().find_map(|symbol| of_symbol(line, left, *symbol)),
        [b':' | b'=', ..] => Some((front.at, format!("{} is found behind the colon; {EXAMPLE}", shown(front.bytes[0])))),
        _ => Some((front.at, format!("{} is found behind the colon, where a space belongs; {EXAMPLE}", shown(front.bytes[0])))),
    }
}

fn of_symbol(line: &[u8], left: Word, symbol: Word) -> Option<Found> {
    if !symbol.bytes.is_empty() {
        return of_notation(left, symbol).or_else(|| of_name(symbol, "symbols are parted by one space"));
    }
    let message = if line[symbol.at - 1..].iter().all(|byte| *byte == b' ') {
        "a space is found at the line's end; take it out"
    } else {
        "two spaces are found; one space stands before each symbol"
    };
    Some((symbol.at - 1, message.to_string()))
}

/// Notation of other grammars on a right side: what it is written as here.
fn of_notation(left: Word, symbol: Word) -> Option<Found> {
    let (text, left) = (String::from_utf8_lossy(symbol.bytes), left.bytes.escape_ascii());
    let at = |mark: &str| text.find(mark).map(|place| symbol.at + place);
    if ["#", "//", "/*"].iter().any(|mark| text.starts_with(mark)) {
        return Some((symbol.at, "a comment is found; the text has no comments, take it out".to_string()));
    }
    if EMPTY_MARKS.contains(&&text[..]) {
        return Some((symbol.at, format!("'{text}' is found; for an empty right side write 'rule={left}:'")));
    }
    if text.ends_with(';') {
        let place = symbol.at + text.len() - 1;
        return Some((place, "';' is found; a rule ends with its line, take it out".to_string()));
    }
    let repeated = "for a repetition write two rules, as 'rule=Cs:' and 'rule=Cs: Cs C'";
    let (place, what) = at("*").map(|place| (place, repeated)).or_else(|| {
        let once = at("+").map(|place| (place, "for one or more write two rules, as 'rule=Cs: C' and 'rule=Cs: Cs C'"));
        let option = at("?").or(at("[")).or(at("]"));
        let option = option.map(|place| (place, "for an option write two rules, one with it and one without"));
        let braces = at("{").or(at("}")).map(|place| (place, repeated));
        let group = at("(").or(at(")")).map(|place| (place, "give what is in brackets a nonterminal and rules of its own"));
        let range = at("..").map(|place| (place, "write a rule line for each of the range"));
        once.or(option).or(braces).or(group).or(range)
    })?;
    let mark = symbol.bytes[place - symbol.at];
    Some((place, format!("{} is found in {}; {what}", shown(mark), symbol.quoted())))
}

/// Words for nothing in other notations that are no names here.
const EMPTY_MARKS: [&str; 6] = ["%empty", "ε", "ϵ", "λ", "∅", "/*empty*/"];

/// A character that is not ASCII, and what to write instead.
fn of_character(name: Word, place: usize) -> String {
    let text = String::from_utf8_lossy(&name.bytes[place..]).into_owned();
    let character = text.chars().next().unwrap_or('\u{FFFD}');
    let name = match character {
        '\u{A0}' | '\u{202F}' | '\u{2007}' => return "a no-break space is found; put a plain space in its place".to_string(),
        '\u{2010}'..='\u{2015}' | '\u{2212}' => return format!("'{character}' is found, a dash that is not ASCII; write '-'"),
        '\u{2018}'..='\u{201F}' => return format!("'{character}' is found; names are written without quotes"),
        '\u{FFFD}' => return format!("byte {} is found, which is not ASCII; {NAME} of ASCII", name.bytes[place]),
        character if character.escape_debug().count() > 1 => format!("U+{:04X}", character as u32),
        character => format!("'{character}'"),
    };
    format!("{name} is found, which is not ASCII; {NAME} of ASCII")
}

/// The first byte of a name that does not belong there, or a name that is too long.
fn of_name(name: Word, on_space: &str) -> Option<Found> {
    let wrong = name.bytes.iter().position(|byte| !byte.is_ascii_alphanumeric() && *byte != b'-');
    let Some(place) = wrong else {
        let length = name.bytes.len();
        return (length > MAX_NAME)
            .then(|| (name.at, format!("{} has {length} letters; the limit is {MAX_NAME}", name.quoted())));
    };
    let byte = name.bytes[place];
    let message = match byte {
        b' ' => format!("a space is found; {on_space}"),
        b'|' => "'|' is found; write a rule line for each alternative".to_string(),
        b'>' if name.bytes[..place].ends_with(b"-") => format!("'->' is found; {EXAMPLE}"),
        b'_' => format!("'_' is found in {}; {NAME}: write '-'", name.quoted()),
        b'"' | b'\'' => format!("{} is found; names are written without quotes", shown(byte)),
        128.. => of_character(name, place),
        _ => format!("{} is found in {}; {NAME}", shown(byte), name.quoted()),
    };
    Some((name.at + place, message))
}
