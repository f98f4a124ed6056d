//! A line of a session: a command, with where its words stand.

use crate::diagnosis::nearest;
use crate::diagnosis::Word;
use crate::words::key;

/// What is asked for.
#[derive(Debug, PartialEq, Eq)]
pub enum Line<'a> {
    /// A line without words, or a comment.
    Blank,
    /// The names of a list, by the number of its line in grammar text: terminals 1, nonterminals 2.
    Names(usize, Vec<Word<'a>>),
    Add(Rule<'a>),
    /// Where the number stands, and the number; so below.
    Withdraw(usize, usize),
    Mark(usize, usize),
    Return(usize, usize),
    List,
    Declared,
    Marks,
    Judge,
    Text,
    Write(&'a [u8]),
    Help,
    Quit,
}

/// A rule in words.
#[derive(Debug, PartialEq, Eq)]
pub struct Rule<'a> {
    pub left: Word<'a>,
    pub right: Vec<Word<'a>>,
}

/// What is wrong with a line, and at which of its bytes, from 0.
#[derive(Debug, PartialEq, Eq)]
pub struct Fault {
    pub at: usize,
    pub message: String,
}

/// The commands, and what they do.
pub const COMMANDS: [(&str, &str, &str); 14] = [
    ("terminals", "a b", "declare the terminals, before all else if no GRAMMAR is named"),
    ("nonterminals", "S T", "declare the nonterminals, the start first: the draft begins"),
    ("add", "S -> a S b", "add a rule behind the last one; also 'add S: a S b'"),
    ("withdraw", "3", "withdraw rule 3; later rules move down by one number"),
    ("mark", "1", "keep the rules under mark 1; marks are 1 to 8"),
    ("return", "1", "bring the rules of mark 1 back; all marks stay"),
    ("list", "", "print the rules with their numbers"),
    ("names", "", "print the names that are declared"),
    ("marks", "", "print which marks are set, and how many rules each keeps"),
    ("judge", "", "print the verdict, with 0, 1 or 2 callers remembered"),
    ("text", "", "print the draft as grammar text"),
    ("write", "FILE", "write the draft as grammar text to FILE"),
    ("help", "", "print these lines"),
    ("quit", "", "end; so does the end of the input"),
];

/// What `help` prints.
pub fn help() -> String {
    let line = |(name, takes, does): &(&str, &str, &str)| format!("  {:16} {does}\n", format!("{name} {takes}").trim_end());
    COMMANDS.iter().map(line).collect()
}

/// How a rule is written.
pub const EXAMPLE: &str = "a rule is written 'add S -> a b' or 'add S: a b'";

const BYTE_ORDER_MARK: &[u8] = b"\xEF\xBB\xBF";

fn is_space(byte: u8) -> bool {
    matches!(byte, b' ' | b'\t' | b'\r')
}

/// The parts of a line from a place on that stand between separators, without empty ones.
fn words(line: &[u8], from: usize, is_between: impl Fn(u8) -> bool) -> Vec<Word<'_>> {
    let mut at = from;
    let parts = line[from..].split(|byte| is_between(*byte)).map(|bytes| {
        at += bytes.len() + 1;
        Word { at: at - bytes.len() - 1, bytes }
    });
    parts.filter(|word| !word.bytes.is_empty()).collect()
}

/// Reads a line without its end; `first` says that it is the first one, which may begin with a byte-order mark.
pub fn read(line: &[u8], first: bool) -> Result<Line<'_>, Fault> {
    let from = if first && line.starts_with(BYTE_ORDER_MARK) { BYTE_ORDER_MARK.len() } else { 0 };
    let Some(word) = words(line, from, is_space).first().copied() else { return Ok(Line::Blank) };
    if word.bytes.starts_with(b"#") {
        return Ok(Line::Blank);
    }
    let end = line.len() - line.iter().rev().take_while(|byte| is_space(**byte)).count();
    let line = &line[..end];
    for number in 1..=3 {
        if word.bytes.starts_with(key(number).as_bytes()) {
            return of_text(line, number, word.at + key(number).len());
        }
    }
    of_command(line, word)
}

/// A line of grammar text, whose value begins at a place.
fn of_text(line: &[u8], number: usize, from: usize) -> Result<Line<'_>, Fault> {
    if number > 2 {
        return Ok(Line::Add(rule(line, from)?));
    }
    let mut at = from;
    let names = line[from..].split(|byte| *byte == b',').map(|bytes| {
        at += bytes.len() + 1;
        Word { at: at - bytes.len() - 1, bytes }
    });
    Ok(Line::Names(number, names.collect()))
}

/// A line that begins with this word.
fn of_command<'a>(line: &'a [u8], word: Word<'a>) -> Result<Line<'a>, Fault> {
    let Some((name, takes, _)) = COMMANDS.iter().find(|(name, ..)| word.bytes.eq_ignore_ascii_case(name.as_bytes())) else {
        return Err(no_command(word));
    };
    let from = word.at + word.bytes.len();
    let behind = words(line, from, is_space);
    if let (true, Some(more)) = (takes.is_empty(), behind.first()) {
        let message = format!("{} is found behind '{name}', which takes nothing", more.quoted());
        return Err(Fault { at: more.at, message });
    }
    Ok(match *name {
        "terminals" => Line::Names(1, words(line, from, |byte| is_space(byte) || byte == b',')),
        "nonterminals" => Line::Names(2, words(line, from, |byte| is_space(byte) || byte == b',')),
        "add" => {
            let text = behind.first().filter(|word| word.bytes.starts_with(key(3).as_bytes()));
            Line::Add(rule(line, text.map_or(from, |word| word.at + key(3).len()))?)
        }
        "withdraw" => number(name, "rule", from, &behind).map(|(at, number)| Line::Withdraw(at, number))?,
        "mark" => number(name, "mark", from, &behind).map(|(at, number)| Line::Mark(at, number))?,
        "return" => number(name, "mark", from, &behind).map(|(at, number)| Line::Return(at, number))?,
        "list" => Line::List,
        "names" => Line::Declared,
        "marks" => Line::Marks,
        "judge" => Line::Judge,
        "text" => Line::Text,
        "write" => match behind.first() {
            Some(path) => Line::Write(&line[path.at..]),
            None => return Err(Fault { at: from, message: "a file is missing behind 'write'".to_string() }),
        },
        "help" => Line::Help,
        _ => Line::Quit,
    })
}

fn no_command(word: Word) -> Fault {
    let small = word.bytes.to_ascii_lowercase();
    let meant = nearest::nearest(&small, COMMANDS.iter().map(|(name, ..)| name.as_bytes()));
    let hint = match meant {
        Some(place) => format!("is '{}' meant?", COMMANDS[place].0),
        None if word.bytes.ends_with(b":") => EXAMPLE.to_string(),
        None => "'help' lists the commands".to_string(),
    };
    Fault { at: word.at, message: format!("there is no command {}; {hint}", word.quoted()) }
}

/// The number behind a command, and its place.
fn number(command: &str, of: &str, from: usize, behind: &[Word]) -> Result<(usize, usize), Fault> {
    let fault = |at: usize, message: String| Err(Fault { at, message });
    match behind {
        [] => fault(from, format!("the number of a {of} is missing behind '{command}', as in '{command} 1'")),
        [word] => {
            let digits = std::str::from_utf8(word.bytes).ok().filter(|word| word.bytes().all(|byte| byte.is_ascii_digit()));
            match digits.and_then(|digits| digits.parse().ok()) {
                Some(number) => Ok((word.at, number)),
                None => fault(word.at, format!("{} is found where the number of a {of} is expected", word.quoted())),
            }
        }
        [_, more, ..] => fault(more.at, format!("{} is found behind the number; '{command}' takes one", more.quoted())),
    }
}

/// The rule that stands in a line from a place on: a name, `->` or a colon, names.
fn rule(line: &[u8], from: usize) -> Result<Rule<'_>, Fault> {
    let text = &line[from..];
    let arrow = text.windows(2).position(|pair| pair == b"->");
    let colon = text.iter().position(|byte| *byte == b':');
    let (at, mark) = match (arrow, colon) {
        (Some(arrow), Some(colon)) if arrow < colon => (arrow, "->"),
        (_, Some(colon)) => (colon, ":"),
        (Some(arrow), None) => (arrow, "->"),
        (None, None) => {
            let message = format!("neither '->' nor a colon is found; {EXAMPLE}");
            return Err(Fault { at: line.len(), message });
        }
    };
    let at = from + at;
    match words(&line[..at], from, is_space)[..] {
        [left] => Ok(Rule { left, right: words(line, at + mark.len(), is_space) }),
        [] => Err(Fault { at, message: format!("the left name is missing before '{mark}'; {EXAMPLE}") }),
        [_, more, ..] => {
            let message = format!("{} is found before '{mark}', where one name stands; {EXAMPLE}", more.quoted());
            Err(Fault { at: more.at, message })
        }
    }
}

#[cfg(test)]
mod tests {
    use super::*;

    fn word(at: usize, bytes: &str) -> Word<'_> {
        Word { at, bytes: bytes.as_bytes() }
    }

    #[test]
    fn commands() {
        for (text, line) in [
            ("", Line::Blank),
            (" \t\r", Line::Blank),
            ("  # add S -> a", Line::Blank),
            ("list", Line::List),
            ("  LIST \r", Line::List),
            ("names", Line::Declared),
            ("withdraw 3", Line::Withdraw(9, 3)),
            ("mark\t007", Line::Mark(5, 7)),
            ("Return 18446744073709551615", Line::Return(7, usize::MAX)),
            ("write  a file.grammar ", Line::Write(b"a file.grammar")),
            ("terminals", Line::Names(1, vec![])),
            ("terminals a, b\tc", Line::Names(1, vec![word(10, "a"), word(13, "b"), word(15, "c")])),
            ("nonterminals=S,,A", Line::Names(2, vec![word(13, "S"), word(15, ""), word(16, "A")])),
            ("terminals=", Line::Names(1, vec![word(10, "")])),
        ] {
            assert_eq!(read(text.as_bytes(), false), Ok(line), "{text}");
        }
        assert_eq!(read(b"\xEF\xBB\xBFlist", true), Ok(Line::List));
        assert_eq!(read(b"\xEF\xBB\xBF", true), Ok(Line::Blank));
        assert!(read(b"\xEF\xBB\xBFlist", false).is_err());
    }

    #[test]
    fn rules() {
        for (text, left, right) in [
            ("add S -> a S", word(4, "S"), vec![word(9, "a"), word(11, "S")]),
            ("add S->a", word(4, "S"), vec![word(7, "a")]),
            ("add S: a  b", word(4, "S"), vec![word(7, "a"), word(10, "b")]),
            ("add rule=S: a", word(9, "S"), vec![word(12, "a")]),
            ("rule=S: a", word(5, "S"), vec![word(8, "a")]),
            ("rule=S:", word(5, "S"), vec![]),
            ("add S ->", word(4, "S"), vec![]),
            ("add a-b -> a-", word(4, "a-b"), vec![word(11, "a-")]),
            ("add S : a -> b", word(4, "S"), vec![word(8, "a"), word(10, "->"), word(13, "b")]),
        ] {
            assert_eq!(read(text.as_bytes(), false), Ok(Line::Add(Rule { left, right })), "{text}");
        }
    }

    #[test]
    fn faults() {
        for (text, at, message) in [
            ("lsit", 0, "there is no command 'lsit'; is 'list' meant?"),
            ("  S: a", 2, "there is no command 'S:'; a rule is written 'add S -> a b' or 'add S: a b'"),
            ("frobnicate", 0, "there is no command 'frobnicate'; 'help' lists the commands"),
            ("list all", 5, "'all' is found behind 'list', which takes nothing"),
            ("withdraw", 8, "the number of a rule is missing behind 'withdraw', as in 'withdraw 1'"),
            ("mark one", 5, "'one' is found where the number of a mark is expected"),
            ("mark -1", 5, "'-1' is found where the number of a mark is expected"),
            ("mark +1", 5, "'+1' is found where the number of a mark is expected"),
            ("return 18446744073709551616", 7, "'18446744073709551616' is found where the number of a mark is expected"),
            ("return 1 2", 9, "'2' is found behind the number; 'return' takes one"),
            ("write ", 5, "a file is missing behind 'write'"),
            ("add S a b", 9, "neither '->' nor a colon is found; a rule is written 'add S -> a b' or 'add S: a b'"),
            ("add", 3, "neither '->' nor a colon is found; a rule is written 'add S -> a b' or 'add S: a b'"),
            ("add -> a", 4, "the left name is missing before '->'; a rule is written 'add S -> a b' or 'add S: a b'"),
            (
                "add S A: a",
                6,
                "'A' is found before ':', where one name stands; a rule is written 'add S -> a b' or 'add S: a b'",
            ),
        ] {
            assert_eq!(read(text.as_bytes(), false), Err(Fault { at, message: message.to_string() }), "{text}");
        }
    }
}
