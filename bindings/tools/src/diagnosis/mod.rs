//! What is wrong with a grammar's text, with the lines of two strings, with a sentence or with an edit, where, and what to do. The
//! library's refusal decides; the text is looked at only to put it into words.

mod drafts;
mod endless;
pub mod foreign;
mod joins;
mod malformed;
pub mod nearest;
mod rows;
mod strings;

use std::collections::{HashMap, HashSet};

use ambiguity::{Cause, Refusal, MAX_NONTERMINALS, MAX_RULES, MAX_STATES, MAX_TERMINALS, MAX_TEXT_BYTES};

use crate::joins::Pair;
use crate::words::{key, small, LISTS};

pub use drafts::{of_added, of_lists, of_mark, of_rule_number};
pub use joins::of_join;
pub use rows::Rows;
pub use strings::of_strings;

/// Symbols that a right side may have.
const MAX_RIGHT: usize = 12;

/// Bytes of a word that are shown.
const MAX_SHOWN: usize = 40;

/// What is wrong at a place; lines and columns count from 1, columns in bytes.
#[derive(Debug, PartialEq, Eq)]
pub struct Finding {
    pub line: usize,
    pub column: usize,
    pub message: String,
}

/// A part of a line, with its place from 0.
#[derive(Clone, Copy, Debug, PartialEq, Eq)]
pub struct Word<'a> {
    pub at: usize,
    pub bytes: &'a [u8],
}

impl Word<'_> {
    /// The word in quotes; bytes that do not print are escaped, and a long word is cut.
    pub fn quoted(&self) -> String {
        match self.bytes.get(..MAX_SHOWN) {
            Some(front) if front.len() < self.bytes.len() => format!("'{}...'", front.escape_ascii()),
            _ => format!("'{}'", self.bytes.escape_ascii()),
        }
    }
}

/// The parts of a line's value between separators, which stands behind a key of `key` bytes.
fn words(line: &[u8], key: usize, separator: impl Fn(&u8) -> bool) -> Vec<Word<'_>> {
    let mut at = key;
    let parts = line.get(key..).unwrap_or_default().split(separator);
    parts
        .map(|bytes| {
            let word = Word { at, bytes };
            at += bytes.len() + 1;
            word
        })
        .collect()
}

/// The finding for a refusal of this text.
pub fn of(text: &[u8], refusal: Refusal) -> Finding {
    found(text, None, refusal)
}

/// The findings for a refusal of a module's text, first the one that the library gives.
pub fn of_module(pair: &Pair, refusal: Refusal) -> Vec<Finding> {
    let robot = Some(Robot { file: pair.robot_file, text: pair.robot });
    let mut findings = vec![found(pair.module, robot, refusal)];
    findings.extend(found_beside(pair.module, robot, refusal));
    findings
}

/// The text that a module is joined to, and its name in messages.
#[derive(Clone, Copy)]
struct Robot<'a> {
    file: &'a str,
    text: &'a [u8],
}

fn found(text: &[u8], robot: Option<Robot>, refusal: Refusal) -> Finding {
    let lines: Vec<&[u8]> = text.split(|byte| *byte == b'\n').collect();
    let at = refusal.at;
    let (line, (place, message)) = match refusal.cause {
        Cause::Malformed if at == 0 => return too_long(text),
        Cause::Malformed => (at, malformed::found(text, at)),
        Cause::NameUnknown => {
            let lists = Lists::new(&lines, robot);
            let unknown = lists.unknown(lines[at - 1]).map(|unknown| lists.told(&unknown));
            (at, unknown.unwrap_or_else(|| (0, "a name is not declared".to_string())))
        }
        Cause::NameRepeated => (at, repeated_name(&lines, at)),
        Cause::OutOfRange => (at, too_many_names(&lines, at)),
        Cause::RuleTooLong => (at, too_many_symbols(lines[at - 1])),
        Cause::NoSentence => (LISTS, endless::found(&lines)),
        cause => of_rule(&lines, cause, at),
    };
    Finding { line, column: place + 1, message }
}

/// Messages beside the first one.
const MOST_BESIDE: usize = 19;

/// What else is wrong with the text behind the line that was refused, line by line. A message that came before is not repeated.
pub fn beside(text: &[u8], refusal: Refusal) -> Vec<Finding> {
    found_beside(text, None, refusal)
}

fn found_beside(text: &[u8], robot: Option<Robot>, refusal: Refusal) -> Vec<Finding> {
    let first = found(text, robot, refusal);
    let whole: Vec<&[u8]> = text.split_inclusive(|byte| *byte == b'\n').collect();
    let by_line = matches!(refusal.cause, Cause::Malformed | Cause::NameUnknown | Cause::NameRepeated | Cause::RuleTooLong);
    // Where the lists do not stand in their lines, every later line looks wrong.
    let begun = (1..=LISTS).all(|number| whole.get(number - 1).is_some_and(|line| line.starts_with(key(number).as_bytes())));
    if refusal.at == 0 || !by_line || !begun {
        return Vec::new();
    }
    let bare: Vec<&[u8]> = text.split(|byte| *byte == b'\n').collect();
    let fault = |number: usize| malformed::of_line(whole[number - 1], number, number == whole.len());
    let lists_hold = whole.len() >= LISTS && (1..=LISTS).all(|number| fault(number).is_none());
    let lists = lists_hold.then(|| Lists::new(&bare, robot));
    let mut messages = vec![first.message];
    // What was found unknown: a text may say the same of thousands of lines, also in another case.
    let mut unknown = HashSet::new();
    let of_first = lists.as_ref().filter(|_| refusal.cause == Cause::NameUnknown);
    unknown.extend(of_first.and_then(|lists| lists.unknown(bare[refusal.at - 1])).map(|found| found.kind_and_name()));
    let mut findings = Vec::new();
    for number in refusal.at + 1..=whole.len() {
        let mut told = || {
            let lists = lists.as_ref().filter(|_| number > LISTS)?;
            let found = lists.unknown(bare[number - 1])?;
            unknown.insert(found.kind_and_name()).then(|| lists.told(&found))
        };
        let Some((place, message)) = fault(number).or_else(&mut told) else { continue };
        if !messages.contains(&message) {
            messages.push(message.clone());
            findings.push(Finding { line: number, column: place + 1, message });
        }
        if findings.len() == MOST_BESIDE {
            break;
        }
    }
    findings
}

/// Place and message.
type Found = (usize, String);

fn too_long(text: &[u8]) -> Finding {
    let front = &text[..MAX_TEXT_BYTES.min(text.len())];
    let line = front.iter().filter(|byte| **byte == b'\n').count();
    let column = front.iter().rev().take_while(|byte| **byte != b'\n').count();
    Finding {
        line: line + 1,
        column: column + 1,
        message: format!("the text has more than {MAX_TEXT_BYTES} bytes; that is the limit"),
    }
}

/// The declared names of a list's line.
fn declared<'a>(lines: &[&'a [u8]], number: usize) -> Vec<Word<'a>> {
    let names = words(lines[number - 1], key(number).len(), |byte| *byte == b',');
    names.into_iter().filter(|name| !name.bytes.is_empty()).collect()
}

/// Left name and right side of a rule's line.
fn rule_words(line: &[u8]) -> Vec<Word<'_>> {
    let words = words(line, key(LISTS + 1).len(), |byte| matches!(byte, b':' | b' '));
    words.into_iter().filter(|word| !word.bytes.is_empty()).collect()
}

/// Words for nothing in other notations that are names here.
const EMPTY_WORDS: [&str; 6] = ["epsilon", "eps", "empty", "lambda", "nothing", "none"];

/// The names of the two lists.
struct Lists<'a> {
    terminals: Vec<Word<'a>>,
    nonterminals: Vec<Word<'a>>,
    /// The same as they are declared, to be looked up in small letters.
    known: [HashMap<Vec<u8>, &'a [u8]>; 2],
    /// Of a module the names of the robot's lists in small letters, and the robot's file.
    robot: Option<(&'a str, [HashSet<Vec<u8>>; 2])>,
}

/// How a name of a rule's line is unknown.
#[derive(Clone, Copy, PartialEq, Eq, Hash)]
enum Kind<'a> {
    /// A left name that is a terminal's.
    Terminal,
    Left,
    Right,
    /// The only symbol of a right side, and a word for nothing; with the left name.
    Nothing(&'a [u8]),
}

/// A name that is declared is shown so; the place is that of its use.
struct Unknown<'a> {
    kind: Kind<'a>,
    word: Word<'a>,
}

impl<'a> Unknown<'a> {
    fn kind_and_name(&self) -> (Kind<'a>, Vec<u8>) {
        (self.kind, small(self.word.bytes))
    }
}

impl<'a> Lists<'a> {
    fn new(lines: &[&'a [u8]], robot: Option<Robot<'a>>) -> Lists<'a> {
        let [terminals, nonterminals] = [1, 2].map(|number| declared(lines, number));
        // Of a name that is declared twice the first counts.
        let spelled = |name: &Word<'a>| (small(name.bytes), name.bytes);
        let known = [&terminals, &nonterminals].map(|names| names.iter().rev().map(spelled).collect());
        let robot = robot.map(|robot| {
            let lines = crate::joins::lines(robot.text);
            let names = |number| declared(&lines, number).into_iter().map(|name| small(name.bytes)).collect();
            (robot.file, [1, 2].map(names))
        });
        Lists { terminals, nonterminals, known, robot }
    }

    /// The first name of a rule's line that is not declared, or a left name that is a terminal's.
    fn unknown(&self, line: &'a [u8]) -> Option<Unknown<'a>> {
        let words = rule_words(line);
        let left = *words.first()?;
        let [terminal, declared_left] = [0, 1].map(|list| self.known[list].get(&small(left.bytes)));
        if let (Some(bytes), None) = (terminal, declared_left) {
            return Some(Unknown { kind: Kind::Terminal, word: Word { at: left.at, bytes } });
        }
        let is_known = |word: &Word| {
            let name = small(word.bytes);
            self.known.iter().any(|names| names.contains_key(&name))
        };
        let word = *words.iter().find(|word| !is_known(word))?;
        let is_nothing = |nothing: &&str| word.bytes.eq_ignore_ascii_case(nothing.as_bytes());
        let kind = match word.at == left.at {
            true => Kind::Left,
            false if words.len() == 2 && EMPTY_WORDS.iter().any(is_nothing) => {
                Kind::Nothing(declared_left.unwrap_or(&left.bytes))
            }
            false => Kind::Right,
        };
        Some(Unknown { kind, word })
    }

    /// What is said of a name that the robot declares and the module does not.
    fn told_of_robot(&self, kind: &Kind, word: &Word) -> Option<Found> {
        let (file, names) = self.robot.as_ref()?;
        let list = names.iter().position(|names| names.contains(&small(word.bytes)))?;
        let name = ["terminal", "nonterminal"][list];
        let rest = match (kind, list) {
            (Kind::Terminal, _) => return None,
            (Kind::Left, 0) => "only a nonterminal has rules".to_string(),
            _ => format!("a module declares each name that it uses: add it to the {name}s on line {}", list + 1),
        };
        Some((word.at, format!("{} is not declared here; in {file} it is a {name}, and {rest}", word.quoted())))
    }

    fn told(&self, Unknown { kind, word }: &Unknown) -> Found {
        if let Some(found) = self.told_of_robot(kind, word) {
            return found;
        }
        let (nearest, none) = match kind {
            Kind::Terminal => {
                let message = format!("{} is a terminal, declared on line 1; only a nonterminal has rules", word.quoted());
                return (word.at, message);
            }
            Kind::Nothing(left) => {
                let remedy = format!("for an empty right side write 'rule={}:'", left.escape_ascii());
                return (word.at, format!("{} is not declared; {remedy}", word.quoted()));
            }
            Kind::Left => (self.nonterminals.clone(), "add it to the nonterminals on line 2"),
            Kind::Right => {
                let names = [&self.terminals[..], &self.nonterminals].concat();
                (names, "add it to the terminals on line 1 or to the nonterminals on line 2")
            }
        };
        let remedy = match nearest::nearest(word.bytes, nearest.iter().map(|name| name.bytes)) {
            Some(place) => format!("is {} meant?", nearest[place].quoted()),
            None => none.to_string(),
        };
        (word.at, format!("{} is not declared; {remedy}", word.quoted()))
    }
}

fn repeated_name(lines: &[&[u8]], number: usize) -> Found {
    let mut earlier: HashMap<Vec<u8>, (usize, Word)> = HashMap::new();
    for line in 1..=number {
        for name in declared(lines, line) {
            let (first_line, first) = *earlier.entry(small(name.bytes)).or_insert((line, name));
            if line == number && (first_line, first.at) != (line, name.at) {
                let place = format!("line {first_line}, column {}", first.at + 1);
                let rest = if first.bytes == name.bytes {
                    "; take one of them out".to_string()
                } else {
                    format!(" as {}: case does not count; take one of them out, or give it another name", first.quoted())
                };
                return (name.at, format!("{} is declared twice, first on {place}{rest}", name.quoted()));
            }
        }
    }
    (0, "a name is declared twice".to_string())
}

fn too_many_names(lines: &[&[u8]], number: usize) -> Found {
    let most = if number == 1 { MAX_TERMINALS } else { MAX_NONTERMINALS };
    match declared(lines, number).get(most) {
        Some(name) => (name.at, format!("{} is name {} of this list; the limit is {most}", name.quoted(), most + 1)),
        None => {
            (key(number).len(), "no nonterminal is declared; the first one is the start, as in 'nonterminals=S'".to_string())
        }
    }
}

fn too_many_symbols(line: &[u8]) -> Found {
    let words = rule_words(line);
    let symbols = words.len() - 1;
    let place = words.get(1 + MAX_RIGHT).map_or(0, |word| word.at);
    (
        place,
        format!("the right side has {symbols} symbols; the limit is {MAX_RIGHT}: put some of them into a rule of their own"),
    )
}

/// The faults that are told by a rule's offset in the table, where every line is well formed.
fn of_rule(lines: &[&[u8]], cause: Cause, offset: usize) -> (usize, Found) {
    let mut end = 0;
    let mut states = 4;
    let rules = lines.iter().skip(LISTS).map(|line| rule_words(line));
    let place = rules.take_while(|rule| {
        let before = end < offset;
        end += 1 + rule.len();
        states += rule.len();
        before
    });
    let place = place.count();
    let line = LISTS + place + 1;
    let message = match cause {
        Cause::RuleRepeated => {
            let first = lines.iter().position(|first| first.eq_ignore_ascii_case(lines[line - 1])).unwrap_or(0) + 1;
            let case = if lines[first - 1] == lines[line - 1] { "" } else { ", since case does not count" };
            format!("this rule equals the rule on line {first}{case}; take one of them out")
        }
        Cause::TooManyRules => format!("this is rule {}; the limit is {MAX_RULES}", place + 1),
        Cause::TooManyStates => format!("with this rule there are {states} states; the limit is {MAX_STATES}"),
        cause => cause.to_string(),
    };
    (line, (key(line).len(), message))
}
