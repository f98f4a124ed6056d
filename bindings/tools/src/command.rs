//! Words of a command, files, what is said, and the exit status.

use std::env;
use std::ffi::{OsStr, OsString};
use std::fs::File;
use std::io::{self, Read, Write};
use std::process::ExitCode;

use crate::diagnosis::nearest;
use crate::shut;

/// The version of the whole.
pub const VERSION: &str = include_str!("../../../VERSION");

/// The exit status; of several files the worst one counts.
#[derive(Clone, Copy, Debug, PartialEq, Eq)]
pub enum Status {
    /// Unambiguous, accepted, joined, one tree of each sentence, or every line of a session followed.
    Yes = 0,
    /// Ambiguous, with two trees; a certificate or two lines that are not accepted; or several trees of a sentence.
    No = 1,
    /// Bad use, or a file that cannot be read or written.
    Misuse = 2,
    /// Potentially ambiguous, and no two trees are known; or no tree of a sentence.
    Potential = 3,
    /// A grammar's text, a sentence, or a line of a session, that is refused.
    Refused = 4,
}

impl Status {
    /// The worse one.
    pub fn worse(self, other: Status) -> Status {
        if other.weight() > self.weight() {
            other
        } else {
            self
        }
    }

    /// The worse, the larger.
    fn weight(self) -> usize {
        use Status::{Misuse, No, Potential, Refused, Yes};
        [Yes, Potential, No, Refused, Misuse].iter().position(|status| *status == self).unwrap_or(0)
    }
}

/// What a tool says.
pub struct Answer {
    pub status: Status,
    /// For standard output.
    pub out: String,
    /// For standard error.
    pub err: String,
}

impl Answer {
    pub fn misuse(message: &str) -> Answer {
        Answer { status: Status::Misuse, out: String::new(), err: format!("{message}\n") }
    }
}

/// A tool: its name, what it takes and what it says for `--help`.
pub struct Tool {
    pub name: &'static str,
    pub usage: &'static str,
    pub help: &'static str,
    /// The options beside `--help` and `--version`.
    pub options: &'static [&'static str],
    /// Options that are written with `=` and a number, or with that as the next word, and what they take.
    pub numbered: &'static [(&'static str, &'static str)],
    /// Options of which at most one is taken, row by row.
    pub exclusive: &'static [&'static [&'static str]],
    /// Options that take one turn of files, and print no line `file=`.
    pub single: &'static [&'static str],
    /// Options that take several turns, and print no line `file=` either.
    pub bare: &'static [&'static str],
    /// Options that are taken only together with another one.
    pub needs: &'static [(&'static str, &'static str)],
    /// The files that are judged together.
    pub files: usize,
    /// Whether no more files are taken than these.
    pub once: bool,
    /// Whether the last of them may be left out; it is standard input then.
    pub spare: bool,
}

/// Options and files of a command.
pub struct Request {
    options: Vec<&'static str>,
    files: Vec<OsString>,
}

impl Request {
    pub fn has(&self, option: &str) -> bool {
        self.options.contains(&option)
    }

    fn has_any(&self, options: &[&str]) -> bool {
        options.iter().any(|option| self.has(option))
    }
}

const SHORT: [(&str, &str); 3] = [("-h", "--help"), ("-V", "--version"), ("-q", "--quiet")];
const COMMON: [&str; 2] = ["--help", "--version"];

/// What is said of an option that does not exist.
fn no_option(tool: &Tool, word: &str) -> String {
    let letter = |letter: char| SHORT.iter().find(|(short, _)| short.ends_with(letter)).map(|(short, _)| *short);
    let together: Option<Vec<&str>> = word.strip_prefix('-').and_then(|letters| letters.chars().map(letter).collect());
    if let Some(apart) = together.filter(|apart| apart.len() > 1) {
        return format!("there is no option {word}; write {}", apart.join(" "));
    }
    let known: Vec<&str> = COMMON.iter().chain(tool.options).copied().collect();
    let letters = |word: &str| word.trim_start_matches('-').as_bytes().to_vec();
    let names: Vec<Vec<u8>> = known.iter().map(|option| letters(option)).collect();
    let meant = nearest::nearest(&letters(word), names.iter().map(|name| &name[..]));
    let hint = meant.map_or(String::new(), |place| format!("; is {} meant?", known[place]));
    format!("there is no option {}{hint}", printable(word))
}

/// The option that a word names.
fn option(tool: &Tool, word: &str) -> Result<&'static str, String> {
    let long = SHORT.iter().find(|(short, _)| *short == word).map_or(word, |(_, long)| long);
    let known = COMMON.iter().chain(tool.options).find(|known| **known == long);
    let name = word.split('=').next().unwrap_or(word);
    let numbered = tool.numbered.iter().find(|(option, _)| *option == name);
    match (known, numbered) {
        (Some(known), _) => Ok(known),
        (None, Some((option, takes))) => Err(format!("{option} takes {takes}")),
        (None, None) => Err(no_option(tool, word)),
    }
}

/// The request in these words; an error says what is wrong with them.
fn requested(tool: &Tool, words: Vec<OsString>) -> Result<Request, String> {
    let mut request = Request { options: Vec::new(), files: Vec::new() };
    let mut words = words.into_iter();
    while let Some(word) = words.next() {
        match word.to_str() {
            Some("--") => request.files.extend(words.by_ref()),
            Some(word) if tool.numbered.iter().any(|(option, _)| *option == word) => {
                let number = words.next().unwrap_or_default();
                request.options.push(option(tool, &format!("{word}={}", number.to_string_lossy()))?);
            }
            Some(word) if word.starts_with('-') && word != "-" => request.options.push(option(tool, word)?),
            _ => request.files.push(word),
        }
    }
    if tool.spare && request.files.len() + 1 == tool.files {
        request.files.push(OsString::from("-"));
    }
    match contradiction(tool, &request) {
        _ if request.has_any(&COMMON) => Ok(request),
        Some(message) => Err(message),
        None => Ok(request),
    }
}

/// Why a request cannot be followed.
fn contradiction(tool: &Tool, request: &Request) -> Option<String> {
    for row in tool.exclusive {
        let given: Vec<&&str> = row.iter().filter(|option| request.has(option)).collect();
        if let [first, second, ..] = given[..] {
            return Some(format!("{first} and {second} do not go together"));
        }
    }
    let given = tool.needs.iter().find(|(option, other)| request.has(option) && !request.has(other));
    if let Some((option, other)) = given {
        return Some(format!("{option} is taken together with {other} only"));
    }
    if tool.once && request.files.len() > tool.files {
        return Some("there are too many files".to_string());
    }
    if request.files.is_empty() || request.files.len() % tool.files != 0 {
        return Some("files are missing".to_string());
    }
    if request.files.iter().filter(|file| *file == "-").count() > 1 {
        return Some("standard input can be read once only".to_string());
    }
    let single = tool.single.iter().find(|option| request.has(option) && request.files.len() > tool.files)?;
    Some(format!("{single} takes one file"))
}

/// Runs a tool: `answer` judges the files of one turn.
pub fn run(tool: &Tool, answer: impl Fn(&Request, &[OsString]) -> Answer) -> ExitCode {
    let request = match requested(tool, env::args_os().skip(1).collect()) {
        Ok(request) => request,
        Err(message) => {
            let message = format!("{}: {message}\nusage: {}\nTry {} --help.", tool.name, tool.usage, tool.name);
            return ExitCode::from(said(Answer::misuse(&message)) as u8);
        }
    };
    let about = |out: String| ExitCode::from(said(Answer { status: Status::Yes, out, err: String::new() }) as u8);
    if request.has("--help") {
        return about(format!("usage: {}\n{}", tool.usage, tool.help));
    }
    if request.has("--version") {
        return about(format!("{} {VERSION}", tool.name));
    }
    let titled = request.files.len() > tool.files && !request.has_any(tool.bare);
    let turns = request.files.chunks(tool.files).map(|files| {
        let mut turn = answer(&request, files);
        if titled {
            turn.out.insert_str(0, &format!("file={}\n", shown(&files[tool.files - 1])));
        }
        said(turn)
    });
    ExitCode::from(turns.reduce(Status::worse).unwrap_or(Status::Misuse) as u8)
}

/// Says an answer; gives its status, or that of output that fails.
pub fn said(answer: Answer) -> Status {
    // Where standard error is shut, the status alone tells.
    let _ = io::stderr().write_all(answer.err.as_bytes());
    if answer.out.is_empty() {
        return answer.status;
    }
    let mut out = io::stdout().lock();
    let written = if shut::standard_output() {
        Err(io::Error::new(io::ErrorKind::NotFound, "it is closed"))
    } else {
        out.write_all(answer.out.as_bytes()).and_then(|()| out.flush())
    };
    match written {
        Ok(()) => answer.status,
        Err(error) => {
            let _ = writeln!(io::stderr(), "standard output: {error}");
            Status::Misuse
        }
    }
}

/// A word without line breaks and other bytes that a terminal obeys: they are escaped.
pub fn printable(word: &str) -> String {
    let shown = |letter: char| {
        if letter.is_control() {
            letter.escape_default().to_string()
        } else {
            letter.to_string()
        }
    };
    word.chars().map(shown).collect()
}

/// A file's name in messages.
pub fn shown(file: &OsStr) -> String {
    if file == "-" {
        "<stdin>".to_string()
    } else {
        printable(&file.to_string_lossy())
    }
}

fn opened(file: &OsStr) -> io::Result<Box<dyn Read>> {
    Ok(if file == "-" { Box::new(io::stdin()) } else { Box::new(File::open(file)?) })
}

/// A file's bytes, those of standard input for `-`; of more than `most` bytes only one more is read.
pub fn bytes(file: &OsStr, most: usize) -> Result<Vec<u8>, Answer> {
    let mut bytes = Vec::new();
    let read = opened(file).and_then(|from| from.take(most as u64 + 1).read_to_end(&mut bytes));
    match read {
        Ok(_) => Ok(bytes),
        Err(error) => Err(Answer::misuse(&format!("{}: error: {error}", shown(file)))),
    }
}
