//! A session in which a draft is edited line by line, as `ambig-draft` has it.

mod judging;
pub mod line;
pub mod names;
mod work;

use std::ffi::OsStr;
use std::os::unix::ffi::OsStrExt;

use ambiguity::{Refusal, MAX_TEXT_BYTES};

use crate::command::{Answer, Status};
use crate::diagnosis::{self, Finding, Word};
use crate::refusals;
use crate::words::key;
use line::{Fault, Line};
use work::Work;

/// Bytes of a line.
pub const MOST_BYTES: usize = MAX_TEXT_BYTES;

/// The name of the input in messages.
pub const INPUT: &str = "<stdin>";

/// How far a draft has begun.
enum Stage {
    Nothing,
    /// The line of the terminals, as grammar text has it.
    Terminals(Vec<u8>),
    Begun(Work),
}

/// A session: its draft, and whether only few lines are printed.
pub struct Session {
    stage: Stage,
    quiet: bool,
}

/// What is said of a line, and whether the session ends with it.
pub struct Turn {
    pub answer: Answer,
    pub ends: bool,
}

/// Why a line is not followed. Places count its bytes from 0.
enum No {
    /// The library refuses it; what is wrong, and where.
    Refused(Vec<(usize, String)>, Refusal),
    /// It is no command, or none that can be followed yet.
    Malformed(usize, String),
    /// A file cannot be written.
    File(String),
}

impl From<Fault> for No {
    fn from(fault: Fault) -> No {
        No::Malformed(fault.at, fault.message)
    }
}

impl Session {
    pub fn new(quiet: bool) -> Session {
        Session { stage: Stage::Nothing, quiet }
    }

    /// A session that begins from a text, which may lack sentences; and what is said of it.
    ///
    /// # Errors
    ///
    /// Those of the reader, but for 19.
    pub fn of_text(file: &str, text: &[u8], quiet: bool) -> Result<(Session, String), Refusal> {
        let (names, draft) = names::begun(text)?;
        let work = Work { names, draft };
        let said = if quiet { String::new() } else { format!("{file}: {}\n", work.size()) };
        Ok((Session { stage: Stage::Begun(work), quiet }, said))
    }

    /// Follows a line, which has this number and stands without its end.
    pub fn answer(&mut self, number: usize, line: &[u8]) -> Turn {
        let no = |(status, out, err): (Status, String, String)| Turn { answer: Answer { status, out, err }, ends: false };
        let read = match line {
            line if line.len() > MOST_BYTES => {
                let message = format!("the line has more than {MOST_BYTES} bytes; that is the limit");
                Err(No::Malformed(MOST_BYTES, message))
            }
            line => line::read(line, number == 1).map_err(No::from),
        };
        match read.and_then(|line| Ok((self.followed(&line)?, line))) {
            Ok((out, line)) => {
                Turn { answer: Answer { status: Status::Yes, out, err: String::new() }, ends: line == Line::Quit }
            }
            Err(fault) => no(self.refused(number, fault)),
        }
    }

    /// Status, output and messages for a line that is not followed.
    fn refused(&self, number: usize, no: No) -> (Status, String, String) {
        let finding = |(at, message): (usize, String)| Finding { line: number, column: at + 1, message };
        match no {
            No::Refused(_, refusal) if self.quiet => {
                (Status::Refused, format!("line={number}\n{}", refusals::numbers(refusal)), String::new())
            }
            No::Malformed(..) if self.quiet => (Status::Refused, format!("line={number}\nmalformed\n"), String::new()),
            No::Refused(found, refusal) => {
                let findings: Vec<Finding> = found.into_iter().map(finding).collect();
                (Status::Refused, String::new(), refusals::of_findings(INPUT, &findings, refusal))
            }
            No::Malformed(at, message) => {
                (Status::Refused, String::new(), refusals::message(INPUT, number, at + 1, "error", &message))
            }
            No::File(message) => (Status::Misuse, String::new(), format!("{message}\n")),
        }
    }

    /// What is said of a line that is followed.
    fn followed(&mut self, line: &Line) -> Result<String, No> {
        let quiet = self.quiet;
        let said = |text: String| if quiet { String::new() } else { text };
        match line {
            Line::Blank | Line::Quit => return Ok(String::new()),
            Line::Help => return Ok(line::help()),
            Line::Names(number, names) => return self.declared(*number, names).map(said),
            _ => (),
        }
        let Stage::Begun(work) = &mut self.stage else {
            let first = match self.stage {
                Stage::Nothing => "first come 'terminals a b' and 'nonterminals S T'",
                _ => "now comes 'nonterminals S T', with the start in front",
            };
            return Err(No::Malformed(0, format!("the draft has not begun; {first}")));
        };
        match line {
            Line::Add(rule) => work.add(rule).map(said),
            Line::Withdraw(at, number) => work.withdraw(*at, *number).map(said),
            Line::Mark(at, mark) => work.mark(*at, *mark).map(said),
            Line::Return(at, mark) => work.return_to(*at, *mark).map(said),
            Line::List => Ok(work.list()),
            Line::Declared => Ok(work.declared()),
            Line::Marks => Ok(work.marks()),
            Line::Judge => Ok(judging::told(&work.text()?, quiet)),
            Line::Text => work.text(),
            Line::Write(path) => work.write(OsStr::from_bytes(path)).map(said),
            Line::Blank | Line::Quit | Line::Help | Line::Names(..) => Ok(String::new()),
        }
    }

    /// The names of a list: the terminals come first, and with the nonterminals the draft begins.
    fn declared(&mut self, number: usize, names: &[Word]) -> Result<String, No> {
        let bytes: Vec<&[u8]> = names.iter().map(|name| name.bytes).collect();
        let list = [key(number).as_bytes(), &bytes.join(&b','), b"\n"].concat();
        let front = match (&self.stage, number) {
            (Stage::Begun(_), _) => {
                let message = "the draft has begun, and keeps its names; begin another one for others".to_string();
                return Err(No::Malformed(0, message));
            }
            (_, 1) => Vec::new(),
            (Stage::Terminals(list), _) => list.clone(),
            (Stage::Nothing, _) => {
                let message = "the terminals come first, as in 'terminals a b'; there may be none".to_string();
                return Err(No::Malformed(0, message));
            }
        };
        // The terminals are tried alone, with a nonterminal whose name is none of theirs.
        let is_free = |name: &String| bytes.iter().all(|known| !known.eq_ignore_ascii_case(name.as_bytes()));
        let back = match number {
            1 => format!("{}{}\n", key(2), (0..).map(|i| format!("N{i}")).find(is_free).unwrap_or_default()),
            _ => String::new(),
        };
        let text = [front, list.clone(), back.into_bytes()].concat();
        let (names_read, draft) = names::begun(&text).map_err(|refusal| {
            let (place, message) = diagnosis::of_lists(&text, refusal);
            No::Refused(vec![(in_input(names, number, place), message)], refusal)
        })?;
        if number == 1 {
            self.stage = Stage::Terminals(list);
            return Ok(String::new());
        }
        let work = Work { names: names_read, draft };
        let said = work.size() + "\n";
        self.stage = Stage::Begun(work);
        Ok(said)
    }
}

/// Where a place of a list's line in grammar text stands in the line that was given.
fn in_input(names: &[Word], number: usize, place: usize) -> usize {
    let mut start = key(number).len();
    for name in names {
        if place <= start + name.bytes.len() {
            return name.at + place.saturating_sub(start);
        }
        start += name.bytes.len() + 1;
    }
    names.last().map_or(0, |name| name.at + name.bytes.len())
}
