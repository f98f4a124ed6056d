//! The two strings of a witness as lines, and the check whether the strings of two lines part.

mod not_parting;
mod row;
mod sets;
mod turn;

use ambiguity::{row_entries, Grammar, Refusal, Strings};
use ambiguity::{MAX_REPORT_BYTES, MAX_REPORT_STATES, MAX_REPORT_TEXT_BYTES, MAX_STATES};

pub use not_parting::NotParting;

/// What the lines begin with.
pub const KEYS: [&str; 2] = ["left=", "right="];

/// More than the two lines of a witness have: 16 bytes for each of 2Q² letters a line.
pub const MOST_BYTES: usize = 2 * 16 * row_entries(MAX_STATES);

/// The lines of a witness as the program prints them: those of its report where it takes the text.
pub fn printed(text: &[u8], grammar: &Grammar, witness: &[u32]) -> String {
    if text.len() > MAX_REPORT_TEXT_BYTES || grammar.states() > MAX_REPORT_STATES {
        return of_witness(grammar, witness);
    }
    let mut report = vec![0; MAX_REPORT_BYTES];
    let length = ambiguity::report(text, &mut report).expect("a report has room");
    report.truncate(length);
    let report = String::from_utf8(report).expect("a report is ASCII");
    // The number of states and the verdict stand before them.
    report.split_inclusive('\n').skip(2).collect()
}

/// The lines of a witness, by its two strings.
pub fn of_witness(grammar: &Grammar, witness: &[u32]) -> String {
    let strings = grammar.strings(0, witness).expect("an entry of a witness is a successor of the one before");
    grammar.lines(&strings).expect("the letters are the grammar's")
}

/// Why two strings are not accepted.
#[derive(Debug, PartialEq, Eq)]
pub enum Wrong {
    /// They do not part.
    NotParting(NotParting),
    /// The library refuses the row of triples that was found.
    Row(Refusal),
}

/// Accepts two strings that part: a row of triples is found for them, and the library's witness check accepts it.
pub fn check(grammar: &Grammar, strings: &Strings) -> Result<(), Wrong> {
    let row = row::of(grammar, strings).map_err(Wrong::NotParting)?;
    ambiguity::check_witness(grammar.table(), 0, &row).map_err(Wrong::Row)
}

/// The column of a letter in its line, and behind the last letter that of the line's end. Columns count bytes from 1.
pub fn column(lines: &[u8], line: usize, place: usize) -> usize {
    let bytes = lines.split(|byte| *byte == b'\n').nth(line - 1).unwrap_or_default();
    let start = KEYS[line - 1].len();
    let spaces = (start..bytes.len()).filter(|at| bytes[*at] == b' ');
    let mut starts = std::iter::once(start).chain(spaces.map(|at| at + 1)).filter(|at| *at < bytes.len());
    starts.nth(place).unwrap_or(bytes.len()) + 1
}
