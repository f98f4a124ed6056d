//! A certificate as lines, written and read. bindings/README.md has the three forms.

mod line;
mod runs;

use ambiguity::{Grammar, Room};

use crate::callers;
use line::Line;

/// The forms. Form 2 has check digits at each line's end, and leaves lines out whose bytes are all 0; form 3 writes runs of zeros by
/// their length too.
#[derive(Clone, Copy, Debug, PartialEq, Eq)]
pub enum Form {
    Plain = 1,
    Checked = 2,
    Runs = 3,
}

impl Form {
    /// Whether certificates of so many states have this form. Offsets of forms 1 and 2 have four digits, so that the bytes are at
    /// most 65,536; those of form 3 have five.
    pub fn has(self, states: usize) -> bool {
        self == Form::Runs || states <= MOST_STATES
    }

    /// The form that a certificate of so many states has if none is asked for.
    pub fn usual(states: usize) -> Form {
        if Form::Checked.has(states) {
            Form::Checked
        } else {
            Form::Runs
        }
    }

    /// Bytes of the certificate on a line; in form 3 bytes and runs.
    fn on_a_line(self) -> usize {
        match self {
            Form::Plain => 32,
            Form::Checked | Form::Runs => 16,
        }
    }
}

/// States of a grammar whose certificate has form 1 or 2.
pub const MOST_STATES: usize = 512;

/// The prime that the check digits are a remainder of: below 256, so that two hexadecimal digits hold it. No wrong digit and no
/// two swapped ones keep the remainder.
const CHECK: usize = 251;

/// More than any certificate has as lines, with line ends of two bytes.
pub const MOST_BYTES: usize = 1 << 20;

/// The remainder of a row of digits, read as one number to a base.
fn remainder(digits: impl Iterator<Item = u8>, base: usize) -> usize {
    digits.fold(0, |rest, digit| (base * rest + digit as usize) % CHECK)
}

/// The hexadecimal digits of a line: four of the offset, two of each byte.
fn digits(offset: usize, bytes: &[u8]) -> impl Iterator<Item = u8> + '_ {
    let offset = [12, 8, 4, 0].map(|shift| (offset >> shift & 15) as u8);
    offset.into_iter().chain(bytes.iter().flat_map(|byte| [byte >> 4, byte & 15]))
}

/// The lines of a certificate that was made with so many callers and holds so many triples.
pub fn written(grammar: &Grammar, callers: usize, size: usize, certificate: &[u8], form: Form) -> String {
    let states = grammar.room(callers).expect("a certificate was made with these callers").states;
    let head = format!("certificate-form={}\nstates={states}\n{}", form as usize, callers::line(callers));
    let head = format!("{head}rules={}\nsize={size}\n", grammar.rules().len());
    if form == Form::Runs {
        return head + &runs::written(certificate);
    }
    let mut lines = head;
    for (i, bytes) in certificate.chunks(form.on_a_line()).enumerate() {
        if form == Form::Checked && bytes.iter().all(|byte| *byte == 0) {
            continue;
        }
        let offset = i * form.on_a_line();
        let shown: String = bytes.iter().map(|byte| format!(" {byte:02x}")).collect();
        let check = match form {
            Form::Checked => format!(" *{:02x}", remainder(digits(offset, bytes), 16)),
            _ => String::new(),
        };
        lines.push_str(&format!("{offset:04x}:{shown}{check}\n"));
    }
    lines
}

/// What is wrong with the lines, and where; lines and columns count from 1, columns in bytes.
#[derive(Debug, PartialEq, Eq)]
pub struct Malformed {
    pub line: usize,
    pub column: usize,
    pub message: String,
}

/// A byte, or a run of zeros, and where it stands.
#[derive(Debug)]
struct Part {
    start: usize,
    end: usize,
    line: usize,
    column: usize,
}

/// A certificate that was read.
#[derive(Debug)]
pub struct Certificate {
    pub bytes: Vec<u8>,
    /// How many callers it remembers.
    pub callers: usize,
    /// Lines in front of the bytes.
    head: usize,
    form: Form,
    /// What the lines hold, in order.
    parts: Vec<Part>,
}

impl Certificate {
    /// Line and column of a byte; if it was left out, the line of the next one.
    pub fn place(&self, byte: usize) -> (usize, usize) {
        match self.parts.iter().find(|part| byte < part.end).or(self.parts.last()) {
            Some(part) if (part.start..part.end).contains(&byte) => (part.line, part.column),
            Some(part) => (part.line, 1),
            None => (self.head, 1),
        }
    }

    /// The least offset that the next line may have.
    fn next(&self) -> usize {
        self.parts.last().map_or(0, |part| part.end)
    }
}

/// The line that may tell callers.
const CALLERS: usize = 3;

/// Faults that are told at once.
const MOST_FAULTS: usize = 20;

/// The bytes that the lines give, if they are lines of this grammar; else the faults, in the order of their lines. Digits of either
/// case, line ends with byte 13, a byte-order mark and blank lines at the end are read too, in forms 2 and 3 blank lines anywhere
/// behind the head.
pub fn read(grammar: &Grammar, text: &[u8]) -> Result<Certificate, Vec<Malformed>> {
    let text = text.strip_prefix(b"\xEF\xBB\xBF").unwrap_or(text);
    let mut lines: Vec<&[u8]> =
        text.split(|byte| *byte == b'\n').map(|line| line.strip_suffix(b"\r").unwrap_or(line)).collect();
    while lines.last().is_some_and(|line| line.is_empty()) {
        lines.pop();
    }
    let (mut certificate, size) = head(grammar, &lines).map_err(|fault| vec![fault])?;
    let mut faults = Vec::new();
    for number in certificate.head + 1..=lines.len() {
        if lines[number - 1].is_empty() && certificate.form != Form::Plain {
            continue;
        }
        if let Err(fault) = line(&lines, number).part(&mut certificate) {
            if certificate.parts.is_empty() && faults.is_empty() {
                if let Some(other) = other_form(&certificate, &lines, number) {
                    return Err(vec![other]);
                }
            }
            faults.push(fault);
            // Without check digits a wrong line makes the next ones look wrong; a later line may be the first line's fault.
            if certificate.form == Form::Plain || faults.len() == MOST_FAULTS {
                break;
            }
        }
    }
    if faults.is_empty() {
        faults.extend(end(&certificate, lines.len(), size));
    }
    if faults.is_empty() {
        Ok(certificate)
    } else {
        Err(faults)
    }
}

/// The fault of the form's number, if the first line of bytes is good in another form.
fn other_form(certificate: &Certificate, lines: &[&[u8]], number: usize) -> Option<Malformed> {
    let forms = [Form::Checked, Form::Runs].into_iter().filter(|form| *form != certificate.form);
    let is_good = |form: &Form| {
        let mut other = Certificate { bytes: certificate.bytes.clone(), form: *form, parts: Vec::new(), ..*certificate };
        line(lines, number).part(&mut other).is_ok()
    };
    let form = forms.into_iter().find(is_good)? as usize;
    let message = format!("form {} is found, but line {number} has form {form}", certificate.form as usize);
    (certificate.form != Form::Plain || form == Form::Runs as usize).then(|| Malformed {
        line: 1,
        column: "certificate-form=".len() + 1,
        message,
    })
}

/// A line, empty where there is none.
fn line<'a>(lines: &[&'a [u8]], number: usize) -> Line<'a> {
    Line { rest: lines.get(number - 1).copied().unwrap_or_default(), line: number, column: 1 }
}

/// The callers that the third line tells, 0 if it tells none, and the room with them.
fn callers_in(grammar: &Grammar, lines: &[&[u8]]) -> Result<(usize, Room), Malformed> {
    let mut line = line(lines, CALLERS);
    let callers = if line.rest.starts_with(callers::KEY.as_bytes()) { line.callers()? } else { 0 };
    match grammar.room(callers) {
        Ok(room) => Ok((callers, room)),
        Err(refusal) => line.fault(callers::refused(callers, refusal)),
    }
}

/// The certificate without bytes, and its size. What the first two lines must say depends on the callers.
fn head(grammar: &Grammar, lines: &[&[u8]]) -> Result<(Certificate, usize), Malformed> {
    let (callers, room) = callers_in(grammar, lines)?;
    let form = line(lines, 1).form(room.states)?;
    line(lines, 2).states(grammar, callers, room.states)?;
    let rules = CALLERS + usize::from(callers > 0);
    line(lines, rules).known("rules=", grammar.rules().len())?;
    let head = rules + 1;
    let size = line(lines, head).number("size=")?;
    Ok((Certificate { bytes: vec![0; room.certificate], callers, head, form, parts: Vec::new() }, size))
}

/// What is wrong when all lines were read.
fn end(certificate: &Certificate, lines: usize, size: usize) -> Option<Malformed> {
    let fault = |line, column, message| Some(Malformed { line, column, message });
    if certificate.form == Form::Plain && certificate.next() < certificate.bytes.len() {
        return fault(lines + 1, 1, format!("'{:04x}:' is expected", certificate.next()));
    }
    let set = certificate.bytes.iter().map(|byte| byte.count_ones() as usize).sum::<usize>();
    if set == size {
        return None;
    }
    let message = format!("the number of bits that are set below is {set}: this number is wrong, or lines are missing");
    fault(certificate.head, "size=".len() + 1, message)
}
