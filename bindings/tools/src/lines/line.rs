//! A line of a certificate, read from the left.

use ambiguity::{Grammar, MAX_CALLERS};

use super::{digits, remainder, Certificate, Form, Malformed, Part, MOST_STATES};
use crate::callers;

/// What is still to be read of a line.
pub struct Line<'a> {
    pub rest: &'a [u8],
    pub line: usize,
    pub column: usize,
}

impl Line<'_> {
    pub fn fault<T>(&self, message: impl Into<String>) -> Result<T, Malformed> {
        Err(Malformed { line: self.line, column: self.column, message: message.into() })
    }

    /// What stands here, in words.
    fn found(&self) -> String {
        match self.rest {
            [] => "the line ends".to_string(),
            [b' ', ..] => "a space is found".to_string(),
            [byte, ..] if byte.is_ascii_graphic() => format!("'{}' is found", *byte as char),
            [byte, ..] if byte.is_ascii() => format!("byte {byte} is found"),
            rest => match String::from_utf8_lossy(rest).chars().next() {
                Some('\u{A0}') => "a no-break space is found".to_string(),
                Some(letter) if letter.is_alphanumeric() => format!("'{letter}' is found"),
                _ => format!("byte {} is found", rest[0]),
            },
        }
    }

    pub fn pass(&mut self, bytes: usize) {
        self.rest = &self.rest[bytes..];
        self.column += bytes;
    }

    /// Passes these bytes; the fault is at the first that differs.
    pub fn literal(&mut self, bytes: &str) -> Result<(), Malformed> {
        for byte in bytes.bytes() {
            if self.rest.first() != Some(&byte) {
                return self.fault(format!("'{bytes}' is expected, and {}", self.found()));
            }
            self.pass(1);
        }
        Ok(())
    }

    pub fn end(&self) -> Result<(), Malformed> {
        if self.rest.is_empty() {
            return Ok(());
        }
        self.fault(format!("the line is to end here, and {}", self.found()))
    }

    /// The number of a line with a key and a number.
    pub fn number(&mut self, key: &str) -> Result<usize, Malformed> {
        self.literal(key)?;
        let length = self.rest.iter().take_while(|byte| byte.is_ascii_digit()).count();
        let digits = std::str::from_utf8(&self.rest[..length]).expect("digits are text");
        match digits.parse::<usize>() {
            Ok(number) if number.to_string() == digits => {
                let rest = Line { rest: &self.rest[length..], line: self.line, column: self.column + length };
                rest.end().map(|()| number)
            }
            _ => self.fault("a decimal number without leading zeros is expected"),
        }
    }

    /// A line with a key and this number, which is the grammar's.
    pub fn known(&mut self, key: &str, number: usize) -> Result<(), Malformed> {
        let found = self.number(key)?;
        if found != number {
            let other = "is it the certificate of another grammar?";
            return self.fault(format!("{found} is found, and by the grammar this number is {number}: {other}"));
        }
        Ok(())
    }

    /// The form, which certificates of so many states must have.
    pub fn form(&mut self, states: usize) -> Result<Form, Malformed> {
        if self.rest.starts_with(b"terminals=") {
            return self.fault("'certificate-form=' is expected; this is a grammar's text, and no certificate");
        }
        let form = match self.number("certificate-form=")? {
            1 => Form::Plain,
            2 => Form::Checked,
            3 => Form::Runs,
            _ => return self.fault("this program reads the forms 1, 2 and 3"),
        };
        if !form.has(states) {
            return self.fault(format!("form {} has at most {MOST_STATES} states; the grammar has {states}", form as usize));
        }
        Ok(form)
    }

    /// How many callers a certificate remembers: at 0 it has no such line.
    pub fn callers(&mut self) -> Result<usize, Malformed> {
        let callers = self.number(callers::KEY)?;
        if (1..=MAX_CALLERS).contains(&callers) {
            return Ok(callers);
        }
        self.fault("1 or 2 is expected; a certificate of 0 callers has no such line")
    }

    /// The line of the states, which are so many with these callers. What fits other callers is told.
    pub fn states(&mut self, grammar: &Grammar, callers: usize, states: usize) -> Result<(), Malformed> {
        let found = Line { rest: self.rest, ..*self }.number("states=")?;
        let fits = |other: &usize| grammar.room(*other).is_ok_and(|room| room.states == found);
        let Some(other) = (0..=MAX_CALLERS).filter(|other| *other != callers && found != states).find(fits) else {
            return self.known("states=", states);
        };
        self.literal("states=")?;
        let with = |callers| match callers {
            0 => "without callers".to_string(),
            callers => format!("with {}", callers::counted(callers)),
        };
        let line = match (other, callers) {
            (0, _) => "is the line behind it one too many?".to_string(),
            (other, 0) => format!("is the line '{}{other}' missing behind it?", callers::KEY),
            (other, _) => format!("is '{}{other}' meant behind it?", callers::KEY),
        };
        self.fault(format!("{found} is found, and {} this number is {states}, {} {found}: {line}", with(callers), with(other)))
    }

    /// A line of bytes, or of bytes and runs, put to its place.
    pub fn part(&mut self, certificate: &mut Certificate) -> Result<(), Malformed> {
        match certificate.form {
            Form::Runs => self.runs(certificate),
            Form::Plain | Form::Checked => self.bytes(certificate),
        }
    }

    /// A line of bytes, put to its place.
    fn bytes(&mut self, certificate: &mut Certificate) -> Result<(), Malformed> {
        let (form, next, length) = (certificate.form, certificate.next(), certificate.bytes.len());
        if next >= length {
            return self.fault(format!("the certificate has {length} bytes: nothing is expected here"));
        }
        let offset = match form {
            Form::Plain => {
                self.offset(next)?;
                next
            }
            _ => self.any_offset(form.on_a_line(), length)?,
        };
        let mut bytes = Vec::new();
        let first = self.column + 1;
        for _ in 0..form.on_a_line().min(length - offset) {
            self.not_checked(form)?;
            self.literal(" ")?;
            bytes.push(16 * self.digit()? + self.digit()?);
        }
        self.not_checked(form)?;
        if form == Form::Checked {
            self.check(remainder(digits(offset, &bytes), 16))?;
        }
        self.end()?;
        if offset < next {
            return self.misplaced();
        }
        certificate.bytes[offset..offset + bytes.len()].copy_from_slice(&bytes);
        let part =
            |place: usize| Part { start: offset + place, end: offset + place + 1, line: self.line, column: first + 3 * place };
        certificate.parts.extend((0..bytes.len()).map(part));
        Ok(())
    }

    /// The fault of a line that stands too late.
    pub fn misplaced<T>(&mut self) -> Result<T, Malformed> {
        self.column = 1;
        self.fault("this line stands behind one with the same or a larger offset")
    }

    pub fn digit(&mut self) -> Result<u8, Malformed> {
        let digit = self.rest.first().and_then(|byte| (*byte as char).to_digit(16));
        let Some(digit) = digit else {
            return self.fault(format!("a hexadecimal digit is expected, 0 to 9 or a to f, and {}", self.found()));
        };
        self.pass(1);
        Ok(digit as u8)
    }

    /// Passes this offset and its colon.
    fn offset(&mut self, offset: usize) -> Result<(), Malformed> {
        for shift in [12, 8, 4, 0] {
            let expected = (offset >> shift & 15) as u8;
            let digit = Line { rest: self.rest, ..*self }.digit();
            if digit != Ok(expected) {
                return self.fault(format!("'{offset:04x}:' is expected"));
            }
            self.pass(1);
        }
        self.literal(":")
    }

    /// Passes an offset and its colon: a whole number of lines, inside the certificate.
    fn any_offset(&mut self, on_a_line: usize, length: usize) -> Result<usize, Malformed> {
        let start = Line { rest: self.rest, ..*self };
        let mut offset = 0;
        for _ in 0..4 {
            offset = 16 * offset + self.digit()? as usize;
        }
        if offset % on_a_line != 0 || offset >= length {
            return start.fault(format!("an offset is expected, a multiple of {on_a_line:04x} below {length:04x}"));
        }
        self.literal(":")?;
        Ok(offset)
    }

    /// Passes check digits, which are to be these.
    pub fn check(&mut self, expected: usize) -> Result<(), Malformed> {
        self.literal(" *")?;
        let start = Line { rest: self.rest, ..*self };
        let found = 16 * self.digit()? as usize + self.digit()? as usize;
        if found != expected {
            return start.fault(format!(
                "the check digits are {found:02x}, but those of this line's digits are {expected:02x}: compare the line with the print"
            ));
        }
        Ok(())
    }

    /// Form 1 has no check digits: where some stand, the number of the form is wrong rather than this line.
    fn not_checked(&self, form: Form) -> Result<(), Malformed> {
        if form == Form::Checked || !self.rest.starts_with(b" *") {
            return Ok(());
        }
        let message = format!("form 1 has no check digits, but line {} has them", self.line);
        Err(Malformed { line: 1, column: "certificate-form=".len() + 1, message })
    }
}
