//! Form 3: bytes, and runs of zeros by their length.
//!
//! A line has the offset of its first byte in five hexadecimal digits and a colon; then up to sixteen parts, each a space and two
//! hexadecimal digits for a byte, or `z` and two for so many zeros, from 02 to ff; then a space, `*` and two check digits. A line
//! neither begins nor ends with zeros: the next offset tells how many there are.

use super::line::Line;
use super::{remainder, Certificate, Form, Malformed, Part};

const OFFSET: [u32; 5] = [16, 12, 8, 4, 0];

/// The value of `z` as a digit: the check digits are those of a number to the base of 17.
const RUN: u8 = 16;
const BASE: usize = 17;
const LEAST_RUN: usize = 2;
const MOST_RUN: usize = 255;

fn offset_digits(offset: usize) -> Vec<u8> {
    OFFSET.iter().map(|shift| (offset >> shift & 15) as u8).collect()
}

/// A line that is being written.
struct Row {
    offset: usize,
    digits: Vec<u8>,
    text: String,
    parts: usize,
}

impl Row {
    fn new(offset: usize) -> Row {
        Row { offset, digits: offset_digits(offset), text: String::new(), parts: 0 }
    }

    fn put(&mut self, mark: &str, number: u8) {
        self.text.push_str(&format!(" {mark}{number:02x}"));
        if !mark.is_empty() {
            self.digits.push(RUN);
        }
        self.digits.extend([number >> 4, number & 15]);
        self.parts += 1;
    }

    fn line(self) -> String {
        format!("{:05x}:{} *{:02x}\n", self.offset, self.text, remainder(self.digits.into_iter(), BASE))
    }
}

/// The lines of the bytes.
pub fn written(bytes: &[u8]) -> String {
    let mut lines = String::new();
    let mut row: Option<Row> = None;
    let mut zeros = 0;
    for (offset, byte) in bytes.iter().enumerate() {
        if *byte == 0 {
            zeros += 1;
            continue;
        }
        // The zeros before the byte, and the byte, go on the same line if there is room for both.
        let needed = 1 + usize::from(zeros > 0);
        let room = |row: &Row| row.parts + needed <= Form::Runs.on_a_line() && zeros <= MOST_RUN;
        match row.as_mut().filter(|row| room(row)) {
            Some(row) if zeros >= LEAST_RUN => row.put("z", zeros as u8),
            Some(row) if zeros == 1 => row.put("", 0),
            Some(_) => (),
            None => lines.extend(row.replace(Row::new(offset)).map(Row::line)),
        }
        row.get_or_insert_with(|| Row::new(offset)).put("", *byte);
        zeros = 0;
    }
    lines.extend(row.map(Row::line));
    lines
}

impl Line<'_> {
    /// A line of bytes and runs, put to its place.
    pub fn runs(&mut self, certificate: &mut Certificate) -> Result<(), Malformed> {
        let length = certificate.bytes.len();
        let start = Line { rest: self.rest, ..*self };
        let mut offset = 0;
        for _ in OFFSET {
            offset = 16 * offset + self.digit()? as usize;
        }
        self.literal(":")?;
        let mut digits = offset_digits(offset);
        let (mut parts, mut bytes) = (Vec::new(), Vec::new());
        while !self.rest.starts_with(b" *") || parts.is_empty() {
            self.literal(" ")?;
            let column = self.column;
            let is_run = matches!(self.rest.first(), Some(b'z' | b'Z'));
            if is_run {
                self.pass(1);
                digits.push(RUN);
            }
            let pair = [self.digit()?, self.digit()?];
            digits.extend(pair);
            let number = 16 * pair[0] + pair[1];
            let at = offset + bytes.len();
            if is_run {
                bytes.resize(bytes.len() + number as usize, 0);
            } else {
                bytes.push(number);
            }
            parts.push(Part { start: at, end: offset + bytes.len(), line: self.line, column });
        }
        self.check(remainder(digits.into_iter(), BASE))?;
        self.end()?;
        if offset + bytes.len() > length {
            return start.fault(format!("the certificate has {length} bytes: this line goes on behind them"));
        }
        if offset < certificate.next() {
            return self.misplaced();
        }
        certificate.bytes[offset..offset + bytes.len()].copy_from_slice(&bytes);
        certificate.parts.extend(parts);
        Ok(())
    }
}

#[cfg(test)]
mod tests {
    use super::*;

    #[test]
    fn runs_of_zeros() {
        let mut bytes = vec![0; 700];
        for place in [0, 2, 5, 260, 600] {
            bytes[place] = 0xa0;
        }
        assert_eq!(
            written(&bytes),
            "00000: a0 00 a0 z02 a0 zfe a0 *14\n00258: a0 *a0\n"
                .replace("*14", &check("00000a000a0z02a0zfea0"))
                .replace("*a0", &check("00258a0"))
        );
        assert_eq!(written(&[0; 9]), "");
        assert_eq!(written(&[1; 17]).lines().count(), 2);
    }

    fn check(digits: &str) -> String {
        let value = |letter: char| letter.to_digit(16).map_or(RUN, |digit| digit as u8);
        format!("*{:02x}", remainder(digits.chars().map(value), BASE))
    }
}
