//! Words and marks of other notations, with their places; comments are left out, and so are actions of bison.

use std::fmt;

use crate::command::printable;
use crate::diagnosis::Finding;

#[derive(Clone, Debug, PartialEq, Eq)]
pub enum Token {
    /// A name, `<name>` too.
    Name(String),
    /// What stands in quotes.
    Quoted(String),
    /// A word behind `%`, as `token`; `%` itself for `%%`.
    Directive(String),
    /// What defines: `:`, `=`, `:=`, `::=`, `->`, `=>`.
    Defines,
    /// Any other mark.
    Mark(char),
    /// An action in braces.
    Action,
    /// A type of bison, `<name>`.
    Type,
}

impl fmt::Display for Token {
    /// What is shown of it in a message.
    fn fmt(&self, out: &mut fmt::Formatter) -> fmt::Result {
        match self {
            Token::Name(word) | Token::Quoted(word) => write!(out, "'{}'", printable(word)),
            Token::Directive(word) => write!(out, "'%{}'", printable(word)),
            Token::Defines => write!(out, "a mark that defines"),
            Token::Mark(mark) => write!(out, "'{}'", printable(&mark.to_string())),
            Token::Action => write!(out, "an action"),
            Token::Type => write!(out, "a type"),
        }
    }
}

#[derive(Clone, Debug)]
pub struct Placed {
    pub token: Token,
    pub line: usize,
    pub column: usize,
}

struct Reader<'a> {
    rest: &'a str,
    line: usize,
    column: usize,
    bison: bool,
}

impl<'a> Reader<'a> {
    fn pass(&mut self, bytes: usize) -> &'a str {
        let (front, rest) = self.rest.split_at(bytes);
        self.rest = rest;
        for letter in front.chars() {
            if letter == '\n' {
                (self.line, self.column) = (self.line + 1, 1);
            } else {
                self.column += letter.len_utf8();
            }
        }
        front
    }

    fn fault<T>(&self, message: &str) -> Result<T, Finding> {
        Err(Finding { line: self.line, column: self.column, message: message.to_string() })
    }

    /// Passes up to the end of a mark.
    fn pass_to(&mut self, end: &str, what: &str) -> Result<(), Finding> {
        match self.rest.find(end) {
            Some(place) => {
                self.pass(place + end.len());
                Ok(())
            }
            None => self.fault(&format!("{what} does not end")),
        }
    }

    /// Spaces and comments.
    fn pass_blank(&mut self) -> Result<(), Finding> {
        loop {
            let trimmed = self.rest.trim_start_matches(|letter: char| letter.is_whitespace() || letter == '\u{FEFF}');
            self.pass(self.rest.len() - trimmed.len());
            if self.rest.starts_with("/*") {
                self.pass_to("*/", "a comment")?;
            } else if self.rest.starts_with("(*") && !self.bison {
                self.pass_to("*)", "a comment")?;
            } else if self.rest.starts_with("//") || self.rest.starts_with('#') {
                let end = self.rest.find('\n').unwrap_or(self.rest.len());
                self.pass(end);
            } else {
                return Ok(());
            }
        }
    }

    /// What stands in quotes; in bison a backslash takes the next letter along.
    fn quoted(&mut self, mark: char) -> Result<String, Finding> {
        let mut letters = self.rest.char_indices().skip(1);
        while let Some((place, letter)) = letters.next() {
            if letter == '\n' {
                break;
            }
            if letter == mark {
                let whole = self.pass(place + mark.len_utf8());
                return Ok(whole[mark.len_utf8()..place].to_string());
            }
            if letter == '\\' && self.bison {
                letters.next();
            }
        }
        self.fault("a quote does not end in its line")
    }

    /// An action: braces in it match, those in quotes and comments do not count.
    fn action(&mut self) -> Result<(), Finding> {
        let mut depth = 0;
        loop {
            self.pass_blank()?;
            match self.rest.chars().next() {
                None => return self.fault("an action in braces does not end"),
                Some('{') => depth += 1,
                Some('}') => depth -= 1,
                Some(mark @ ('"' | '\'')) => {
                    self.quoted(mark)?;
                    continue;
                }
                Some(letter) => {
                    self.pass(letter.len_utf8());
                    continue;
                }
            }
            self.pass(1);
            if depth == 0 {
                return Ok(());
            }
        }
    }

    fn next(&mut self) -> Result<Option<Token>, Finding> {
        self.pass_blank()?;
        let Some(first) = self.rest.chars().next() else { return Ok(None) };
        let inner = if self.bison { "_-." } else { "_-" };
        let name_end =
            |text: &str| text.find(|letter: char| !(letter.is_alphanumeric() || inner.contains(letter))).unwrap_or(text.len());
        if let Some(mark) = ["::=", ":=", "->", "=>", "→"].iter().find(|mark| self.rest.starts_with(**mark)) {
            self.pass(mark.len());
            return Ok(Some(Token::Defines));
        }
        Ok(Some(match first {
            '"' | '\'' => Token::Quoted(self.quoted(first)?),
            '<' => match self.rest.find('>').filter(|end| !self.rest[..*end].contains('\n')) {
                Some(end) if self.bison => {
                    self.pass(end + 1);
                    Token::Type
                }
                Some(end) => Token::Name(self.pass(end + 1)[1..end].trim().to_string()),
                None => return self.fault("'<' is found without '>'"),
            },
            '%' if self.rest.starts_with("%{") => {
                self.pass_to("%}", "a part in %{ and %}")?;
                Token::Directive("{".to_string())
            }
            '%' => {
                let end = 1 + name_end(&self.rest[1..]).max(usize::from(self.rest.starts_with("%%")));
                Token::Directive(self.pass(end)[1..].to_string())
            }
            '{' if self.bison => {
                self.action()?;
                Token::Action
            }
            ':' | '=' => {
                self.pass(1);
                Token::Defines
            }
            letter if letter.is_alphanumeric() || letter == '_' => {
                let mut end = name_end(self.rest);
                // A hyphen at the end belongs to an arrow.
                if self.rest[..end].ends_with('-') && self.rest[end..].starts_with('>') {
                    end -= 1;
                }
                Token::Name(self.pass(end).to_string())
            }
            mark => {
                self.pass(mark.len_utf8());
                Token::Mark(mark)
            }
        }))
    }
}

/// The tokens of a text.
pub fn of(text: &str, bison: bool) -> Result<Vec<Placed>, Finding> {
    let mut reader = Reader { rest: text, line: 1, column: 1, bison };
    let mut tokens = Vec::new();
    loop {
        reader.pass_blank()?;
        let (line, column) = (reader.line, reader.column);
        match reader.next()? {
            Some(token) => tokens.push(Placed { token, line, column }),
            None => return Ok(tokens),
        }
    }
}
