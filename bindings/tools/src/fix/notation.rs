//! BNF, EBNF, rules with arrows, and grammars for bison.

use std::collections::{HashMap, HashSet};

use super::names::{PART, QUOTED};
use super::tokens::{self, Placed, Token};
use super::{Draft, MOST};
use crate::diagnosis::Finding;

/// Words for nothing.
const EMPTY: [&str; 5] = ["epsilon", "ε", "ϵ", "λ", "∅"];

/// Brackets within brackets.
const DEEPEST: usize = 100;

/// Directives that name terminals in the order of their strength.
const PRECEDENCE: [&str; 4] = ["left", "right", "nonassoc", "precedence"];

/// Other declarations that may stand among rules.
const AMONG_RULES: [&str; 10] =
    ["start", "token", "nterm", "type", "printer", "destructor", "code", "union", "default-prec", "no-default-prec"];

/// A part of a right side.
enum Part {
    Symbol(String),
    /// Alternatives that may be left out, or repeated.
    Group {
        choices: Vec<Vec<Part>>,
        may_lack: bool,
        repeats: bool,
    },
}

struct Parser {
    bison: bool,
    /// Brackets that are open.
    depth: usize,
    tokens: Vec<Placed>,
    at: usize,
    draft: Draft,
    /// Other words for tokens: `%token IF "if"`.
    aliases: HashMap<String, String>,
    /// The start that a declaration names.
    start: Option<String>,
}

/// A grammar of rules alone: the first left side is the start, what has no rule is a terminal.
pub fn rules(text: &str) -> Result<Draft, Finding> {
    let mut parser = Parser::new(text, false)?;
    parser.rules()?;
    parser.ended()
}

/// A grammar for bison: declarations, rules, and code that is left out.
pub fn bison(text: &str) -> Result<Draft, Finding> {
    let mut parser = Parser::new(text, true)?;
    parser.declarations()?;
    parser.rules()?;
    parser.ended()
}

impl Parser {
    fn new(text: &str, bison: bool) -> Result<Parser, Finding> {
        Ok(Parser {
            bison,
            depth: 0,
            tokens: tokens::of(text, bison)?,
            at: 0,
            draft: Draft::default(),
            aliases: HashMap::new(),
            start: None,
        })
    }

    fn token(&self) -> Option<&Token> {
        self.tokens.get(self.at).map(|placed| &placed.token)
    }

    fn line(&self) -> usize {
        self.tokens.get(self.at).or(self.tokens.last()).map_or(1, |placed| placed.line)
    }

    fn fault<T>(&self, message: &str) -> Result<T, Finding> {
        let (line, column) =
            self.tokens.get(self.at).or(self.tokens.last()).map_or((1, 1), |placed| (placed.line, placed.column));
        Err(Finding { line, column, message: message.to_string() })
    }

    /// The declarations up to `%%`.
    fn declarations(&mut self) -> Result<(), Finding> {
        loop {
            match self.token().cloned() {
                None => return self.fault("'%%' is not found, behind which the rules stand"),
                Some(Token::Directive(word)) if word == "%" => break,
                Some(Token::Directive(word)) => self.declaration(&word)?,
                Some(_) => self.at += 1,
            }
        }
        self.at += 1;
        Ok(())
    }

    /// A declaration, up to its semicolon, the next declaration or the next rule.
    fn declaration(&mut self, directive: &str) -> Result<(), Finding> {
        let has_strength = PRECEDENCE.contains(&directive);
        if has_strength {
            self.draft.note(self.line(), "precedence is left out: the grammar is judged without it");
        }
        self.at += 1;
        let mut declared = None;
        while let Some(token) = self.token().cloned() {
            if matches!(token, Token::Directive(_) | Token::Mark(';')) || self.left_side().is_some() {
                break;
            }
            self.at += 1;
            match token {
                Token::Name(name) if directive == "start" => self.start = Some(name),
                // `_("if")` is a word that is translated.
                Token::Name(name) if name == "_" => (),
                Token::Name(name) if directive == "token" || has_strength => {
                    let is_number = name.chars().all(|letter| letter.is_ascii_digit());
                    if !is_number && !self.draft.terminals.contains(&name) {
                        self.draft.terminals.push(name.clone());
                    }
                    declared = Some(name).filter(|_| !is_number).or(declared);
                }
                Token::Quoted(text) if directive == "token" => {
                    if let Some(name) = &declared {
                        self.aliases.insert(text, name.clone());
                    }
                }
                _ => (),
            }
            if self.draft.is_too_large() {
                return self.fault(&format!("there are more than {MOST} names or rules"));
            }
        }
        Ok(())
    }

    /// The declaration that begins here, if it may stand among rules.
    fn declaration_among_rules(&self) -> Option<String> {
        match self.token() {
            Some(Token::Directive(word)) if PRECEDENCE.contains(&&word[..]) || AMONG_RULES.contains(&&word[..]) => {
                Some(word.clone()).filter(|_| self.bison)
            }
            _ => None,
        }
    }

    /// The left side of a rule that begins here, and how many tokens it has: a name, in bison with another one in square brackets, and
    /// what defines.
    fn left_side(&self) -> Option<(String, usize)> {
        let tokens: Vec<&Token> = self.tokens[self.at..].iter().take(5).map(|placed| &placed.token).collect();
        match tokens[..] {
            [Token::Name(left), Token::Defines, ..] => Some((left.clone(), 2)),
            [Token::Name(left), Token::Mark('['), Token::Name(_), Token::Mark(']'), Token::Defines] if self.bison => {
                Some((left.clone(), 5))
            }
            _ => None,
        }
    }

    fn rules(&mut self) -> Result<(), Finding> {
        while self.token().is_some() {
            if self.draft.is_too_large() {
                return self.fault(&format!("there are more than {MOST} names or rules"));
            }
            if self.token() == Some(&Token::Directive("%".to_string())) {
                let line = self.line();
                self.draft.note(line, "what stands behind the second '%%' is left out");
                break;
            }
            if let Some(word) = self.declaration_among_rules() {
                self.declaration(&word)?;
                self.pass_ends(&[';']);
                continue;
            }
            let Some((left, length)) = self.left_side() else {
                return self.fault("a rule is expected here: a name, and ':', '=', '::=' or '->'");
            };
            self.at += length;
            if !self.draft.nonterminals.contains(&left) {
                self.draft.nonterminals.push(left.clone());
            }
            let ends: &[char] = if self.bison { &[';'] } else { &[';', '.'] };
            let choices = self.choices(ends)?;
            self.pass_ends(ends);
            for choice in choices {
                let right = self.flat(&left, choice);
                self.draft.rules.push((left.clone(), right));
            }
        }
        Ok(())
    }

    /// Passes marks that end a rule or a declaration.
    fn pass_ends(&mut self, ends: &[char]) {
        while matches!(self.token(), Some(Token::Mark(mark)) if ends.contains(mark)) {
            self.at += 1;
        }
    }

    /// Alternatives up to one of these marks, or to the next rule or declaration.
    fn choices(&mut self, ends: &[char]) -> Result<Vec<Vec<Part>>, Finding> {
        let mut choices = vec![Vec::new()];
        loop {
            let line = self.line();
            if (self.left_side().is_some() || self.declaration_among_rules().is_some()) && ends.contains(&';') {
                return Ok(choices);
            }
            let Some(token) = self.token().cloned() else {
                if ends.contains(&';') {
                    return Ok(choices);
                }
                return self.fault("a bracket is not closed");
            };
            if matches!(token, Token::Mark(mark) if ends.contains(&mark)) || token == Token::Directive("%".to_string()) {
                return Ok(choices);
            }
            self.at += 1;
            let choice = choices.last_mut().expect("there is always one");
            match token {
                Token::Name(name) if EMPTY.contains(&&name[..]) && !self.bison && !self.has_rule(&name) => (),
                Token::Name(name) => choice.push(Part::Symbol(name)),
                Token::Quoted(text) if text.is_empty() => (),
                Token::Quoted(text) => choice.push(Part::Symbol(format!("{QUOTED}{text}"))),
                Token::Directive(word) if word == "empty" => (),
                Token::Directive(word) if ["prec", "dprec", "merge", "expect", "expect-rr"].contains(&&word[..]) => {
                    self.at += 1;
                    self.draft.note(line, format!("'%{word}' is left out"));
                }
                Token::Action => self.draft.note(line, "actions in braces are left out"),
                Token::Type => (),
                Token::Mark('|') => choices.push(Vec::new()),
                Token::Mark('[') if self.bison => {
                    self.draft.note(line, "names in square brackets are left out");
                    self.at += 2;
                }
                Token::Mark(',') if !self.bison => (),
                Token::Mark(mark @ ('*' | '+' | '?')) if !self.bison && self.follows_part() => {
                    let Some(part) = choice.pop() else { return self.fault("there is nothing before this mark") };
                    choice.push(Part::Group { choices: vec![vec![part]], may_lack: mark != '+', repeats: mark != '?' });
                }
                Token::Mark(open @ ('(' | '[' | '{')) if !self.bison => {
                    let close = if open == '(' {
                        ')'
                    } else if open == '[' {
                        ']'
                    } else {
                        '}'
                    };
                    if self.depth == DEEPEST {
                        return self.fault("brackets are nested too deeply");
                    }
                    self.depth += 1;
                    let inner = self.choices(&[close])?;
                    self.depth -= 1;
                    self.at += 1;
                    let group = Part::Group { choices: inner, may_lack: open != '(', repeats: open == '{' };
                    choices.last_mut().expect("there is always one").push(group);
                }
                other => {
                    self.at -= 1;
                    return self.fault(&format!("{other} is not understood here"));
                }
            }
        }
    }

    /// Whether some rule has this left side.
    fn has_rule(&self, name: &str) -> bool {
        let mut pairs = self.tokens.windows(2);
        pairs.any(|pair| pair[0].token == Token::Name(name.to_string()) && pair[1].token == Token::Defines)
    }

    /// Whether the mark just passed stands behind something that it can repeat; a number before `*` counts how often in ISO's EBNF.
    fn follows_part(&self) -> bool {
        match self.at.checked_sub(2).map(|place| &self.tokens[place].token) {
            Some(Token::Name(name)) => !name.chars().all(|letter| letter.is_ascii_digit()),
            Some(Token::Quoted(_) | Token::Mark(')' | ']' | '}')) => true,
            _ => false,
        }
    }

    /// Names of a right side; each group gets a nonterminal and rules of its own.
    fn flat(&mut self, left: &str, parts: Vec<Part>) -> Vec<String> {
        let mut right = Vec::new();
        for part in parts {
            match part {
                Part::Symbol(name) => right.push(name),
                Part::Group { choices, may_lack, repeats } => {
                    let parts = format!("{left}{PART}");
                    let number = self.draft.nonterminals.iter().filter(|name| name.starts_with(&parts)).count() + 1;
                    let name = format!("{parts}{number}");
                    self.draft.nonterminals.push(name.clone());
                    self.draft.note(self.line(), "a repetition, an option or a group has a nonterminal of its own");
                    if may_lack {
                        self.draft.rules.push((name.clone(), Vec::new()));
                    }
                    for choice in choices {
                        let inner = self.flat(left, choice);
                        if repeats {
                            self.draft.rules.push((name.clone(), [vec![name.clone()], inner.clone()].concat()));
                        }
                        if !repeats || !may_lack {
                            self.draft.rules.push((name.clone(), inner));
                        }
                    }
                    right.push(name);
                }
            }
        }
        right
    }

    /// The draft, with the start in front, tokens by their names, and with the terminals that have no declaration.
    fn ended(mut self) -> Result<Draft, Finding> {
        if self.draft.nonterminals.is_empty() {
            return self.fault("no rule is found");
        }
        // A declaration may stand behind the rules that use it.
        for name in self.draft.rules.iter_mut().flat_map(|(_, right)| right) {
            if let Some(token) = name.strip_prefix(QUOTED).and_then(|text| self.aliases.get(text)) {
                name.clone_from(token);
            }
        }
        if let Some(place) = self.start.take().and_then(|start| self.draft.nonterminals.iter().position(|name| *name == start))
        {
            let name = self.draft.nonterminals.remove(place);
            self.draft.nonterminals.insert(0, name);
        }
        let draft = &mut self.draft;
        let mut known: HashSet<&String> = draft.nonterminals.iter().collect();
        draft.terminals.retain(|name| !known.contains(name));
        let declared = draft.terminals.clone();
        known.extend(&declared);
        for name in draft.rules.iter().flat_map(|(_, right)| right) {
            if draft.terminals.len() <= MOST && known.insert(name) {
                draft.terminals.push(name.clone());
            }
        }
        if self.draft.is_too_large() {
            return self.fault(&format!("there are more than {MOST} names or rules"));
        }
        self.draft.note(1, "the grammar is written as grammar text; what has no rule is a terminal");
        Ok(self.draft)
    }
}
