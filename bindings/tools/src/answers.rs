//! What is said of the trees of sentences, as `ambig-trees` tells it, and of the plans of methods, as `ambig-plan` does: in lines, for
//! scripts, and as JSON.

use ambiguity::two_trees::tree::{self, Tree};
use ambiguity::{find_trees, trees_entries, Cause, Code, Grammar, Refusal, TreesFound};

use crate::callers;
use crate::command::{Answer, Request, Status};
use crate::diagnosis::{Finding, Rows};
use crate::json;
use crate::layout::{self, WIDTH};
use crate::refusals;
use crate::rows::{self, Sentence};
use crate::words;

/// The rules of a tree that is listed. A tree with many empty nodes may have more than any list holds.
pub const MOST_RULES: usize = 1 << 16;

/// The trees of a sentence.
pub enum Trees {
    None,
    /// The only one, and its rules.
    One(Tree, Vec<u16>),
    Several,
    /// The sentence is refused, or its one tree has more than MOST_RULES.
    Refused(Refusal, Vec<Finding>),
}

/// What a sentence and its tree are called.
pub struct Wording {
    pub sentence: &'static str,
    pub tree: &'static str,
}

pub const SENTENCES: Wording = Wording { sentence: "sentence", tree: "tree" };

/// Where a row that has no tree goes wrong: what stands before this place is the longest front that some sentence begins with.
#[derive(Debug, PartialEq, Eq)]
pub struct Fault {
    /// From 0; the row's length if only its end is wrong.
    pub place: usize,
    /// The terminals that may stand there.
    pub expected: Vec<Code>,
    /// Whether the sentence may end there.
    pub may_end: bool,
}

/// A sentence with its trees.
pub struct Answered<'a> {
    pub sentence: Sentence<'a>,
    pub trees: Trees,
    /// Where a row without a tree goes wrong; `ambig-plan` alone tells it.
    pub fault: Option<Fault>,
    pub wording: &'static Wording,
}

/// The sentences of a file; or why there are none to answer.
pub fn sentences<'a>(grammar: &Grammar, wording: &Wording, file: &str, text: &'a [u8]) -> Result<Vec<Sentence<'a>>, Answer> {
    if text.len() > rows::MOST_BYTES {
        return Err(Answer::misuse(&format!("{file}: error: more than {} bytes; that is the limit", rows::MOST_BYTES)));
    }
    let sentences = rows::read(grammar, text);
    if sentences.is_empty() {
        let name = wording.sentence;
        return Err(Answer::misuse(&format!("{file}: error: no {name} is found; a line without words is the empty {name}")));
    }
    Ok(sentences)
}

/// What is said of all sentences of a file, in the form that is asked for; the page is made elsewhere.
pub fn all_said(request: &Request, grammar: &Grammar, file: &str, answers: &[Answered], page: impl Fn() -> String) -> Answer {
    let silent = request.has("--quiet") || request.has("--json");
    let out = match request {
        _ if request.has("--html") => page(),
        _ if request.has("--json") => answers.iter().map(|answered| answered.json(grammar, file)).collect(),
        _ if request.has("--quiet") => answers.iter().map(|answered| answered.lines()).collect(),
        _ => answers.iter().map(|answered| answered.told(grammar, file)).collect(),
    };
    let err = answers.iter().filter(|_| !silent).map(|answered| answered.refused(file)).collect();
    let status = answers.iter().map(|answered| answered.status()).reduce(Status::worse).unwrap_or(Status::Yes);
    Answer { status, out, err }
}

/// The trees of sentences, by the library's entry, which is lent the same rows for each.
pub fn of<'a>(grammar: &Grammar, sentences: Vec<Sentence<'a>>) -> Vec<Answered<'a>> {
    let (mut work, mut list) = (vec![0; trees_entries(grammar.states())], vec![0; MOST_RULES]);
    let mut diagnosis = Rows::new(grammar);
    let answered = |sentence: Sentence<'a>| {
        let trees = match find_trees(grammar.table(), &sentence.row, &mut work, &mut list) {
            Ok(TreesFound::Nothing) => Trees::None,
            Ok(TreesFound::Several) => Trees::Several,
            Ok(TreesFound::One { rules }) => {
                let rules = list[..rules].to_vec();
                Trees::One(tree::of_rules(grammar, &rules).expect("the rules that are listed are those of a tree"), rules)
            }
            Err(refusal) => Trees::Refused(refusal, diagnosis.findings(&sentence, refusal)),
        };
        Answered { sentence, trees, fault: None, wording: &SENTENCES }
    };
    sentences.into_iter().map(answered).collect()
}

/// `1 rule`, `4 rules`.
fn counted(rules: usize) -> String {
    format!("{rules} rule{}", if rules == 1 { "" } else { "s" })
}

/// Why one tree is not listed.
fn too_large() -> String {
    format!("the sentence has one tree, of more than {MOST_RULES} rules; it is not listed")
}

impl Answered<'_> {
    /// What is said of the trees in a line; nothing of a sentence that is refused.
    pub fn said(&self, grammar: &Grammar) -> Option<String> {
        let Wording { sentence, tree } = self.wording;
        let row = || match &self.sentence.row[..] {
            [] => format!("the empty {sentence}"),
            row => format!("`{}`", words::row(grammar, row)),
        };
        match &self.trees {
            Trees::None => Some(format!("none: {} has no {tree}", row())),
            Trees::One(_, rules) => Some(format!("one: {} has one {tree}, of {}", row(), counted(rules.len()))),
            Trees::Several => Some(format!("several: {} has several {tree}s", row())),
            Trees::Refused(..) => None,
        }
    }

    /// What is said of the place where the row goes wrong.
    pub fn fault_said(&self, grammar: &Grammar) -> Option<String> {
        let Fault { place, expected, may_end } = self.fault.as_ref()?;
        let named = |code: Code| format!("`{}`", words::symbol(grammar, code));
        let mut names: Vec<String> = expected.iter().map(|code| named(*code)).collect();
        names.extend(may_end.then(|| "the end".to_string()));
        let stands = match self.sentence.row.get(*place) {
            Some(code) => format!("word {}, {}, stands", place + 1, named(*code)),
            None => format!("the {} ends", self.wording.sentence),
        };
        Some(format!("{stands} where {} is expected", words::one_of(&names)))
    }

    /// The column of a place of the row, or that behind its last word.
    fn column(&self, place: usize) -> usize {
        let words = &self.sentence.words;
        let behind = words.last().map_or(0, |word| word.at + word.bytes.len());
        words.get(place).map_or(behind, |word| word.at) + 1
    }

    /// The answer in lines of a page's width, with the one tree.
    pub fn told(&self, grammar: &Grammar, file: &str) -> String {
        let Some(said) = self.said(grammar) else { return String::new() };
        let lines = |text: &str| layout::wrapped(text, WIDTH, 2).join("\n") + "\n";
        let said = lines(&format!("{file}:{}: {said}", self.sentence.line));
        let fault = self.fault.as_ref().zip(self.fault_said(grammar)).map(|(fault, said)| {
            let column = self.column(fault.place);
            lines(&format!("{file}:{}:{column}: fault: {said}", self.sentence.line))
        });
        match &self.trees {
            Trees::One(tree, _) => said + &layout::tree(grammar, tree),
            _ => said + &fault.unwrap_or_default(),
        }
    }

    /// Lines for scripts.
    pub fn lines(&self) -> String {
        let line = format!("line={}\n", self.sentence.line);
        match &self.trees {
            Trees::None => {
                let fault = self.fault.as_ref().map(|fault| format!("fault={}\n", fault.place));
                line + "trees=none\n" + &fault.unwrap_or_default()
            }
            Trees::One(_, rules) => {
                let rules: Vec<usize> = rules.iter().map(|rule| usize::from(*rule)).collect();
                format!("{line}trees=one\nrules={}\n", callers::listed(&rules))
            }
            Trees::Several => line + "trees=several\n",
            Trees::Refused(refusal, _) => line + &refusals::numbers(*refusal),
        }
    }

    /// One line of JSON.
    pub fn json(&self, grammar: &Grammar, file: &str) -> String {
        let Answered { sentence, trees, fault, .. } = self;
        let told = |found: &str, more: Vec<(&'static str, String)>| {
            json::trees(file, sentence.line, grammar, &sentence.row, found, more)
        };
        match trees {
            Trees::None => {
                let fault = fault.as_ref().map(|fault| json::fault(grammar, fault, self.column(fault.place)));
                told("none", fault.unwrap_or_default())
            }
            Trees::One(tree, rules) => told("one", json::one(grammar, tree, rules)),
            Trees::Several => told("several", Vec::new()),
            Trees::Refused(refusal, findings) => {
                let large = || Finding { line: sentence.line, column: 1, message: too_large() };
                let finding =
                    findings.first().map_or_else(large, |finding| Finding { message: finding.message.clone(), ..*finding });
                json::refused_sentence(file, *refusal, &finding)
            }
        }
    }

    /// What is wrong with a sentence that is refused.
    pub fn refused(&self, file: &str) -> String {
        match &self.trees {
            Trees::Refused(refusal @ Refusal { cause: Cause::RowWrong, .. }, findings) => {
                refusals::of_findings(file, findings, *refusal)
            }
            Trees::Refused(refusal, _) => {
                refusals::message(file, self.sentence.line, 1, "error", &format!("{} ({refusal})", too_large()))
            }
            _ => String::new(),
        }
    }

    pub fn status(&self) -> Status {
        match self.trees {
            Trees::One(..) => Status::Yes,
            Trees::Several => Status::No,
            Trees::None => Status::Potential,
            Trees::Refused(..) => Status::Refused,
        }
    }
}
