//! What the tests share: running the tools, and grammars on file.

use std::io::Write;
use std::path::PathBuf;
use std::process::{Command, Stdio};

pub const CERTIFY: &str = env!("CARGO_BIN_EXE_ambig-certify");
pub const CHECK: &str = env!("CARGO_BIN_EXE_ambig-check");
pub const JOIN: &str = env!("CARGO_BIN_EXE_ambig-join");
pub const DRAFT: &str = env!("CARGO_BIN_EXE_ambig-draft");
pub const PLAN: &str = env!("CARGO_BIN_EXE_ambig-plan");
pub const TREES: &str = env!("CARGO_BIN_EXE_ambig-trees");

/// What a tool answered.
#[derive(Debug, PartialEq)]
pub struct Ran {
    pub status: i32,
    pub out: String,
    pub err: String,
}

/// Runs a tool with these words and this standard input.
pub fn run(tool: &str, words: &[&str], input: &[u8]) -> Ran {
    let mut command = Command::new(tool);
    command.args(words).stdin(Stdio::piped()).stdout(Stdio::piped()).stderr(Stdio::piped());
    let mut child = command.spawn().expect("the tool runs");
    // A tool that refuses its words does not read.
    let _ = child.stdin.take().unwrap().write_all(input);
    let output = child.wait_with_output().unwrap();
    let text = |bytes| String::from_utf8(bytes).unwrap();
    Ran { status: output.status.code().unwrap(), out: text(output.stdout), err: text(output.stderr) }
}

/// Grammar text in a file of the tests; each test has its own names.
pub fn file(name: &str, text: &str) -> String {
    let path = PathBuf::from(env!("CARGO_TARGET_TMPDIR")).join(name);
    std::fs::write(&path, text).unwrap();
    path.to_str().unwrap().to_string()
}

/// A folder of the repository.
pub fn folder(name: &str) -> PathBuf {
    PathBuf::from(env!("CARGO_MANIFEST_DIR")).join("../..").join(name)
}

/// What a tool answers if nothing goes to standard error.
pub fn said(status: i32, out: &str) -> Ran {
    Ran { status, out: out.to_string(), err: String::new() }
}

/// A grammar of the corpus: its name, its truth and its text.
pub struct Entry {
    pub name: String,
    pub truth: String,
    pub text: String,
}

/// The grammars of the corpus that have a sentence.
pub fn corpus() -> Vec<Entry> {
    entries().into_iter().filter(|entry| entry.truth != NO_SENTENCE).collect()
}

/// Those that have none.
pub fn without_sentence() -> Vec<Entry> {
    entries().into_iter().filter(|entry| entry.truth == NO_SENTENCE).collect()
}

const NO_SENTENCE: &str = "no-sentence";

/// The corpus, by its index.
fn entries() -> Vec<Entry> {
    let read = |name: &str| std::fs::read_to_string(folder("corpus").join(name)).unwrap();
    let entry = |line: &str| {
        let columns: Vec<&str> = line.split('\t').collect();
        let text = read(&format!("{}.grammar", columns[0]));
        Entry { name: columns[0].to_string(), truth: columns[6].to_string(), text }
    };
    read("INDEX.tsv").lines().skip(1).map(entry).collect()
}

/// What the certificate tool says of a text.
pub fn certify(text: &str) -> Ran {
    run(CERTIFY, &["-"], text.as_bytes())
}

/// Grammar text with these rules, as `S: a`.
pub fn text(terminals: &str, nonterminals: &str, rules: &[&str]) -> String {
    let lines: String = rules.iter().map(|rule| format!("rule={rule}\n")).collect();
    format!("terminals={terminals}\nnonterminals={nonterminals}\n{lines}")
}

pub fn one_a() -> String {
    text("a", "S", &["S: a"])
}

/// Unambiguous grammars: document 01's rows, and such as papers have.
pub fn unambiguous() -> Vec<String> {
    vec![
        text("", "S", &["S:"]),
        one_a(),
        text("a", "S", &["S: S a", "S: a"]),
        text("a,b", "S", &["S: a S b", "S:"]),
        text("a", "S,W,X", &["S: W", "S: X", "W: W a a", "W: a", "X: a a"]),
        text("a", "S", &["S: a S", "S: a"]),
        text("open,close", "S", &["S: open S close S", "S:"]),
        text("op,id", "S", &["S: op S S", "S: id"]),
        text("op,id", "S", &["S: S S op", "S: id"]),
        text("a,b", "S,W,X", &["S: W X", "W: a W", "W:", "X: b X", "X:"]),
        text("a,b,c", "S", &["S: a S a", "S: b S b", "S: c"]),
        text("a,b", "S,W", &["S: a", "W: b"]),
        text("a", "S,W", &["W: a", "S:"]),
        text("x", "S,A,B,C", &["S: A", "A: B", "B: C", "C: x"]),
        text("a", "S", &["S: a a a a a a a a a a a a"]),
        text("plus,times,open,close,id", "E,T,F", &["E: E plus T", "E: T", "T: T times F", "T: F", "F: open E close", "F: id"]),
        text("comma,open,close,id", "L,I", &["L: L comma I", "L: I", "I: id", "I: open L close"]),
        text("if,then,else,skip,id", "stmt,expr", &["stmt: if expr then stmt else stmt", "stmt: skip", "expr: id"]),
        text("go,stop,nl,d", "S,C,N", &["S: S C nl", "S:", "C: go N", "C: stop", "N: d", "N: N d"]),
        text("lb,rb,comma,n", "V,L", &["V: n", "V: lb rb", "V: lb L rb", "L: V", "L: L comma V"]),
        text("a,b,c", "S,W,X", &["S: W c", "S: X c", "W: a W", "W: a", "X: b X", "X: b"]),
    ]
}
