//! What the tests share: short words for tables, answers and step records, rows between guards, searches that are lent their room and
//! less, and the second program's cases with its answers.
#![allow(dead_code)]

use ambiguity::{Cause, Code, Move, Refusal, Room, Step, Table, TripleRecord, Verdict, START};
use std::collections::BTreeMap;
use std::fmt::Debug;
use std::fs;
use std::io::{self, Write};
use std::path::{Path, PathBuf};
use std::process::Command;

const GUARD: usize = 64;

/// The codes of the first three nonterminals.
pub const S: Code = START;
pub const A: Code = START + 1;
pub const B: Code = START + 2;

pub fn grammar(terminals: usize, nonterminals: usize, rules: &[Code]) -> Table<'_> {
    Table { terminals, nonterminals, rules }
}

pub fn refused<T>(cause: Cause, at: usize) -> Result<T, Refusal> {
    Err(Refusal { cause, at })
}

/// The bytes that hexadecimal digits stand for.
pub fn bytes_of(digits: &str) -> Vec<u8> {
    (0..digits.len()).step_by(2).map(|place| u8::from_str_radix(&digits[place..place + 2], 16).unwrap()).collect()
}

fn move_text(side: Move) -> String {
    match side {
        Move::Still => "-".to_string(),
        Move::Opening(rule) => format!("o{rule}"),
        Move::Closing(rule) => format!("c{rule}"),
        Move::Symbol(code) => format!("s{code}"),
    }
}

fn step_text(step: Step) -> String {
    let (on_left, on_right) = (move_text(step.on_left), move_text(step.on_right));
    format!(" {},{},{},{on_left},{on_right}", step.layer, step.left, step.right)
}

/// All step records of a triple, as second/README.md has their line.
pub fn all_steps(table: Table, callers: usize, layer: usize, left: usize, right: usize) -> Result<String, Refusal> {
    let mut records = Vec::new();
    while let Some(step) = ambiguity::nth_step(table, callers, layer, left, right, records.len())? {
        records.push(step_text(step));
    }
    assert_eq!(ambiguity::nth_step(table, callers, layer, left, right, usize::MAX)?, None);
    Ok(format!("records={}{}", records.len(), records.concat()))
}

/// A row to lend, between two guards.
pub struct Lent<T> {
    whole: Vec<T>,
    before: Vec<T>,
}

impl<T: Copy + PartialEq + Debug> Lent<T> {
    pub fn new(content: &[T], guard: T) -> Self {
        let mut whole = vec![guard; GUARD];
        whole.extend_from_slice(content);
        whole.resize(content.len() + 2 * GUARD, guard);
        Lent { before: whole.clone(), whole }
    }

    pub fn row(&self) -> &[T] {
        &self.whole[GUARD..self.whole.len() - GUARD]
    }

    pub fn row_mut(&mut self) -> &mut [T] {
        let end = self.whole.len() - GUARD;
        &mut self.whole[GUARD..end]
    }

    /// The guards are as they were, and of the row all that stands past its front.
    pub fn kept_past(&self, front: usize) -> bool {
        let from = GUARD + front;
        self.whole[..GUARD] == self.before[..GUARD] && self.whole[from..] == self.before[from..]
    }

    pub fn kept(&self) -> bool {
        self.kept_past(0)
    }
}

/// Searches with rows of these lengths, certificate, queue, parents, witness; back comes also whether nothing that was lent has changed.
fn lent_search(table: Table, callers: usize, lengths: [usize; 4]) -> (Result<Verdict, Refusal>, bool) {
    let mut certificate = Lent::new(&vec![7; lengths[0]], 0xFF);
    let [mut queue, mut parents, mut witness] = [1, 2, 3].map(|row| Lent::new(&vec![7; lengths[row]], u32::MAX));
    let rows = (queue.row_mut(), parents.row_mut(), witness.row_mut());
    let answer = ambiguity::search(table, callers, certificate.row_mut(), rows.0, rows.1, rows.2);
    (answer, certificate.kept() && queue.kept() && parents.kept() && witness.kept())
}

/// A search that is lent so little is refused with 14, and changes nothing.
pub fn lent_less(table: Table, callers: usize, lengths: [usize; 4]) {
    search_refused(table, callers, lengths, Cause::BufferTooShort);
}

/// A search that is refused so at 0 changes nothing.
pub fn search_refused(table: Table, callers: usize, lengths: [usize; 4], cause: Cause) {
    let answer = lent_search(table, callers, lengths);
    assert_eq!(answer, (refused(cause, 0), true), "{table:?} {callers} {lengths:?}");
}

/// A search of a table without a fault that is lent its room is not refused, and looks at no more than the room tells; lent one less
/// of any, it is refused.
pub fn lent_room(table: Table, callers: usize) {
    let room = ambiguity::search_room(table, callers).unwrap();
    let Room { certificate, entries, .. } = room;
    let enough = [certificate, entries, entries, entries];
    let answer = lent_search(table, callers, enough).0;
    assert!(answer.is_ok_and(|verdict| verdict.looked() <= room.most_looked()), "{table:?} {callers}");
    for row in 0..enough.len() {
        let mut less = enough;
        less[row] -= 1;
        lent_less(table, callers, less);
    }
}

/// The cases of a file, one part after the other.
pub struct Cases {
    data: Vec<u8>,
    at: usize,
}

impl Cases {
    fn take(&mut self, length: usize) -> &[u8] {
        self.at += length;
        &self.data[self.at - length..self.at]
    }

    pub fn long(&mut self) -> usize {
        u64::from_le_bytes(self.take(8).try_into().unwrap()) as usize
    }

    pub fn number(&mut self) -> usize {
        u32::from_le_bytes(self.take(4).try_into().unwrap()) as usize
    }

    pub fn byte(&mut self) -> u8 {
        self.take(1)[0]
    }

    pub fn bytes(&mut self) -> Vec<u8> {
        let length = self.number();
        self.take(length).to_vec()
    }

    pub fn words(&mut self) -> Vec<u32> {
        let length = self.number();
        (0..length).map(|_| self.number() as u32).collect()
    }

    pub fn records(&mut self) -> Vec<TripleRecord> {
        let length = self.number();
        (0..length).map(|_| self.record()).collect()
    }

    fn record(&mut self) -> TripleRecord {
        let [layer, left, right] = [0; 3].map(|_| self.number() as u32);
        TripleRecord { layer, left, right }
    }

    fn entries(&mut self) -> Vec<Code> {
        let length = self.number();
        self.take(2 * length).chunks(2).map(|entry| Code::from_le_bytes([entry[0], entry[1]])).collect()
    }

    /// t, n and the rules: how many entries there are, then each in two bytes.
    pub fn table(&mut self) -> (usize, usize, Vec<Code>) {
        (self.long(), self.long(), self.entries())
    }
}

/// A file of the comparison of a kind of cases. The gate leaves the second program's there.
pub fn file(kind: &str, ending: &str) -> PathBuf {
    Path::new(env!("CARGO_MANIFEST_DIR")).join(format!("../../target/gate/{kind}.{ending}"))
}

/// A file of the second program; what is missing is made here.
fn made(file: &Path, script: &str, arguments: &[&Path], verb: &str) {
    if !file.exists() {
        fs::create_dir_all(file.parent().unwrap()).unwrap();
        // Written past the capture of the tests: this may take a minute.
        let _ = writeln!(io::stderr(), "python3 second/{script} {verb}: makes {}", file.file_name().unwrap().to_string_lossy());
        let second = Path::new(env!("CARGO_MANIFEST_DIR")).join("../../second").join(script);
        let status = Command::new("python3").arg(second).arg(verb).args(arguments).status();
        assert!(status.expect("python3 runs").success(), "{script} {verb}");
    }
}

/// The refusal that a line tells, without its position; where nothing is refused, that.
fn cause_of(line: &str) -> &str {
    line.split(' ').next().filter(|word| word.contains(REFUSED)).unwrap_or(NOT_REFUSED)
}

const REFUSED: &str = "refused=";
const NOT_REFUSED: &str = "not refused";

/// What is compared: the kind of the cases, the script that makes them, and what stands before its verbs; the causes that such a
/// case can be refused for, and those that are told of its grammar apart; and what the library has of an answer's line.
pub struct Comparison<'a> {
    pub kind: &'a str,
    pub script: &'a str,
    pub verb: &'a str,
    pub causes: &'a [usize],
    pub grammar_causes: &'a [usize],
    pub told: fn(&str) -> &str,
}

impl Comparison<'_> {
    /// Every case, asked with two kinds of guards, is answered as the second program answers it. Prints how many answers there are
    /// for each cause: none is missing.
    pub fn agrees(&self, mut ask: impl FnMut(&mut Cases, u8) -> String) {
        let Comparison { kind, script, verb, .. } = self;
        let (cases, answers, counts) = (file(kind, "cases"), file(kind, "answers"), file(kind, "counts"));
        made(&cases, script, &[&cases], &format!("{verb}cases"));
        made(&answers, script, &[&cases, &answers, &counts], &format!("{verb}answers"));
        let mut cases = Cases { data: fs::read(cases).unwrap(), at: 0 };
        let answers = fs::read_to_string(answers).unwrap();
        let mut found = BTreeMap::new();
        for (i, line) in answers.lines().enumerate() {
            let start = cases.at;
            let answer = ask(&mut cases, 0x00);
            assert_eq!(answer, (self.told)(line), "case {i} of {kind}");
            cases.at = start;
            assert_eq!(ask(&mut cases, 0xFF), answer, "case {i} of {kind}, other guards");
            *found.entry(cause_of(&answer).to_string()).or_default() += 1;
        }
        assert_eq!(cases.at, cases.data.len(), "every case of {kind} has its answer");
        self.counted(&found);
    }

    fn counted(&self, found: &BTreeMap<String, usize>) {
        let causes = self.causes.iter().map(|cause| format!("{REFUSED}{cause}"));
        let of_grammar = self.grammar_causes.iter().map(|cause| format!("grammar-{REFUSED}{cause}"));
        let expected: Vec<String> = [NOT_REFUSED.to_string()].into_iter().chain(causes).chain(of_grammar).collect();
        let count = |name: &String| found.get(name).copied().unwrap_or(0);
        let counts: Vec<String> = expected.iter().map(|name| format!("{name}: {}", count(name))).collect();
        println!("{}: {} cases twice, {}", self.kind, found.values().sum::<usize>(), counts.join(", "));
        assert!(expected.iter().all(|name| count(name) > 0), "{} lacks an answer", self.kind);
        assert!(found.keys().all(|name| expected.contains(name)), "{} with {found:?}", self.kind);
    }
}
