//! The library for Rust: the table check, the step records, the certificate check, the witness check over indices and over records,
//! the search, the reader and the writer of grammar text, what search and writer are to be lent, told beforehand, the report that the
//! program prints, reading back of the two strings that it prints, the join of a module's text to the robot's, the derivation trees of
//! one sentence, drafts: grammars while they are edited, with marks to return to, and the plans of the eight-channel command set.
//! bindings/c/ambiguity.h says of each what is lent and what comes back; here slices stand for pointers, and enums for numbers. Rows that
//! are written cannot overlap others: the borrow rules see to that.
//!
//! Every input is taken. A refusal changes no lent row, but for the work row of [`find_trees`] and [`read_plan`] in one case. A written row
//! may be longer than needed: its rest stays as it was. The stack that a call uses is measured and not proved: bindings/c/ambiguity.h has the figures,
//! for reader, search, report, reading back and join `AMBIGUITY_READ_TEXT_STACK_BYTES` and so on, for all others
//! `AMBIGUITY_STACK_BYTES`.
//!
//! Names that differ only in the case of ASCII letters are the same name: in the lists and rules of a text, in two texts that are
//! joined, among those that the writer is given, and in two lines that are read back. What is written has the declared spelling. Keys,
//! as `rule=`, are no names.
//!
//! Searches and checks take `callers`, how many callers a state of the automaton remembers: 0, 1 or 2. At 0 a state is an item, a place in
//! a rule, and a rule that ends returns to every place that may have called it. At 1 or 2 a state is an item with its nearest calling
//! items, and a rule that ends returns to its nearest caller, so that fewer alarms are false. A rule then has its states once for each
//! chain of its callers: [`search_room`] tells Q, rows grow with Q squared, and the automaton is built in time that grows with Q. Begin with
//! 0; where the verdict is potential and you believe it to be a false alarm, try 1, then 2. Unambiguous at some number stays so at the next,
//! where the states fit. Whatever the number, an accepted certificate says that no sentence has two derivation trees; it holds with the
//! number that it was made with. More than [`MAX_CALLERS`] are refused with 21 at 0, behind the causes of the table; then more than
//! [`MAX_STATES`] states with these callers with 8 at 0.
//!
//! [`Grammar`] owns its rows: read a text, or two that are joined ([`join`]), search it, check a certificate, read two strings back, find
//! the trees of a sentence. So does [`Draft`]: add and withdraw rules, set a mark and return to it. [`plan`] lends its rows itself. The
//! other functions are lent theirs.
//!
//! All of these pass on what the proved library answers. One module does not: [`two_trees`] looks for two derivation trees of a grammar that
//! is potentially ambiguous, and is tested, not proved. What it finds, [`find_trees`] confirms.

#![warn(missing_docs)]

#[cfg(not(all(target_arch = "x86_64", unix)))]
compile_error!("the archive is for x86-64 with the System V calling convention");

mod cause_text;
mod drafts;
mod grammar;
mod joining;
mod letters;
mod plans;
mod raw;
mod refusal;
mod room;
mod strings;
mod trees;
pub mod two_trees;

pub use drafts::{
    add_rule, draft_counts, draft_room, draft_table, new_draft, return_to_mark, set_mark, withdraw_rule, Counts, Draft,
};
pub use drafts::{DRAFT_BLOCK, DRAFT_ENTRIES, MARKS};
pub use grammar::{Code, Grammar, Rule, Searched, START};
pub use joining::{join, join_texts, joined_name, joined_text, write_joined, JoinPart, JoinRefusal};
pub use letters::{Letter, Part, PartRefusal, ReadBack};
pub use plans::{plan, plan_certificate, plan_certificate_byte, plan_room, read_plan, PlanTerminal};
pub use plans::{PLAN_CERTIFICATE_BYTES, PLAN_STATES, PLAN_WORK_ENTRIES};
pub use refusal::{Cause, Refusal};
pub use room::{search_room, written_length, Room};
pub use strings::Strings;
pub use trees::{find_trees, trees_entries, trees_room, Trees, TreesFound, MAX_ROW, PLACES};

/// Document 02's limit of terminals.
pub const MAX_TERMINALS: usize = 2_000;
/// Document 02's limit of nonterminals.
pub const MAX_NONTERMINALS: usize = 2_000;
/// Document 02's limit of rules, rule 0 not counted.
pub const MAX_RULES: usize = 400;
/// Document 02's limit of states.
pub const MAX_STATES: usize = 1_024;
/// The most callers that a state remembers.
pub const MAX_CALLERS: usize = 2;
/// Document 02's limit of a text's bytes.
pub const MAX_TEXT_BYTES: usize = 262_144;

/// Enough for any grammar: the entries of its table.
pub const MAX_TABLE_ENTRIES: usize = MAX_STATES - 4 + MAX_RULES;
/// Enough for any grammar: its symbols.
pub const MAX_NAMES: usize = MAX_TERMINALS + MAX_NONTERMINALS;

/// The most bytes of a text that the report takes.
pub const MAX_REPORT_TEXT_BYTES: usize = 4_096;
/// The most states of a grammar that the report takes.
pub const MAX_REPORT_STATES: usize = 48;
/// An output of so many bytes is never too short for a report: 64, and 16 for each letter of its two strings.
pub const MAX_REPORT_BYTES: usize = 64 + 2 * 16 * row_entries(MAX_REPORT_STATES);

/// The triples of Q states, so the entries of a row with one for each.
#[must_use]
pub const fn row_entries(states: usize) -> usize {
    2 * states * states
}

/// The bytes of a certificate for Q states.
#[must_use]
pub const fn certificate_bytes(states: usize) -> usize {
    row_entries(states).div_ceil(8)
}

/// A grammar as tables: t terminals, n nonterminals, the rules end to end. Nothing is asked of it.
#[derive(Clone, Copy, Debug)]
pub struct Table<'a> {
    /// t.
    pub terminals: usize,
    /// n.
    pub nonterminals: usize,
    /// Of each rule the left code, the length of its right side and the codes of that.
    pub rules: &'a [Code],
}

/// What moved on one side of a step: a rule opened or closed, by its number, or a symbol passed, by its code.
#[derive(Clone, Copy, Debug, PartialEq, Eq)]
pub enum Move {
    /// Nothing moved.
    Still,
    /// The rule of this number was opened.
    Opening(u64),
    /// The rule of this number was closed.
    Closing(u64),
    /// The symbol of this code was passed.
    Symbol(u64),
}

/// A step record: the next triple, and for either side what moved.
#[derive(Clone, Copy, Debug, PartialEq, Eq)]
pub struct Step {
    /// The next triple's layer, 0 or 1.
    pub layer: usize,
    /// Its left state.
    pub left: usize,
    /// Its right state.
    pub right: usize,
    /// What moved on the left.
    pub on_left: Move,
    /// What moved on the right.
    pub on_right: Move,
}

/// An entry of a witness as a triple. Nothing is asked of its numbers.
#[derive(Clone, Copy, Debug, PartialEq, Eq)]
#[repr(C)]
pub struct TripleRecord {
    /// 0 or 1.
    pub layer: u32,
    /// The left state, below Q.
    pub left: u32,
    /// The right state, below Q.
    pub right: u32,
}

/// What the search found: the certificate holds `size` triples, or the witness has so many entries; and how much there was to look at.
///
/// `looked` is the number of choices of moves that give a successor, each choice counted, over all triples that are reached from
/// (0,0,0). Each of these is taken up once; of its successors the code may try fewer, since it leaves out blocks that were had. The
/// figure depends on the table and the callers alone, and is at most [`Room::most_looked`].
#[derive(Clone, Copy, Debug, PartialEq, Eq)]
pub enum Verdict {
    /// No sentence has two derivation trees.
    Unambiguous {
        /// The number of triples that the certificate holds.
        size: usize,
        /// The number of successors that there are to look at.
        looked: usize,
    },
    /// Two strings part.
    Potential {
        /// The number of the witness's entries.
        entries: usize,
        /// The number of successors that there are to look at.
        looked: usize,
    },
}

impl Verdict {
    /// The number of successors that there are to look at, with either verdict.
    #[must_use]
    pub const fn looked(self) -> usize {
        match self {
            Verdict::Unambiguous { looked, .. } | Verdict::Potential { looked, .. } => looked,
        }
    }
}

/// What a text says: t, n, the number of the table's entries, and Q.
#[derive(Clone, Copy, Debug, PartialEq, Eq)]
pub struct Read {
    /// t.
    pub terminals: usize,
    /// n.
    pub nonterminals: usize,
    /// The number of the table's entries.
    pub entries: usize,
    /// Q at 0 callers.
    pub states: usize,
}

/// The names of a table's symbols, terminals first: name i is the part of `bytes` from `starts[i]` on, of `lengths[i]` bytes.
#[derive(Clone, Copy, Debug)]
pub struct Names<'a> {
    /// What holds all the names; the text that was read serves.
    pub bytes: &'a [u8],
    /// Where each name starts.
    pub starts: &'a [u32],
    /// How many bytes each name has.
    pub lengths: &'a [u32],
}

fn move_of(reply: &raw::MoveReply) -> Move {
    match reply.moved {
        0 => Move::Still,
        1 => Move::Opening(reply.number),
        2 => Move::Closing(reply.number),
        3 => Move::Symbol(reply.number),
        other => unreachable!("no kind of move has the number {other}"),
    }
}

fn verdict_of(reply: &raw::SearchReply) -> Verdict {
    let (count, looked) = (reply.count as usize, reply.looked as usize);
    match reply.verdict {
        1 => Verdict::Unambiguous { size: count, looked },
        2 => Verdict::Potential { entries: count, looked },
        other => unreachable!("no verdict has the number {other}"),
    }
}

/// Q of a table, at 0 callers.
///
/// # Errors
///
/// Causes 1 to 8, then 19 for a grammar without a sentence; all functions that take a table refuse with them before their own.
///
/// ```
/// use ambiguity::{check_table, Cause, Refusal, Table, START};
///
/// let table = Table { terminals: 1, nonterminals: 1, rules: &[START, 1, 1] };
/// assert_eq!(check_table(table), Ok(6));
/// let cut = Table { rules: &[START, 1], ..table };
/// assert_eq!(check_table(cut), Err(Refusal { cause: Cause::Truncated, at: 0 }));
/// let endless = Table { rules: &[START, 1, START], ..table };
/// assert_eq!(check_table(endless), Err(Refusal { cause: Cause::NoSentence, at: 0 }));
/// ```
pub fn check_table(table: Table) -> Result<usize, Refusal> {
    let Table { terminals, nonterminals, rules } = table;
    // SAFETY: the pointer and the length are those of a slice, which lives on during the call; so in every call below.
    let reply = unsafe { raw::ambiguity_check_table(terminals, nonterminals, rules.as_ptr(), rules.len()) };
    refusal::or_else(reply.cause, reply.at, || reply.states as usize)
}

/// The step record of (layer, left, right) at a place from 0; none past the last one, and for a triple out of range.
///
/// # Errors
///
/// Those of the table, 21, 8.
pub fn nth_step(
    table: Table,
    callers: usize,
    layer: usize,
    left: usize,
    right: usize,
    nth: usize,
) -> Result<Option<Step>, Refusal> {
    let Table { terminals, nonterminals, rules } = table;
    let (entries, length) = (rules.as_ptr(), rules.len());
    let reply = unsafe { raw::ambiguity_nth_step(terminals, nonterminals, entries, length, callers, layer, left, right, nth) };
    refusal::or_else(reply.cause, reply.at, || {
        (reply.kind == 1).then(|| Step {
            layer: reply.layer as usize,
            left: reply.left as usize,
            right: reply.right as usize,
            on_left: move_of(&reply.on_left),
            on_right: move_of(&reply.on_right),
        })
    })
}

/// Accepted exactly if the certificate is acceptable; then no sentence of the grammar has two derivation trees.
///
/// # Errors
///
/// 21, 8, then causes 9 to 13. Whatever certificate comes with a grammar without a sentence, it is 19.
pub fn check_certificate(table: Table, callers: usize, certificate: &[u8]) -> Result<(), Refusal> {
    let Table { terminals, nonterminals, rules } = table;
    let (entries, bytes) = (rules.as_ptr(), certificate.as_ptr());
    let reply = unsafe {
        raw::ambiguity_check_certificate(terminals, nonterminals, entries, rules.len(), callers, bytes, certificate.len())
    };
    refusal::or_else(reply.cause, reply.at, || ())
}

/// Accepted exactly if the row of indices leads from (0,0,0) to (1,1,1) by successors; then two strings part.
///
/// # Errors
///
/// 21, 8, then cause 15.
pub fn check_witness(table: Table, callers: usize, row: &[u32]) -> Result<(), Refusal> {
    let Table { terminals, nonterminals, rules } = table;
    let (entries, indices) = (rules.as_ptr(), row.as_ptr());
    let reply =
        unsafe { raw::ambiguity_check_witness(terminals, nonterminals, entries, rules.len(), callers, indices, row.len()) };
    refusal::or_else(reply.cause, reply.at, || ())
}

/// The witness check over a row of records, which answers alike: a layer above 1 or a state of Q or more is a wrong entry.
pub fn check_witness_records(table: Table, callers: usize, records: &[TripleRecord]) -> Result<(), Refusal> {
    let Table { terminals, nonterminals, rules } = table;
    let (entries, row) = (rules.as_ptr(), records.as_ptr());
    let reply = unsafe {
        raw::ambiguity_check_witness_records(terminals, nonterminals, entries, rules.len(), callers, row, records.len())
    };
    refusal::or_else(reply.cause, reply.at, || ())
}

/// Searches: `certificate_bytes(Q)` bytes and `row_entries(Q)` entries of each row are just enough, as [`search_room`] tells them with
/// these callers.
/// Unambiguous leaves the smallest acceptable certificate at the front of `certificate` and keeps the witness row; potential leaves the
/// shortest witness at the front of that row and keeps the certificate. The fronts of queue and parents are 0 afterwards.
///
/// # Errors
///
/// 21, 8, then cause 14.
pub fn search(
    table: Table,
    callers: usize,
    certificate: &mut [u8],
    queue: &mut [u32],
    parents: &mut [u32],
    witness: &mut [u32],
) -> Result<Verdict, Refusal> {
    let Table { terminals, nonterminals, rules } = table;
    let reply = unsafe {
        raw::ambiguity_search(
            terminals,
            nonterminals,
            rules.as_ptr(),
            rules.len(),
            callers,
            certificate.as_mut_ptr(),
            certificate.len(),
            queue.as_mut_ptr(),
            queue.len(),
            parents.as_mut_ptr(),
            parents.len(),
            witness.as_mut_ptr(),
            witness.len(),
        )
    };
    refusal::or_else(reply.cause, reply.at, || verdict_of(&reply))
}

/// Reads grammar text; the table, and the start and length of each name where it is declared, come at the fronts of the lent rows.
/// `MAX_TABLE_ENTRIES` and `MAX_NAMES` entries are always enough.
///
/// # Errors
///
/// Causes 16, 17, 18, 1, 4, 7, 6, 8, 19, 14.
pub fn read_text(text: &[u8], table: &mut [Code], starts: &mut [u32], lengths: &mut [u32]) -> Result<Read, Refusal> {
    let reply = unsafe {
        raw::ambiguity_read_text(
            text.as_ptr(),
            text.len(),
            table.as_mut_ptr(),
            table.len(),
            starts.as_mut_ptr(),
            starts.len(),
            lengths.as_mut_ptr(),
            lengths.len(),
        )
    };
    refusal::or_else(reply.cause, reply.at, || Read {
        terminals: reply.terminals as usize,
        nonterminals: reply.nonterminals as usize,
        entries: reply.entries as usize,
        states: reply.states as usize,
    })
}

/// Writes grammar text to the front of `out`, each name as `names` has it; back comes its length, which [`written_length`] tells
/// beforehand. `MAX_TEXT_BYTES` are always enough.
///
/// # Errors
///
/// Causes 16, 18, 14.
pub fn write_text(table: Table, names: Names, out: &mut [u8]) -> Result<usize, Refusal> {
    let Table { terminals, nonterminals, rules } = table;
    let reply = unsafe {
        raw::ambiguity_write_text(
            terminals,
            nonterminals,
            rules.as_ptr(),
            rules.len(),
            names.bytes.as_ptr(),
            names.bytes.len(),
            names.starts.as_ptr(),
            names.starts.len(),
            names.lengths.as_ptr(),
            names.lengths.len(),
            out.as_mut_ptr(),
            out.len(),
        )
    };
    refusal::or_else(reply.cause, reply.at, || reply.length as usize)
}

/// Writes what the program prints for a text to the front of `out`, at 0 callers: states, verdict, and the size or the two strings of the
/// shortest witness; or a refusal's two lines: 14 for a longer text, a fault of the text, 19 among them, or 14 for more states. Back comes its
/// length; the only refusal is an output that is too short, and `MAX_REPORT_BYTES` are always enough.
pub fn report(text: &[u8], out: &mut [u8]) -> Result<usize, Refusal> {
    let reply = unsafe { raw::ambiguity_report(text.as_ptr(), text.len(), out.as_mut_ptr(), out.len()) };
    refusal::or_else(reply.cause, reply.at, || reply.length as usize)
}

/// Reads two lines `left=` and `right=` back, in the grammar of a text: the letters of the two strings come at the fronts of the lent
/// rows, an entry each ([`Letter::of_entry`]). Rows of as many entries as the lines have bytes are always enough.
///
/// # Errors
///
/// Those of [`read_text`] for the text, without 14; then 16 and 17 for line 1, the same for line 2, and 14.
///
/// ```
/// use ambiguity::{read_back, Letter, ReadBack};
///
/// let text = b"terminals=a\nnonterminals=S\nrule=S: a\n";
/// let (mut left, mut right) = ([0; 3], [0; 3]);
/// let read = read_back(text, b"left=(1 a\nright=\n", &mut left, &mut right)?;
/// assert_eq!(read, ReadBack { left: 2, right: 0 });
/// assert_eq!(left.map(Letter::of_entry), [Some(Letter::Opening(1)), Some(Letter::Symbol(1)), None]);
/// let refused = read_back(text, b"left=(1 b\nright=\n", &mut left, &mut right).unwrap_err();
/// assert_eq!(refused.to_string(), "refused=17 at=1 part=lines");
/// # Ok::<(), ambiguity::PartRefusal>(())
/// ```
pub fn read_back(text: &[u8], lines: &[u8], left: &mut [u32], right: &mut [u32]) -> Result<ReadBack, PartRefusal> {
    let reply = unsafe {
        raw::ambiguity_read_back(
            text.as_ptr(),
            text.len(),
            lines.as_ptr(),
            lines.len(),
            left.as_mut_ptr(),
            left.len(),
            right.as_mut_ptr(),
            right.len(),
        )
    };
    let part = if reply.part == 1 { Part::Grammar } else { Part::Lines };
    refusal::or_else(reply.cause, reply.at, || ReadBack { left: reply.left as usize, right: reply.right as usize })
        .map_err(|refusal| PartRefusal { part, refusal })
}
