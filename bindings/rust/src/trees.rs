//! The derivation trees of one sentence: none, one with its rules, or several.

use crate::{raw, refusal, Code, Grammar, Refusal, Table};

/// The most terminals of a row whose trees are looked for.
pub const MAX_ROW: usize = 64;

/// The places before, between and behind so many terminals.
pub const PLACES: usize = MAX_ROW + 1;

/// The entries of the work row for Q states at 0 callers: one for each state and each pair of places.
#[must_use]
pub const fn trees_entries(states: usize) -> usize {
    PLACES * PLACES * states
}

/// How many derivation trees a row of terminals has, where the list of rules was lent.
#[derive(Clone, Copy, Debug, PartialEq, Eq)]
pub enum TreesFound {
    /// It has none: it is no sentence.
    Nothing,
    /// It has one.
    One {
        /// How many rules the tree applies; they stand at the front of the list.
        rules: usize,
    },
    /// It has two or more, perhaps infinitely many.
    Several,
}

/// How many derivation trees a row of terminals has.
#[derive(Clone, Debug, PartialEq, Eq)]
pub enum Trees {
    /// It has none: it is no sentence.
    None,
    /// It has one, which applies these rules: by their numbers from 1, each node before its children, children from left to right. They
    /// determine the tree.
    One(Vec<u16>),
    /// It has two or more, perhaps infinitely many.
    Several,
}

/// How many entries the work row of [`find_trees`] is to have for any row of this table: `trees_entries(Q)`. Lent so many, it is refused
/// with 14 for its list alone; lent fewer, a row without fault always is.
///
/// # Errors
///
/// Those of the table, and no others.
pub fn trees_room(table: Table) -> Result<usize, Refusal> {
    let Table { terminals, nonterminals, rules } = table;
    // SAFETY: the pointer and the length are those of a slice, which lives on during the call; so in the call below.
    let reply = unsafe { raw::ambiguity_trees_room(terminals, nonterminals, rules.as_ptr(), rules.len()) };
    refusal::or_else(reply.cause, reply.at, || reply.entries as usize)
}

fn found_of(reply: &raw::TreesReply) -> TreesFound {
    match reply.found {
        1 => TreesFound::Nothing,
        2 => TreesFound::One { rules: reply.count as usize },
        3 => TreesFound::Several,
        other => unreachable!("no answer has the number {other}"),
    }
}

/// The derivation trees of a row of terminals, given by their codes. The answer is that of the count of the trees, also for the empty
/// row, and where the count is infinite. With an accepted certificate, at whatever number of callers, it is never several. Lent are the
/// work row, as [`trees_room`] tells it, whatever it holds, and the list for the rules of one tree; none and several need no list.
///
/// After every answer the first `trees_entries(Q)` entries of the work row are 0. One writes its rules to the front of the list; none and
/// several leave it as it was.
///
/// # Errors
///
/// Those of the table; 22 at the first place of the row that is at fault, from 0: a code that is no terminal, or place 64 of a longer
/// row; 14 for a work row that is too short; then 14 if there is one tree and the list is shorter than its rules. Of this last one the
/// work row is as after an answer; every other refusal leaves it as it was, and each leaves the list.
///
/// ```
/// use ambiguity::{find_trees, trees_room, Cause, Refusal, Table, TreesFound, START};
///
/// // S: A B, A: C, B: b, C: c; the terminals are b and c.
/// let rules = [START, 2, START + 1, START + 2, START + 1, 1, START + 3, START + 2, 1, 1, START + 3, 1, 2];
/// let table = Table { terminals: 2, nonterminals: 4, rules: &rules };
/// let mut work = vec![7; trees_room(table)?];
/// let mut list = [7; 5];
/// assert_eq!(find_trees(table, &[2, 1], &mut work, &mut list), Ok(TreesFound::One { rules: 4 }));
/// assert_eq!(list, [1, 2, 4, 3, 7]);
/// assert!(work.iter().all(|entry| *entry == 0));
/// assert_eq!(find_trees(table, &[1, 2], &mut work, &mut []), Ok(TreesFound::Nothing));
/// assert_eq!(find_trees(table, &[2, 3], &mut work, &mut []), Err(Refusal { cause: Cause::RowWrong, at: 1 }));
/// # Ok::<(), Refusal>(())
/// ```
pub fn find_trees(table: Table, row: &[Code], work: &mut [u32], list: &mut [u16]) -> Result<TreesFound, Refusal> {
    let Table { terminals, nonterminals, rules } = table;
    let reply = unsafe {
        raw::ambiguity_find_trees(
            terminals,
            nonterminals,
            rules.as_ptr(),
            rules.len(),
            row.as_ptr(),
            row.len(),
            work.as_mut_ptr(),
            work.len(),
            list.as_mut_ptr(),
            list.len(),
        )
    };
    refusal::or_else(reply.cause, reply.at, || found_of(&reply))
}

impl Grammar {
    /// The derivation trees of a row of terminals. The work row is lent here, and a list of `most` entries: where nonterminals have empty
    /// trees, one tree may have more rules than any list holds.
    ///
    /// # Errors
    ///
    /// 22, as [`find_trees`] has it; 14 at 0 if there is one tree of more than `most` rules.
    ///
    /// ```
    /// use ambiguity::{Grammar, Trees};
    ///
    /// let text = b"terminals=if,else,x\nnonterminals=S\nrule=S: if S\nrule=S: if S else S\nrule=S: x\n";
    /// let grammar = Grammar::read(text)?;
    /// let row = |words: &str| words.split(' ').map(|word| grammar.code(word).unwrap()).collect::<Vec<_>>();
    /// assert_eq!(grammar.trees(&row("if x else x"), 9)?, Trees::One(vec![2, 3, 3]));
    /// assert_eq!(grammar.trees(&row("if if x else x"), 9)?, Trees::Several);
    /// assert_eq!(grammar.trees(&[], 9)?, Trees::None);
    /// assert_eq!(grammar.trees(&row("if x else S"), 9).unwrap_err().to_string(), "refused=22 at=3");
    /// # Ok::<(), ambiguity::Refusal>(())
    /// ```
    pub fn trees(&self, row: &[Code], most: usize) -> Result<Trees, Refusal> {
        let (mut work, mut list) = (vec![0; trees_room(self.table())?], vec![0; most]);
        Ok(match find_trees(self.table(), row, &mut work, &mut list)? {
            TreesFound::Nothing => Trees::None,
            TreesFound::One { rules } => {
                list.truncate(rules);
                Trees::One(list)
            }
            TreesFound::Several => Trees::Several,
        })
    }
}
