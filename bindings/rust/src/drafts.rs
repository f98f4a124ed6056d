//! A grammar while it is edited: a draft with eight marks, in one row that is lent or owned.

use std::fmt;

use crate::{raw, refusal, Code, Grammar, Refusal, Table, MAX_RULES, MAX_STATES};

/// A draft's marks are 1 to this.
pub const MARKS: usize = 8;

/// The entries of a block: one more than the number of its rules, and their table.
pub const DRAFT_BLOCK: usize = 1 + MAX_RULES + MAX_STATES;

/// The entries of a draft's row: t, n, the draft's block, and one for each mark.
pub const DRAFT_ENTRIES: usize = 2 + (1 + MARKS) * DRAFT_BLOCK;

/// How much a draft has.
#[derive(Clone, Copy, Debug, PartialEq, Eq)]
pub struct Counts {
    /// t.
    pub terminals: usize,
    /// n.
    pub nonterminals: usize,
    /// The number of the rules.
    pub rules: usize,
    /// The number of the entries of their table.
    pub entries: usize,
    /// Q at 0 callers: 4, and for each rule its codes and 1.
    pub states: usize,
}

fn done(reply: &raw::DraftReply) -> Result<(), Refusal> {
    refusal::or_else(reply.cause, reply.at, || ())
}

/// How many entries the row of a draft is to have: [`DRAFT_ENTRIES`].
#[must_use]
pub fn draft_room() -> usize {
    unsafe { raw::ambiguity_draft_room() }
}

/// Begins a draft in a row, whatever that holds, from t, n and rules, perhaps none; all marks are empty. bindings/c/ambiguity.h tells how
/// the row holds a draft. What lies past [`DRAFT_ENTRIES`] entries is neither read nor written, here and below.
///
/// # Errors
///
/// Those of the table, 1, then for each rule 7, 2, 3, 4, 2, 5, 6, 8, but never 19: a draft may lack sentences until its table is checked.
/// Then 14 at 0 for a row that is too short. A refusal leaves the row as it was, here and below.
///
/// ```
/// use ambiguity::{add_rule, check_table, draft_room, draft_table, new_draft, return_to_mark, set_mark, withdraw_rule};
/// use ambiguity::{Cause, Refusal, Table, START};
///
/// // S: a S, S: a; the only terminal is a.
/// let empty = Table { terminals: 1, nonterminals: 1, rules: &[] };
/// let mut row = vec![7; draft_room()];
/// new_draft(empty, &mut row)?;
/// add_rule(&mut row, &[START, 2, 1, START])?;
/// set_mark(&mut row, 1)?;
/// assert_eq!(check_table(Table { rules: draft_table(&row)?, ..empty }), Err(Refusal { cause: Cause::NoSentence, at: 0 }));
/// add_rule(&mut row, &[START, 1, 1])?;
/// withdraw_rule(&mut row, 1)?;
/// assert_eq!(draft_table(&row), Ok(&[START, 1, 1][..]));
/// return_to_mark(&mut row, 1)?;
/// assert_eq!(draft_table(&row), Ok(&[START, 2, 1, START][..]));
/// assert_eq!(return_to_mark(&mut row, 2), Err(Refusal { cause: Cause::NotPresent, at: 2 }));
/// # Ok::<(), Refusal>(())
/// ```
pub fn new_draft(table: Table, draft: &mut [u16]) -> Result<(), Refusal> {
    let Table { terminals, nonterminals, rules } = table;
    // SAFETY: the pointers and the lengths are those of slices, which live on during the call; so in every call below.
    let reply = unsafe {
        raw::ambiguity_new_draft(terminals, nonterminals, rules.as_ptr(), rules.len(), draft.as_mut_ptr(), draft.len())
    };
    done(&reply)
}

/// Adds the rule that some entries begin with, its left code, its length and its codes, behind the last one; entries past its last code
/// are not read.
///
/// # Errors
///
/// 14, then 23, at 0: the row is too short, or holds no draft; so in every function below. Then 7, 2, 3, 4, 2, 5, 6, 8, as the table check
/// has them for a rule that follows the draft's table: offsets count on from the end of that table. The draft's own rules are not tried
/// again.
pub fn add_rule(draft: &mut [u16], rule: &[Code]) -> Result<(), Refusal> {
    done(&unsafe { raw::ambiguity_add_rule(draft.as_mut_ptr(), draft.len(), rule.as_ptr(), rule.len()) })
}

/// Withdraws the rule of a number, from 1; later rules move down by one number.
///
/// # Errors
///
/// 14, 23 at 0; 23 at the number, if there is no such rule.
pub fn withdraw_rule(draft: &mut [u16], number: usize) -> Result<(), Refusal> {
    done(&unsafe { raw::ambiguity_withdraw_rule(draft.as_mut_ptr(), draft.len(), number) })
}

/// Keeps the draft's rules under a mark, whose former rules are lost.
///
/// # Errors
///
/// 14, 23 at 0; 23 at the mark, if it is not 1 to [`MARKS`].
pub fn set_mark(draft: &mut [u16], mark: usize) -> Result<(), Refusal> {
    done(&unsafe { raw::ambiguity_set_mark(draft.as_mut_ptr(), draft.len(), mark) })
}

/// Brings the rules of a mark back; all marks stay as they are. A mark that was set on a draft without rules is not empty.
///
/// # Errors
///
/// 14, 23 at 0; 23 at the mark, if it is not 1 to [`MARKS`], or empty.
pub fn return_to_mark(draft: &mut [u16], mark: usize) -> Result<(), Refusal> {
    done(&unsafe { raw::ambiguity_return_to_mark(draft.as_mut_ptr(), draft.len(), mark) })
}

/// How much the draft in a row has.
///
/// # Errors
///
/// 14, 23 at 0.
pub fn draft_counts(draft: &[u16]) -> Result<Counts, Refusal> {
    let reply = unsafe { raw::ambiguity_draft_counts(draft.as_ptr(), draft.len()) };
    refusal::or_else(reply.cause, reply.at, || Counts {
        terminals: reply.terminals as usize,
        nonterminals: reply.nonterminals as usize,
        rules: reply.rules as usize,
        entries: reply.entries as usize,
        states: reply.states as usize,
    })
}

/// The table of the draft in a row: the part of the row that it is.
///
/// # Errors
///
/// 14, 23 at 0.
pub fn draft_table(draft: &[u16]) -> Result<&[Code], Refusal> {
    let reply = unsafe { raw::ambiguity_draft_table(draft.as_ptr(), draft.len()) };
    let start = reply.start as usize;
    refusal::or_else(reply.cause, reply.at, || &draft[start..start + reply.entries as usize])
}

/// A draft that owns its row.
///
/// ```
/// use ambiguity::{check_table, Draft, START};
///
/// // S: a S b; the terminals are a and b.
/// let mut draft = Draft::new(2, 1, &[])?;
/// draft.add(&[START, 3, 1, START, 2])?;
/// draft.mark(1)?;
/// assert_eq!(check_table(draft.as_table()).unwrap_err().to_string(), "refused=19 at=0");
/// draft.add(&[START, 0])?;
/// assert_eq!((draft.counts().rules, check_table(draft.as_table())), (2, Ok(9)));
/// draft.return_to(1)?;
/// assert_eq!(draft.table(), [START, 3, 1, START, 2]);
/// assert_eq!([draft.kept(1), draft.kept(2)], [Some(1), None]);
/// assert_eq!(draft.withdraw(2).unwrap_err().to_string(), "refused=23 at=2");
/// # Ok::<(), ambiguity::Refusal>(())
/// ```
#[derive(Clone)]
pub struct Draft {
    /// DRAFT_ENTRIES entries, which hold a draft.
    row: Box<[u16]>,
}

const HELD: &str = "the row of a draft holds one";

impl Draft {
    /// Begins a draft from t, n and rules, perhaps none; all marks are empty.
    ///
    /// # Errors
    ///
    /// Those of [`new_draft`], but never 14.
    pub fn new(terminals: usize, nonterminals: usize, rules: &[Code]) -> Result<Draft, Refusal> {
        let mut row = vec![0; DRAFT_ENTRIES].into_boxed_slice();
        new_draft(Table { terminals, nonterminals, rules }, &mut row)?;
        Ok(Draft { row })
    }

    /// The draft that a row holds, with its marks; the row is copied. Any row that is long enough holds one draft or none.
    ///
    /// # Errors
    ///
    /// 14 at 0 for a row of fewer than [`DRAFT_ENTRIES`] entries, 23 at 0 for one that holds no draft.
    ///
    /// ```
    /// use ambiguity::{Draft, START};
    ///
    /// let mut draft = Draft::new(1, 1, &[START, 1, 1])?;
    /// draft.mark(8)?;
    /// let stored = draft.row().to_vec();
    /// draft.withdraw(1)?;
    /// let former = Draft::from_row(&stored)?;
    /// assert_eq!((former.table(), former.kept(8)), (&[START, 1, 1][..], Some(1)));
    /// assert_eq!(Draft::from_row(&stored[1..]).unwrap_err().to_string(), "refused=14 at=0");
    /// # Ok::<(), ambiguity::Refusal>(())
    /// ```
    pub fn from_row(row: &[u16]) -> Result<Draft, Refusal> {
        draft_counts(row)?;
        Ok(Draft { row: row[..DRAFT_ENTRIES].into() })
    }

    /// The whole row, to be stored.
    #[must_use]
    pub fn row(&self) -> &[u16] {
        &self.row
    }

    /// Adds the rule that some entries begin with behind the last one.
    ///
    /// # Errors
    ///
    /// 7, 2, 3, 4, 2, 5, 6, 8, as [`add_rule`] has them.
    pub fn add(&mut self, rule: &[Code]) -> Result<(), Refusal> {
        add_rule(&mut self.row, rule)
    }

    /// Withdraws the rule of a number, from 1; later rules move down by one number.
    ///
    /// # Errors
    ///
    /// 23 at the number, if there is no such rule.
    pub fn withdraw(&mut self, number: usize) -> Result<(), Refusal> {
        withdraw_rule(&mut self.row, number)
    }

    /// Keeps the rules under a mark, whose former rules are lost.
    ///
    /// # Errors
    ///
    /// 23 at the mark, if it is not 1 to [`MARKS`].
    pub fn mark(&mut self, mark: usize) -> Result<(), Refusal> {
        set_mark(&mut self.row, mark)
    }

    /// Brings the rules of a mark back; all marks stay as they are.
    ///
    /// # Errors
    ///
    /// 23 at the mark, if it is not 1 to [`MARKS`], or empty.
    pub fn return_to(&mut self, mark: usize) -> Result<(), Refusal> {
        return_to_mark(&mut self.row, mark)
    }

    /// How much the draft has.
    #[must_use]
    pub fn counts(&self) -> Counts {
        draft_counts(&self.row).expect(HELD)
    }

    /// The table of the rules.
    #[must_use]
    pub fn table(&self) -> &[Code] {
        draft_table(&self.row).expect(HELD)
    }

    /// t, n and the rules, for the functions that take a table. The table passes its check but for 19, if the draft began from a table.
    #[must_use]
    pub fn as_table(&self) -> Table<'_> {
        let Counts { terminals, nonterminals, .. } = self.counts();
        Table { terminals, nonterminals, rules: self.table() }
    }

    /// How many rules a mark keeps; none for an empty mark, and for a number that is no mark's. A copy returns to the mark for it.
    #[must_use]
    pub fn kept(&self, mark: usize) -> Option<usize> {
        let mut copy = self.clone();
        copy.return_to(mark).ok().map(|()| copy.counts().rules)
    }
}

/// The draft that the row holds, without the marks.
impl fmt::Debug for Draft {
    fn fmt(&self, f: &mut fmt::Formatter) -> fmt::Result {
        let Counts { terminals, nonterminals, .. } = self.counts();
        let mut shown = f.debug_struct("Draft");
        shown.field("terminals", &terminals).field("nonterminals", &nonterminals).field("rules", &self.table());
        shown.finish_non_exhaustive()
    }
}

impl Grammar {
    /// A new draft with the grammar's symbols and rules; all marks are empty.
    ///
    /// ```
    /// let grammar = ambiguity::Grammar::read(b"terminals=a\nnonterminals=S\nrule=S: a\n")?;
    /// let mut draft = grammar.draft();
    /// draft.add(&[ambiguity::START, 0])?;
    /// assert_eq!((grammar.rules().len(), draft.counts().rules), (1, 2));
    /// # Ok::<(), ambiguity::Refusal>(())
    /// ```
    #[must_use]
    pub fn draft(&self) -> Draft {
        let Table { terminals, nonterminals, rules } = self.table();
        Draft::new(terminals, nonterminals, rules).expect("the table of a grammar that was read has no fault")
    }
}
