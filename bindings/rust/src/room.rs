//! What is to be lent, told beforehand: the room of a search, and the length of a text.

use crate::{raw, refusal, Names, Refusal, Table};

/// What a search is to be lent, and how many moves the automaton has.
#[derive(Clone, Copy, Debug, PartialEq, Eq)]
pub struct Room {
    /// Q, with the callers that were asked for.
    pub states: usize,
    /// The bytes of the certificate.
    pub certificate: usize,
    /// The entries of each of the rows queue, parents and witness.
    pub entries: usize,
    /// M, the number of moves: from each state by each letter to each state that it leads to, the shifts of nonterminals among them.
    pub moves: usize,
}

impl Room {
    /// M² + 2×Q×M: there are no more successors to look at than that, whatever the verdict.
    #[must_use]
    pub const fn most_looked(self) -> usize {
        self.moves * self.moves + 2 * self.states * self.moves
    }
}

/// What a search of this table with so many callers is to be lent, from the table alone: no search is made. [`search`](crate::search),
/// lent so much, is never refused with 14; lent less for the certificate or in any row it always is.
///
/// # Errors
///
/// Those of the table, then 21 and 8: so it tells, too, whether the states fit.
///
/// ```
/// use ambiguity::{search, search_room, Room, Table, Verdict, START};
///
/// let table = Table { terminals: 1, nonterminals: 1, rules: &[START, 1, 1] };
/// let room = search_room(table, 0)?;
/// assert_eq!(room, Room { states: 6, certificate: 9, entries: 72, moves: 6 });
/// let mut certificate = vec![0; room.certificate];
/// let [mut queue, mut parents, mut witness] = [0; 3].map(|_| vec![0; room.entries]);
/// let verdict = search(table, 0, &mut certificate, &mut queue, &mut parents, &mut witness)?;
/// assert_eq!(verdict, Verdict::Unambiguous { size: 11, looked: 14 });
/// assert!(verdict.looked() <= room.most_looked());
/// # Ok::<(), ambiguity::Refusal>(())
/// ```
pub fn search_room(table: Table, callers: usize) -> Result<Room, Refusal> {
    let Table { terminals, nonterminals, rules } = table;
    // SAFETY: the pointer and the length are those of a slice, which lives on during the call; so in the call below.
    let reply = unsafe { raw::ambiguity_search_room(terminals, nonterminals, rules.as_ptr(), rules.len(), callers) };
    refusal::or_else(reply.cause, reply.at, || Room {
        states: reply.states as usize,
        certificate: reply.certificate as usize,
        entries: reply.entries as usize,
        moves: reply.moves as usize,
    })
}

/// How many bytes [`write_text`](crate::write_text) would write; nothing is written. Lent so many, the writer writes as many; lent
/// fewer, it always refuses with 14.
///
/// # Errors
///
/// Those of the table, then 16, 18, as the writer has them; never 14.
///
/// ```
/// use ambiguity::{write_text, written_length, Names, Table, START};
///
/// let table = Table { terminals: 1, nonterminals: 1, rules: &[START, 1, 1] };
/// let names = Names { bytes: b"aS", starts: &[0, 1], lengths: &[1, 1] };
/// let mut text = vec![0; written_length(table, names)?];
/// assert_eq!(write_text(table, names, &mut text), Ok(text.len()));
/// assert_eq!(text, b"terminals=a\nnonterminals=S\nrule=S: a\n");
/// # Ok::<(), ambiguity::Refusal>(())
/// ```
pub fn written_length(table: Table, names: Names) -> Result<usize, Refusal> {
    let Table { terminals, nonterminals, rules } = table;
    let reply = unsafe {
        raw::ambiguity_written_length(
            terminals,
            nonterminals,
            rules.as_ptr(),
            rules.len(),
            names.bytes.as_ptr(),
            names.bytes.len(),
            names.starts.as_ptr(),
            names.starts.len(),
            names.lengths.as_ptr(),
            names.lengths.len(),
        )
    };
    refusal::or_else(reply.cause, reply.at, || reply.length as usize)
}
