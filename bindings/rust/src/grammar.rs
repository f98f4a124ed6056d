//! A grammar that owns its table and its names, for callers who want no rows to lend.

use crate::{check_certificate, read_text, search, search_room, write_text, written_length};
use crate::{Names, Refusal, Room, Table, Verdict, MAX_NAMES, MAX_TABLE_ENTRIES};

/// An entry of a table, above all a symbol's code: terminals are 1 to t, nonterminals [`START`] and up.
pub type Code = u16;

/// The code of the first nonterminal, the start.
pub const START: Code = 32_768;

/// A stored rule. Rule 0, from the primed start to the start, is not stored: `rules()[i]` is rule i + 1.
#[derive(Clone, Debug, PartialEq, Eq)]
pub struct Rule {
    /// The nonterminal on the left side.
    pub left: Code,
    /// The symbols of the right side.
    pub right: Vec<Code>,
}

/// What the search of a grammar gives.
#[derive(Clone, Debug, PartialEq, Eq)]
pub enum Searched {
    /// No sentence has two derivation trees.
    Unambiguous {
        /// The smallest acceptable certificate.
        certificate: Vec<u8>,
        /// The number of triples that it holds.
        size: usize,
        /// The number of successors that there are to look at, as [`Verdict`] has it.
        looked: usize,
    },
    /// Two strings of the position automaton part.
    Potential {
        /// The indices of triples from (0,0,0) to (1,1,1), each a successor of the one before.
        witness: Vec<u32>,
        /// The number of successors that there are to look at, as [`Verdict`] has it.
        looked: usize,
    },
}

impl Searched {
    /// The number of successors that there are to look at, with either verdict.
    #[must_use]
    pub const fn looked(&self) -> usize {
        match self {
            Searched::Unambiguous { looked, .. } | Searched::Potential { looked, .. } => *looked,
        }
    }
}

/// A grammar that the reader took.
///
/// ```
/// use ambiguity::{Grammar, Searched};
///
/// let grammar = Grammar::read(b"terminals=a\nnonterminals=S\nrule=S: a\n")?;
/// let Searched::Unambiguous { certificate, size, looked } = grammar.search(0)? else { panic!("S: a has one tree") };
/// assert_eq!((grammar.states(), size, looked), (6, 11, 14));
/// grammar.check(0, &certificate)?;
/// # Ok::<(), ambiguity::Refusal>(())
/// ```
///
/// The number says how many callers a state remembers. With one, document 02's grammar of a biology group has a certificate:
///
/// ```
/// use ambiguity::{Grammar, Searched};
///
/// let text = b"terminals=b,c,d,e\nnonterminals=S,A\nrule=S: b A c\nrule=S: b e d\nrule=S: A d\nrule=A: e\n";
/// let grammar = Grammar::read(text)?;
/// assert!(matches!(grammar.search(0)?, Searched::Potential { .. }));
/// let Searched::Unambiguous { certificate, .. } = grammar.search(1)? else { panic!("A: e remembers who called it") };
/// grammar.check(1, &certificate)?;
/// assert_eq!(grammar.check(0, &certificate).unwrap_err().to_string(), "refused=9 at=0");
/// assert_eq!((grammar.states(), grammar.room(1)?.states), (17, 19));
/// # Ok::<(), ambiguity::Refusal>(())
/// ```
#[derive(Clone, Debug, PartialEq, Eq)]
pub struct Grammar {
    names: Vec<String>,
    terminals: usize,
    entries: Vec<Code>,
    rules: Vec<Rule>,
    states: usize,
}

/// The rules of a table that passed its check.
fn rules_of(mut entries: &[Code]) -> Vec<Rule> {
    let mut rules = Vec::new();
    while let [left, length, rest @ ..] = entries {
        let (right, rest) = rest.split_at(*length as usize);
        rules.push(Rule { left: *left, right: right.to_vec() });
        entries = rest;
    }
    rules
}

impl Grammar {
    /// Reads grammar text. Names that differ only in the case of ASCII letters are the same name, and the declared spelling is kept.
    /// Uses as much stack as [`read_text`] does.
    ///
    /// ```
    /// use ambiguity::Grammar;
    ///
    /// let grammar = Grammar::read(b"terminals=take,vol\nnonterminals=Step\nrule=step: Take VOL\n")?;
    /// assert_eq!(grammar.write(), "terminals=take,vol\nnonterminals=Step\nrule=Step: take vol\n");
    /// let refusal = Grammar::read(b"terminals=take,Take\nnonterminals=Step\nrule=Step: take\n").unwrap_err();
    /// assert_eq!(refusal.to_string(), "refused=18 at=1");
    /// # Ok::<(), ambiguity::Refusal>(())
    /// ```
    ///
    /// # Errors
    ///
    /// The first refusal in order, with its line or offset; of a grammar without a sentence, 19 at 0:
    ///
    /// ```
    /// let refusal = ambiguity::Grammar::read(b"terminals=a\nnonterminals=S\nrule=S: b\n").unwrap_err();
    /// assert_eq!(refusal.to_string(), "refused=17 at=3");
    /// assert_eq!(refusal.cause.to_string(), "a name is not declared, or is of the wrong kind");
    /// ```
    pub fn read(text: &[u8]) -> Result<Grammar, Refusal> {
        let mut entries = vec![0; MAX_TABLE_ENTRIES];
        let (mut starts, mut lengths) = (vec![0; MAX_NAMES], vec![0; MAX_NAMES]);
        let read = read_text(text, &mut entries, &mut starts, &mut lengths)?;
        entries.truncate(read.entries);
        let name = |i: usize| {
            let start = starts[i] as usize;
            String::from_utf8_lossy(&text[start..start + lengths[i] as usize]).into_owned()
        };
        Ok(Grammar {
            names: (0..read.terminals + read.nonterminals).map(name).collect(),
            terminals: read.terminals,
            rules: rules_of(&entries),
            entries,
            states: read.states,
        })
    }

    /// The grammar as text: what was read comes back the same, each use of a name in its declared spelling.
    ///
    /// ```
    /// let text = "terminals=a\nnonterminals=S\nrule=S: S a\nrule=S:\n";
    /// assert_eq!(ambiguity::Grammar::read(text.as_bytes())?.write(), text);
    /// # Ok::<(), ambiguity::Refusal>(())
    /// ```
    #[must_use]
    pub fn write(&self) -> String {
        let lengths: Vec<u32> = self.names.iter().map(|name| name.len() as u32).collect();
        let starts: Vec<u32> = lengths.iter().scan(0, |end, length| Some(std::mem::replace(end, *end + length))).collect();
        let bytes = self.names.concat();
        let names = Names { bytes: bytes.as_bytes(), starts: &starts, lengths: &lengths };
        let written = "a grammar that was read is written";
        let mut text = vec![0; written_length(self.table(), names).expect(written)];
        write_text(self.table(), names, &mut text).expect(written);
        String::from_utf8(text).expect("grammar text is ASCII")
    }

    /// What a search of the grammar with so many callers is lent, and how many moves its automaton has. [`search`](Grammar::search) lends
    /// that itself: four bytes for each entry of three rows, and the certificate.
    ///
    /// # Errors
    ///
    /// 21, then 8, at 0: too many callers, or too many states with these callers. At 0 callers there are none.
    ///
    /// ```
    /// let grammar = ambiguity::Grammar::read(b"terminals=a\nnonterminals=S\nrule=S: S a\nrule=S: a\n")?;
    /// let room = grammar.room(0)?;
    /// assert_eq!((room.states, room.moves), (9, 14));
    /// assert_eq!(room.certificate + 3 * 4 * room.entries, 1965);
    /// # Ok::<(), ambiguity::Refusal>(())
    /// ```
    pub fn room(&self, callers: usize) -> Result<Room, Refusal> {
        search_room(self.table(), callers)
    }

    /// Searches the grammar with so many callers; the rows are lent here, just as long as they must be.
    ///
    /// # Errors
    ///
    /// Those of [`room`](Grammar::room); at 0 callers there are none.
    pub fn search(&self, callers: usize) -> Result<Searched, Refusal> {
        let room = self.room(callers)?;
        let mut certificate = vec![0; room.certificate];
        let row = || vec![0; room.entries];
        let (mut queue, mut parents, mut witness) = (row(), row(), row());
        let verdict = search(self.table(), callers, &mut certificate, &mut queue, &mut parents, &mut witness)?;
        Ok(match verdict {
            Verdict::Unambiguous { size, looked } => Searched::Unambiguous { certificate, size, looked },
            Verdict::Potential { entries, looked } => {
                witness.truncate(entries);
                Searched::Potential { witness, looked }
            }
        })
    }

    /// Checks a certificate that was made with so many callers. If it is accepted, no sentence has two derivation trees.
    ///
    /// # Errors
    ///
    /// 21, 8, then causes 9 to 13, with their positions.
    pub fn check(&self, callers: usize, certificate: &[u8]) -> Result<(), Refusal> {
        check_certificate(self.table(), callers, certificate)
    }

    /// The table, for the functions that take one.
    #[must_use]
    pub fn table(&self) -> Table<'_> {
        Table { terminals: self.terminals, nonterminals: self.names.len() - self.terminals, rules: &self.entries }
    }

    /// Q, the number of states, at 0 callers; [`room`](Grammar::room) tells it with more.
    #[must_use]
    pub fn states(&self) -> usize {
        self.states
    }

    /// The stored rules, in order.
    #[must_use]
    pub fn rules(&self) -> &[Rule] {
        &self.rules
    }

    /// The terminals' names as they are declared, in order of their codes from 1.
    #[must_use]
    pub fn terminals(&self) -> &[String] {
        &self.names[..self.terminals]
    }

    /// The nonterminals' names as they are declared, in order of their codes from [`START`]; the first is the start.
    #[must_use]
    pub fn nonterminals(&self) -> &[String] {
        &self.names[self.terminals..]
    }

    /// The name of a symbol as it is declared; none for a code that is not.
    #[must_use]
    pub fn name(&self, code: Code) -> Option<&str> {
        let (names, first) = if code < START { (self.terminals(), 1) } else { (self.nonterminals(), START) };
        names.get(code.checked_sub(first)? as usize).map(String::as_str)
    }

    /// The code of the symbol with a name, in any case of its ASCII letters; none for a name that is not declared.
    #[must_use]
    pub fn code(&self, name: &str) -> Option<Code> {
        let place = |names: &[String]| names.iter().position(|known| known.eq_ignore_ascii_case(name));
        let terminal = place(self.terminals()).map(|place| 1 + place as Code);
        terminal.or_else(|| place(self.nonterminals()).map(|place| START + place as Code))
    }
}

#[cfg(test)]
mod tests {
    use super::*;

    #[test]
    fn names_by_code() {
        let grammar = Grammar::read(b"terminals=a,b\nnonterminals=S,T\nrule=S: a T\nrule=T: b\n").unwrap();
        let named: Vec<Code> = (0..=Code::MAX).filter(|code| grammar.name(*code).is_some()).collect();
        assert_eq!(named, [1, 2, START, START + 1]);
        assert_eq!(named.iter().map(|code| grammar.name(*code).unwrap()).collect::<Vec<_>>(), ["a", "b", "S", "T"]);
        assert_eq!((grammar.terminals().len(), grammar.nonterminals().len(), grammar.rules().len()), (2, 2, 2));
        assert_eq!(grammar.rules()[0], Rule { left: START, right: vec![1, START + 1] });
        assert!(named.iter().all(|code| grammar.code(grammar.name(*code).unwrap()) == Some(*code)));
        assert_eq!(["A", "t", "ab", "", "a "].map(|name| grammar.code(name)), [Some(1), Some(START + 1), None, None, None]);
    }

    #[test]
    fn a_witness_is_accepted() {
        let grammar = Grammar::read(b"terminals=a\nnonterminals=S\nrule=S: S\nrule=S: a\n").unwrap();
        for callers in 0..=crate::MAX_CALLERS {
            let found = grammar.search(callers).unwrap();
            let Searched::Potential { witness, .. } = found else { panic!("S: S is taken any number of times") };
            assert_eq!(crate::check_witness(grammar.table(), callers, &witness), Ok(()));
            assert_eq!(grammar.check(callers, &[]).unwrap_err().cause.number(), 9);
        }
        assert_eq!(grammar.search(3).unwrap_err().to_string(), "refused=21 at=0");
    }
}
