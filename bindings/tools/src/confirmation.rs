//! How many trees a sentence has by the library's proved entry, for a sentence whose two trees were found otherwise.

use std::fmt;

use ambiguity::{find_trees, trees_room, Cause, Code, Grammar, Refusal, TreesFound};

/// The trees of a sentence, counted.
#[derive(Clone, Debug, PartialEq, Eq)]
pub enum Counted {
    None,
    One,
    Several,
    /// The entry refuses the sentence.
    Refused(Refusal),
}

/// `no tree`, `one tree`, `several trees`, or the numbers of a refusal.
impl fmt::Display for Counted {
    fn fmt(&self, f: &mut fmt::Formatter) -> fmt::Result {
        match self {
            Counted::None => f.write_str("no tree"),
            Counted::One => f.write_str("one tree"),
            Counted::Several => f.write_str("several trees"),
            Counted::Refused(refusal) => refusal.fmt(f),
        }
    }
}

/// The trees of a row, counted by the library. No list is lent: where the work row is long enough, 14 says that there is one tree.
pub fn counted(grammar: &Grammar, row: &[Code]) -> Counted {
    let found = trees_room(grammar.table()).and_then(|room| find_trees(grammar.table(), row, &mut vec![0; room], &mut []));
    match found {
        Ok(TreesFound::Nothing) => Counted::None,
        Ok(TreesFound::Several) => Counted::Several,
        Ok(TreesFound::One { .. }) | Err(Refusal { cause: Cause::BufferTooShort, .. }) => Counted::One,
        Err(refusal) => Counted::Refused(refusal),
    }
}

#[cfg(test)]
mod tests {
    use super::*;

    #[test]
    fn rows_are_counted() {
        let text = b"terminals=if,else,x\nnonterminals=S\nrule=S: if S\nrule=S: if S else S\nrule=S: x\n";
        let grammar = Grammar::read(text).unwrap();
        let said = |row: &[Code]| counted(&grammar, row).to_string();
        assert_eq!([said(&[]), said(&[1, 3]), said(&[1, 1, 3, 2, 3])], ["no tree", "one tree", "several trees"]);
        assert_eq!([said(&[1, 4]), said(&[1; 65])], ["refused=22 at=1", "refused=22 at=64"]);
    }
}
