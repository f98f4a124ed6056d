//! Looks for two derivation trees with the same row: best first over pairs of stacks, guided by distances in the graph of triples.
//!
//! This is the search of `ambig-certify`, and it is **not proved**. It is no function of the library, but plain Rust over a [`Grammar`], and
//! it is tested. Trees that it gives are checked by [`tree::common_row`] before, which is other code. Ask the library about a sentence that
//! has them: [`Grammar::trees`] is proved, and answers [`Several`](crate::Trees::Several). That no trees are found proves nothing; a certificate does.
//!
//! A stack holds the items of the rules that are open, so its closings return to where they were opened: each side is a walk through
//! a real tree. The search is deterministic, and bounded by the pairs that it keeps and by the moves that it tries.
//!
//! ```
//! use ambiguity::two_trees::phrase::{self, Example};
//! use ambiguity::two_trees::{look, tree, Limits, Outcome};
//! use ambiguity::{Grammar, Trees, START};
//!
//! // Line: Sum end, Sum: Sum plus Sum, Sum: a
//! let text = b"terminals=a,plus,end\nnonterminals=Line,Sum\nrule=Line: Sum end\nrule=Sum: Sum plus Sum\nrule=Sum: a\n";
//! let grammar = Grammar::read(text)?;
//! let (a, plus, end, sum) = (1, 2, 3, START + 1);
//! let Outcome::Two { root, row, left, right, .. } = look(&grammar, Limits::default()) else { panic!("it is ambiguous") };
//! assert_eq!((root, &row[..]), (START, &[sum, plus, sum, plus, sum, end][..]));
//! assert_eq!(tree::common_row(&grammar, root, &left, &right), Ok(row));
//! // The smallest part in which the trees differ, a sentence with it, and what the library says of that.
//! let phrase = phrase::smallest(&grammar, root, &left, &right);
//! assert_eq!((phrase.root, &phrase.row[..]), (sum, &[sum, plus, sum, plus, sum][..]));
//! let Example::Sentence(sentence) = phrase.example(&grammar) else { panic!("it is short") };
//! assert_eq!(sentence, [a, plus, a, plus, a, end]);
//! assert_eq!(grammar.trees(&sentence, 0)?, Trees::Several);
//! # Ok::<(), ambiguity::Refusal>(())
//! ```

#[doc(hidden)]
pub mod codes;
mod distances;
mod finishing;
mod folding;
#[doc(hidden)]
pub mod items;
pub mod live;
pub mod phrase;
mod search;
mod sentences;
mod stacks;
pub mod tree;

use crate::{Code, Grammar, START};

use items::Items;
pub use search::Limits;
use tree::Tree;

/// What was found.
#[derive(Debug, PartialEq, Eq)]
pub enum Outcome {
    /// Two different trees.
    Two {
        /// The root of both: the start, or a nonterminal that stands in a tree of some sentence.
        root: Code,
        /// The row of both. A nonterminal in it stands for itself, and has a sentence that is not empty.
        row: Vec<Code>,
        /// One tree.
        left: Tree,
        /// The other one.
        right: Tree,
        /// The rules at which the walks through the trees part, by their numbers, the smaller one first.
        rules: (usize, usize),
    },
    /// No two trees.
    NotFound(Extent),
}

/// How far the search looked.
#[derive(Debug, PartialEq, Eq)]
pub enum Extent {
    /// Two trees were found that the check does not confirm, or that are too large for it.
    Unconfirmed,
    /// Every pair of stacks was tried, so many; 0 where no strings part, so that the verdict is unambiguous.
    All {
        /// How many.
        pairs: usize,
    },
    /// A limit was met.
    Limit {
        /// The pairs of stacks that were kept.
        pairs: usize,
        /// All walks with fewer moves were tried.
        moves: usize,
    },
}

/// Where two trees are looked for.
#[derive(Clone, Copy, Debug)]
pub struct Field<'a> {
    /// The grammar.
    pub grammar: &'a Grammar,
    /// The root of both trees.
    pub root: Code,
    /// For each stored rule whether the trees may use it; none if they may use all.
    pub rules: Option<&'a [bool]>,
}

/// Looks for two trees of the start; where the limits are met, also for two trees of each other nonterminal that some sentence uses,
/// which share the limits once more, one after the other until the triples are used up.
pub fn look(grammar: &Grammar, limits: Limits) -> Outcome {
    let found = look_from(Field { grammar, root: START, rules: None }, limits, &[], &mut limits.clone());
    if matches!(found, Outcome::Two { .. } | Outcome::NotFound(Extent::All { .. })) {
        return found;
    }
    let others = live::other_live(grammar);
    let share = limits.share(others.len().max(1));
    let mut left = limits;
    for root in others {
        if left.triples == 0 {
            break;
        }
        let elsewhere = look_from(Field { grammar, root, rules: None }, share, &[], &mut left);
        if matches!(elsewhere, Outcome::Two { .. }) {
            return elsewhere;
        }
    }
    found
}

/// Looks for two trees of one root that do not part between two known rules. Those that are found are shown only if the check
/// confirms them. What the search uses is taken off `left`.
pub fn look_from(field: Field, limits: Limits, known: &[(usize, usize)], left: &mut Limits) -> Outcome {
    let Field { grammar, root, rules } = field;
    let found = match search::search(&Items::new(grammar, root, rules), limits, known, left) {
        Ok((left, right, rules)) => finishing::finished(grammar, root, left, right).map(|trees| (trees, rules)),
        Err(extent) => return Outcome::NotFound(extent),
    };
    let row = |trees: &(Tree, Tree)| tree::common_row(grammar, root, &trees.0, &trees.1).ok();
    match found.and_then(|(trees, rules)| Some((row(&trees)?, trees, rules))) {
        Some((row, (left, right), rules)) => Outcome::Two { root, row, left, right, rules },
        None => Outcome::NotFound(Extent::Unconfirmed),
    }
}
