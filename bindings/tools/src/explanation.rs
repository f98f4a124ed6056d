//! Why a verdict is potential: where two readings part, and two real trees if they were found. A sentence is called ambiguous only if the
//! library's proved entry finds several trees of it, or if it has more terminals than that entry takes.

use ambiguity::two_trees::phrase::{self, Example, Phrase};
use ambiguity::two_trees::{self, Extent, Field, Limits, Outcome};
use ambiguity::{Code, Grammar, Step, START};

use crate::confirmation::{self, Counted};
use crate::layout::{self, WIDTH};
use crate::parting::{self, Parting};
use crate::{readings, words};

/// What was found of two trees.
pub enum Found {
    /// The smallest part in which two trees differ, and a sentence that it stands in; one that is shown is confirmed.
    Two(Phrase, Example),
    /// No two trees: how far they were looked for.
    Not(Extent),
    /// Two trees of this sentence, of which the library's entry does not find several.
    Denied(Vec<Code>, Counted),
}

/// Where other rules part, its phrase, and a sentence with that; one that is shown is confirmed.
pub struct Other {
    pub parting: Parting,
    pub phrase: Phrase,
    pub example: Example,
}

/// Why other pairs of rules may part that are not shown.
#[derive(Clone, Copy, Debug, PartialEq, Eq)]
pub enum More {
    /// So many are shown as are ever shown.
    Shown,
    /// The search for them met its limit.
    Limit,
}

impl More {
    /// What is said behind the pairs that are shown.
    pub fn told(self) -> &'static str {
        match self {
            More::Shown => "more: other pairs of rules part too; nine are shown",
            More::Limit => "more: other pairs of rules may part; the search for them ended at its limit",
        }
    }
}

/// All that is said of a witness.
pub struct Explanation {
    pub found: Found,
    pub parting: Parting,
    pub also: Vec<Other>,
    /// Whether other pairs of rules may part that are not shown.
    pub more: Option<More>,
    /// The step records of the witness.
    pub steps: Vec<Step>,
}

/// Partings that are shown beside the first one.
const MOST_ALSO: usize = 8;

/// Symbols that are shown of a row that is too long.
const FEW: usize = 40;

/// Searches for them, all together with the limits of the first search.
const MOST_TRIED: usize = 40;

/// Looks for two trees, and says where they part; where none are found, where the strings of the witness part. Left of the trees is
/// the one that is more like the left string. Where the limits are met, trees of the rules that the witness uses are looked for too:
/// a grammar of many rules has more pairs than are tried, and few of them are needed.
pub fn of(grammar: &Grammar, witness: &[u32]) -> Explanation {
    of_counted(grammar, witness, &|sentence| confirmation::counted(grammar, sentence))
}

/// The trees of a sentence, counted by the library's entry; in tests otherwise.
pub(crate) type Count<'a> = &'a dyn Fn(&[Code]) -> Counted;

/// The example of a phrase, or how many trees are counted of it where these are not several.
fn confirmed(grammar: &Grammar, phrase: &Phrase, count: Count) -> Result<Example, (Vec<Code>, Counted)> {
    match phrase.example(grammar) {
        Example::Sentence(sentence) => match count(&sentence) {
            Counted::Several => Ok(Example::Sentence(sentence)),
            other => Err((sentence, other)),
        },
        Example::TooLong => Ok(Example::TooLong),
    }
}

/// The explanation, where the trees of sentences are counted so.
pub(crate) fn of_counted(grammar: &Grammar, witness: &[u32], count: Count) -> Explanation {
    let steps = readings::steps(grammar, witness);
    let strings = parting::of_witness(grammar, witness, &steps);
    let used = used_rules(grammar, witness);
    let (outcome, rules) = match two_trees::look(grammar, Limits::default()) {
        Outcome::NotFound(extent @ Extent::Limit { .. }) => {
            let field = Field { grammar, root: START, rules: Some(&used) };
            match two_trees::look_from(field, Limits::default(), &[], &mut Limits::default()) {
                Outcome::NotFound(_) => (Outcome::NotFound(extent), None),
                two => (two, field.rules),
            }
        }
        outcome => (outcome, None),
    };
    match outcome {
        Outcome::Two { root, left, right, rules: parted, .. } => {
            let (parting, phrase) = placed(grammar, phrase::smallest(grammar, root, &left, &right), &strings);
            match confirmed(grammar, &phrase, count) {
                Ok(example) => {
                    let mut also = Vec::new();
                    let (others, more) = others(Field { grammar, root, rules }, parted, &parting, &strings);
                    for (parting, phrase) in others {
                        if let Ok(example) = confirmed(grammar, &phrase, count) {
                            also.push(Other { parting, phrase, example });
                        }
                    }
                    Explanation { found: Found::Two(phrase, example), parting, also, more, steps }
                }
                Err((sentence, counted)) => Explanation {
                    found: Found::Denied(sentence, counted),
                    parting: strings,
                    also: Vec::new(),
                    more: None,
                    steps,
                },
            }
        }
        Outcome::NotFound(extent) => {
            Explanation { found: Found::Not(extent), parting: strings, also: Vec::new(), more: None, steps }
        }
    }
}

/// For each stored rule whether a state of a witness is one of its items.
fn used_rules(grammar: &Grammar, witness: &[u32]) -> Vec<bool> {
    let mut states = vec![false; grammar.states()];
    for index in witness {
        let (_, left, right) = words::triple(grammar, *index as usize);
        states[left] = true;
        states[right] = true;
    }
    let mut used = vec![false; grammar.rules().len()];
    for (state, _) in states.iter().enumerate().filter(|(_, stood)| **stood) {
        if let Some(place) = words::item_at(grammar, state).0.checked_sub(1) {
            used[place] = true;
        }
    }
    used
}

/// A phrase with its parting, left and right as in the two strings.
fn placed(grammar: &Grammar, mut phrase: Phrase, strings: &Parting) -> (Parting, Phrase) {
    if parting::of_trees(grammar, phrase.root, &phrase.left, &phrase.right).is_mirrored(strings) {
        std::mem::swap(&mut phrase.left, &mut phrase.right);
    }
    (parting::of_trees(grammar, phrase.root, &phrase.left, &phrase.right), phrase)
}

/// Phrases that part between other pairs of rules, one for each pair. The walks that are found part at pairs that no earlier walks
/// part at; as trees they may part between rules that are known, since what trees have in common is folded. It is told, too, whether
/// there may be more.
fn others(field: Field, rules: (usize, usize), first: &Parting, strings: &Parting) -> (Vec<(Parting, Phrase)>, Option<More>) {
    let Field { grammar, root, .. } = field;
    let mut limits = Limits::default();
    let mut tried = vec![rules];
    let mut shown = vec![first.rules()];
    let mut found = Vec::new();
    while tried.len() < MOST_TRIED && !limits.is_spent() {
        match two_trees::look_from(field, limits, &tried, &mut limits) {
            Outcome::Two { left, right, rules, .. } => {
                tried.push(rules);
                let (parting, phrase) = placed(grammar, phrase::smallest(grammar, root, &left, &right), strings);
                if !shown.contains(&parting.rules()) {
                    if found.len() == MOST_ALSO {
                        return (found, Some(More::Shown));
                    }
                    shown.push(parting.rules());
                    found.push((parting, phrase));
                }
            }
            Outcome::NotFound(Extent::All { .. }) => return (found, None),
            Outcome::NotFound(_) => break,
        }
    }
    (found, Some(More::Limit))
}

/// A row in words.
fn named(grammar: &Grammar, row: &[Code]) -> String {
    match row {
        [] => "the empty sentence".to_string(),
        row if row.len() > phrase::LONGEST => format!("`{}` ({} symbols)", short(grammar, row), row.len()),
        row => format!("`{}`", short(grammar, row)),
    }
}

/// The names of a row; of one that is too long some in front and some at the end.
fn short(grammar: &Grammar, row: &[Code]) -> String {
    words::short_row(grammar, row, if row.len() > phrase::LONGEST { FEW } else { row.len() })
}

/// What is said of a phrase with two trees, without its trees.
pub fn ambiguous(grammar: &Grammar, phrase: &Phrase, example: &Example) -> String {
    let what = match (phrase.root, &phrase.row[..]) {
        (START, row) => named(grammar, row),
        (root, []) => format!("an empty {}", words::symbol(grammar, root)),
        (root, row) => format!("the {} {}", words::symbol(grammar, root), named(grammar, row)),
    };
    let example = match example {
        Example::Sentence(sentence) if phrase.is_sentence() && *sentence == phrase.row => String::new(),
        Example::Sentence(sentence) if phrase.is_sentence() => format!(", for example {}", named(grammar, sentence)),
        Example::Sentence(sentence) => format!(", in a sentence: {}", named(grammar, sentence)),
        Example::TooLong => format!("; a sentence with it has more than {} terminals", phrase::LONGEST),
    };
    format!("ambiguous: {what} has two trees{example}")
}

/// What is said where no two trees were found.
pub fn not_found(extent: &Extent) -> String {
    match extent {
        Extent::Unconfirmed => {
            "no sentence with two trees was found: two trees were found, but could not be confirmed. The alarm may be false."
                .to_string()
        }
        Extent::All { pairs } => format!(
            "no sentence with two trees was found: all {pairs} pairs of unfinished trees were tried. By this search, which is \
             not proved, no sentence has two trees. A mark that tells the two rules apart gives a certificate."
        ),
        Extent::Limit { pairs, moves } => format!(
            "no sentence with two trees was found: {pairs} pairs of unfinished trees were tried, and all pairs of fewer than \
             {moves} moves. The alarm may be false."
        ),
    }
}

/// Whether the library's entry confirms a sentence that is called ambiguous.
pub fn confirmation(example: &Example) -> String {
    match example {
        Example::Sentence(_) => "confirmed: the proved entry find_trees finds several trees of this sentence".to_string(),
        Example::TooLong => format!("not confirmed: the proved entry find_trees takes {} terminals at most", phrase::LONGEST),
    }
}

/// What is said where the library's entry does not confirm the trees that were found.
pub fn denied(grammar: &Grammar, sentence: &[Code], counted: &Counted) -> String {
    format!(
        "no sentence with two trees was found: two trees of {} were found, but the proved entry find_trees answers {counted}. \
         This is a fault of the search for trees; please report it. The alarm may be false.",
        named(grammar, sentence)
    )
}

impl Explanation {
    /// The explanation in lines of a page's width.
    pub fn told(&self, grammar: &Grammar) -> String {
        let paragraph = |text: &str| layout::wrapped(text, WIDTH, 2).join("\n") + "\n";
        let parting = paragraph(&self.parting.sentence(grammar, words::Naming::Lines));
        match &self.found {
            Found::Two(phrase, example) => {
                let said = paragraph(&ambiguous(grammar, phrase, example)) + &paragraph(&confirmation(example));
                let also: String = self.also.iter().map(|other| paragraph(&also_told(grammar, other))).collect();
                let more = self.more.map_or(String::new(), |more| paragraph(more.told()));
                format!("{said}{parting}{}{also}{more}", layout::trees(grammar, &phrase.left, &phrase.right))
            }
            Found::Not(extent) => format!("{parting}{}", paragraph(&not_found(extent))),
            Found::Denied(sentence, counted) => format!("{parting}{}", paragraph(&denied(grammar, sentence, counted))),
        }
    }

    /// What is said at the place of the rule: the key word and the sentence.
    pub fn headline(&self, grammar: &Grammar) -> (&'static str, String) {
        let word = if matches!(self.found, Found::Two(..)) { "ambiguous" } else { "potential" };
        (word, self.parting.at_rule(grammar))
    }
}

/// One of the other partings in a line.
pub fn also_told(grammar: &Grammar, Other { parting, phrase, example }: &Other) -> String {
    let (side, _) = parting.sides();
    let row = if phrase.row.is_empty() { "(empty)".to_string() } else { short(grammar, &phrase.row) };
    let confirmed = if *example == Example::TooLong { " (not confirmed)" } else { "" };
    format!("also: line {}: {}, in `{row}`{confirmed}", words::line_of_rule(side.rule), parting.at_rule(grammar))
}

#[cfg(test)]
mod tests {
    use super::*;
    use ambiguity::Searched;

    /// The explanation of S: if S, S: if S else S, S: x, where so many trees are counted of every sentence.
    fn explained(counted: Counted) -> (Grammar, Explanation) {
        let text = b"terminals=if,else,x\nnonterminals=S\nrule=S: if S\nrule=S: if S else S\nrule=S: x\n";
        let grammar = Grammar::read(text).unwrap();
        let Ok(Searched::Potential { witness, .. }) = grammar.search(0) else { panic!("it is ambiguous") };
        let explanation = of_counted(&grammar, &witness, &|_| counted.clone());
        (grammar, explanation)
    }

    #[test]
    fn several_trees_confirm() {
        let (grammar, explanation) = explained(Counted::Several);
        let told = explanation.told(&grammar);
        let said = "ambiguous: `if if S else S` has two trees, for example `if if x else x`\n\
                    confirmed: the proved entry find_trees finds several trees of this sentence\n";
        assert!(told.starts_with(said), "{told}");
        assert_eq!(explanation.headline(&grammar).0, "ambiguous");
    }

    /// Whatever else is counted, the sentence is not called ambiguous, and what was counted is told.
    #[test]
    fn other_counts_deny() {
        let refusal = ambiguity::Refusal { cause: ambiguity::Cause::RowWrong, at: 3 };
        for (counted, words) in
            [(Counted::None, "no tree"), (Counted::One, "one tree"), (Counted::Refused(refusal), "refused=22 at=3")]
        {
            let (grammar, explanation) = explained(counted.clone());
            assert!(matches!(&explanation.found, Found::Denied(sentence, found) if sentence.len() == 5 && *found == counted));
            assert!(explanation.also.is_empty());
            let told = explanation.told(&grammar).replace("\n  ", " ");
            let said = format!(
                "two trees of `if if x else x` were found, but the proved entry find_trees answers {words}. This is a fault"
            );
            assert!(told.contains(&said) && !told.contains("ambiguous:") && !told.contains("left tree"), "{told}");
            assert_eq!(explanation.headline(&grammar).0, "potential");
        }
    }

    /// Of the other partings those are left out that are not confirmed.
    #[test]
    fn others_are_confirmed_too() {
        let text = b"terminals=n,plus,times\nnonterminals=E\nrule=E: E plus E\nrule=E: E times E\nrule=E: n\n";
        let grammar = Grammar::read(text).unwrap();
        let Ok(Searched::Potential { witness, .. }) = grammar.search(0) else { panic!("it is ambiguous") };
        let asked = std::cell::RefCell::new(Vec::new());
        let first = |row: &[Code]| {
            asked.borrow_mut().push(row.to_vec());
            if asked.borrow().len() == 1 {
                Counted::Several
            } else {
                Counted::One
            }
        };
        let all = of(&grammar, &witness);
        assert!(!all.also.is_empty() && all.also.iter().all(|other| matches!(other.example, Example::Sentence(_))));
        let denied = of_counted(&grammar, &witness, &first);
        assert!(matches!(denied.found, Found::Two(..)) && denied.also.is_empty());
        assert_eq!(asked.borrow().len(), 1 + all.also.len());
    }
}
