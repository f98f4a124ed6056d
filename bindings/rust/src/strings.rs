//! The two strings of a witness, as letters and as the lines that the program prints.

use crate::{check_witness, nth_step, read_back, Cause, Code, Grammar, Letter, Move, Refusal, Step, START};

/// Two strings, as the lines `left=` and `right=` have them.
#[derive(Clone, Debug, Default, PartialEq, Eq)]
pub struct Strings {
    /// The letters of the left string.
    pub left: Vec<Letter>,
    /// The letters of the right string.
    pub right: Vec<Letter>,
}

impl Move {
    /// The letter of a side that moved; none where it stays.
    #[must_use]
    pub fn letter(self) -> Option<Letter> {
        match self {
            Move::Still => None,
            Move::Opening(rule) => Some(Letter::Opening(rule as u16)),
            Move::Closing(rule) => Some(Letter::Closing(rule as u16)),
            Move::Symbol(code) => Some(Letter::Symbol(code as Code)),
        }
    }
}

/// The rule of an item, by its number, and the symbol behind its dot.
#[derive(Clone, Copy)]
struct Item {
    rule: u64,
    next: Option<Code>,
}

/// Triples with so many callers, and Q.
#[derive(Clone, Copy)]
struct Triples {
    callers: usize,
    states: usize,
}

impl Triples {
    /// Layer, left and right of a triple's index.
    fn parts(self, index: u32) -> (usize, usize, usize) {
        let (index, states) = (index as usize, self.states);
        (index / states / states, index / states % states, index % states)
    }
}

/// What moved where a side goes from a state to another. An item before a nonterminal goes on to the next item of its rule by a symbol,
/// and to the first one of a rule by an opening; an item at its rule's end closes that. State 0 opens rule 0.
fn moved(items: &[Item], from: usize, to: usize) -> Move {
    match items[from].next {
        _ if from == 0 => Move::Opening(0),
        None => Move::Closing(items[from].rule),
        Some(code) if to == from + 1 => Move::Symbol(u64::from(code)),
        Some(_) => Move::Opening(items[to].rule),
    }
}

impl Grammar {
    /// The items by state; the start and the end are taken for items of rule 0 without a symbol.
    fn items(&self) -> Vec<Item> {
        let of = |rule: u64, right: &[Code]| {
            let ahead = right.iter().map(|code| Some(*code)).chain([None]);
            ahead.map(|next| Item { rule, next }).collect::<Vec<_>>()
        };
        let mut items = [of(0, &[]), of(0, &[]), of(0, &[START])].concat();
        for (number, rule) in (1..).zip(self.rules()) {
            items.extend(of(number, &rule.right));
        }
        items
    }

    /// The first step record that leads from a triple to another, of all that the library has; none if that is no successor. Behind
    /// the records that lead back to the triple itself the next indices ascend.
    fn recorded(&self, triples: Triples, from: u32, to: u32) -> Option<Step> {
        let (layer, left, right) = triples.parts(from);
        let record = |nth: usize| nth_step(self.table(), triples.callers, layer, left, right, nth).ok().flatten();
        let index = |step: &Step| (step.layer * triples.states + step.left) * triples.states + step.right;
        let place = |index: usize| (index != from as usize, index);
        let is_before = |nth: usize| record(nth).is_some_and(|step| place(index(&step)) < place(to as usize));
        let mut past = 1;
        while is_before(past - 1) {
            past *= 2;
        }
        let (mut first, mut last) = (past / 2, past - 1);
        while first < last {
            let middle = (first + last) / 2;
            if is_before(middle) {
                first = middle + 1;
            } else {
                last = middle;
            }
        }
        record(first).filter(|step| index(step) == to as usize)
    }

    /// The step record of a triple and its successor at 0 callers, by their states: only where they are the same triple do these not
    /// tell it.
    fn step(&self, triples: Triples, items: &[Item], from: u32, to: u32) -> Option<Step> {
        if from == to {
            return self.recorded(triples, from, to);
        }
        let ((from_layer, from_left, from_right), (layer, left, right)) = (triples.parts(from), triples.parts(to));
        let side = |from: usize, to: usize| {
            // At the parting a side that is at a rule's end closes it; the other one stays before its terminal.
            let moves = if layer > from_layer { items[from].next.is_none() } else { from != to };
            if moves {
                moved(items, from, to)
            } else {
                Move::Still
            }
        };
        Some(Step { layer, left, right, on_left: side(from_left, left), on_right: side(from_right, right) })
    }

    /// The step records that lead through a row of triples' indices with so many callers, as [`nth_step`] has them. None where an entry is
    /// no successor of the one before, and for callers that are refused. For a row that begins with 0, as a witness does, the time grows
    /// with its length; with callers each step is looked up among the library's records, which takes longer.
    #[must_use]
    pub fn steps(&self, callers: usize, row: &[u32]) -> Option<Vec<Step>> {
        let triples = Triples { callers, states: self.room(callers).ok()?.states };
        let items = self.items();
        let only_the_end_fails = |refusal: Refusal| refusal.cause == Cause::WitnessWrong && refusal.at == row.len();
        let leads_on = callers == 0 && check_witness(self.table(), 0, row).map_or_else(only_the_end_fails, |()| true);
        let step = |from, to| {
            if leads_on {
                self.step(triples, &items, from, to)
            } else {
                self.recorded(triples, from, to)
            }
        };
        row.windows(2).map(|entries| step(entries[0], entries[1])).collect()
    }

    /// The two strings of a witness with so many callers: what either side moves, in order. None where an entry is no successor of the one
    /// before, and for callers that are refused.
    #[must_use]
    pub fn strings(&self, callers: usize, witness: &[u32]) -> Option<Strings> {
        let steps = self.steps(callers, witness)?;
        let letters = |side: fn(&Step) -> Move| steps.iter().filter_map(|step| side(step).letter()).collect();
        Some(Strings { left: letters(|step| step.on_left), right: letters(|step| step.on_right) })
    }

    /// The word of a letter: `(2` opens rule 2, `)2` closes it, a symbol's word is its name as it is declared. None for a rule or a
    /// code that the grammar lacks; rule 0 is one of its rules.
    #[must_use]
    pub fn word(&self, letter: Letter) -> Option<String> {
        let has = |rule: u16| usize::from(rule) <= self.rules().len();
        match letter {
            Letter::Opening(rule) => has(rule).then(|| format!("({rule}")),
            Letter::Closing(rule) => has(rule).then(|| format!("){rule}")),
            Letter::Symbol(code) => self.name(code).map(String::from),
        }
    }

    /// The lines `left=` and `right=` of two strings, each ended by byte 10. None where the grammar lacks a letter.
    ///
    /// ```
    /// use ambiguity::{Grammar, Searched};
    ///
    /// let grammar = Grammar::read(b"terminals=a\nnonterminals=S\nrule=S: a S a\nrule=S: a\n")?;
    /// let Searched::Potential { witness, .. } = grammar.search(0)? else { panic!("the middle is not seen") };
    /// let strings = grammar.strings(0, &witness).unwrap();
    /// let lines = grammar.lines(&strings).unwrap();
    /// assert_eq!(lines, "left=(0 (2 a )2 a )1 )0\nright=(0 (1 a (2 a )2 )0\n");
    /// assert_eq!(grammar.read_back(lines.as_bytes())?, strings);
    /// # Ok::<(), ambiguity::Refusal>(())
    /// ```
    #[must_use]
    pub fn lines(&self, strings: &Strings) -> Option<String> {
        let words = |string: &[Letter]| string.iter().map(|letter| self.word(*letter)).collect::<Option<Vec<_>>>();
        let (left, right) = (words(&strings.left)?, words(&strings.right)?);
        Some(format!("left={}\nright={}\n", left.join(" "), right.join(" ")))
    }

    /// The two strings of the lines `left=` and `right=`. Names may stand there in any case. The strings need be neither accepted by
    /// the automaton nor parting. Uses as much stack as [`read_back`] does.
    ///
    /// # Errors
    ///
    /// 16 and 17, at line 1 or 2.
    pub fn read_back(&self, lines: &[u8]) -> Result<Strings, Refusal> {
        let (mut left, mut right) = (vec![0; lines.len()], vec![0; lines.len()]);
        let read = read_back(self.write().as_bytes(), lines, &mut left, &mut right).map_err(|refused| refused.refusal)?;
        let letters = |row: &[u32]| row.iter().filter_map(|entry| Letter::of_entry(*entry)).collect();
        Ok(Strings { left: letters(&left[..read.left]), right: letters(&right[..read.right]) })
    }
}

#[cfg(test)]
mod tests {
    use super::*;
    use crate::{Searched, MAX_CALLERS};

    #[test]
    fn strings_and_words() {
        let grammar = Grammar::read(b"terminals=a\nnonterminals=S\nrule=S: S\nrule=S: a\n").unwrap();
        let found = grammar.search(0).unwrap();
        let Searched::Potential { witness, .. } = found else { panic!("S: S is taken any number of times") };
        let strings = grammar.strings(0, &witness).unwrap();
        let lines = grammar.lines(&strings).unwrap();
        assert_eq!(lines, "left=(0 S )0\nright=(0 (1 S )1 )0\n");
        assert_eq!(grammar.read_back(lines.as_bytes()), Ok(strings.clone()));
        assert_eq!(grammar.read_back(b"left=(0 s )0\nright=(0 (1 s )1 )0\n"), Ok(strings));
        assert_eq!(grammar.read_back(b"left=\nright=\n"), Ok(Strings::default()));
        assert_eq!(grammar.lines(&Strings::default()).unwrap(), "left=\nright=\n");
        assert_eq!(grammar.read_back(b"left=(3\nright=\n").unwrap_err().to_string(), "refused=16 at=1");
        let lacked = [Letter::Opening(3), Letter::Closing(3), Letter::Symbol(2), Letter::Symbol(START + 1)];
        for letter in lacked {
            let left = vec![Letter::Opening(2), letter];
            assert_eq!((grammar.word(letter), grammar.lines(&Strings { left, right: Vec::new() })), (None, None));
        }
        for row in [[0, 0], [0, u32::MAX], [u32::MAX, 0]] {
            assert_eq!((0..4).map(|callers| grammar.strings(callers, &row)).collect::<Vec<_>>(), [None, None, None, None]);
        }
    }

    /// All step records of a triple, one after the other.
    fn all(grammar: &Grammar, triples: Triples, from: u32) -> Vec<Step> {
        let (layer, left, right) = triples.parts(from);
        (0..).map_while(|nth| nth_step(grammar.table(), triples.callers, layer, left, right, nth).unwrap()).collect()
    }

    /// Along witnesses, and between any two triples of small grammars, the steps are the library's records.
    #[test]
    fn steps_are_records() {
        for rules in
            ["S: S\nrule=S: a", "S: a S a\nrule=S: a", "S: S S\nrule=S: a\nrule=S:", "S: T\nrule=S: a S\nrule=T: S\nrule=S: a"]
        {
            let text = format!("terminals=a\nnonterminals=S,T\nrule={rules}\n");
            let grammar = Grammar::read(text.as_bytes()).unwrap();
            for callers in 0..=MAX_CALLERS {
                steps_of(&grammar, callers);
            }
        }
    }

    fn steps_of(grammar: &Grammar, callers: usize) {
        let triples = Triples { callers, states: grammar.room(callers).unwrap().states };
        let index = |step: &Step| ((step.layer * triples.states + step.left) * triples.states + step.right) as u32;
        let Searched::Potential { witness, .. } = grammar.search(callers).unwrap() else { panic!("{grammar:?}") };
        let steps = grammar.steps(callers, &witness).unwrap();
        for (entries, step) in witness.windows(2).zip(&steps) {
            let records = all(grammar, triples, entries[0]);
            assert_eq!(records.iter().find(|record| index(record) == entries[1]), Some(step), "{grammar:?}");
        }
        if callers > 0 {
            return;
        }
        let indices = 0..2 * (triples.states * triples.states) as u32;
        for from in indices.clone() {
            let records = all(grammar, triples, from);
            for to in indices.clone() {
                let record = records.iter().find(|record| index(record) == to).copied();
                assert_eq!(grammar.recorded(triples, from, to), record, "{grammar:?}: {from} {to}");
                let step = grammar.step(triples, &grammar.items(), from, to);
                assert!(record.is_none() || step == record, "{grammar:?}: {from} {to}");
            }
        }
    }
}
