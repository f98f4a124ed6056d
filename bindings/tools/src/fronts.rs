//! How far a row of terminals of the eight-channel command set is the front of a sentence, and what may stand behind that front. What
//! is told here is tested and not proved: the library's entry alone says whether a row has a plan.

use ambiguity::Code;
use ambiguity::PlanTerminal::{self, Ch, Close, Give, Num, Repeat, Sep, Take, Vol};

use crate::answers::Fault;

/// Where a reader stands in a command.
#[derive(Clone, Copy, PartialEq, Eq)]
enum Within {
    /// Between commands.
    Nothing,
    /// Before a channel of a list.
    Channel,
    /// Behind one.
    List,
    /// Before the number of a `repeat`.
    Number,
}

/// Where a reader stands: how many commands that repeat are open, and where in the last command. From everywhere the end of a sentence can
/// be reached: the command is ended, then each open `repeat` is closed.
#[derive(Clone, Copy)]
struct Reader {
    open: usize,
    within: Within,
}

impl Reader {
    /// What may stand next.
    fn expected(self) -> &'static [PlanTerminal] {
        match self.within {
            Within::Nothing if self.open == 0 => &[Take, Give, Repeat],
            Within::Nothing => &[Take, Give, Repeat, Close],
            Within::Channel => &[Ch],
            Within::List => &[Sep, Vol],
            Within::Number => &[Num],
        }
    }

    /// Whether a sentence may end here.
    fn may_end(self) -> bool {
        self.open == 0 && self.within == Within::Nothing
    }

    /// The reader behind a terminal that may stand next.
    fn behind(self, terminal: PlanTerminal) -> Reader {
        let Reader { open, .. } = self;
        match terminal {
            Take | Give | Sep => Reader { within: Within::Channel, ..self },
            Ch => Reader { within: Within::List, ..self },
            Repeat => Reader { within: Within::Number, ..self },
            Num => Reader { open: open + 1, within: Within::Nothing },
            Close => Reader { open: open - 1, within: Within::Nothing },
            Vol => Reader { within: Within::Nothing, ..self },
        }
    }
}

/// Where a row goes wrong that is no sentence; nothing for a sentence.
pub fn fault(row: &[Code]) -> Option<Fault> {
    let mut reader = Reader { open: 0, within: Within::Nothing };
    let mut place = 0;
    for code in row {
        let Some(terminal) = reader.expected().iter().find(|terminal| terminal.code() == *code) else { break };
        reader = reader.behind(*terminal);
        place += 1;
    }
    let expected = reader.expected().iter().map(|terminal| terminal.code()).collect();
    (place < row.len() || !reader.may_end()).then(|| Fault { place, expected, may_end: reader.may_end() })
}

#[cfg(test)]
mod tests {
    use super::*;
    use ambiguity::plan;

    fn codes(words: &str) -> Vec<Code> {
        words.split_whitespace().map(|word| PlanTerminal::of_word(word).unwrap().code()).collect()
    }

    #[test]
    fn places() {
        for (row, place, expected, may_end) in [
            ("close", 0, "take give repeat", true),
            ("take vol", 1, "ch", false),
            ("take ch vol ch", 3, "take give repeat", true),
            ("take ch ch", 2, "sep vol", false),
            ("take ch sep", 3, "ch", false),
            ("repeat", 1, "num", false),
            ("repeat num take ch vol vol", 5, "take give repeat close", false),
            ("repeat num close close", 3, "take give repeat", true),
            ("repeat num repeat num close", 5, "take give repeat close", false),
        ] {
            assert_eq!(fault(&codes(row)), Some(Fault { place, expected: codes(expected), may_end }), "{row}");
        }
        for row in ["", "take ch vol", "repeat num give ch sep ch vol close take ch vol"] {
            assert_eq!(fault(&codes(row)), None, "{row}");
        }
        assert_eq!(fault(&[9]).map(|fault| fault.place), Some(0));
    }

    /// All that these sentences begin with.
    fn fronts(sentences: &[Vec<Code>]) -> std::collections::BTreeSet<Vec<Code>> {
        sentences.iter().flat_map(|row| (0..=row.len()).map(|length| row[..length].to_vec())).collect()
    }

    /// All sentences of at most so many terminals, by the rules.
    fn sentences(most: usize) -> Vec<Vec<Code>> {
        let mut rows = vec![vec![]];
        for length in 1..=most {
            let commands = commands(length);
            let longer = commands.iter().flat_map(|command| {
                rows.iter()
                    .filter(|row: &&Vec<Code>| row.len() + command.len() == length)
                    .map(|row| [&row[..], command].concat())
            });
            let longer: Vec<_> = longer.collect();
            rows.extend(longer);
        }
        rows
    }

    /// All commands of at most so many terminals.
    fn commands(most: usize) -> Vec<Vec<Code>> {
        let lists = (3..=most).step_by(2).flat_map(|length| {
            let list = [codes("ch"), codes("sep ch").repeat((length - 3) / 2)].concat();
            ["take", "give"].map(|word| [codes(word), list.clone(), codes("vol")].concat())
        });
        let repeated = most.checked_sub(3).map_or(Vec::new(), sentences);
        let repeats = repeated.into_iter().map(|row| [codes("repeat num"), row, codes("close")].concat());
        lists.chain(repeats).collect()
    }

    /// Of every row of up to four terminals the front is the longest that a sentence of up to nine begins with, whatever is expected begins
    /// one too and nothing else does; and where no fault is found the library finds a plan.
    #[test]
    fn every_short_row() {
        let sentences = sentences(9);
        assert!(sentences.iter().all(|row| fault(row).is_none() && plan(row).unwrap().is_some()));
        let fronts = fronts(&sentences);
        let mut rows = vec![vec![]];
        for _ in 0..=4 {
            for row in &rows {
                let longest = (0..=row.len()).rev().find(|length| fronts.contains(&row[..*length])).unwrap();
                let next: Vec<Code> = (1..=8).filter(|code| fronts.contains(&[&row[..longest], &[*code]].concat())).collect();
                let ends = sentences.contains(&row[..longest].to_vec());
                match fault(row) {
                    None => assert!(longest == row.len() && ends, "{row:?}"),
                    Some(Fault { place, mut expected, may_end }) => {
                        expected.sort_unstable();
                        assert_eq!((place, expected, may_end), (longest, next, ends), "{row:?}");
                    }
                }
                assert_eq!(fault(row).is_none(), plan(row).unwrap().is_some(), "{row:?}");
            }
            rows = rows.iter().flat_map(|row| (1..=8).map(|code| [&row[..], &[code]].concat())).collect();
        }
    }
}
