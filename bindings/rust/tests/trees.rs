//! The trees of one sentence, document 02's [12]: none, one with its rules, several; each cause in its order; what the work row and the
//! list hold afterwards, lent exactly, one less and more. Small grammars are compared with trees that are counted by their depth, and
//! every list of rules is read as a tree of the row again.

mod support;

use ambiguity::{find_trees, trees_entries, trees_room, Cause, Code, Grammar, Refusal, Searched, Table, Trees, TreesFound};
use ambiguity::{MAX_CALLERS, MAX_ROW, MAX_STATES, PLACES, START};
use std::collections::BTreeMap;
use std::fs;
use std::path::Path;
use support::{grammar, refused, Lent, A, B, S};

const C: Code = START + 3;

/// What the rows hold before a call.
const WORK: u32 = 7;
const LIST: u16 = 9;

/// What a call leaves of the work row's first entries.
#[derive(Clone, Copy, Debug, PartialEq)]
enum Work {
    Kept,
    Zero,
}

/// Finds trees with a work row and a list of these lengths, between guards: the answer, what the work row is, and the front of the list
/// that was written. Nothing else changes.
fn lent(table: Table, row: &[Code], lengths: (usize, usize)) -> (Result<TreesFound, Refusal>, Work, Vec<u16>) {
    let [rules, given] = [table.rules, row].map(|codes| Lent::new(codes, Code::MAX));
    let (mut work, mut list) = (Lent::new(&vec![WORK; lengths.0], u32::MAX), Lent::new(&vec![LIST; lengths.1], u16::MAX));
    let answer = find_trees(Table { rules: rules.row(), ..table }, given.row(), work.row_mut(), list.row_mut());
    let written = match answer {
        Ok(TreesFound::One { rules }) => rules,
        _ => 0,
    };
    let is_kept = work.kept();
    let cleared = trees_room(table).unwrap_or(0);
    assert!(is_kept || work.kept_past(cleared) && work.row()[..cleared].iter().all(|entry| *entry == 0), "{table:?} {row:?}");
    assert!(rules.kept() && given.kept() && list.kept_past(written), "{table:?} {row:?}");
    (answer, if is_kept { Work::Kept } else { Work::Zero }, list.row()[..written].to_vec())
}

/// The trees of a row, asked with exact rows, longer ones and shorter ones; the answer is the same wherever it is no refusal with 14.
fn trees(table: Table, row: &[Code], most: usize) -> Trees {
    let room = trees_room(table).unwrap();
    let short = refused(Cause::BufferTooShort, 0);
    for lengths in [(room - 1, most), (0, most), (0, 0)] {
        assert_eq!(lent(table, row, lengths), (short, Work::Kept, vec![]), "{table:?} {row:?} {lengths:?}");
    }
    let (answer, work, rules) = lent(table, row, (room, most));
    assert_eq!(work, Work::Zero, "{table:?} {row:?}");
    match answer.unwrap() {
        TreesFound::One { rules: count } => {
            assert_eq!(rules.len(), count);
            for lengths in [(room, count), (room + 3, count), (room, count + 5)] {
                assert_eq!(lent(table, row, lengths), (answer, Work::Zero, rules.clone()), "{table:?} {row:?} {lengths:?}");
            }
            for lengths in [(room, count - 1), (room + 3, count / 2), (room, 0)] {
                assert_eq!(lent(table, row, lengths), (short, Work::Zero, vec![]), "{table:?} {row:?} {lengths:?}");
            }
            Trees::One(rules)
        }
        found => {
            for lengths in [(room, 0), (room + 3, 2)] {
                assert_eq!(lent(table, row, lengths), (answer, Work::Zero, vec![]), "{table:?} {row:?} {lengths:?}");
            }
            if found == TreesFound::Several {
                Trees::Several
            } else {
                Trees::None
            }
        }
    }
}

/// S: A B, A: C, B: b, C: c.
const ORDER: [Code; 13] = [S, 2, A, B, A, 1, C, B, 1, 1, C, 1, 2];

/// S: if S, S: if S else S, S: x.
const DANGLING: [Code; 13] = [S, 2, 1, S, S, 4, 1, S, 2, S, S, 1, 3];

#[test]
fn each_node_before_its_children() {
    let table = grammar(2, 4, &ORDER);
    assert_eq!(trees(table, &[2, 1], 9), Trees::One(vec![1, 2, 4, 3]));
    assert_eq!(trees(table, &[1, 2], 9), Trees::None);
    assert_eq!(trees(table, &[], 9), Trees::None);
    let table = grammar(3, 1, &DANGLING);
    assert_eq!(trees(table, &[1, 3, 2, 1, 3], 9), Trees::One(vec![2, 3, 1, 3]));
    assert_eq!(trees(table, &[1, 1, 3, 2, 3], 9), Trees::Several);
    assert_eq!(trees(table, &[1, 1, 3, 2, 3, 2, 3], 9), Trees::One(vec![2, 2, 3, 3, 3]));
}

/// Where S: S leads back to itself, each row with a tree has infinitely many; so where empty trees do.
#[test]
fn infinitely_many() {
    let cycle = [S, 1, S, S, 1, 1];
    assert_eq!(trees(grammar(1, 1, &cycle), &[1], 9), Trees::Several);
    assert_eq!(trees(grammar(1, 1, &cycle), &[], 9), Trees::None);
    assert_eq!(trees(grammar(1, 1, &cycle), &[1, 1], 9), Trees::None);
    let hidden = [S, 2, A, S, S, 1, 1, A, 0];
    assert_eq!(trees(grammar(1, 2, &hidden), &[1], 9), Trees::Several);
    let two = [S, 1, A, A, 1, B, B, 1, A, B, 1, 1];
    assert_eq!(trees(grammar(1, 3, &two), &[1], 9), Trees::Several);
    // The cycle of B stands in no tree: A alone leads to a terminal.
    let apart = [S, 1, A, A, 1, 1, A, 2, B, 2, B, 1, B];
    assert_eq!(trees(grammar(2, 3, &apart), &[1], 9), Trees::One(vec![1, 2]));
}

#[test]
fn the_empty_row() {
    assert_eq!(trees(grammar(0, 1, &[S, 0]), &[], 9), Trees::One(vec![1]));
    assert_eq!(trees(grammar(0, 1, &[S, 0, S, 2, S, S]), &[], 9), Trees::Several);
    assert_eq!(trees(grammar(0, 3, &[S, 1, A, S, 1, B, A, 0, B, 0]), &[], 9), Trees::Several);
    assert_eq!(trees(grammar(0, 3, &[S, 2, A, B, A, 0, B, 1, A]), &[], 9), Trees::One(vec![1, 2, 3, 2]));
    assert_eq!(trees(grammar(1, 1, &[S, 1, 1]), &[], 9), Trees::None);
    // Only nullable subtrees differ: A stands for nothing in two ways.
    assert_eq!(trees(grammar(1, 3, &[S, 2, A, 1, A, 0, A, 1, B, B, 0]), &[1], 9), Trees::Several);
}

/// Tables with each cause, in the table's order, and where it is.
fn faulty() -> Vec<(usize, usize, Vec<Code>, Cause, usize)> {
    let rules = |count: Code| (1..=count).flat_map(|code| [S, 1, code]).collect::<Vec<_>>();
    let long = |left: Code, length: usize| [vec![left, length as Code], vec![1; length]].concat();
    let states = (S..S + 79).flat_map(|left| long(left, 12)).collect();
    vec![
        (2_001, 1, vec![S, 0], Cause::OutOfRange, 0),
        (1, 0, vec![S, 0], Cause::OutOfRange, 0),
        (1, 1, vec![S, 0, S, 2, 1], Cause::Truncated, 2),
        (1, 1, vec![S, 0, A, 0], Cause::LeftUndeclared, 2),
        (1, 1, long(S, 13), Cause::RuleTooLong, 0),
        (1, 1, vec![S, 0, S, 2, 1, 2], Cause::CodeUndeclared, 5),
        (1, 1, vec![S, 0, S, 1, 1, S, 0], Cause::RuleRepeated, 5),
        (401, 1, rules(401), Cause::TooManyRules, 1_200),
        (1, 79, states, Cause::TooManyStates, 1_092),
        (1, 1, vec![S, 1, S], Cause::NoSentence, 0),
        (1, 1, vec![], Cause::NoSentence, 0),
    ]
}

/// Faults of the table come first, whatever the row and the lent rows are; nothing changes.
#[test]
fn tables_that_are_refused() {
    for (terminals, nonterminals, rules, cause, at) in faulty() {
        let table = grammar(terminals, nonterminals, &rules);
        assert_eq!(trees_room(table), refused(cause, at));
        for row in [&[][..], &[1], &[0], &[1; 65], &[S; 99]] {
            for lengths in [(0, 0), (trees_entries(MAX_STATES), 9), (0, 9)] {
                assert_eq!(lent(table, row, lengths), (refused(cause, at), Work::Kept, vec![]), "{row:?} {lengths:?}");
            }
        }
    }
}

/// 22 at the first place at fault comes before 14; nothing changes.
#[test]
fn rows_that_are_refused() {
    let rules = [S, 2, S, 1, S, 0, S, 1, 2];
    let table = grammar(2, 1, &rules);
    let room = trees_room(table).unwrap();
    let refuses = |row: &[Code], at: usize| {
        for lengths in [(room, 99), (room - 1, 99), (0, 0), (room + 1, 0)] {
            assert_eq!(lent(table, row, lengths), (refused(Cause::RowWrong, at), Work::Kept, vec![]), "{row:?} {lengths:?}");
        }
    };
    for code in [0, 3, 2_000, 2_001, S - 1, S, S + 1, Code::MAX] {
        for length in 1..=MAX_ROW + 2 {
            for place in 0..length {
                let mut row = vec![1; length];
                row[place] = code;
                refuses(&row, place.min(MAX_ROW));
                row[length - 1] = code;
                refuses(&row, place.min(MAX_ROW));
            }
        }
    }
    for length in [MAX_ROW + 1, MAX_ROW + 2, 1_000] {
        refuses(&vec![1; length], MAX_ROW);
    }
    assert_eq!((Cause::RowWrong.number(), MAX_ROW, PLACES), (22, 64, 65));
    for length in [MAX_ROW - 1, MAX_ROW] {
        let rules = [vec![1; length], vec![2]].concat();
        assert_eq!(trees(table, &vec![1; length], 99), Trees::One(rules));
    }
    // With terminals at their limit the last one is taken.
    let most = [S, 1, 2_000];
    assert_eq!(trees(grammar(2_000, 1, &most), &[2_000], 1), Trees::One(vec![1]));
}

#[test]
fn rooms() {
    assert_eq!(trees_room(grammar(1, 1, &[S, 1, 1])), Ok(25_350));
    assert_eq!(trees_entries(MAX_STATES) * 4, 17_305_600);
    for (name, grammar) in corpus() {
        assert_eq!(trees_room(grammar.table()), Ok(trees_entries(grammar.states())), "{name}");
    }
    let long: Vec<Code> =
        (S..S + 78).flat_map(|left| [vec![left, 12], vec![1; 12]].concat()).chain([S, 5, 1, 1, 1, 1, 1]).collect();
    assert_eq!(trees_room(grammar(1, 78, &long)), Ok(trees_entries(MAX_STATES)));
}

/// The trees of a row with this root are counted by their depth, up to two: those of depth 1, 2, 3 and so on, until nothing changes.
fn counted(grammar: &Grammar, row: &[Code]) -> usize {
    type Ways = BTreeMap<(Code, usize, usize), usize>;
    let mut known = Ways::new();
    loop {
        let mut found = Ways::new();
        for rule in grammar.rules() {
            for begin in 0..=row.len() {
                let mut ends = BTreeMap::from([(begin, 1)]);
                for code in &rule.right {
                    let mut next = BTreeMap::new();
                    for (place, ways) in ends {
                        let more: Vec<(usize, usize)> = if *code < START {
                            (row.get(place) == Some(code)).then_some((place + 1, 1)).into_iter().collect()
                        } else {
                            let from = known.range((*code, place, 0)..=(*code, place, row.len()));
                            from.map(|((_, _, end), more)| (*end, *more)).collect()
                        };
                        for (end, more) in more {
                            let sum = next.entry(end).or_insert(0);
                            *sum = 2.min(*sum + ways * more);
                        }
                    }
                    ends = next;
                }
                for (end, ways) in ends {
                    let sum = found.entry((rule.left, begin, end)).or_insert(0);
                    *sum = 2.min(*sum + ways);
                }
            }
        }
        if found == known {
            return known.get(&(START, 0, row.len())).copied().unwrap_or(0);
        }
        known = found;
    }
}

/// The row of the tree with these rules; none if they are no tree of the start.
fn row_of(grammar: &Grammar, rules: &[u16]) -> Option<Vec<Code>> {
    let (mut row, mut waiting, mut rules) = (Vec::new(), vec![START], rules.iter());
    while let Some(code) = waiting.pop() {
        if code < START {
            row.push(code);
            continue;
        }
        let rule = grammar.rules().get(usize::from(*rules.next()?).checked_sub(1)?)?;
        if rule.left != code {
            return None;
        }
        waiting.extend(rule.right.iter().rev());
    }
    rules.next().is_none().then_some(row)
}

/// The trees of a row of a grammar that was read; they are those that are counted.
fn compared(grammar: &Grammar, row: &[Code]) -> Trees {
    let found = trees(grammar.table(), row, 5_000);
    assert_eq!(grammar.trees(row, 5_000), Ok(found.clone()));
    let count = match &found {
        Trees::None => 0,
        Trees::One(rules) => {
            assert_eq!(row_of(grammar, rules).as_deref(), Some(row), "{rules:?} of {}", grammar.write());
            1
        }
        Trees::Several => 2,
    };
    assert_eq!(counted(grammar, row), count, "{row:?} of {}", grammar.write());
    found
}

/// A stream of numbers, the same in every run.
struct Random(u64);

impl Random {
    fn below(&mut self, limit: usize) -> usize {
        self.0 ^= self.0 << 13;
        self.0 ^= self.0 >> 7;
        self.0 ^= self.0 << 17;
        (self.0 >> 32) as usize % limit
    }

    /// A small grammar, often with cycles, empty rules and hidden left recursion.
    fn grammar(&mut self) -> Option<Grammar> {
        let (terminals, nonterminals) = (1 + self.below(2), 1 + self.below(3));
        let (terminals, nonterminals) = (&["a", "b"][..terminals], &["S", "P", "Q"][..nonterminals]);
        let symbols = [terminals, nonterminals].concat();
        let mut rules = Vec::new();
        for _ in 0..2 + self.below(5) {
            let length = [0, 0, 1, 1, 2, 2, 3][self.below(7)];
            let right: String = (0..length).map(|_| format!(" {}", symbols[self.below(symbols.len())])).collect();
            rules.push(format!("rule={}:{right}\n", nonterminals[self.below(nonterminals.len())]));
        }
        rules.sort();
        rules.dedup();
        let text = format!("terminals={}\nnonterminals={}\n{}", terminals.join(","), nonterminals.join(","), rules.concat());
        Grammar::read(text.as_bytes()).ok()
    }

    /// The row of a random tree of at most so many symbols; none if it grows beyond.
    fn sentence(&mut self, grammar: &Grammar, most: usize) -> Option<Vec<Code>> {
        let (mut row, mut waiting, mut left) = (Vec::new(), vec![START], 40 * most);
        while let Some(code) = waiting.pop() {
            left = left.checked_sub(1)?;
            if code < START {
                row.push(code);
                continue;
            }
            let rules: Vec<_> = grammar.rules().iter().filter(|rule| rule.left == code).collect();
            let at = self.below(rules.len().max(1));
            waiting.extend(rules.get(at)?.right.iter().rev());
        }
        (row.len() <= most).then_some(row)
    }
}

#[test]
fn random_grammars_as_counted() {
    let mut random = Random(0x9E37_79B9_7F4A_7C15);
    let mut answers = [0; 3];
    let mut grammars = 0;
    while grammars < 400 {
        let Some(grammar) = random.grammar() else { continue };
        grammars += 1;
        let mut rows: Vec<Vec<Code>> = vec![vec![]];
        for _ in 0..4 {
            let length = random.below(7);
            rows.push((0..length).map(|_| 1 + random.below(grammar.terminals().len()) as Code).collect());
            rows.extend(random.sentence(&grammar, 8));
        }
        for row in rows {
            answers[match compared(&grammar, &row) {
                Trees::None => 0,
                Trees::One(_) => 1,
                Trees::Several => 2,
            }] += 1;
        }
    }
    println!("{grammars} random grammars: none, one, several {answers:?}");
    assert!(answers.iter().all(|count| *count > 300), "{answers:?}");
}

fn corpus() -> Vec<(String, Grammar)> {
    let folder = Path::new(env!("CARGO_MANIFEST_DIR")).join("../../corpus");
    let mut paths: Vec<_> = fs::read_dir(folder).unwrap().map(|entry| entry.unwrap().path()).collect();
    paths.sort();
    let read = |path: &std::path::PathBuf| Some((path.display().to_string(), Grammar::read(&fs::read(path).ok()?).ok()?));
    paths.iter().filter(|path| path.extension().is_some_and(|ending| ending == "grammar")).filter_map(read).collect()
}

/// Sentences of the corpus: they have trees, and where a search finds a certificate, at whatever number of callers, one.
#[test]
fn sentences_of_the_corpus() {
    let mut random = Random(0x1234_5678_9ABC_DEF1);
    let (mut one, mut several, mut certified) = (0, 0, 0);
    for (name, grammar) in corpus() {
        let has = |callers| matches!(grammar.search(callers), Ok(Searched::Unambiguous { .. }));
        let is_certified = grammar.states() <= 300 && (0..=MAX_CALLERS).any(has);
        for _ in 0..8 {
            let Some(row) = random.sentence(&grammar, MAX_ROW) else { continue };
            match grammar.trees(&row, 5_000).unwrap() {
                Trees::None => panic!("{row:?} of {name}"),
                Trees::One(rules) => {
                    assert_eq!(row_of(&grammar, &rules), Some(row), "{name}");
                    one += 1;
                }
                Trees::Several => {
                    assert!(!is_certified, "{row:?} of {name}");
                    several += 1;
                }
            }
            certified += usize::from(is_certified);
        }
    }
    println!("sentences of the corpus: one {one}, several {several}; of certified grammars {certified}");
    assert!(one > 300 && several > 50 && certified > 300);
}

/// The text of rules, `S: a`, whose names are those that stand there.
fn read(terminals: &str, nonterminals: &str, rules: &[String]) -> Grammar {
    let rules: String = rules.iter().map(|rule| format!("rule={rule}\n")).collect();
    Grammar::read(format!("terminals={terminals}\nnonterminals={nonterminals}\n{rules}").as_bytes()).unwrap()
}

fn names(letter: &str, count: usize) -> String {
    (0..count).map(|i| format!("{letter}{i}")).collect::<Vec<_>>().join(",")
}

/// Grammars that take long: chains of rules with one symbol in the order of the text and against it, cycles of them, with empty
/// companions; long rules of which every part has trees; and one tree of more rules than any list holds. With them come how many terminals
/// are asked about, and how many trees these have, up to two.
fn slow() -> Vec<(&'static str, Grammar, usize, usize)> {
    let chain = |count: usize, symbol: &dyn Fn(usize) -> String| {
        (1..count).rev().map(|i| format!("N{}: {}", i - 1, symbol(i))).collect::<Vec<_>>()
    };
    let unit = |i: usize| format!("N{i}");
    let last = |count: usize, rest: &[&str]| rest.iter().map(|right| format!("N{}: {right}", count - 1)).collect::<Vec<_>>();
    let nested = [last(390, &["a", "a N0"]), chain(390, &unit)].concat();
    let mut in_order = nested.clone();
    in_order.reverse();
    let cycle = [last(390, &["a", "a N389", "N0"]), chain(390, &unit)].concat();
    let empty = [last(250, &["a", "a N0"]), chain(250, &|i| format!("E N{i} E")), vec!["E:".to_string()]].concat();
    let dense: Vec<String> = (0..70)
        .map(|i| format!("N{i}: a"))
        .chain((0..60).map(|i| {
            let right: String = (0..12).map(|place| format!(" N{}", (i * 7 + place * 5) % 70)).collect();
            format!("N{i}:{right}")
        }))
        .collect();
    let doubled: Vec<String> =
        (1..70).map(|i| format!("N{}:{}", i - 1, format!(" N{i}").repeat(12))).chain(["N69:".to_string()]).collect();
    vec![
        ("a chain against the order", read("a", &names("N", 390), &nested), MAX_ROW, 1),
        ("a chain in order", read("a", &names("N", 390), &in_order), MAX_ROW, 1),
        ("a cycle", read("a", &names("N", 390), &cycle), MAX_ROW, 2),
        ("a chain with empty companions", read("a", &format!("{},E", names("N", 250)), &empty), MAX_ROW, 1),
        ("long rules of which each part has trees", read("a", &names("N", 70), &dense), MAX_ROW, 0),
        ("the same, and several trees", read("a", &names("N", 70), &dense), 56, 2),
        ("one tree of 12 to the power of 69 rules and more", read("a", &names("N", 70), &doubled), 0, 1),
    ]
}

/// What is answered for grammars that take long; bench/trees.py has the times.
#[test]
fn grammars_that_take_long() {
    for (what, grammar, length, trees) in slow() {
        let row = vec![1; length];
        let found = grammar.trees(&row, 1 << 20);
        match (found, trees) {
            (Ok(Trees::None), 0) | (Ok(Trees::Several), 2) => (),
            (Ok(Trees::One(rules)), 1) => assert_eq!(row_of(&grammar, &rules), Some(row), "{what}"),
            (found, _) => assert_eq!((found, length, trees), (refused(Cause::BufferTooShort, 0), 0, 1), "{what}"),
        }
    }
}
