//! Drafts, document 02's [13]: histories of steps from new drafts are compared with rules kept in plain lists, and after each step every
//! entry of the row; each cause in its order; full drafts; rows that are too short, longer, and of any numbers, with a draft or none.

mod support;

use ambiguity::{
    add_rule, check_table, draft_counts, draft_room, draft_table, new_draft, return_to_mark, set_mark, withdraw_rule,
};
use ambiguity::{Cause, Code, Counts, Draft, Grammar, Refusal, Searched, Table};
use ambiguity::{DRAFT_BLOCK, DRAFT_ENTRIES, MARKS, MAX_RULES, MAX_STATES, START};
use support::{grammar, refused, Lent, A, B, S};

/// The most codes of a right side.
const MAX_LENGTH: usize = 12;

type Rules = Vec<Vec<Code>>;

#[derive(Clone, Debug)]
enum Step {
    Add(Vec<Code>),
    Withdraw(usize),
    Mark(usize),
    Return(usize),
}

/// Where a block begins in a row.
const fn place(block: usize) -> usize {
    2 + block * DRAFT_BLOCK
}

/// The rules of a block, each with its left code and length; none if it holds no rules.
fn rules_in(row: &[u16], block: usize) -> Option<Rules> {
    let block = &row[place(block)..place(block + 1)];
    let (mut rest, mut rules) = (&block[1..], Rules::new());
    for _ in 0..block[0].checked_sub(1)? {
        let length = 2 + usize::from(*rest.get(1)?);
        rules.push(rest.get(..length)?.to_vec());
        rest = &rest[length..];
    }
    Some(rules)
}

/// A block gets these rules: its first entry and its table are written, and nothing else.
fn put(row: &mut [u16], block: usize, rules: &[Vec<Code>]) {
    let table = rules.concat();
    row[place(block)] = rules.len() as u16 + 1;
    row[place(block) + 1..][..table.len()].copy_from_slice(&table);
}

fn no<T>(cause: Cause, at: usize) -> Result<T, Refusal> {
    refused(cause, at)
}

/// The rule at the front of some entries, tried behind these rules.
fn tried(terminals: usize, nonterminals: usize, rules: &[Vec<Code>], entries: &[Code]) -> Result<Vec<Code>, Refusal> {
    let at = rules.concat().len();
    let is_nonterminal = |code: Code| code >= START && usize::from(code - START) < nonterminals;
    let is_declared = |code: Code| code >= 1 && usize::from(code) <= terminals || is_nonterminal(code);
    if rules.len() >= MAX_RULES {
        return no(Cause::TooManyRules, at);
    }
    let [left, length, codes @ ..] = entries else { return no(Cause::Truncated, at) };
    if !is_nonterminal(*left) {
        return no(Cause::LeftUndeclared, at);
    }
    if usize::from(*length) > MAX_LENGTH {
        return no(Cause::RuleTooLong, at);
    }
    let Some(codes) = codes.get(..usize::from(*length)) else { return no(Cause::Truncated, at) };
    if let Some(wrong) = codes.iter().position(|code| !is_declared(*code)) {
        return no(Cause::CodeUndeclared, at + 2 + wrong);
    }
    let rule = entries[..2 + codes.len()].to_vec();
    if rules.contains(&rule) {
        return no(Cause::RuleRepeated, at);
    }
    let states = 4 + rules.iter().map(|rule| rule.len() - 1).sum::<usize>() + rule.len() - 1;
    if states > MAX_STATES {
        return no(Cause::TooManyStates, at);
    }
    Ok(rule)
}

/// What a step makes of a row, by the rules in it.
fn stepped(row: &mut [u16], step: &Step) -> Result<(), Refusal> {
    if row.len() < DRAFT_ENTRIES {
        return no(Cause::BufferTooShort, 0);
    }
    let Some(mut rules) = rules_in(row, 0) else { return no(Cause::NotPresent, 0) };
    let is_mark = |mark: usize| (1..=MARKS).contains(&mark);
    match step {
        Step::Add(entries) => {
            rules.push(tried(usize::from(row[0]), usize::from(row[1]), &rules, entries)?);
            put(row, 0, &rules);
        }
        Step::Withdraw(number) if (1..=rules.len()).contains(number) => {
            rules.remove(number - 1);
            put(row, 0, &rules);
        }
        Step::Mark(mark) if is_mark(*mark) => put(row, *mark, &rules),
        Step::Return(mark) if is_mark(*mark) => match rules_in(row, *mark) {
            Some(rules) => put(row, 0, &rules),
            None => return no(Cause::NotPresent, *mark),
        },
        Step::Withdraw(number) | Step::Mark(number) | Step::Return(number) => return no(Cause::NotPresent, *number),
    }
    Ok(())
}

/// The library's step on a lent row; what is given to it lies between guards.
fn asked(row: &mut [u16], step: &Step) -> Result<(), Refusal> {
    match step {
        Step::Add(entries) => {
            let given = Lent::new(entries, 0xFFFF);
            let answer = add_rule(row, given.row());
            assert!(given.kept());
            answer
        }
        Step::Withdraw(number) => withdraw_rule(row, *number),
        Step::Mark(mark) => set_mark(row, *mark),
        Step::Return(mark) => return_to_mark(row, *mark),
    }
}

/// The same on a draft that owns its row.
fn asked_of(draft: &mut Draft, step: &Step) -> Result<(), Refusal> {
    match step {
        Step::Add(entries) => draft.add(entries),
        Step::Withdraw(number) => draft.withdraw(*number),
        Step::Mark(mark) => draft.mark(*mark),
        Step::Return(mark) => draft.return_to(*mark),
    }
}

/// What is read of a row that is long enough: counts and table, or 23 for both.
fn read(row: &[u16]) {
    let Some(rules) = rules_in(row, 0) else {
        assert_eq!((draft_counts(row), draft_table(row)), (no(Cause::NotPresent, 0), no(Cause::NotPresent, 0)));
        return;
    };
    let table = rules.concat();
    let counts = Counts {
        terminals: usize::from(row[0]),
        nonterminals: usize::from(row[1]),
        rules: rules.len(),
        entries: table.len(),
        states: 4 + table.len() - rules.len(),
    };
    assert_eq!((draft_counts(row), draft_table(row)), (Ok(counts), Ok(&table[..])));
}

/// A row with guards and entries behind its draft, changed by the library and by the lists here.
struct Both {
    lent: Lent<u16>,
    right: Vec<u16>,
    draft: Option<Draft>,
}

impl Both {
    fn new(row: &[u16]) -> Both {
        Both { lent: Lent::new(row, 0xABCD), right: row.to_vec(), draft: Draft::from_row(row).ok() }
    }

    /// One step: both answer alike, every entry is the same afterwards, and what is read is that of the rules.
    fn step(&mut self, step: &Step) -> Result<(), Refusal> {
        let (answer, right) = (asked(self.lent.row_mut(), step), stepped(&mut self.right, step));
        assert_eq!(answer, right, "{step:?}");
        assert!(self.lent.row() == self.right, "{step:?}");
        assert!(self.lent.kept_past(self.right.len()), "{step:?}");
        if let Some(draft) = &mut self.draft {
            assert_eq!(asked_of(draft, step), right, "{step:?}");
            assert!(draft.row() == &self.right[..DRAFT_ENTRIES]);
            assert_eq!(draft.table(), draft_table(&self.right).unwrap());
            assert_eq!(draft.counts(), draft_counts(&self.right).unwrap());
        }
        if self.right.len() >= DRAFT_ENTRIES {
            read(&self.right);
        }
        right
    }
}

/// A row of numbers with so many entries, so that each entry that is written shows.
fn numbers(entries: usize) -> Vec<u16> {
    (0..entries).map(|entry| (entry * 7 + 5) as u16).collect()
}

/// A new draft in a row of numbers, with entries behind it; all entries are what they are to be.
fn begun(table: Table) -> Both {
    let mut lent = Lent::new(&numbers(DRAFT_ENTRIES + 5), 0xABCD);
    let mut right = lent.row().to_vec();
    new_draft(table, lent.row_mut()).unwrap();
    (right[0], right[1]) = (table.terminals as u16, table.nonterminals as u16);
    right[3..3 + table.rules.len()].copy_from_slice(table.rules);
    right[2] = lent.row()[2];
    (1..=MARKS).for_each(|mark| right[place(mark)] = 0);
    assert!(lent.row() == right && lent.kept_past(right.len()));
    assert_eq!(rules_in(&right, 0).unwrap().concat(), table.rules);
    let draft = Draft::new(table.terminals, table.nonterminals, table.rules).unwrap();
    assert_eq!(draft.table(), table.rules);
    let draft = Some(Draft::from_row(&right).unwrap());
    Both { lent, right, draft }
}

#[test]
fn lengths() {
    assert_eq!((draft_room(), DRAFT_ENTRIES, DRAFT_BLOCK, MARKS), (12_827, 12_827, 1_425, 8));
    assert_eq!(Cause::NotPresent.number(), 23);
    assert_eq!(Cause::NotPresent.text(), "no such mark, rule or draft");
}

/// S: a S b, S:, S: A, A: a; with marks.
#[test]
fn a_class() {
    let mut both = begun(grammar(2, 2, &[]));
    let first = Step::Add(vec![S, 3, 1, S, 2, Code::MAX, 99]);
    for (step, answer, table) in [
        (Step::Withdraw(1), no(Cause::NotPresent, 1), &[][..]),
        (Step::Mark(8), Ok(()), &[]),
        (first.clone(), Ok(()), &[S, 3, 1, S, 2]),
        (Step::Add(vec![S, 0]), Ok(()), &[S, 3, 1, S, 2, S, 0]),
        (Step::Mark(1), Ok(()), &[S, 3, 1, S, 2, S, 0]),
        (first, no(Cause::RuleRepeated, 7), &[S, 3, 1, S, 2, S, 0]),
        (Step::Add(vec![]), no(Cause::Truncated, 7), &[S, 3, 1, S, 2, S, 0]),
        (Step::Add(vec![S, 1, A]), Ok(()), &[S, 3, 1, S, 2, S, 0, S, 1, A]),
        (Step::Add(vec![A, 1, 1]), Ok(()), &[S, 3, 1, S, 2, S, 0, S, 1, A, A, 1, 1]),
        (Step::Withdraw(2), Ok(()), &[S, 3, 1, S, 2, S, 1, A, A, 1, 1]),
        (Step::Mark(2), Ok(()), &[S, 3, 1, S, 2, S, 1, A, A, 1, 1]),
        (Step::Return(1), Ok(()), &[S, 3, 1, S, 2, S, 0]),
        (Step::Mark(2), Ok(()), &[S, 3, 1, S, 2, S, 0]),
        (Step::Return(3), no(Cause::NotPresent, 3), &[S, 3, 1, S, 2, S, 0]),
        (Step::Return(8), Ok(()), &[]),
        (Step::Return(2), Ok(()), &[S, 3, 1, S, 2, S, 0]),
        (Step::Withdraw(1), Ok(()), &[S, 0]),
        (Step::Mark(0), no(Cause::NotPresent, 0), &[S, 0]),
        (Step::Return(9), no(Cause::NotPresent, 9), &[S, 0]),
        (Step::Withdraw(usize::MAX), no(Cause::NotPresent, usize::MAX), &[S, 0]),
        (Step::Mark(65_537), no(Cause::NotPresent, 65_537), &[S, 0]),
        (Step::Return(1 << 32), no(Cause::NotPresent, 1 << 32), &[S, 0]),
    ] {
        assert_eq!(both.step(&step), answer, "{step:?}");
        assert_eq!(draft_table(&both.right), Ok(table), "{step:?}");
    }
    let draft = both.draft.unwrap();
    let kept: Vec<Option<usize>> = (0..=9).map(|mark| draft.kept(mark)).collect();
    assert_eq!(kept, [None, Some(2), Some(2), None, None, None, None, None, Some(0), None]);
    assert_eq!(format!("{draft:?}"), "Draft { terminals: 2, nonterminals: 2, rules: [32768, 0], .. }");
}

/// Tables with each cause, in the table's order, and where it is.
fn faulty() -> Vec<(usize, usize, Vec<Code>, Cause, usize)> {
    let long = |left: Code, length: usize| [vec![left, length as Code], vec![1; length]].concat();
    vec![
        (2_001, 1, vec![S, 0, S], Cause::OutOfRange, 0),
        (1, 0, vec![S, 0], Cause::OutOfRange, 0),
        (1, usize::MAX, vec![], Cause::OutOfRange, 0),
        (401, 1, (1..=401).flat_map(|code| [S, 1, code]).collect(), Cause::TooManyRules, 1_200),
        (1, 1, vec![S, 0, S], Cause::Truncated, 2),
        (1, 1, vec![S, 0, A, 13], Cause::LeftUndeclared, 2),
        (1, 1, vec![1, 0], Cause::LeftUndeclared, 0),
        (1, 1, vec![S, 13, 1], Cause::RuleTooLong, 0),
        (1, 1, vec![S, 0, S, 2, 9], Cause::Truncated, 2),
        (1, 1, vec![S, 0, S, 2, 1, 2], Cause::CodeUndeclared, 5),
        (1, 1, vec![S, 0, S, 1, 1, S, 0, S], Cause::RuleRepeated, 5),
        (1, 79, (S..S + 79).flat_map(|left| long(left, 12)).collect(), Cause::TooManyStates, 1_092),
    ]
}

/// A new draft's table comes first, and 14 behind it; a refusal leaves the row. 19 is none.
#[test]
fn new_drafts() {
    for entries in [0, DRAFT_ENTRIES - 1, DRAFT_ENTRIES, DRAFT_ENTRIES + 9] {
        let mut row = Lent::new(&numbers(entries), 0xABCD);
        for (terminals, nonterminals, rules, cause, at) in faulty() {
            let table = grammar(terminals, nonterminals, &rules);
            assert_eq!((new_draft(table, row.row_mut()), check_table(table)), (no(cause, at), no(cause, at)));
            assert!(row.kept(), "{cause:?} {entries}");
            assert_eq!(Draft::new(terminals, nonterminals, &rules).unwrap_err(), Refusal { cause, at });
        }
        for rules in [&[][..], &[S, 1, S], &[S, 0]] {
            let short = entries < DRAFT_ENTRIES;
            assert_eq!(
                new_draft(grammar(0, 1, rules), row.row_mut()),
                if short { no(Cause::BufferTooShort, 0) } else { Ok(()) }
            );
            assert!(!short || row.kept());
        }
    }
    for rules in [&[][..], &[S, 1, S], &[A, 0]] {
        let draft = Draft::new(0, 2, rules).unwrap();
        assert_eq!(check_table(draft.as_table()), no(Cause::NoSentence, 0));
    }
}

/// Every step is refused with 14 by a row that is too short, whatever it holds and whatever the number is.
#[test]
fn short_rows() {
    let whole = begun(grammar(1, 1, &[S, 1, 1])).right;
    for entries in [0, 1, 3, DRAFT_BLOCK, DRAFT_ENTRIES - 1] {
        let mut both = Both::new(&whole[..entries]);
        for number in [0, 1, 8, 9, usize::MAX] {
            for step in [Step::Withdraw(number), Step::Mark(number), Step::Return(number), Step::Add(vec![S, 0])] {
                assert_eq!(both.step(&step), no(Cause::BufferTooShort, 0));
            }
        }
        let short = no(Cause::BufferTooShort, 0);
        assert_eq!((draft_counts(&both.right), draft_table(&both.right)), (no(Cause::BufferTooShort, 0), short));
        assert_eq!(Draft::from_row(&both.right).unwrap_err().to_string(), "refused=14 at=0");
    }
}

/// With the most rules 7 comes before all that is wrong with the rule; with the most states 8 comes last.
#[test]
fn full_drafts() {
    let units: Vec<Code> = (1..=400).flat_map(|code| [S, 1, code]).collect();
    let mut both = begun(grammar(401, 1, &units));
    for rule in [vec![], vec![S], vec![1, 0], vec![S, 13], vec![S, 1, 0], vec![S, 1, 1], vec![S, 1, 401]] {
        assert_eq!(both.step(&Step::Add(rule)), no(Cause::TooManyRules, 1_200));
    }
    assert_eq!(both.step(&Step::Mark(3)), Ok(()));
    assert_eq!(both.step(&Step::Withdraw(1)), Ok(()));
    assert_eq!(both.step(&Step::Add(vec![S, 1, 401])), Ok(()));
    assert_eq!(both.step(&Step::Add(vec![S, 1, 1])), no(Cause::TooManyRules, 1_200));
    assert_eq!(both.step(&Step::Return(3)), Ok(()));
    let long: Vec<Code> = (S..S + 78).flat_map(|left| [vec![left, 12], vec![1; 12]].concat()).collect();
    let mut both = begun(grammar(1, 78, &long));
    let most = |length: usize| Step::Add([vec![S, length as Code], vec![1; length]].concat());
    assert_eq!(both.step(&most(6)), no(Cause::TooManyStates, 1_092));
    assert_eq!(both.step(&most(12)), no(Cause::RuleRepeated, 1_092));
    assert_eq!(both.step(&most(5)), Ok(()));
    assert_eq!(draft_counts(&both.right).unwrap().states, MAX_STATES);
    assert_eq!(both.step(&most(0)), no(Cause::TooManyStates, 1_099));
    assert_eq!(both.step(&Step::Mark(8)), Ok(()));
    assert_eq!(both.step(&Step::Withdraw(79)), Ok(()));
    assert_eq!(both.step(&most(0)), Ok(()));
    assert_eq!(both.step(&Step::Return(8)), Ok(()));
    // The most entries that a table has.
    let shorter = |place: Code| [vec![S + place, 1], vec![1 + place % 4]].concat();
    let rules: Vec<Code> =
        (0..380).flat_map(shorter).chain((0..20).flat_map(|place| [vec![S + place, 12], vec![1; 12]].concat())).collect();
    let mut both = begun(grammar(4, 380, &rules));
    assert_eq!(
        draft_counts(&both.right).unwrap(),
        Counts { terminals: 4, nonterminals: 380, rules: 400, entries: 1_420, states: 1_024 }
    );
    (1..=MARKS).for_each(|mark| assert_eq!(both.step(&Step::Mark(mark)), Ok(())));
    (1..=400).rev().for_each(|number| assert_eq!(both.step(&Step::Withdraw(number)), Ok(())));
    (1..=MARKS).for_each(|mark| assert_eq!(both.step(&Step::Return(mark)), Ok(())));
    assert_eq!(draft_table(&both.right), Ok(&rules[..]));
}

/// A stream of numbers, the same in every run.
struct Random(u64);

impl Random {
    fn below(&mut self, limit: usize) -> usize {
        self.0 ^= self.0 << 13;
        self.0 ^= self.0 >> 7;
        self.0 ^= self.0 << 17;
        (self.0 >> 32) as usize % limit
    }

    fn one<T: Copy>(&mut self, of: &[T]) -> T {
        of[self.below(of.len())]
    }

    /// A code of so many terminals and nonterminals, sometimes one that is none.
    fn code(&mut self, terminals: usize, nonterminals: usize) -> Code {
        match self.below(12) {
            0 => self.one(&[0, 2_001, S - 1, Code::MAX, terminals as Code + 1, S + nonterminals as Code]),
            1..=6 if terminals > 0 => 1 + self.below(terminals) as Code,
            _ => S + self.below(nonterminals) as Code,
        }
    }

    /// Entries with a rule in front: whole, cut or too long, and often with others behind it.
    fn entries(&mut self, terminals: usize, nonterminals: usize) -> Vec<Code> {
        let left = if self.below(12) == 0 { self.code(terminals, nonterminals) } else { S + self.below(nonterminals) as Code };
        let length = if self.below(14) == 0 { 10 + self.below(5) } else { self.below(4) };
        let mut entries = vec![left, length as Code];
        entries.extend((0..length).map(|_| self.code(terminals, nonterminals)));
        match self.below(9) {
            0 => entries.truncate(self.below(entries.len() + 1)),
            1 | 2 => entries.extend((0..self.below(20)).map(|place| place as Code * 977)),
            _ => (),
        }
        entries
    }

    fn step(&mut self, terminals: usize, nonterminals: usize, rules: usize) -> Step {
        match self.below(10) {
            0..=4 => Step::Add(self.entries(terminals, nonterminals)),
            5 | 6 => Step::Withdraw(self.below(rules + 3)),
            7 => Step::Mark(self.below(MARKS + 2)),
            8 => Step::Return(self.below(MARKS + 2)),
            _ => {
                let number = self.one(&[0, 9, 255, 256, 65_535, 65_536, 65_537, (1 << 32) + 1, usize::MAX]);
                [Step::Withdraw(number), Step::Mark(number), Step::Return(number)][self.below(3)].clone()
            }
        }
    }
}

/// How often each cause was answered, by its number; 0 is done.
fn count(counts: &mut [usize; 24], answer: Result<(), Refusal>) {
    counts[answer.err().map_or(0, |refusal| usize::from(refusal.cause.number()))] += 1;
}

/// Histories from new drafts: the rules are those of the lists, and the table passes its check but for 19.
#[test]
fn random_histories() {
    let mut random = Random(0x0DD5_EED5_1357_9BDF);
    let (mut counts, mut without, mut most) = ([0; 24], 0, 0);
    for history in 0..400 {
        // A few long histories fill their drafts, up to the most rules or the most states.
        let long = history % 80 == 0;
        let sizes = if long { &[(2_000, 2_000)][..] } else { &[(0, 1), (1, 1), (2, 2), (3, 5), (2_000, 2_000)] };
        let (terminals, nonterminals) = random.one(sizes);
        let rules: Vec<Code> = match random.below(3) {
            0 => vec![S, 0],
            _ => vec![],
        };
        let mut both = begun(grammar(terminals, nonterminals, &rules));
        for _ in 0..if long { 900 } else { 60 } {
            let rules = draft_counts(&both.right).unwrap().rules;
            let step = match random.below(25) {
                1.. if long => Step::Add(random.entries(terminals, nonterminals)),
                _ => random.step(terminals, nonterminals, rules),
            };
            count(&mut counts, both.step(&step));
            most = most.max(rules);
        }
        let draft = both.draft.unwrap();
        match check_table(draft.as_table()) {
            Ok(states) => assert_eq!(states, draft.counts().states),
            Err(refusal) => {
                assert_eq!(refusal, Refusal { cause: Cause::NoSentence, at: 0 });
                without += 1;
            }
        }
    }
    println!("histories: answers by cause {counts:?}, {without} drafts without a sentence, up to {most} rules");
    assert!([0, 2, 3, 4, 5, 6, 7, 8, 23].iter().all(|cause| counts[*cause] > 200), "{counts:?}");
    assert!([1, 14, 19].iter().all(|cause| counts[*cause] == 0) && without > 20 && most > 300, "{counts:?} {without} {most}");
}

/// Rows of any numbers: each holds one draft or none, and steps go on from it.
#[test]
fn rows_of_any_numbers() {
    let mut random = Random(0xFEED_FACE_CAFE_BEEF);
    let (mut counts, mut with, mut without) = ([0; 24], 0, 0);
    for turn in 0..600 {
        let small = random.one(&[2, 5, 14, 70_000]);
        let mut row: Vec<u16> = (0..DRAFT_ENTRIES + random.below(3)).map(|_| random.below(small) as u16).collect();
        if turn % 3 > 0 {
            for block in 0..=MARKS {
                row[place(block)] = random.one(&[0, 1, 2, 3, 8, 60, 150, 401, 402, 475, 713, 714, u16::MAX]);
            }
        }
        if turn % 3 == 1 {
            (row[0], row[1]) = (3, 2);
        }
        if turn % 50 == 0 {
            row[place(0) + 1..place(1)].fill(0);
            row[place(0)] = random.one(&[400, 401, 713, 714]);
        }
        read(&row);
        let held = rules_in(&row, 0).is_some();
        let mut both = Both::new(&row);
        assert_eq!(both.draft.is_some(), held);
        (with, without) = (with + usize::from(held), without + usize::from(!held));
        for _ in 0..30 {
            let rules = rules_in(&both.right, 0).map_or(0, |rules| rules.len());
            count(&mut counts, both.step(&random.step(3, 2, rules)));
        }
        assert_eq!(rules_in(&both.right, 0).is_some(), held, "steps neither make a draft nor lose one");
    }
    println!("rows of any numbers: {with} with a draft, {without} without; answers by cause {counts:?}");
    assert!(with > 100 && without > 100 && [0, 2, 3, 5, 7, 23].iter().all(|cause| counts[*cause] > 50), "{counts:?}");
}

/// From a text to a draft, and from the draft's table to a verdict.
#[test]
fn a_grammar_is_edited() {
    let text = b"terminals=if,else,x\nnonterminals=S\nrule=S: if S\nrule=S: if S else S\nrule=S: x\n";
    let read = Grammar::read(text).unwrap();
    let mut draft = read.draft();
    assert_eq!((draft.table(), draft.kept(1)), (read.table().rules, None));
    draft.mark(1).unwrap();
    draft.withdraw(1).unwrap();
    let searched = |draft: &Draft| {
        let room = ambiguity::search_room(draft.as_table(), 0).unwrap();
        let [mut queue, mut parents, mut witness] = [0; 3].map(|_| vec![0; room.entries]);
        let mut certificate = vec![0; room.certificate];
        ambiguity::search(draft.as_table(), 0, &mut certificate, &mut queue, &mut parents, &mut witness).unwrap()
    };
    assert!(matches!(searched(&draft), ambiguity::Verdict::Unambiguous { .. }));
    draft.return_to(1).unwrap();
    assert!(matches!(searched(&draft), ambiguity::Verdict::Potential { .. }));
    assert!(matches!(read.search(0), Ok(Searched::Potential { .. })));
    assert_eq!(draft.add(&[B, 0]), no(Cause::LeftUndeclared, read.table().rules.len()));
}
