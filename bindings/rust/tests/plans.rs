//! Plans of the eight-channel command set, document 02's [14]: every short row, sentences of all lengths and rows near them are compared
//! with a reader that is written out here, and with the trees of the set's table; each cause in its order; what the work row and the list
//! hold afterwards, lent exactly, one less and more; and the certificate, as the search writes it.

mod support;

use ambiguity::PlanTerminal::{self, Ch, Close, Give, Num, Repeat, Sep, Take, Vol};
use ambiguity::{
    check_certificate, find_trees, plan, plan_certificate, plan_certificate_byte, plan_room, read_plan, search, trees_room,
};
use ambiguity::{Cause, Code, Grammar, Refusal, Searched, Table, TreesFound, Verdict};
use ambiguity::{MAX_ROW, PLAN_CERTIFICATE_BYTES, PLAN_STATES, PLAN_WORK_ENTRIES, START};
use support::{grammar, refused, Lent, A, B, S};

/// P: , P: P K, K: take L vol, K: give L vol, K: repeat num P close, L: ch, L: L sep ch.
const RULES: [Code; 30] = [S, 0, S, 2, S, A, A, 3, 1, B, 2, A, 3, 3, B, 2, A, 4, 4, 5, S, 6, B, 1, 7, B, 3, B, 8, 7];

const TEXT: &[u8] =
    b"terminals=take,vol,give,repeat,num,close,ch,sep\nnonterminals=P,K,L\nrule=P:\nrule=P: P K\nrule=K: take L vol\n\
                      rule=K: give L vol\nrule=K: repeat num P close\nrule=L: ch\nrule=L: L sep ch\n";

fn table() -> Table<'static> {
    grammar(8, 3, &RULES)
}

/// The codes of words.
fn row(method: &str) -> Vec<Code> {
    method.split_whitespace().map(|word| PlanTerminal::of_word(word).unwrap().code()).collect()
}

/// The rules of the longest plan at the front of a row, and the rest of the row.
fn read_commands(mut row: &[Code]) -> (Vec<u16>, &[Code]) {
    let (mut plans, mut commands) = (vec![1], Vec::new());
    while let Some((rules, rest)) = read_command(row) {
        plans.insert(0, 2);
        commands.extend(rules);
        row = rest;
    }
    plans.extend(commands);
    (plans, row)
}

/// The rules of the command at the front of a row, and the rest of the row.
fn read_command(row: &[Code]) -> Option<(Vec<u16>, &[Code])> {
    let (first, mut rest) = row.split_first()?;
    if *first == Repeat.code() {
        let (rules, rest) = read_commands(rest.strip_prefix(&[Num.code()])?);
        return Some(([vec![5], rules].concat(), rest.strip_prefix(&[Close.code()])?));
    }
    let number = if *first == Take.code() { 3 } else { 4 };
    if ![Take.code(), Give.code()].contains(first) {
        return None;
    }
    rest = rest.strip_prefix(&[Ch.code()])?;
    let mut channels = vec![6];
    while let Some(more) = rest.strip_prefix(&[Sep.code(), Ch.code()]) {
        channels.insert(0, 7);
        rest = more;
    }
    Some(([vec![number], channels].concat(), rest.strip_prefix(&[Vol.code()])?))
}

/// The rules of the plan of a whole row.
fn expected(row: &[Code]) -> Option<Vec<u16>> {
    let (rules, rest) = read_commands(row);
    rest.is_empty().then_some(rules)
}

/// What the rows hold before a call.
const WORK: u32 = 7;
const LIST: u16 = 9;

/// Reads a plan with a work row and a list of these lengths, between guards: the answer, whether the work row is 0 afterwards, where it
/// belongs to the plan, and not as it was, and the front of the list that was written. Nothing else changes, and all is as the trees of the
/// set's table are found.
fn lent(row: &[Code], lengths: (usize, usize)) -> (Result<Option<usize>, Refusal>, bool, Vec<u16>) {
    let given = Lent::new(row, Code::MAX);
    let (mut work, mut list) = (Lent::new(&vec![WORK; lengths.0], u32::MAX), Lent::new(&vec![LIST; lengths.1], u16::MAX));
    let answer = read_plan(given.row(), work.row_mut(), list.row_mut());
    let written = answer.ok().flatten().unwrap_or(0);
    let is_cleared = !work.kept();
    let is_zero = |work: &Lent<u32>| work.row()[..PLAN_WORK_ENTRIES].iter().all(|entry| *entry == 0);
    assert!(!is_cleared || work.kept_past(PLAN_WORK_ENTRIES) && is_zero(&work), "{row:?}");
    assert!(given.kept() && list.kept_past(written), "{row:?}");
    let (mut trees_work, mut trees_list) = (vec![WORK; lengths.0], vec![LIST; lengths.1]);
    let trees = find_trees(table(), row, &mut trees_work, &mut trees_list).map(|found| match found {
        TreesFound::Nothing => None,
        TreesFound::One { rules } => Some(rules),
        TreesFound::Several => panic!("{row:?} has several trees"),
    });
    assert_eq!(trees, answer, "{row:?}");
    assert!(trees_work == work.row() && trees_list == list.row(), "{row:?}");
    (answer, is_cleared, list.row()[..written].to_vec())
}

/// The plan of a row, asked with exact rows, longer and shorter ones.
fn asked(row: &[Code]) -> Option<Vec<u16>> {
    let short = refused(Cause::BufferTooShort, 0);
    for lengths in [(PLAN_WORK_ENTRIES - 1, MAX_ROW), (0, MAX_ROW), (0, 0)] {
        assert_eq!(lent(row, lengths), (short, false, vec![]), "{row:?} {lengths:?}");
    }
    let (answer, is_cleared, rules) = lent(row, (PLAN_WORK_ENTRIES, MAX_ROW));
    assert!(is_cleared, "{row:?}");
    let Some(count) = answer.unwrap() else {
        for lengths in [(PLAN_WORK_ENTRIES, 0), (PLAN_WORK_ENTRIES + 3, 2)] {
            assert_eq!(lent(row, lengths), (Ok(None), true, vec![]), "{row:?} {lengths:?}");
        }
        assert_eq!(plan(row), Ok(None));
        return None;
    };
    for lengths in [(PLAN_WORK_ENTRIES, count), (PLAN_WORK_ENTRIES + 3, count + 5)] {
        assert_eq!(lent(row, lengths), (Ok(Some(count)), true, rules.clone()), "{row:?} {lengths:?}");
    }
    for lengths in [(PLAN_WORK_ENTRIES, count - 1), (PLAN_WORK_ENTRIES + 3, 0)] {
        assert_eq!(lent(row, lengths), (short, true, vec![]), "{row:?} {lengths:?}");
    }
    assert_eq!(plan(row), Ok(Some(rules.clone())));
    Some(rules)
}

#[test]
fn figures() {
    assert_eq!((plan_room(), PLAN_WORK_ENTRIES, PLAN_STATES, PLAN_CERTIFICATE_BYTES), (114_075, 114_075, 27, 183));
    assert_eq!(trees_room(table()), Ok(plan_room()));
    let read = Grammar::read(TEXT).unwrap();
    assert_eq!((read.table().rules, read.states()), (&RULES[..], PLAN_STATES));
    let words: Vec<&str> = PlanTerminal::ALL.map(PlanTerminal::word).to_vec();
    assert_eq!(words, read.terminals());
    for (terminal, code) in PlanTerminal::ALL.into_iter().zip(1..) {
        assert_eq!(
            (terminal.code(), PlanTerminal::of_code(code), terminal.to_string()),
            (code, Some(terminal), terminal.word().into())
        );
        assert_eq!(read.code(terminal.word()), Some(code));
        assert_eq!(PlanTerminal::of_word(&terminal.word().to_uppercase()), Some(terminal));
    }
    assert_eq!([0, 9, START].map(PlanTerminal::of_code), [None; 3]);
    assert_eq!(["", "chs", "c", "K", "ſep"].map(PlanTerminal::of_word), [None; 5]);
}

#[test]
fn methods() {
    for (method, rules) in [
        ("", Some(&[1][..])),
        ("take ch vol", Some(&[2, 1, 3, 6])),
        ("give ch sep ch sep ch vol", Some(&[2, 1, 4, 7, 7, 6])),
        ("take ch vol give ch vol", Some(&[2, 2, 1, 3, 6, 4, 6])),
        ("repeat num close", Some(&[2, 1, 5, 1])),
        ("take ch sep ch vol repeat num give ch vol close", Some(&[2, 2, 1, 3, 7, 6, 5, 2, 1, 4, 6])),
        ("repeat num repeat num close take ch vol close", Some(&[2, 1, 5, 2, 2, 1, 5, 1, 3, 6])),
        ("take", None),
        ("take vol", None),
        ("take ch sep vol", None),
        ("repeat num take ch vol", None),
        ("close", None),
        ("take ch vol close", None),
    ] {
        assert_eq!(asked(&row(method)).as_deref(), rules, "{method}");
        assert_eq!(expected(&row(method)).as_deref(), rules, "{method}");
    }
}

/// All rows of up to five terminals.
#[test]
fn every_short_row() {
    let (mut work, mut list) = (vec![0; PLAN_WORK_ENTRIES], [LIST; MAX_ROW]);
    let (mut plans, mut rows) = (0, vec![vec![]]);
    for _ in 0..=5 {
        for row in &rows {
            let right = expected(row);
            list.fill(LIST);
            let count = read_plan(row, &mut work, &mut list).unwrap();
            assert_eq!(count.map(|count| list[..count].to_vec()), right, "{row:?}");
            assert!(list[count.unwrap_or(0)..].iter().all(|entry| *entry == LIST), "{row:?}");
            plans += usize::from(right.is_some());
        }
        rows = rows.iter().flat_map(|row| (1..=8).map(|code| [&row[..], &[code]].concat())).collect();
    }
    // The empty one; take, give and repeat with three terminals; take and give with five.
    assert_eq!(plans, 1 + 3 + 2);
}

/// A stream of numbers, the same in every run.
struct Random(u64);

impl Random {
    fn below(&mut self, limit: usize) -> usize {
        self.0 ^= self.0 << 13;
        self.0 ^= self.0 >> 7;
        self.0 ^= self.0 << 17;
        (self.0 >> 32) as usize % limit
    }

    /// A method of at most so many terminals.
    fn method(&mut self, most: usize) -> Vec<Code> {
        let mut row = Vec::new();
        while row.len() + 3 <= most && self.below(12) > 0 {
            if self.below(3) == 0 {
                let most = self.below(most - row.len() - 2);
                row.extend([Repeat, Num].map(PlanTerminal::code));
                row.extend(self.method(most));
                row.push(Close.code());
                continue;
            }
            row.extend([[Take, Give][self.below(2)], Ch].map(PlanTerminal::code));
            while row.len() + 3 <= most && self.below(3) == 0 {
                row.extend([Sep, Ch].map(PlanTerminal::code));
            }
            row.push(Vol.code());
        }
        row
    }

    /// A row with one terminal added, taken away or replaced, or two swapped.
    fn changed(&mut self, row: &[Code]) -> Vec<Code> {
        let mut row = row.to_vec();
        let (place, code) = (self.below(row.len() + 1), 1 + self.below(8) as Code);
        match self.below(4) {
            0 if row.len() < MAX_ROW => row.insert(place, code),
            1 if place < row.len() => drop(row.remove(place)),
            2 if place < row.len() => row[place] = code,
            3 if place + 1 < row.len() => row.swap(place, place + 1),
            _ => {}
        }
        row
    }
}

/// Methods of all lengths, and rows near them.
#[test]
fn methods_and_rows_near_them() {
    let mut random = Random(0x2545_F491_4F6C_DD1D);
    let (mut plans, mut lengths) = ([0; 2], [0; MAX_ROW + 1]);
    for turn in 0..1_500 {
        let most = if turn % 3 == 0 { MAX_ROW } else { 1 + random.below(MAX_ROW) };
        let method = random.method(most);
        assert!(expected(&method).is_some(), "{method:?}");
        let changed = random.changed(&method);
        for row in [method, changed] {
            let right = expected(&row);
            assert_eq!(plan(&row), Ok(right.clone()), "{row:?}");
            if turn % 10 == 0 {
                assert_eq!(asked(&row), right, "{row:?}");
            }
            // A list of as many entries as a row has at most is enough.
            assert!(right.iter().all(|rules| rules.len() <= (row.len() + 1).min(MAX_ROW)), "{row:?}");
            plans[usize::from(right.is_some())] += 1;
            lengths[row.len()] += 1;
        }
    }
    println!("none, a plan {plans:?}; rows by length {lengths:?}");
    assert!(plans.iter().all(|count| *count > 500) && lengths.iter().filter(|count| **count > 0).count() > 50);
}

#[test]
fn longest_methods() {
    let commands = |count: usize| "take ch vol ".repeat(count);
    let most = row(&commands(21));
    let rules = asked(&most).unwrap();
    assert_eq!((most.len(), rules.len()), (63, MAX_ROW));
    let with = |behind: &str| asked(&row(&(commands(20) + behind))).map(|rules| rules.len());
    assert_eq!((with("take ch vol take"), with("take ch sep")), (None, None));
    assert_eq!(asked(&row(&(commands(19) + "give ch sep ch sep ch vol"))).map(|rules| rules.len()), Some(1 + 60 + 2));
    let deep = row(&("repeat num ".repeat(21) + &"close ".repeat(21)));
    let rules: Vec<u16> = (0..21).flat_map(|_| [2, 1, 5]).chain([1]).collect();
    assert_eq!((deep.len(), asked(&deep)), (63, Some(rules)));
}

/// 22 comes first, at the first place at fault, whatever is lent; then 14 for the work row.
#[test]
fn refusals() {
    let sixty_four = [row(&"take ch vol ".repeat(21)), vec![1]].concat();
    let past = |codes: &[Code]| [&sixty_four, codes].concat();
    for (given, at) in [
        (vec![0], 0),
        (vec![9], 0),
        (vec![1, 7, START], 2),
        (vec![1, 7, 2, Code::MAX, 0], 3),
        (past(&[1]), 64),
        (past(&[0]), 64),
        (past(&[1, 0, 9, START]), 64),
        ([&sixty_four[..63], &[9, 1, 1]].concat(), 63),
        ([&[0], &past(&[1, 1])[..]].concat(), 0),
        (vec![1; 5_000], 64),
    ] {
        for lengths in [(0, 0), (PLAN_WORK_ENTRIES - 1, 9), (PLAN_WORK_ENTRIES, MAX_ROW), (PLAN_WORK_ENTRIES + 2, 0)] {
            assert_eq!(lent(&given, lengths), (refused(Cause::RowWrong, at), false, vec![]), "{given:?} {lengths:?}");
        }
        assert_eq!(plan(&given), refused(Cause::RowWrong, at));
    }
    assert_eq!(asked(&sixty_four), None);
}

/// The certificate is the one that the search writes, and the check accepts it; no bit of it can be missing.
#[test]
fn certificate() {
    let told = plan_certificate();
    let mut found = [7; PLAN_CERTIFICATE_BYTES];
    let mut rows = [(); 3].map(|()| [0; 2 * PLAN_STATES * PLAN_STATES]);
    let [queue, parents, witness] = &mut rows;
    let verdict = search(table(), 0, &mut found, queue, parents, witness);
    assert_eq!(verdict, Ok(Verdict::Unambiguous { size: 90, looked: 163 }));
    assert_eq!((told, check_certificate(table(), 0, &told)), (found, Ok(())));
    assert_eq!(told.iter().map(|byte| byte.count_ones()).sum::<u32>(), 90);
    let read = Grammar::read(TEXT).unwrap();
    assert!(matches!(read.search(0), Ok(Searched::Unambiguous { certificate, .. }) if certificate == told));
    for place in 0..PLAN_CERTIFICATE_BYTES {
        assert_eq!(plan_certificate_byte(place), told[place]);
        for bit in (0..8).filter(|bit| told[place] >> bit & 1 == 1) {
            let mut less = told;
            less[place] ^= 1 << bit;
            assert!(check_certificate(table(), 0, &less).is_err(), "{place} {bit}");
        }
    }
    for place in [PLAN_CERTIFICATE_BYTES, PLAN_CERTIFICATE_BYTES + 1, 1 << 16, (1 << 32) + 1, usize::MAX] {
        assert_eq!(plan_certificate_byte(place), 0);
    }
}
