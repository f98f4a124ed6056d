//! Answers that were worked out by hand: the reader, the writer, the report and reading back.

mod support;

use ambiguity::{
    Cause, Code, Grammar, Letter, Names, Part, PartRefusal, Read, ReadBack, Refusal, Rule, Searched, Table, Trees,
};
use ambiguity::{MAX_CALLERS, MAX_REPORT_BYTES, MAX_TEXT_BYTES};
use support::{grammar, refused, A, S};

const NESTED: &str = "terminals=x,y\nnonterminals=S,A\nrule=S: x A\nrule=S:\nrule=A: y S y\n";
const NESTED_RULES: [Code; 11] = [S, 2, 1, A, S, 0, A, 3, 2, S, 2];

/// What a text says: t, n, the number of entries and Q.
fn read(terminals: usize, nonterminals: usize, entries: usize, states: usize) -> Read {
    Read { terminals, nonterminals, entries, states }
}

/// A text; the entries that are lent for the table, the starts and the lengths; what is read, the table and the starts.
type Reading<'a> = (&'a str, [usize; 3], Result<(Read, &'a [Code], &'a [u32]), Refusal>);

/// A table; the name bytes, with starts and lengths; the room; the text.
type Writing<'a> = (Table<'a>, &'a str, &'a [u32], &'a [u32], usize, Result<&'a str, Refusal>);

/// A text, the room, the report.
type Report<'a> = (&'a [u8], usize, Result<&'a [u8], Refusal>);

#[test]
fn texts_read() {
    let long = NESTED.replace("y S y", "y S y y y y y y y y y y y");
    let cases: [Reading; 18] = [
        (NESTED, [11, 4, 4], Ok((read(2, 2, 11, 12), &NESTED_RULES, &[10, 12, 27, 29]))),
        (NESTED, [100, 10, 11], Ok((read(2, 2, 11, 12), &NESTED_RULES, &[10, 12, 27, 29]))),
        (NESTED, [10, 4, 4], refused(Cause::BufferTooShort, 0)),
        ("terminals=\nnonterminals=S\nrule=S:\n", [20, 5, 5], Ok((read(0, 1, 2, 5), &[S, 0], &[24]))),
        (NESTED.trim_end(), [100, 10, 10], refused(Cause::Malformed, 5)),
        (&NESTED.replace("y S y", "y S z"), [100, 10, 10], refused(Cause::NameUnknown, 5)),
        (&NESTED.replace("S,A", "S,x"), [100, 10, 10], refused(Cause::NameRepeated, 2)),
        (&NESTED.replace("S,A", "S,X"), [100, 10, 10], refused(Cause::NameRepeated, 2)),
        (&NESTED.replace("x,y", "x,y,Y"), [100, 10, 10], refused(Cause::NameRepeated, 1)),
        (&NESTED.replace("S,A", "S,A,s"), [100, 10, 10], refused(Cause::NameRepeated, 2)),
        (&NESTED.replace("S: x A", "s: X a"), [11, 4, 4], Ok((read(2, 2, 11, 12), &NESTED_RULES, &[10, 12, 27, 29]))),
        (&NESTED.replace("rule=A", "rule=X"), [100, 10, 10], refused(Cause::NameUnknown, 5)),
        (&NESTED.replace("rule=A", "Rule=A"), [100, 10, 10], refused(Cause::Malformed, 5)),
        (&NESTED.replace("nonterminals", "Nonterminals"), [100, 10, 10], refused(Cause::Malformed, 2)),
        (&format!("{NESTED}rule=s:\n"), [100, 10, 10], refused(Cause::RuleRepeated, 11)),
        (&long, [100, 10, 10], refused(Cause::RuleTooLong, 5)),
        ("terminals=x\nnonterminals=S,A\nrule=S: x\n", [100, 10, 10], Ok((read(1, 2, 3, 6), &[S, 1, 1], &[10, 25, 27]))),
        ("", [0, 0, 0], refused(Cause::Malformed, 1)),
    ];
    for (text, lent, expected) in cases {
        let mut rules = vec![7; lent[0]];
        let [mut starts, mut lengths] = [lent[1], lent[2]].map(|length| vec![7; length]);
        let answer = ambiguity::read_text(text.as_bytes(), &mut rules, &mut starts, &mut lengths);
        assert_eq!(answer, expected.map(|(read, _, _)| read), "{text}");
        if let Ok((read, table, places)) = expected {
            assert_eq!((&rules[..read.entries], &starts[..places.len()]), (table, places));
            assert_eq!(lengths[..places.len()], vec![1; places.len()]);
        }
    }
}

/// 2,000 names of either kind: the last ones have the highest codes. One more of either is refused.
#[test]
fn the_most_names() {
    let names = |front: &str, count: usize| (1..=count).map(|i| format!("{front}{i}")).collect::<Vec<_>>().join(",");
    let text = |terminals: usize, nonterminals: usize| {
        let lists = format!("terminals={}\nnonterminals={}\n", names("reagent-", terminals), names("Mixture-", nonterminals));
        lists + "rule=Mixture-1: reagent-2000 Mixture-2000\nrule=Mixture-2000: reagent-1999\n"
    };
    let most = text(2000, 2000);
    let grammar = Grammar::read(most.as_bytes()).unwrap();
    let rules = [Rule { left: S, right: vec![2000, 34_767] }, Rule { left: 34_767, right: vec![1999] }];
    assert_eq!((grammar.rules(), grammar.states()), (&rules[..], 9));
    assert_eq!((grammar.name(2000), grammar.name(34_767)), (Some("reagent-2000"), Some("Mixture-2000")));
    assert_eq!((grammar.name(2001), grammar.name(34_768)), (None, None));
    assert_eq!(grammar.write(), most);
    let lines = b"left=(0 (1 reagent-2000 Mixture-2000 )1\nright=Mixture-1\n";
    let strings = grammar.read_back(lines).unwrap();
    assert_eq!(strings.left[2..4], [Letter::Symbol(2000), Letter::Symbol(34_767)]);
    assert_eq!(grammar.lines(&strings).unwrap().as_bytes(), lines);
    assert_eq!(Grammar::read(text(2001, 2000).as_bytes()).map(|_| ()), refused(Cause::OutOfRange, 1));
    assert_eq!(Grammar::read(text(2000, 2001).as_bytes()).map(|_| ()), refused(Cause::OutOfRange, 2));
}

/// Of a text with as many bytes as may be all lines are looked at; one byte more is too long, whatever it says.
#[test]
fn the_most_bytes() {
    let most = ["terminals=\nnonterminals=S\n", &"rule=S: S\n".repeat(3), &"rule=S:\n".repeat(32_761)].concat();
    assert_eq!(most.len(), MAX_TEXT_BYTES);
    let read = |text: &str| ambiguity::read_text(text.as_bytes(), &mut [], &mut [], &mut []);
    assert_eq!(read(&most), refused(Cause::RuleRepeated, 3));
    assert_eq!(read(&most[..MAX_TEXT_BYTES - 1]), refused(Cause::Malformed, 32_766));
    assert_eq!(read(&(most + "\n")), refused(Cause::Malformed, 0));
}

#[test]
fn texts_written() {
    let hyphens = NESTED.replace('A', "left").replace('x', "-").replace('y', "star").replace('S', "start");
    let cut = [&NESTED_RULES[..], &[S]].concat();
    let nested = grammar(2, 2, &NESTED_RULES);
    let empty = grammar(0, 1, &[S, 0]);
    let cases: [Writing; 13] = [
        (nested, "xyABS", &[0, 1, 4, 2], &[1; 4], 200, Ok(NESTED)),
        (nested, "--start.left.", &[0, 2, 2, 8], &[1, 5, 5, 4], 200, refused(Cause::NameRepeated, 2)),
        (nested, "--start.left.", &[0, 2, 2, 8], &[1, 4, 5, 4], 300, Ok(&hyphens)),
        (nested, "xyAaS", &[0, 1, 2, 3], &[1; 4], 200, refused(Cause::NameRepeated, 3)),
        (nested, "xyXS", &[0, 1, 3, 2], &[1; 4], 200, refused(Cause::NameRepeated, 3)),
        (nested, "xyAS", &[0, 1, 3, 2], &[1; 4], 200, Ok(NESTED)),
        (nested, "xyABS", &[0, 1, 4, 2], &[1; 4], 10, refused(Cause::BufferTooShort, 0)),
        (empty, "S", &[0], &[1], 33, refused(Cause::BufferTooShort, 0)),
        (empty, "S", &[0], &[1], 34, Ok("terminals=\nnonterminals=S\nrule=S:\n")),
        (nested, "xyABS", &[0, 1, 4], &[1; 4], 200, refused(Cause::Malformed, 3)),
        (nested, "xyABS", &[0, 1, 4, u32::MAX], &[1; 4], 200, refused(Cause::Malformed, 3)),
        (grammar(2, 2, &cut), "xyABS", &[0, 1, 4, 2], &[1; 4], 200, refused(Cause::Truncated, 11)),
        (grammar(0, 0, &[]), "", &[], &[], 0, refused(Cause::OutOfRange, 0)),
    ];
    for (table, bytes, starts, lengths, room, expected) in cases {
        let mut out = vec![7; room];
        let names = Names { bytes: bytes.as_bytes(), starts, lengths };
        let answer = ambiguity::write_text(table, names, &mut out);
        assert_eq!(answer.map(|length| std::str::from_utf8(&out[..length]).unwrap()), expected);
    }
}

/// A text with uses in any case, and the same as it is declared.
const MIXED: &str =
    "terminals=take,Vol-1\nnonterminals=Method,step\nrule=METHOD: METHOD Step\nrule=method: step\nrule=Step: TAKE vOL-1\n";
const DECLARED: &str =
    "terminals=take,Vol-1\nnonterminals=Method,step\nrule=Method: Method step\nrule=Method: step\nrule=step: take Vol-1\n";

/// What was read is written with each use as it is declared, and then comes back unchanged; nothing else depends on case.
#[test]
fn read_and_written() {
    let (mixed, declared) = (Grammar::read(MIXED.as_bytes()).unwrap(), Grammar::read(DECLARED.as_bytes()).unwrap());
    assert_eq!(mixed, declared);
    assert_eq!((mixed.write().as_str(), declared.write().as_str()), (DECLARED, DECLARED));
    assert_eq!(
        (mixed.terminals(), mixed.nonterminals()),
        (&["take", "Vol-1"].map(String::from)[..], &["Method", "step"].map(String::from)[..])
    );
    // The text that was read serves as the names.
    let (mut table, mut starts, mut lengths) = ([0; 20], [0; 4], [0; 4]);
    let read = ambiguity::read_text(MIXED.as_bytes(), &mut table, &mut starts, &mut lengths).unwrap();
    let names = Names { bytes: MIXED.as_bytes(), starts: &starts, lengths: &lengths };
    let mut out = [7; 200];
    let length = ambiguity::write_text(grammar(2, 2, &table[..read.entries]), names, &mut out).unwrap();
    assert_eq!(std::str::from_utf8(&out[..length]), Ok(DECLARED));
    assert_eq!(ambiguity::written_length(grammar(2, 2, &table[..read.entries]), names), Ok(length));
}

/// The program prints names as they are declared, and reads them back in any case.
#[test]
fn reports_in_any_case() {
    let report = |text: &str| {
        let mut out = vec![7; MAX_REPORT_BYTES];
        let length = ambiguity::report(text.as_bytes(), &mut out).unwrap();
        String::from_utf8(out[..length].to_vec()).unwrap()
    };
    assert_eq!(report(MIXED), report(DECLARED));
    let odd = "terminals=Take\nnonterminals=Step\nrule=STEP: take step TAKE\nrule=step: tAKE\n";
    let lines = "left=(0 (2 Take )2 Take )1 )0\nright=(0 (1 Take (2 Take )2 )0\n";
    assert_eq!(report(odd), format!("states=10\nverdict=potential\n{lines}"));
    let grammar = Grammar::read(odd.as_bytes()).unwrap();
    let strings = grammar.read_back(lines.as_bytes()).unwrap();
    for other in [lines.replace("Take", "TAKE"), lines.replace("Take", "take"), lines.replacen("Take", "tAkE", 1)] {
        assert_eq!(grammar.read_back(other.as_bytes()), Ok(strings.clone()), "{other}");
    }
    assert_eq!(grammar.lines(&strings).unwrap(), lines);
}

/// A text's refusal is a report too; an output that is too short is the report's own.
#[test]
fn reports_of_refusals() {
    let long = vec![b'a'; ambiguity::MAX_REPORT_TEXT_BYTES + 1];
    let cases: [Report; 4] = [
        (b"", MAX_REPORT_BYTES, Ok(b"refused=16\nat=1\n")),
        (&long, MAX_REPORT_BYTES, Ok(b"refused=14\nat=0\n")),
        (b"", 15, refused(Cause::BufferTooShort, 0)),
        (&long, 0, refused(Cause::BufferTooShort, 0)),
    ];
    for (text, room, expected) in cases {
        let mut out = vec![7; room];
        let answer = ambiguity::report(text, &mut out);
        assert_eq!(answer.map(|length| &out[..length]), expected);
    }
}

/// In NESTED: two lines, and the refusal.
#[test]
fn lines_that_are_refused() {
    let malformed = |at| (Cause::Malformed, at);
    let unknown = |at| (Cause::NameUnknown, at);
    let cases = [
        ("", malformed(1)),
        ("left=", malformed(1)),
        ("left=\n", malformed(2)),
        ("left=\nright=", malformed(2)),
        ("left=\nright=\n\n", malformed(2)),
        ("left=\nright=\nx", malformed(2)),
        ("right=\nleft=\n", malformed(1)),
        ("left =\nright=\n", malformed(1)),
        ("Left=\nright=\n", malformed(1)),
        ("left= x\nright=\n", malformed(1)),
        ("left=x \nright=\n", malformed(1)),
        ("left=x  y\nright=\n", malformed(1)),
        ("left=x,y\nright=\n", malformed(1)),
        ("left=x\r\nright=\n", malformed(1)),
        ("left=(\nright=\n", malformed(1)),
        ("left=)\nright=\n", malformed(1)),
        ("left=(01\nright=\n", malformed(1)),
        ("left=(00\nright=\n", malformed(1)),
        ("left=(4\nright=\n", malformed(1)),
        ("left=(99999999999999999999\nright=\n", malformed(1)),
        ("left=(4294967297\nright=\n", malformed(1)),
        ("left=(18446744073709551617\nright=\n", malformed(1)),
        ("left=(1x\nright=\n", malformed(1)),
        ("left=(-1\nright=\n", malformed(1)),
        ("left=((1\nright=\n", malformed(1)),
        ("left=sixteen-letters-\nright=\n", malformed(1)),
        ("left=sixteen-letters\nright=\n", unknown(1)),
        ("left=z\nright=\n", unknown(1)),
        ("left=1\nright=\n", unknown(1)),
        ("left=X Z\nright=\n", unknown(1)),
        ("left=left\nright=\n", unknown(1)),
        // Within a line 16 comes before 17, and line 1 before line 2.
        ("left=z (4\nright=\n", malformed(1)),
        ("left=z\nright=(4\n", unknown(1)),
        ("left=z\n", unknown(1)),
        ("left=\nright=z (4\n", malformed(2)),
        ("left=\nright=z\n", unknown(2)),
        ("left=\nright=z\n\n", malformed(2)),
        ("left=x\nright=y\n", (Cause::BufferTooShort, 0)),
        ("left=X\nright=a\n", (Cause::BufferTooShort, 0)),
    ];
    for (lines, (cause, at)) in cases {
        let answer = ambiguity::read_back(NESTED.as_bytes(), lines.as_bytes(), &mut [], &mut []);
        assert_eq!(answer, Err(PartRefusal { part: Part::Lines, refusal: Refusal { cause, at } }), "{lines:?}");
        let answer = ambiguity::read_back(NESTED.trim_end().as_bytes(), lines.as_bytes(), &mut [], &mut []);
        let refusal = Refusal { cause: Cause::Malformed, at: 5 };
        assert_eq!(answer, Err(PartRefusal { part: Part::Grammar, refusal }), "{lines:?}");
    }
}

#[test]
fn lines_read_back() {
    let lines = b"left=(0 (3 x S )3 )0\nright=\n";
    let (mut left, mut right) = ([7; 7], [7; 1]);
    let answer = ambiguity::read_back(NESTED.as_bytes(), lines, &mut left, &mut right);
    assert_eq!(answer, Ok(ReadBack { left: 6, right: 0 }));
    let letters =
        [Letter::Opening(0), Letter::Opening(3), Letter::Symbol(1), Letter::Symbol(S), Letter::Closing(3), Letter::Closing(0)];
    assert_eq!((left[..6].to_vec(), left[6], right), (letters.map(Letter::entry).to_vec(), 7, [7]));
}

/// A line has no limit: half a million letters on either side.
#[test]
fn long_lines() {
    let words = "(0 x )3 S ".repeat(125_000);
    let lines = format!("left={}\nright={}\n", words.trim_end(), words.trim_end());
    let rows = || vec![0; lines.len()];
    let (mut left, mut right) = (rows(), rows());
    let answer = ambiguity::read_back(NESTED.as_bytes(), lines.as_bytes(), &mut left, &mut right);
    assert_eq!(answer, Ok(ReadBack { left: 500_000, right: 500_000 }));
    let four = [Letter::Opening(0), Letter::Symbol(1), Letter::Closing(3), Letter::Symbol(S)].map(Letter::entry);
    for row in [left, right] {
        assert!(row[..500_000].chunks(4).all(|letters| letters == four));
        assert!(row[500_000..].iter().all(|entry| *entry == 0));
    }
}

/// A thread with 128 KiB of stack reads a grammar, searches it, checks the certificate and finds a tree.
#[test]
fn a_thread_with_little_stack() {
    let judged = || {
        let grammar = Grammar::read(NESTED.as_bytes()).unwrap();
        for callers in 0..=MAX_CALLERS {
            let Ok(Searched::Unambiguous { certificate, .. }) = grammar.search(callers) else { panic!("it is unambiguous") };
            assert_eq!(grammar.check(callers, &certificate), Ok(()));
        }
        assert_eq!(grammar.trees(&[1, 2, 2], 3), Ok(Trees::One(vec![1, 3, 2])));
    };
    std::thread::Builder::new().stack_size(128 << 10).spawn(judged).unwrap().join().unwrap();
}
