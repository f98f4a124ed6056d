//! Grammars in which S has no finite tree: every entry refuses them with 19 at 0, after 1 to 8 and before it looks at a certificate, a
//! witness, names, lines, a module or the length of a row. Nothing that is lent changes. A module's text alone may be of this kind.

mod support;

use ambiguity::{certificate_bytes, row_entries, Cause, Code, JoinPart, JoinRefusal, Names, Part, PartRefusal, Refusal};
use ambiguity::{Table, TripleRecord};
use ambiguity::{MAX_NAMES, MAX_NONTERMINALS, MAX_REPORT_BYTES, MAX_REPORT_TEXT_BYTES, MAX_STATES, MAX_TABLE_ENTRIES};
use support::{bytes_of, grammar, refused, search_refused, Lent, A, B, S};

const NO_SENTENCE: Refusal = Refusal { cause: Cause::NoSentence, at: 0 };

/// 19 comes before 21.
const CALLERS: [usize; 5] = [0, 1, 2, 3, usize::MAX];

/// A grammar as table and as text, with Q.
struct Endless {
    table: Table<'static>,
    text: &'static str,
    states: usize,
}

/// No rule; none of S; rules that need S again, at once or by W; a tree for W and none for X.
const ENDLESS: [Endless; 7] = [
    endless(0, 1, &[], "terminals=\nnonterminals=S\n", 4),
    endless(1, 2, &[A, 1, 1, A, 0], "terminals=a\nnonterminals=S,W\nrule=W: a\nrule=W:\n", 7),
    endless(0, 1, &[S, 1, S], "terminals=\nnonterminals=S\nrule=S: S\n", 6),
    endless(1, 1, &[S, 2, 1, S], "terminals=a\nnonterminals=S\nrule=S: a S\n", 7),
    endless(0, 1, &[S, 2, S, S], "terminals=\nnonterminals=S\nrule=S: S S\n", 7),
    endless(1, 2, &[S, 1, A, A, 2, 1, S], "terminals=a\nnonterminals=S,W\nrule=S: W\nrule=W: a S\n", 9),
    endless(1, 3, &[S, 2, A, B, A, 0, B, 2, 1, B], "terminals=a\nnonterminals=S,W,X\nrule=S: W X\nrule=W:\nrule=X: a X\n", 11),
];

const fn endless(terminals: usize, nonterminals: usize, rules: &'static [Code], text: &'static str, states: usize) -> Endless {
    Endless { table: Table { terminals, nonterminals, rules }, text, states }
}

#[test]
fn tables_rooms_and_step_records() {
    for Endless { table, states, .. } in ENDLESS {
        assert_eq!(ambiguity::check_table(table), Err(NO_SENTENCE));
        for callers in CALLERS {
            assert_eq!(ambiguity::search_room(table, callers), Err(NO_SENTENCE));
            for (layer, left, right, nth) in
                [(0, 0, 0, 0), (1, 1, 1, 0), (0, 2, 2, 1), (0, states, 0, 0), (2, 0, 0, usize::MAX)]
            {
                assert_eq!(ambiguity::nth_step(table, callers, layer, left, right, nth), Err(NO_SENTENCE));
            }
        }
    }
}

/// Bytes and rows of every kind: too short, acceptable over no moves at all, with all bits set, too long.
#[test]
fn certificates_and_witnesses() {
    for Endless { table, states, .. } in ENDLESS {
        let bytes = certificate_bytes(states);
        for certificate in [vec![], vec![0; bytes], [vec![1], vec![0; bytes - 1]].concat(), vec![0xFF; bytes + 1]] {
            for callers in CALLERS {
                assert_eq!(ambiguity::check_certificate(table, callers, &certificate), Err(NO_SENTENCE));
            }
        }
        for row in [&[][..], &[0], &[1], &[0, u32::MAX]] {
            let records: Vec<_> = row.iter().map(|entry| TripleRecord { layer: *entry, left: 0, right: 0 }).collect();
            for callers in CALLERS {
                assert_eq!(ambiguity::check_witness(table, callers, row), Err(NO_SENTENCE));
                assert_eq!(ambiguity::check_witness_records(table, callers, &records), Err(NO_SENTENCE));
            }
        }
    }
}

/// Certificates that are acceptable for such grammars, were they taken: with moves for the rules that sentences use, which are none,
/// and with moves for every rule, as document 01 has them.
#[test]
fn acceptable_certificates() {
    for (table, certificates) in [
        (grammar(0, 1, &[]), ["01000000", "05850000"]),
        (grammar(1, 2, &[A, 1, 1, A, 0]), ["01000000000000000000000000", "05400101000000000000000000"]),
    ] {
        for certificate in certificates {
            assert_eq!(ambiguity::check_certificate(table, 0, &bytes_of(certificate)), Err(NO_SENTENCE), "{certificate}");
        }
    }
    assert_eq!(ambiguity::check_certificate(grammar(0, 1, &[S, 1, S]), 0, &bytes_of("010000000000000000")), Err(NO_SENTENCE));
}

#[test]
fn searches() {
    for Endless { table, states, .. } in ENDLESS {
        for (bytes, entries) in [(0, 0), (certificate_bytes(states), row_entries(states))] {
            for callers in CALLERS {
                search_refused(table, callers, [bytes, entries, entries, entries], Cause::NoSentence);
            }
        }
    }
}

/// The reader, and reading back of lines that are at fault.
#[test]
fn texts() {
    for Endless { text, .. } in ENDLESS {
        for (entries, names) in [(0, 0), (MAX_TABLE_ENTRIES, MAX_NAMES)] {
            let mut table = Lent::new(&vec![7; entries], 0xFFFF);
            let [mut starts, mut lengths] = [0; 2].map(|_| Lent::new(&vec![7; names], u32::MAX));
            let answer = ambiguity::read_text(text.as_bytes(), table.row_mut(), starts.row_mut(), lengths.row_mut());
            assert_eq!(answer, Err(NO_SENTENCE), "{text}");
            assert!(table.kept() && starts.kept() && lengths.kept());
        }
        for lines in ["", "left=\nright=\n", "left=(9\nright=z\n"] {
            let [mut left, mut right] = [0; 2].map(|_| Lent::new(&[7; 3], u32::MAX));
            let answer = ambiguity::read_back(text.as_bytes(), lines.as_bytes(), left.row_mut(), right.row_mut());
            assert_eq!(answer, Err(PartRefusal { part: Part::Grammar, refusal: NO_SENTENCE }), "{text}{lines}");
            assert!(left.kept() && right.kept());
        }
    }
}

/// The robot's text, whatever the module's is; as a module's text it is joined.
#[test]
fn joins() {
    let robot = "terminals=a\nnonterminals=S\nrule=S: a S\nrule=S:\n";
    for Endless { text, .. } in ENDLESS {
        for module in [text, robot, ""] {
            let refusal = JoinRefusal { part: JoinPart::Robot, refusal: NO_SENTENCE };
            let mut table = Lent::new(&[7; MAX_TABLE_ENTRIES], 0xFFFF);
            assert_eq!(ambiguity::join_texts(text.as_bytes(), module.as_bytes(), table.row_mut()), Err(refusal), "{text}");
            assert!(table.kept());
            assert_eq!(ambiguity::joined_text(text.as_bytes(), module.as_bytes()), Err(refusal), "{text}");
            assert_eq!(ambiguity::joined_name(text.as_bytes(), module.as_bytes(), 0), b"", "{text}");
        }
        let joined = ambiguity::join(robot.as_bytes(), text.as_bytes()).unwrap();
        let added = text.lines().skip(2).filter(|line| !robot.lines().any(|of_robot| of_robot == *line)).count();
        assert_eq!((joined.rules().len(), joined.terminals().len()), (2 + added, 1), "{text}");
    }
}

/// Names that are missing, malformed, doubled or right.
#[test]
fn texts_written() {
    for Endless { table, text, .. } in ENDLESS {
        for (starts, lengths) in [([0; 4], [0; 4]), ([u32::MAX; 4], [1; 4]), ([0; 4], [1; 4]), ([0, 2, 4, 6], [1; 4])] {
            for (given, room) in [(0, 0), (4, 0), (4, text.len())] {
                let names = Names { bytes: b"a,S,W,X", starts: &starts[..given], lengths: &lengths[..given] };
                let mut out = Lent::new(&vec![7; room], 0xFF);
                assert_eq!(ambiguity::write_text(table, names, out.row_mut()), Err(NO_SENTENCE));
                assert!(out.kept());
                assert_eq!(ambiguity::written_length(table, names), Err(NO_SENTENCE));
            }
        }
    }
}

/// What the program prints: 14 for a longer text, 19, then 14 for more states.
#[test]
fn reports() {
    let report = |text: &str| {
        let mut out = vec![7; MAX_REPORT_BYTES];
        let length = ambiguity::report(text.as_bytes(), &mut out).unwrap();
        assert!(out[length..].iter().all(|byte| *byte == 7));
        String::from_utf8(out[..length].to_vec()).unwrap()
    };
    let rules: String = (1..=12).map(|length| format!("rule=S:{}\n", " S".repeat(length))).collect();
    let of_94_states = format!("terminals=\nnonterminals=S\n{rules}");
    for text in ENDLESS.iter().map(|endless| endless.text).chain([of_94_states.as_str()]) {
        assert_eq!(report(text), "refused=19\nat=0\n", "{text}");
    }
    assert_eq!(report(&format!("{of_94_states}rule=S:\n")), "refused=14\nat=0\n");
    let names = |front: &str| (0..127).map(|i| format!("{front}{i:04}")).collect::<Vec<_>>().join(",");
    let lists = format!("terminals={}\nnonterminals={}\n", names("terminal-a-"), names("Nonterminal"));
    let long = lists + "rule=Nonterminal0000: Nonterminal0000\n";
    assert!(long.len() > MAX_REPORT_TEXT_BYTES);
    assert_eq!(report(&long), "refused=14\nat=0\n");
    assert_eq!(ambiguity::read_text(long.as_bytes(), &mut [], &mut [], &mut []), Err(NO_SENTENCE));
}

/// Tables without a sentence that have another fault too, at the end.
#[test]
fn other_faults_come_first() {
    let with = |more: &[Code]| [&[S, 1, S], more].concat();
    let of_each = |count: Code, length: Code| -> Vec<Code> {
        (S..S + count).flat_map(|left| [vec![left, length], vec![S; length.into()]].concat()).collect()
    };
    for (nonterminals, rules, expected) in [
        (MAX_NONTERMINALS + 1, with(&[]), refused(Cause::OutOfRange, 0)),
        (1, with(&[S]), refused(Cause::Truncated, 3)),
        (1, with(&[S, 2, S]), refused(Cause::Truncated, 3)),
        (1, with(&[A, 0]), refused(Cause::LeftUndeclared, 3)),
        (1, with(&[S, 13]), refused(Cause::RuleTooLong, 3)),
        (1, with(&[S, 2, S, 1]), refused(Cause::CodeUndeclared, 6)),
        (1, with(&[S, 1, S]), refused(Cause::RuleRepeated, 3)),
        (MAX_NONTERMINALS, of_each(401, 1), refused(Cause::TooManyRules, 1200)),
        (MAX_NONTERMINALS, of_each(79, 12), refused(Cause::TooManyStates, 1092)),
        (MAX_NONTERMINALS, of_each(400, 1), Err(NO_SENTENCE)),
        (MAX_NONTERMINALS, of_each(78, 12), Err(NO_SENTENCE)),
        // With a rule more there is a sentence.
        (MAX_NONTERMINALS, [of_each(78, 12), vec![S, 0]].concat(), Ok(MAX_STATES - 5)),
    ] {
        assert_eq!(ambiguity::check_table(grammar(0, nonterminals, &rules)), expected, "{rules:?}");
    }
}

/// Texts without a sentence that have another fault too.
#[test]
fn other_faults_of_texts_come_first() {
    let names = |count: usize| (1..count).map(|i| format!(",N{i}")).collect::<String>();
    let rules = |count: usize, length: usize| -> String {
        let left = |i: usize| if i == 0 { "S".to_string() } else { format!("N{i}") };
        (0..count).map(|i| format!("rule={}:{}\n", left(i), " S".repeat(length))).collect()
    };
    let text = |count: usize, rules: String| format!("terminals=\nnonterminals=S{}\n{rules}", names(count));
    for (text, cause, at) in [
        (text(1, rules(1, 1) + "rule=S: S "), Cause::Malformed, 4),
        (text(1, rules(1, 1) + "rule=S: z\n"), Cause::NameUnknown, 4),
        (text(1, rules(1, 1)).replace("=S\n", "=S,S\n"), Cause::NameRepeated, 2),
        (text(MAX_NONTERMINALS + 1, rules(1, 1)), Cause::OutOfRange, 2),
        (text(1, rules(1, 13)), Cause::RuleTooLong, 3),
        (text(1, rules(1, 1).repeat(2)), Cause::RuleRepeated, 3),
        (text(401, rules(401, 1)), Cause::TooManyRules, 1200),
        (text(79, rules(79, 12)), Cause::TooManyStates, 1092),
        (text(400, rules(400, 1)), Cause::NoSentence, 0),
        (text(78, rules(78, 12)), Cause::NoSentence, 0),
    ] {
        let answer = ambiguity::read_text(text.as_bytes(), &mut [], &mut [], &mut []);
        assert_eq!(answer, refused(cause, at), "{text}");
    }
}
