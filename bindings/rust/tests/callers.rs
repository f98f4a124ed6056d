//! Remembered callers, document 02's [11]: its grammar of a biology group and its eight-channel command set with 0, 1 and 2 callers, what
//! is refused with 21 and with 8 for too many chains, and what was made with another number of callers. Nothing that is lent changes where
//! something is refused.

mod support;

use ambiguity::{certificate_bytes, row_entries, search_room, Cause, Code, Grammar, Refusal, Searched, Strings, Table};
use ambiguity::{TripleRecord, MAX_CALLERS, MAX_STATES};
use std::fs;
use std::path::Path;
use support::{all_steps, grammar, lent_room, refused, search_refused, A, B, S};

const BIOLOGY: &str = "terminals=b,c,d,e\nnonterminals=S,A\nrule=S: b A c\nrule=S: b e d\nrule=S: A d\nrule=A: e\n";

const CHANNELS: &str =
    "terminals=take,vol,give,repeat,num,close,ch,sep\nnonterminals=P,K,L\nrule=P:\nrule=P: P K\nrule=K: take L vol\n\
                        rule=K: give L vol\nrule=K: repeat num P close\nrule=L: ch\nrule=L: L sep ch\n";

fn read(text: &str) -> Grammar {
    Grammar::read(text.as_bytes()).unwrap()
}

/// Q and M with so many callers, and the size and how much is looked at; no size where the verdict is potential.
fn figures(grammar: &Grammar, callers: usize) -> (usize, usize, Option<usize>, usize) {
    let (room, found) = (grammar.room(callers).unwrap(), grammar.search(callers).unwrap());
    assert_eq!((room.certificate, room.entries), (certificate_bytes(room.states), row_entries(room.states)));
    assert!(found.looked() <= room.most_looked());
    lent_room(grammar.table(), callers);
    match found {
        Searched::Unambiguous { certificate, size, looked } => {
            assert_eq!(grammar.check(callers, &certificate), Ok(()));
            assert_eq!(certificate.iter().map(|byte| byte.count_ones() as usize).sum::<usize>(), size);
            (room.states, room.moves, Some(size), looked)
        }
        Searched::Potential { witness, looked } => {
            assert_eq!(ambiguity::check_witness(grammar.table(), callers, &witness), Ok(()));
            (room.states, room.moves, None, looked)
        }
    }
}

#[test]
fn figures_of_document_02() {
    let (biology, channels) = (read(BIOLOGY), read(CHANNELS));
    let of = |grammar: &Grammar| [0, 1, 2].map(|callers| figures(grammar, callers));
    assert_eq!(of(&biology), [(17, 22, None, 106), (19, 23, Some(58), 83), (19, 23, Some(58), 83)]);
    assert_eq!(of(&channels), [(27, 49, Some(90), 163), (47, 89, Some(214), 443), (93, 173, Some(694), 1369)]);
    assert_eq!((biology.states(), channels.states()), (17, 27));
}

/// States 15 to 18 of the biology group's grammar are those of A: e, called by S: b . A c, state 5, or by S: . A d, state 12.
#[test]
fn steps_to_and_from_callers() {
    let biology = read(BIOLOGY);
    let steps = |callers, layer, left, right| all_steps(biology.table(), callers, layer, left, right).unwrap();
    assert_eq!(steps(0, 1, 16, 1), "records=2 1,6,1,c4,- 1,13,1,c4,-");
    assert_eq!(steps(1, 1, 5, 1), "records=1 1,15,1,o4,-");
    assert_eq!(steps(1, 1, 12, 1), "records=1 1,16,1,o4,-");
    assert_eq!(steps(1, 1, 15, 16), "records=1 1,17,18,s4,s4");
    assert_eq!(steps(1, 1, 17, 1), "records=1 1,6,1,c4,-");
    assert_eq!(steps(2, 1, 18, 1), "records=1 1,13,1,c4,-");
    assert_eq!(steps(1, 0, 17, 18), "records=0");
    assert_eq!((steps(0, 0, 18, 0), steps(1, 0, 19, 0)), ("records=0".to_string(), "records=0".to_string()));
}

/// P: . P K calls itself and the rule P: of nothing; with two callers the chain below it is (P: . P K, P: . P K), with its first caller
/// (P: . P K, P': . P), and so on. The closing of an inner P K fills in every caller that its caller may have.
#[test]
fn farther_callers_are_filled_in() {
    let table = [S, 0, S, 2, S, 1];
    let list = grammar(1, 1, &table);
    assert_eq!([0, 1, 2].map(|callers| search_room(list, callers).unwrap().states), [8, 12, 16]);
    // Callers of S are 2, P': . P, and the items S: . S 1. With one caller these are states 6 and 7, and the ends states 10 and 11.
    assert_eq!(all_steps(list, 1, 1, 11, 1).unwrap(), "records=2 1,8,1,c2,- 1,9,1,c2,-");
    assert_eq!(all_steps(list, 1, 1, 10, 1).unwrap(), "records=1 1,3,1,c2,-");
    // With two, chains are (2), (S: . S 1, 2), (S: . S 1, S: . S 1): states 7, 8 and 9; past S 10, 11, 12; at the end 13, 14, 15.
    assert_eq!(all_steps(list, 2, 1, 13, 1).unwrap(), "records=1 1,3,1,c2,-");
    assert_eq!(all_steps(list, 2, 1, 14, 1).unwrap(), "records=1 1,10,1,c2,-");
    assert_eq!(all_steps(list, 2, 1, 15, 1).unwrap(), "records=2 1,11,1,c2,- 1,12,1,c2,-");
}

/// At 1 and 2 callers items of rules that no sentence uses are no states.
#[test]
fn dead_rules_have_no_states() {
    let table = [S, 1, 1, S, 1, A, A, 1, A];
    let dead = grammar(1, 2, &table);
    assert_eq!([0, 1, 2].map(|callers| search_room(dead, callers).unwrap().states), [10, 6, 6]);
    assert_eq!(all_steps(dead, 1, 0, 6, 0).unwrap(), "records=0");
}

/// A certificate, a row of indices and one of records, and lengths of rows, too short, just enough for 19 states, and longer.
fn every_entry_refuses(table: Table, callers: usize, cause: Cause) {
    assert_eq!(search_room(table, callers), refused(cause, 0));
    for length in [0, 1, certificate_bytes(19), 5_000] {
        assert_eq!(ambiguity::check_certificate(table, callers, &vec![0xFF; length]), refused(cause, 0));
        assert_eq!(ambiguity::check_witness(table, callers, &vec![7; length]), refused(cause, 0));
        let records = vec![TripleRecord { layer: 7, left: 7, right: 7 }; length];
        assert_eq!(ambiguity::check_witness_records(table, callers, &records), refused(cause, 0));
        let entries = 8 * length;
        for lengths in [[length, entries, entries, entries], [0, entries, entries, entries], [length, entries, 0, entries]] {
            search_refused(table, callers, lengths, cause);
        }
    }
    for (layer, left, right, nth) in [(0, 0, 0, 0), (1, 1, 1, 1), (usize::MAX, usize::MAX, usize::MAX, usize::MAX)] {
        assert_eq!(ambiguity::nth_step(table, callers, layer, left, right, nth), refused(cause, 0));
    }
}

#[test]
fn more_than_two_callers() {
    let biology = read(BIOLOGY);
    for callers in [3, 4, 255, 256, 257, 65_536, 65_537, 1 << 32, (1 << 32) + 1, usize::MAX - 1, usize::MAX] {
        every_entry_refuses(biology.table(), callers, Cause::TooManyCallers);
        assert_eq!(biology.search(callers), refused(Cause::TooManyCallers, 0));
        assert_eq!((biology.steps(callers, &[0]), biology.strings(callers, &[])), (None, None));
    }
    assert_eq!(Cause::TooManyCallers.number(), 21);
    // Table faults, 19 among them, come first.
    for (rules, cause, at) in [
        (&[S, 1, S][..], Cause::NoSentence, 0),
        (&[S, 0, S, 2, 1], Cause::Truncated, 2),
        (&[S, 0, S, 0], Cause::RuleRepeated, 2),
    ] {
        for callers in [1, 2, 3, usize::MAX] {
            let table = grammar(1, 1, rules);
            assert_eq!(ambiguity::check_certificate(table, callers, &[]), refused(cause, at));
            assert_eq!(ambiguity::check_witness(table, callers, &[]), refused(cause, at));
            assert_eq!(ambiguity::nth_step(table, callers, 0, 0, 0, 0), refused(cause, at));
            assert_eq!(search_room(table, callers), refused(cause, at));
        }
    }
}

/// A rule with so many times one code.
fn rule(left: Code, length: usize, code: Code) -> Vec<Code> {
    [vec![left, length as Code], vec![code; length]].concat()
}

/// The empty rule of S, and those of 1 to 12 symbols S: 79 callers of S, so 95 states without them and 7,193 with one.
fn many_calls() -> Vec<Code> {
    (0..=12).flat_map(|length| rule(S, length, S)).collect()
}

/// S: A .. A, A: B .. B, B: 1 .. 1, twelve times each: B has 12 callers, and 144 chains of two.
fn deep_calls() -> Vec<Code> {
    [rule(S, 12, A), rule(A, 12, B), rule(B, 12, 1)].concat()
}

/// S: A .. A twelve times, 80 items of A and 47 of S: 1,024 states with one caller and with two; with one item of S more 1,025.
fn most_chains(more: usize) -> Vec<Code> {
    let of_start = [12, 12, 12, 7 + more].into_iter().zip(1..).flat_map(|(length, code)| rule(S, length, code));
    let of_called = [12, 12, 12, 12, 12, 12, 1].into_iter().zip(1..).flat_map(|(length, code)| rule(A, length, code));
    rule(S, 12, A).into_iter().chain(of_start).chain(of_called).collect()
}

#[test]
fn too_many_chains() {
    let (many, deep, over) = (many_calls(), deep_calls(), most_chains(1));
    for (table, callers) in [
        (grammar(0, 1, &many), 1),
        (grammar(0, 1, &many), 2),
        (grammar(1, 3, &deep), 2),
        (grammar(7, 2, &over), 1),
        (grammar(7, 2, &over), 2),
    ] {
        every_entry_refuses(table, callers, Cause::TooManyStates);
        every_entry_refuses(table, MAX_CALLERS + callers, Cause::TooManyCallers);
    }
    let states = |table: Table, callers: usize| search_room(table, callers).map(|room| room.states);
    assert_eq!((states(grammar(0, 1, &many), 0), states(grammar(1, 3, &deep), 0)), (Ok(95), Ok(43)));
    assert_eq!(states(grammar(1, 3, &deep), 1), Ok(4 + 13 + 12 * 13 + 12 * 13));
    // The table's own 8 comes first, at the rule's offset, and 19 before that of chains.
    let long: Vec<Code> = (S..S + 79).flat_map(|left| rule(left, 12, 1)).collect();
    assert_eq!(states(grammar(1, 79, &long), 1), refused(Cause::TooManyStates, 1092));
    assert_eq!(states(grammar(0, 1, &many[2..]), 1), refused(Cause::NoSentence, 0));
}

#[test]
fn the_most_chains() {
    let most = most_chains(0);
    let table = grammar(7, 2, &most);
    assert_eq!([0, 1, 2].map(|callers| search_room(table, callers).unwrap().states), [144, MAX_STATES, MAX_STATES]);
    for callers in 0..=MAX_CALLERS {
        lent_room(table, callers);
    }
}

/// The certificate of one number of callers, given with another: Q differs and it is 9; with a rule X: X, which no sentence uses, Q is 19
/// with any, and it is 13, at (0,0,12): S: . A d opens A: e in state 15 at 0 callers, and in 16 with one.
#[test]
fn certificates_of_other_callers() {
    let (biology, channels) = (read(BIOLOGY), read(CHANNELS));
    let alike = read(&BIOLOGY.replace("S,A", "S,A,X").replace("rule=A: e\n", "rule=A: e\nrule=X: X\n"));
    let found = |grammar: &Grammar, callers| match grammar.search(callers).unwrap() {
        Searched::Unambiguous { certificate, .. } => certificate,
        Searched::Potential { .. } => panic!("it is unambiguous with {callers} callers"),
    };
    for grammar in [&channels, &biology] {
        for made in 1..=MAX_CALLERS {
            let certificate = found(grammar, made);
            for callers in 0..=MAX_CALLERS {
                let same = grammar.room(callers).unwrap().states == grammar.room(made).unwrap().states;
                let expected = if same { Ok(()) } else { refused(Cause::CertificateLength, 0) };
                assert_eq!(grammar.check(callers, &certificate), expected, "{made} {callers}");
            }
        }
    }
    assert_eq!([0, 1, 2].map(|callers| alike.room(callers).unwrap().states), [19; 3]);
    assert_eq!(alike.check(0, &found(&alike, 1)), refused(Cause::SuccessorMissing, 12));
    assert_eq!(found(&alike, 1), found(&biology, 1));
}

/// The witness of the biology group's grammar is one at 0 callers alone.
#[test]
fn witnesses_of_other_callers() {
    let biology = read(BIOLOGY);
    let Ok(Searched::Potential { witness, .. }) = biology.search(0) else { panic!("it is potential at 0 callers") };
    let records = |states: u32| -> Vec<TripleRecord> {
        let triple = |index: &u32| (index / states / states, index / states % states, index % states);
        witness.iter().map(triple).map(|(layer, left, right)| TripleRecord { layer, left, right }).collect()
    };
    assert_eq!(ambiguity::check_witness_records(biology.table(), 0, &records(17)), Ok(()));
    let lines = "left=(0 (2 b e d )2 )0\nright=(0 (1 b (4 e )4 d )3 )0\n";
    assert_eq!(biology.lines(&biology.strings(0, &witness).unwrap()).unwrap(), lines);
    for callers in 1..=MAX_CALLERS {
        let answers = [
            ambiguity::check_witness(biology.table(), callers, &witness),
            ambiguity::check_witness_records(biology.table(), callers, &records(17)),
        ];
        for answer in answers {
            assert!(matches!(answer, Err(Refusal { cause: Cause::WitnessWrong, .. })), "{answer:?}");
        }
        assert_eq!(biology.strings(callers, &witness), None);
    }
}

/// The grammars of the corpus: what is unambiguous stays so with one caller more, where the states fit; certificates and witnesses are
/// accepted with the callers that they were made with, and the strings of a witness have both sides.
#[test]
fn the_corpus_with_callers() {
    let folder = Path::new(env!("CARGO_MANIFEST_DIR")).join("../../corpus");
    let files = fs::read_dir(folder).unwrap().map(|entry| entry.unwrap().path());
    let (mut fits, mut mended) = ([0; 3], [0; 3]);
    for path in files.filter(|path| path.extension().is_some_and(|ending| ending == "grammar")) {
        let Ok(grammar) = Grammar::read(&fs::read(&path).unwrap()) else { continue };
        let mut before = false;
        for callers in 0..=MAX_CALLERS {
            let found = match grammar.search(callers) {
                Ok(found) => found,
                Err(refusal) => {
                    assert_eq!((refusal.to_string(), callers > 0), ("refused=8 at=0".to_string(), true), "{path:?}");
                    continue;
                }
            };
            fits[callers] += 1;
            match found {
                Searched::Unambiguous { certificate, .. } => {
                    assert_eq!(grammar.check(callers, &certificate), Ok(()), "{path:?}");
                    mended[callers] += usize::from(!before);
                    before = true;
                }
                Searched::Potential { witness, .. } => {
                    assert!(!before, "{path:?}");
                    assert_eq!(ambiguity::check_witness(grammar.table(), callers, &witness), Ok(()), "{path:?}");
                    let strings: Strings = grammar.strings(callers, &witness).unwrap();
                    assert!(!strings.left.is_empty() && !strings.right.is_empty(), "{path:?}");
                }
            }
        }
    }
    println!("states fit with 0, 1, 2 callers: {fits:?}; first unambiguous there: {mended:?}");
    assert!(fits[0] > 100 && fits[1] > 80 && fits[2] > 60 && mended[1] > 0);
}
