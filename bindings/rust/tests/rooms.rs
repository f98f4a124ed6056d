//! What is told beforehand: the room of a search and the length of a text. Lent just so much, search and writer are not refused with
//! 14; lent one less, in any row, they are, and nothing that was lent has changed.

mod support;

use ambiguity::{certificate_bytes, check_table, row_entries, search_room, write_text, written_length};
use ambiguity::{Cause, Code, Grammar, Move, Names, Refusal, Room, Searched, Table};
use ambiguity::{MAX_CALLERS, MAX_RULES, MAX_STATES, MAX_TERMINALS};
use std::fs;
use std::path::Path;
use support::{grammar, lent_less, lent_room, refused, Lent, A, B, S};

/// The room of Q states, with so many moves.
fn room(states: usize, moves: usize) -> Room {
    Room { states, certificate: certificate_bytes(states), entries: row_entries(states), moves }
}

/// t, n and a table, Q, openings and shifts: the moves are two for each opening, which some closing leads back from, and the shifts.
type Counted = (usize, usize, Vec<Code>, usize, usize, usize);

/// Document 01's "Grammars on file" with a sentence, one with rules that no sentence uses, and document 02's command set.
fn counted() -> [Counted; 10] {
    let two = [S, 1, A, S, 1, B, A, 0, B, 0];
    let last = [S, 1, A, S, 1, B, A, 3, A, 1, 1, A, 1, 1, B, 2, 1, 1];
    let channels = [
        [S, 0, S, 2, S, A].to_vec(),
        [A, 3, 1, B, 2, A, 3, 3, B, 2, A, 4, 4, 5, S, 6].to_vec(),
        [B, 1, 7, B, 3, B, 8, 7].to_vec(),
    ];
    [
        (0, 1, vec![S, 0], 5, 2, 1),
        (1, 1, vec![S, 1, 1], 6, 2, 2),
        (1, 1, vec![S, 2, S, 1, S, 1, 1], 9, 5, 4),
        (2, 1, vec![S, 3, 1, S, 2, S, 0], 9, 5, 4),
        (1, 1, vec![S, 1, S, S, 1, 1], 8, 5, 3),
        (1, 1, vec![S, 3, 1, S, 1, S, 1, 1], 10, 5, 5),
        (0, 3, two.to_vec(), 10, 5, 3),
        (1, 3, last.to_vec(), 17, 8, 9),
        (1, 2, vec![S, 1, 1, S, 1, A, A, 1, A], 10, 2, 2),
        (8, 3, channels.concat(), 27, 16, 17),
    ]
}

/// Rules of S with many moves: the empty one, those of 1 to 12 symbols S, and so many that begin with a terminal of their own, where the
/// first `twice` have two symbols S and the others one.
fn many_moves(led: Code, twice: Code) -> Vec<Code> {
    let rule = |right: Vec<Code>| [vec![S, right.len() as Code], right].concat();
    let alone = (0..=12).flat_map(|length| rule(vec![S; length]));
    let led = (1..=led).flat_map(|first| rule([vec![first], vec![S; usize::from(first <= twice) + 1]].concat()));
    alone.chain(led).collect()
}

#[test]
fn figures() {
    assert_eq!(search_room(grammar(1, 1, &[S, 1, 1]), 0), Ok(Room { states: 6, certificate: 9, entries: 72, moves: 6 }));
    for (terminals, nonterminals, rules, states, openings, shifts) in counted() {
        let table = grammar(terminals, nonterminals, &rules);
        assert_eq!(search_room(table, 0), Ok(room(states, 2 * openings + shifts)), "{table:?}");
    }
}

/// The moves of a state by its step records: those that it makes alone in layer 1, beside the end, which makes none, and the symbol
/// that it passes together with itself in layer 0.
fn moves_of(table: Table, callers: usize, state: usize) -> usize {
    let steps =
        |layer, right| (0..).map_while(move |nth| ambiguity::nth_step(table, callers, layer, state, right, nth).unwrap());
    let alone = steps(1, 1).filter(|step| step.on_right == Move::Still).count();
    alone + steps(0, state).filter(|step| matches!(step.on_left, Move::Symbol(_))).count()
}

fn counts_its_moves(table: Table, callers: usize) {
    let room = search_room(table, callers).unwrap();
    assert!(callers > 0 || room.states == check_table(table).unwrap());
    let moves = (0..room.states).map(|state| moves_of(table, callers, state)).sum::<usize>();
    assert_eq!(room.moves, moves, "{table:?} {callers}");
}

#[test]
fn moves_are_those_of_step_records() {
    for (terminals, nonterminals, rules, ..) in counted() {
        for callers in 0..=MAX_CALLERS {
            counts_its_moves(grammar(terminals, nonterminals, &rules), callers);
        }
    }
    for (_, grammar) in corpus() {
        counts_its_moves(grammar.table(), 0);
    }
    let many = many_moves(53, 2);
    let table = grammar(53, 1, &many);
    assert_eq!(search_room(table, 0), Ok(room(256, 2 * (1 + 66 * (133 + 1)) + 187)));
    counts_its_moves(table, 0);
}

/// Q is at its limit, and so many moves are told in the same way.
#[test]
fn rooms_at_the_limits() {
    // The most moves that were found: 258 rules, with 517 symbols S among the 762 on right sides.
    let most = many_moves(245, 194);
    let table = grammar(245, 1, &most);
    let openings = 1 + 258 * (517 + 1);
    assert_eq!(search_room(table, 0), Ok(room(MAX_STATES, 2 * openings + 763)));
    lent_room(table, 0);
    let units: Vec<Code> = (1..=MAX_RULES as Code).flat_map(|code| [S, 1, code]).collect();
    let table = grammar(MAX_RULES, 1, &units);
    for callers in 0..=MAX_CALLERS {
        assert_eq!(search_room(table, callers), Ok(room(804, 2 * (1 + MAX_RULES) + MAX_RULES + 1)));
        lent_room(table, callers);
    }
}

/// Every refusal is the table's.
#[test]
fn rooms_of_refused_tables() {
    let long: Vec<Code> = (S..S + 79).flat_map(|left| [vec![left, 12], vec![1; 12]].concat()).collect();
    let many: Vec<Code> = (1..=401).flat_map(|code| [S, 1, code]).collect();
    for (terminals, nonterminals, rules, cause, at) in [
        (MAX_TERMINALS + 1, 1, vec![S, 0], Cause::OutOfRange, 0),
        (0, usize::MAX, vec![S, 0], Cause::OutOfRange, 0),
        (1, 1, vec![S, 1], Cause::Truncated, 0),
        (1, 1, vec![S, 0, A, 0], Cause::LeftUndeclared, 2),
        (1, 1, [vec![S, 13], vec![1; 13]].concat(), Cause::RuleTooLong, 0),
        (1, 1, vec![S, 2, 1, 2], Cause::CodeUndeclared, 3),
        (1, 1, vec![S, 0, S, 1, 1, S, 0], Cause::RuleRepeated, 5),
        (401, 1, many, Cause::TooManyRules, 1200),
        (1, 79, long, Cause::TooManyStates, 1092),
        (1, 1, vec![], Cause::NoSentence, 0),
        (1, 1, vec![S, 1, S], Cause::NoSentence, 0),
    ] {
        let table = grammar(terminals, nonterminals, &rules);
        assert_eq!(check_table(table), refused(cause, at));
        for callers in [0, 1, 2, 3, usize::MAX] {
            assert_eq!(search_room(table, callers), refused(cause, at));
        }
        for names in
            [Names { bytes: b"", starts: &[], lengths: &[] }, Names { bytes: b"aa", starts: &[0, 1], lengths: &[1; 2] }]
        {
            assert_eq!(written_length(table, names), refused(cause, at));
        }
    }
}

#[test]
fn searches_lent_their_room_and_less() {
    for (terminals, nonterminals, rules, ..) in counted() {
        lent_room(grammar(terminals, nonterminals, &rules), 0);
    }
    for (_, grammar) in corpus() {
        for callers in 0..=MAX_CALLERS {
            if grammar.room(callers).is_ok() {
                lent_room(grammar.table(), callers);
            }
        }
    }
}

/// Of the room of S→a nothing is lent, or only a part, or one less of all.
#[test]
fn searches_lent_a_part_of_their_room() {
    let table = grammar(1, 1, &[S, 1, 1]);
    for lent in [[0, 0, 0, 0], [9, 0, 0, 0], [0, 72, 72, 72], [9, 0, 72, 72], [9, 72, 0, 72], [9, 72, 72, 0], [8, 71, 71, 71]] {
        lent_less(table, 0, lent);
    }
}

/// The texts of the corpus that are read, with their grammars.
fn corpus() -> Vec<(String, Grammar)> {
    let folder = Path::new(env!("CARGO_MANIFEST_DIR")).join("../../corpus");
    let files = fs::read_dir(folder).unwrap().map(|entry| entry.unwrap().path());
    let texts = files.filter(|path| path.extension().is_some_and(|ending| ending == "grammar"));
    let read: Vec<_> = texts
        .map(|path| fs::read_to_string(path).unwrap())
        .filter_map(|text| Grammar::read(text.as_bytes()).ok().map(|grammar| (text, grammar)))
        .collect();
    assert!(read.len() > 100, "{} texts", read.len());
    read
}

/// The writer that is lent just the length, and every length below `most` that is shorter.
fn written(table: Table, names: Names, text: &str, most: usize) {
    assert_eq!(written_length(table, names), Ok(text.len()), "{text}");
    let mut out = Lent::new(&vec![7; text.len()], 0xFF);
    assert_eq!(write_text(table, names, out.row_mut()), Ok(text.len()));
    assert!(out.row() == text.as_bytes() && out.kept_past(text.len()), "{text}");
    for room in (text.len().saturating_sub(most)..text.len()).rev() {
        let mut out = Lent::new(&vec![7; room], 0xFF);
        assert_eq!(write_text(table, names, out.row_mut()), refused(Cause::BufferTooShort, 0));
        assert!(out.kept());
    }
}

#[test]
fn texts_lent_their_length_and_less() {
    for (text, grammar) in corpus() {
        let names: Vec<&String> = grammar.terminals().iter().chain(grammar.nonterminals()).collect();
        let lengths: Vec<u32> = names.iter().map(|name| name.len() as u32).collect();
        let bytes: String = names.into_iter().map(String::as_str).collect();
        let starts: Vec<u32> = lengths.iter().scan(0, |end, length| Some(std::mem::replace(end, *end + length))).collect();
        written(grammar.table(), Names { bytes: bytes.as_bytes(), starts: &starts, lengths: &lengths }, &text, 1);
        assert_eq!(grammar.write(), text);
    }
    let names = Names { bytes: b"Sa", starts: &[1, 0], lengths: &[1, 1] };
    written(grammar(1, 1, &[S, 1, 1]), names, "terminals=a\nnonterminals=S\nrule=S: a\n", 100);
    written(
        grammar(0, 1, &[S, 0]),
        Names { starts: &[0], lengths: &[1], ..names },
        "terminals=\nnonterminals=S\nrule=S:\n",
        100,
    );
}

/// 16 and 18 come in the writer's order, at the symbol's number; no length of the output is looked at.
#[test]
fn lengths_that_are_refused() {
    let rules = [S, 1, 1];
    let table = grammar(1, 1, &rules);
    for (bytes, starts, lengths, expected) in [
        (&b"aS"[..], &[0, 1][..], &[1, 1][..], Ok(37)),
        (b"aS", &[0], &[1, 1], refused(Cause::Malformed, 1)),
        (b"aS", &[0, 1], &[1], refused(Cause::Malformed, 1)),
        (b"aS", &[], &[], refused(Cause::Malformed, 0)),
        (b"aS", &[0, 2], &[1, 1], refused(Cause::Malformed, 1)),
        (b"aS", &[0, 1], &[1, 2], refused(Cause::Malformed, 1)),
        (b"aS", &[0, 1], &[0, 1], refused(Cause::Malformed, 0)),
        (b"aS", &[u32::MAX, 1], &[u32::MAX, 1], refused(Cause::Malformed, 0)),
        (b"a_", &[0, 1], &[1, 1], refused(Cause::Malformed, 1)),
        (b"sixteen-letters-", &[0, 1], &[16, 1], refused(Cause::Malformed, 0)),
        (b"sixteen-letters", &[0, 1], &[15, 1], Ok(37 + 2 * 14)),
        (b"aa", &[0, 1], &[1, 1], refused(Cause::NameRepeated, 1)),
        (b"aa", &[1, 1], &[1, 1], refused(Cause::NameRepeated, 1)),
        (b"aA", &[0, 1], &[1, 1], refused(Cause::NameRepeated, 1)),
        (b"Take-1tAKE-1", &[0, 6], &[6, 6], refused(Cause::NameRepeated, 1)),
        (b"Take-1tAKE-1", &[0, 6], &[6, 5], Ok(37 + 2 * 5 + 2 * 4)),
        // What stands behind the symbols is not looked at.
        (b"aS", &[0, 1, 7], &[1, 1, 0, 99], Ok(37)),
    ] {
        let names = Names { bytes, starts, lengths };
        assert_eq!(written_length(table, names), expected, "{names:?}");
        let mut out = vec![7; expected.unwrap_or(100)];
        assert_eq!(write_text(table, names, &mut out), expected);
        let shorter = &mut out[..expected.map_or(0, |length: usize| length - 1)];
        let less: Result<usize, Refusal> = write_text(table, names, shorter);
        assert_eq!(less, expected.and(refused(Cause::BufferTooShort, 0)));
    }
}

/// What the owned grammar lends is what is told: its certificate has that many bytes, and what it writes has that length. Its search
/// looks at no more than is told.
#[test]
fn owned_grammars() {
    for (_, grammar) in corpus() {
        let room = grammar.room(0).unwrap();
        assert_eq!((Ok(room), room.states), (search_room(grammar.table(), 0), grammar.states()));
        let searched = grammar.search(0).unwrap();
        assert!(searched.looked() <= room.most_looked());
        match searched {
            Searched::Unambiguous { certificate, .. } => assert_eq!(certificate.len(), room.certificate),
            Searched::Potential { witness, .. } => assert!(witness.len() <= room.entries),
        }
    }
}
