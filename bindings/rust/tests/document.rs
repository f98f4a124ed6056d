//! Document 01's grammar S → a, with every row lent too short, just enough and longer, between guards; and two lines read back in it.

mod support;

use ambiguity::{certificate_bytes, row_entries, Cause, Code, Names, Part, PartRefusal, Read, ReadBack, Refusal, Table};
use ambiguity::{Verdict, MAX_NONTERMINALS, MAX_TERMINALS};
use support::{grammar, refused, Lent, S};

const RULES: [Code; 3] = [S, 1, 1];
const CERTIFICATE: [u8; 9] = [0x15, 0x50, 0x21, 0x15, 0x08, 0x00, 0x00, 0x00, 0x00];
const TEXT: &[u8] = b"terminals=a\nnonterminals=S\nrule=S: a\n";
const STARTS: [u32; 2] = [10, 25];
const LENGTHS: [u32; 2] = [1, 1];

fn one_a(rules: &[Code]) -> Table<'_> {
    grammar(1, 1, rules)
}

#[test]
fn tables_of_every_length() {
    let rules = Lent::new(&[S, 1, 1, S], 0xFFFF);
    let answers: Vec<_> = (0..5).map(|length| ambiguity::check_table(one_a(&rules.row()[..length]))).collect();
    let cut = refused(Cause::Truncated, 0);
    assert_eq!(answers, [refused(Cause::NoSentence, 0), cut, cut, Ok(6), refused(Cause::Truncated, 3)]);
    assert!(rules.kept());
}

#[test]
fn numbers_of_every_size() {
    for (terminals, nonterminals) in
        [(MAX_TERMINALS + 1, 1), (usize::MAX, 1), (1, 0), (1, MAX_NONTERMINALS + 1), (1, usize::MAX)]
    {
        let table = Table { terminals, nonterminals, rules: &RULES };
        assert_eq!(ambiguity::check_table(table), refused(Cause::OutOfRange, 0));
        assert_eq!(ambiguity::check_certificate(table, 0, &CERTIFICATE), refused(Cause::OutOfRange, 0));
    }
    assert_eq!(ambiguity::nth_step(one_a(&RULES), 0, usize::MAX, usize::MAX, usize::MAX, 0), Ok(None));
}

#[test]
fn certificates_of_every_length() {
    let lent = Lent::new(&[CERTIFICATE, CERTIFICATE].concat(), 0x00);
    for length in 0..=lent.row().len() {
        let right = length == certificate_bytes(6);
        let expected = if right { Ok(()) } else { refused(Cause::CertificateLength, 0) };
        assert_eq!(ambiguity::check_certificate(one_a(&RULES), 0, &lent.row()[..length]), expected);
    }
    assert!(lent.kept());
}

#[test]
fn certificates_of_the_document() {
    let check = |certificate: &[u8]| ambiguity::check_certificate(one_a(&RULES), 0, certificate);
    assert_eq!(check(&CERTIFICATE), Ok(()));
    assert_eq!(check(&CERTIFICATE[..8]), refused(Cause::CertificateLength, 0));
    assert_eq!(check(&[0x00; 9]), refused(Cause::StartMissing, 0));
    assert_eq!(check(&[0xFF; 9]), refused(Cause::EndPresent, 43));
    assert_eq!(check(&[1, 0, 0, 0, 0, 0, 0, 0, 0]), refused(Cause::SuccessorMissing, 0));
}

#[test]
fn witnesses_that_are_empty_or_only_begin() {
    assert_eq!(ambiguity::check_witness(one_a(&RULES), 0, &[]), refused(Cause::WitnessWrong, 0));
    assert_eq!(ambiguity::check_witness(one_a(&RULES), 0, &[0]), refused(Cause::WitnessWrong, 1));
    assert_eq!(ambiguity::check_witness(one_a(&RULES), 0, &[0, u32::MAX]), refused(Cause::WitnessWrong, 1));
}

/// Reads the text into rows of these lengths.
fn read_into(table: usize, starts: usize, lengths: usize) {
    let mut table = Lent::new(&vec![7; table], 0xFFFF);
    let mut starts = Lent::new(&vec![7; starts], u32::MAX);
    let mut lengths = Lent::new(&vec![7; lengths], u32::MAX);
    let enough = table.row().len() >= 3 && starts.row().len() >= 2 && lengths.row().len() >= 2;
    let answer = ambiguity::read_text(TEXT, table.row_mut(), starts.row_mut(), lengths.row_mut());
    if !enough {
        assert_eq!(answer, refused(Cause::BufferTooShort, 0));
        assert!(table.kept() && starts.kept() && lengths.kept());
        return;
    }
    assert_eq!(answer, Ok(Read { terminals: 1, nonterminals: 1, entries: 3, states: 6 }));
    assert_eq!((&table.row()[..3], &starts.row()[..2], &lengths.row()[..2]), (&RULES[..], &STARTS[..], &LENGTHS[..]));
    assert!(table.kept_past(3) && starts.kept_past(2) && lengths.kept_past(2));
}

#[test]
fn rows_of_every_length_for_the_reader() {
    for table in 0..6 {
        for starts in 0..5 {
            for lengths in 0..5 {
                read_into(table, starts, lengths);
            }
        }
    }
}

/// Searches with rows that are longer or shorter by so much than just enough.
fn search_with(lengths: [isize; 4]) {
    let length = |enough: usize, more: isize| enough.checked_add_signed(more).unwrap();
    let row = |more| Lent::new(&vec![7; length(row_entries(6), more)], u32::MAX);
    let mut certificate = Lent::new(&vec![7; length(certificate_bytes(6), lengths[0])], 0xFF);
    let (mut queue, mut parents, mut witness) = (row(lengths[1]), row(lengths[2]), row(lengths[3]));
    let (lent, rows) = (certificate.row_mut(), (queue.row_mut(), parents.row_mut(), witness.row_mut()));
    let answer = ambiguity::search(one_a(&RULES), 0, lent, rows.0, rows.1, rows.2);
    if lengths.iter().any(|more| *more < 0) {
        assert_eq!(answer, refused(Cause::BufferTooShort, 0));
        assert!(certificate.kept() && queue.kept() && parents.kept() && witness.kept());
        return;
    }
    assert_eq!(answer, Ok(Verdict::Unambiguous { size: 11, looked: 14 }));
    assert_eq!(
        (&certificate.row()[..9], &queue.row()[..72], &parents.row()[..72]),
        (&CERTIFICATE[..], &[0; 72][..], &[0; 72][..])
    );
    assert!(certificate.kept_past(9) && queue.kept_past(72) && parents.kept_past(72) && witness.kept());
}

#[test]
fn rows_of_every_length_for_the_search() {
    for number in 0..81 {
        search_with([1, 3, 9, 27].map(|place| number / place % 3 - 1));
    }
}

#[test]
fn outputs_of_every_length_for_the_writer() {
    let names = Names { bytes: TEXT, starts: &STARTS, lengths: &LENGTHS };
    for room in 0..TEXT.len() + 3 {
        let mut out = Lent::new(&vec![7; room], 0xFF);
        let answer = ambiguity::write_text(one_a(&RULES), names, out.row_mut());
        if room < TEXT.len() {
            assert_eq!(answer, refused(Cause::BufferTooShort, 0));
            assert!(out.kept());
        } else {
            assert_eq!(answer, Ok(TEXT.len()));
            assert_eq!(&out.row()[..TEXT.len()], TEXT);
            assert!(out.kept_past(TEXT.len()));
        }
    }
}

#[test]
fn a_text_too_long() {
    let text = vec![b'a'; ambiguity::MAX_TEXT_BYTES + 1];
    assert_eq!(ambiguity::read_text(&text, &mut [], &mut [], &mut []), refused(Cause::Malformed, 0));
    let refusal = Refusal { cause: Cause::Malformed, at: 0 };
    assert_eq!(ambiguity::read_back(&text, b"", &mut [], &mut []), Err(PartRefusal { part: Part::Grammar, refusal }));
}

/// Its strings have two and three letters: opening 1, a; S, closing 0, a.
const LINES: &[u8] = b"left=(1 a\nright=S )0 a\n";
const LEFT: [u32; 2] = [0x1_0001, 0x3_0001];
const RIGHT: [u32; 3] = [0x3_8000, 0x2_0000, 0x3_0001];

#[test]
fn rows_of_every_length_for_reading_back() {
    for (left, right) in (0..5).flat_map(|left| (0..6).map(move |right| (left, right))) {
        let (text, lines) = (Lent::new(TEXT, 0xFF), Lent::new(LINES, 0xFF));
        let mut left = Lent::new(&vec![7; left], u32::MAX);
        let mut right = Lent::new(&vec![7; right], u32::MAX);
        let answer = ambiguity::read_back(text.row(), lines.row(), left.row_mut(), right.row_mut());
        assert!(text.kept() && lines.kept());
        if left.row().len() < 2 || right.row().len() < 3 {
            let refusal = Refusal { cause: Cause::BufferTooShort, at: 0 };
            assert_eq!(answer, Err(PartRefusal { part: Part::Lines, refusal }));
            assert!(left.kept() && right.kept());
        } else {
            assert_eq!(answer, Ok(ReadBack { left: 2, right: 3 }));
            assert_eq!((&left.row()[..2], &right.row()[..3]), (&LEFT[..], &RIGHT[..]));
            assert!(left.kept_past(2) && right.kept_past(3));
        }
    }
}

/// Cut anywhere, the lines are malformed where the cut is.
#[test]
fn lines_of_every_length() {
    let first = LINES.iter().position(|byte| *byte == b'\n').unwrap();
    for length in 0..LINES.len() {
        let mut rows = [[7; 5]; 2];
        let [left, right] = &mut rows;
        let answer = ambiguity::read_back(TEXT, &LINES[..length], left, right);
        let refusal = Refusal { cause: Cause::Malformed, at: if length <= first { 1 } else { 2 } };
        assert_eq!(answer, Err(PartRefusal { part: Part::Lines, refusal }), "{length}");
        assert_eq!(rows, [[7; 5]; 2]);
    }
}
