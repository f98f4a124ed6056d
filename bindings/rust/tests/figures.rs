//! Document 01's grammars on file, and answers that were worked out by hand: table check, certificate check, search.

mod support;

use ambiguity::{
    certificate_bytes, row_entries, Cause, Code, Grammar, Refusal, Searched, Table, Verdict, MAX_NAMES, MAX_REPORT_BYTES,
    MAX_TABLE_ENTRIES,
};
use support::{bytes_of, grammar, refused, A, B, S};

/// S→S a; S→a
const LEFT_RECURSION: [Code; 7] = [S, 2, S, 1, S, 1, 1];

/// Terminals, nonterminals, rules, Q, how much the search looks at, and the size if the verdict is unambiguous, else the two strings.
type OnFile = (&'static str, &'static str, &'static str, usize, usize, Result<usize, &'static str>);

/// Document 01's "Grammars on file" with a sentence, and document 02's, with the size of the row of 17 states and the strings of the
/// potential ones, and the report of each.
#[test]
fn grammars_on_file() {
    let rows: [OnFile; 9] = [
        ("", "S", "S:", 5, 13, Ok(10)),
        ("a", "S", "S: a", 6, 14, Ok(11)),
        ("a", "S", "S: S a;S: a", 9, 48, Ok(24)),
        ("a,b", "S", "S: a S b;S:", 9, 46, Ok(30)),
        ("a", "S", "S: S;S: a", 8, 55, Err("left=(0 S )0\nright=(0 (1 S )1 )0\n")),
        ("a", "S", "S: a S a;S: a", 10, 140, Err("left=(0 (2 a )2 a )1 )0\nright=(0 (1 a (2 a )2 )0\n")),
        ("", "S,A,B", "S: A;S: B;A:;B:", 10, 85, Err("left=(0 (2 (4 )4 )2 )0\nright=(0 (1 (3 )3 )1 )0\n")),
        ("a", "S,W,X", "S: W;S: X;W: W a a;W: a;X: a a", 17, 145, Ok(82)),
        ("a", "S,W", "S: a;S: W;W: W", 10, 14, Ok(11)),
    ];
    for (terminals, nonterminals, rules, states, looked, found) in rows {
        let text = text_of(terminals, nonterminals, rules);
        let expected = match found {
            Ok(size) => format!("states={states}\nverdict=unambiguous\nreached={size}\n"),
            Err(strings) => format!("states={states}\nverdict=potential\n{strings}"),
        };
        assert_eq!(report_of(&text), expected, "{text}");
        search_text(text.as_bytes(), states, looked, found.ok());
        if let Err(lines) = found {
            strings_of(text.as_bytes(), lines);
        }
    }
}

/// Grammar text with these rules, as `S: a;S:`.
fn text_of(terminals: &str, nonterminals: &str, rules: &str) -> String {
    let rules: String = rules.split_terminator(';').map(|rule| format!("rule={rule}\n")).collect();
    format!("terminals={terminals}\nnonterminals={nonterminals}\n{rules}")
}

fn report_of(text: &str) -> String {
    let mut out = vec![0; MAX_REPORT_BYTES];
    let length = ambiguity::report(text.as_bytes(), &mut out).unwrap();
    String::from_utf8(out[..length].to_vec()).unwrap()
}

/// The two rows without a sentence: no rules, and S→S.
#[test]
fn grammars_on_file_without_a_sentence() {
    for rules in ["", "S: S"] {
        let text = text_of("", "S", rules);
        assert_eq!(report_of(&text), "refused=19\nat=0\n");
        assert_eq!(Grammar::read(text.as_bytes()).map(|_| ()), refused(Cause::NoSentence, 0));
    }
}

/// How many step records the triples have that step records lead to from (0,0,0): each choice of moves is one record.
fn records_reached(table: Table, states: usize) -> usize {
    let mut reached = vec![[0, 0, 0]];
    let mut records = 0;
    let mut taken = 0;
    while let Some([layer, left, right]) = reached.get(taken).copied() {
        taken += 1;
        for step in (0..).map_while(|nth| ambiguity::nth_step(table, 0, layer, left, right, nth).unwrap()) {
            records += 1;
            let next = [step.layer, step.left, step.right];
            if !reached.contains(&next) {
                reached.push(next);
            }
        }
    }
    assert!(taken <= row_entries(states));
    records
}

/// How much the search looks at: figures that were worked out twice, of S→ and S→S S, and of document 02's eight-channel command set.
#[test]
fn looked_at() {
    let channels = "P:;P: P K;K: take L vol;K: give L vol;K: repeat num P close;L: ch;L: L sep ch";
    let terminals = "take,vol,give,repeat,num,close,ch,sep";
    search_text(text_of("", "S", "S:;S: S S").as_bytes(), 8, 235, None);
    search_text(text_of(terminals, "P,K,L", channels).as_bytes(), 27, 163, Some(90));
}

/// The reader's Q, and what the search says of the table; its certificate or its witness is accepted, and it has looked at the step
/// records of all that is reached, no more than the room tells.
fn search_text(text: &[u8], states: usize, looked: usize, size: Option<usize>) {
    let mut rules = [0; MAX_TABLE_ENTRIES];
    let read = ambiguity::read_text(text, &mut rules, &mut [0; MAX_NAMES], &mut [0; MAX_NAMES]).unwrap();
    assert_eq!(read.states, states);
    let table = grammar(read.terminals, read.nonterminals, &rules[..read.entries]);
    assert_eq!(ambiguity::check_table(table), Ok(states));
    let mut certificate = vec![0; certificate_bytes(states)];
    let [mut queue, mut parents, mut witness] = [0; 3].map(|_| vec![0; row_entries(states)]);
    let verdict = ambiguity::search(table, 0, &mut certificate, &mut queue, &mut parents, &mut witness).unwrap();
    assert_eq!((verdict.looked(), records_reached(table, states)), (looked, looked));
    assert!(looked <= ambiguity::search_room(table, 0).unwrap().most_looked());
    match verdict {
        Verdict::Unambiguous { size: found, .. } => {
            assert_eq!(Some(found), size);
            assert_eq!(certificate.iter().map(|byte| byte.count_ones() as usize).sum::<usize>(), found);
            assert_eq!(ambiguity::check_certificate(table, 0, &certificate), Ok(()));
        }
        Verdict::Potential { entries, .. } => {
            assert_eq!(size, None);
            assert_eq!(ambiguity::check_witness(table, 0, &witness[..entries]), Ok(()));
        }
    }
}

/// The strings of the witness that the search writes are those of the lines, and read back they give the same lines.
fn strings_of(text: &[u8], lines: &str) {
    let grammar = Grammar::read(text).unwrap();
    let Searched::Potential { witness, .. } = grammar.search(0).unwrap() else { panic!("{lines}") };
    let strings = grammar.strings(0, &witness).unwrap();
    assert_eq!(grammar.lines(&strings).unwrap(), lines);
    assert_eq!(grammar.read_back(lines.as_bytes()), Ok(strings));
}

/// The witness that the search writes.
fn witness_of(table: Table, states: usize) -> Vec<u32> {
    let mut certificate = vec![0; certificate_bytes(states)];
    let [mut queue, mut parents, mut witness] = [0; 3].map(|_| vec![0; row_entries(states)]);
    let found = ambiguity::search(table, 0, &mut certificate, &mut queue, &mut parents, &mut witness);
    let Ok(Verdict::Potential { entries, .. }) = found else { panic!("{found:?}") };
    witness.truncate(entries);
    witness
}

#[test]
fn shortest_witnesses() {
    // S→S and S→; S→S and S→a; S→a S a and S→a; S→A, S→B, A→ and B→.
    assert_eq!(witness_of(grammar(0, 1, &[S, 1, S, S, 0]), 7), [0, 2, 4, 18, 26, 59, 57]);
    assert_eq!(witness_of(grammar(1, 1, &[S, 1, S, S, 1, 1]), 8), [0, 2, 4, 20, 29, 75, 73]);
    let palindromes = witness_of(grammar(1, 1, &[S, 3, 1, S, 1, S, 1, 1]), 10);
    assert_eq!(palindromes, [0, 2, 4, 24, 84, 95, 98, 168, 179, 139, 119, 113, 111]);
    let two_empty = witness_of(grammar(0, 3, &[S, 1, A, S, 1, B, A, 0, B, 0]), 10);
    assert_eq!(two_empty, [0, 2, 4, 8, 28, 68, 98, 175, 135, 115, 113, 111]);
}

/// So many rules S→x, each of another terminal.
fn unit_rules(count: Code) -> Vec<Code> {
    (1..=count).flat_map(|code| [S, 1, code]).collect()
}

/// A rule of twelve codes for each of so many nonterminals.
fn long_rules(count: Code) -> Vec<Code> {
    (S..S + count).flat_map(|left| [vec![left, 12], vec![1; 12]].concat()).collect()
}

/// t, n and a table, and Q or its refusal.
type Checked = (usize, usize, Vec<Code>, Result<usize, Refusal>);

#[test]
fn tables() {
    let thirteen = [vec![S, 13], vec![1; 13]].concat();
    let twelve = [vec![S, 12], vec![1; 12]].concat();
    // 78 rules of 13 items each, and 6 items more: Q is 1,024, and 1,025 with one item more.
    let full = [long_rules(78), vec![S, 5, 1, 1, 1, 1, 1]].concat();
    let over = [long_rules(78), vec![S, 6, 1, 1, 1, 1, 1, 1]].concat();
    let cases: [Checked; 17] = [
        (1, 1, LEFT_RECURSION.to_vec(), Ok(9)),
        (0, 1, vec![], refused(Cause::NoSentence, 0)),
        (2000, 2000, vec![S, 0, 34767, 2, 2000, 34767], Ok(8)),
        (2001, 1, vec![], refused(Cause::OutOfRange, 0)),
        (0, usize::MAX, vec![S, 0], refused(Cause::OutOfRange, 0)),
        (1, 1, vec![S], refused(Cause::Truncated, 0)),
        (1, 1, vec![S, 0, S, 2, 1], refused(Cause::Truncated, 2)),
        (1, 1, vec![S, 1, 1, A, 0], refused(Cause::LeftUndeclared, 3)),
        (1, 1, twelve, Ok(17)),
        (1, 1, thirteen, refused(Cause::RuleTooLong, 0)),
        (1, 1, vec![S, 3, 1, S, 2], refused(Cause::CodeUndeclared, 4)),
        (1, 1, vec![S, 0, S, 1, 1, S, 0], refused(Cause::RuleRepeated, 5)),
        (400, 1, unit_rules(400), Ok(804)),
        (401, 1, unit_rules(401), refused(Cause::TooManyRules, 1200)),
        (1, 2000, full, Ok(1024)),
        (1, 2000, over, refused(Cause::TooManyStates, 1092)),
        (1, 2000, long_rules(79), refused(Cause::TooManyStates, 1092)),
    ];
    for (terminals, nonterminals, rules, expected) in cases {
        let table = grammar(terminals, nonterminals, &rules);
        assert_eq!(ambiguity::check_table(table), expected, "{table:?}");
    }
}

/// With all symbols declared, codes between the terminals and the nonterminals and past these are undeclared, as left codes too.
#[test]
fn codes_at_the_limits() {
    let check = |left: Code, code: Code| ambiguity::check_table(grammar(2000, 2000, &[S, 0, left, 1, code]));
    for code in [1, 127, 128, 255, 256, 2000, 32768, 32895, 33024, 34767] {
        let left_expected = if code < S { refused(Cause::LeftUndeclared, 2) } else { Ok(7) };
        assert_eq!((check(A, code), check(code, 1)), (Ok(7), left_expected), "{code}");
    }
    for code in [0, 2001, 2048, 30000, 32767, 34768, 40000, 65535] {
        assert_eq!(check(A, code), refused(Cause::CodeUndeclared, 4), "{code}");
        assert_eq!(check(code, 1), refused(Cause::LeftUndeclared, 2), "{code}");
    }
}

/// With Q = 9 the certificates have 162 bits, and six bits to spare.
#[test]
fn certificates_of_nine_states() {
    let left: [u8; 21] = [0x95, 0x00, 0x54, 0x42, 0x51, 0x09, 0x05, 0x90, 0x4A, 0, 0x01, 0x80, 0, 0, 0, 0x80, 0, 0, 0, 0, 0];
    let nested: [u8; 21] =
        [0x15, 0x01, 0x54, 0x44, 0x50, 0x13, 0x26, 0x10, 0x40, 0x35, 0x01, 0x40, 0, 0, 0x41, 0x09, 0, 0x08, 0, 0, 0];
    let tables = [grammar(1, 1, &LEFT_RECURSION), grammar(2, 1, &[S, 3, 1, S, 2, S, 0])];
    for (table, certificate) in tables.into_iter().zip([left, nested]) {
        assert_eq!(ambiguity::check_certificate(table, 0, &certificate), Ok(()));
        let mut spare = certificate;
        spare[20] |= 0x04;
        assert_eq!(ambiguity::check_certificate(table, 0, &spare), refused(Cause::SpareBit, 162));
    }
    assert_eq!(ambiguity::check_certificate(grammar(2001, 1, &[]), 0, &[]), refused(Cause::OutOfRange, 0));
}

const CERTIFICATE_OF_82: &str = concat!(
    "55510000544541005015054440551440005551400400100040501505005455140050000001",
    "000018020000600800000020000000040000280052040800000000000000002a02000800"
);

const UNREACHED_OF_31: &str =
    "95000050092000b5002c0004d4020000000000000000000000004000000004a00401001000000000000000000000010000";

/// Searches with rows of these lengths: certificate, queue, parents, witness. Back come the answer and the certificate's row.
fn search_in(table: Table, lengths: [usize; 4]) -> (Result<Verdict, Refusal>, Vec<u8>) {
    let mut certificate = vec![0xAA; lengths[0]];
    let [mut queue, mut parents, mut witness] = [1, 2, 3].map(|place| vec![0xAA; lengths[place]]);
    let answer = ambiguity::search(table, 0, &mut certificate, &mut queue, &mut parents, &mut witness);
    (answer, certificate)
}

/// The certificates of S→, of S→a and of document 01's last row.
#[test]
fn certificates_that_are_found() {
    let last = [S, 1, A, S, 1, B, A, 3, A, 1, 1, A, 1, 1, B, 2, 1, 1];
    let cases = [
        (grammar(0, 1, &[S, 0]), [7, 50, 50, 50], 10, 13, "15545401000000"),
        (grammar(1, 1, &[S, 1, 1]), [9, 72, 72, 72], 11, 14, "155021150800000000"),
        (grammar(1, 3, &last), [76, 582, 583, 584], 82, 145, CERTIFICATE_OF_82),
    ];
    for (table, lengths, size, looked, expected) in cases {
        let (answer, certificate) = search_in(table, lengths);
        assert_eq!(answer, Ok(Verdict::Unambiguous { size, looked }));
        let hex: String = certificate.iter().map(|byte| format!("{byte:02x}")).collect();
        // All that is lent past the certificate is 0xAA still.
        assert_eq!(hex, format!("{expected:a<0$}", 2 * lengths[0]));
    }
}

/// A certificate that is acceptable if every rule has moves is accepted: that of corpus/useless-unreached.
#[test]
fn certificates_over_every_rule() {
    let unreached = [S, 2, 1, S, S, 0, A, 2, A, A, A, 2, S, 2];
    assert_eq!(ambiguity::check_certificate(grammar(2, 2, &unreached), 0, &bytes_of(UNREACHED_OF_31)), Ok(()));
}

/// One row is too short by one, and all others are as long as they must be; or the table is at fault.
#[test]
fn searches_that_are_refused() {
    let cases = [
        (grammar(1, 1, &[S, 1, 1]), [8, 72, 72, 72], Cause::BufferTooShort, 0),
        (grammar(1, 1, &LEFT_RECURSION), [21, 161, 162, 162], Cause::BufferTooShort, 0),
        (grammar(1, 1, &[S, 1, 1]), [9, 72, 71, 72], Cause::BufferTooShort, 0),
        (grammar(1, 1, &LEFT_RECURSION), [21, 162, 162, 161], Cause::BufferTooShort, 0),
        (grammar(2001, 1, &[]), [0, 0, 0, 0], Cause::OutOfRange, 0),
        (grammar(1, 1, &[S, 1, 2]), [9, 72, 72, 72], Cause::CodeUndeclared, 2),
    ];
    for (table, lengths, cause, at) in cases {
        let (answer, certificate) = search_in(table, lengths);
        assert_eq!((answer, certificate), (refused(cause, at), vec![0xAA; lengths[0]]), "{table:?} {lengths:?}");
    }
}
