//! The two strings of a potential verdict: as the program prints them, read back, and checked whether they part.

use crate::parting_strings::{accepted, part};
use crate::support::{corpus, file, run, said, text, CERTIFY, CHECK};
use ambig_tools::{diagnosis, strings};
use ambiguity::{Grammar, Letter, Searched, Strings, MAX_REPORT_STATES, MAX_REPORT_TEXT_BYTES, START};

/// The grammars of the corpus with a potential verdict, each with its text and its witness.
fn potential() -> Vec<(String, Grammar, Vec<u32>)> {
    let of = |text: String| {
        let grammar = Grammar::read(text.as_bytes()).unwrap();
        match grammar.search(0).unwrap() {
            Searched::Potential { witness, .. } => Some((text, grammar, witness)),
            Searched::Unambiguous { .. } => None,
        }
    };
    corpus().into_iter().filter_map(|entry| of(entry.text)).collect()
}

/// Whether the tool takes two strings, printed and read back.
fn taken(grammar: &Grammar, strings: &Strings) -> bool {
    let lines = grammar.lines(strings).unwrap();
    assert_eq!(grammar.read_back(lines.as_bytes()).as_ref(), Ok(strings));
    strings::check(grammar, strings).is_ok()
}

/// The report and the step records give the same lines; all are accepted, and part by the definition.
#[test]
fn the_corpus_parts() {
    let potential = potential();
    let is_small = |text: &str, grammar: &Grammar| text.len() <= MAX_REPORT_TEXT_BYTES && grammar.states() <= MAX_REPORT_STATES;
    assert!(potential.iter().filter(|(text, grammar, _)| is_small(text, grammar)).count() >= 40);
    assert!(potential.iter().any(|(text, grammar, _)| !is_small(text, grammar)));
    for (text, grammar, witness) in &potential {
        let lines = strings::of_witness(grammar, witness);
        assert_eq!(strings::printed(text.as_bytes(), grammar, witness), lines);
        let path = file("corpus-parts", text);
        let quiet = run(CERTIFY, &["--quiet", "--callers=0", &path], b"");
        assert_eq!(quiet, said(3, &format!("states={}\nverdict=potential\n{lines}", grammar.states())));
        assert_eq!(run(CHECK, &["--lines", &path, "-"], lines.as_bytes()), said(0, "accepted\n"));
        let strings = grammar.read_back(lines.as_bytes()).unwrap();
        assert!(part(grammar, &strings.left, &strings.right), "{text}{lines}");
    }
}

/// All letters of a grammar.
fn letters(grammar: &Grammar) -> Vec<Letter> {
    let rules = 0..=grammar.rules().len() as u16;
    let codes = (1..).take(grammar.terminals().len()).chain((START..).take(grammar.nonterminals().len()));
    rules.flat_map(|rule| [Letter::Opening(rule), Letter::Closing(rule)]).chain(codes.map(Letter::Symbol)).collect()
}

/// A string with one letter dropped, doubled, exchanged with the next or put in place of another.
fn damaged(string: &[Letter], letters: &[Letter]) -> Vec<Vec<Letter>> {
    let mut found = Vec::new();
    for place in 0..string.len() {
        let (front, rest) = string.split_at(place);
        found.push([front, &rest[1..]].concat());
        found.push([front, &rest[..1], rest].concat());
        if let [one, other, behind @ ..] = rest {
            found.push([front, &[*other, *one], behind].concat());
        }
        found.extend(letters.iter().map(|letter| [front, &[*letter], &rest[1..]].concat()));
    }
    found.retain(|other| other != string);
    found
}

/// A damaged pair is accepted exactly if it parts by the definition.
#[test]
fn damaged_letters() {
    let (mut accepted, mut all) = (0, 0);
    for (_, grammar, witness) in potential().into_iter().filter(|(_, grammar, _)| grammar.states() <= MAX_REPORT_STATES) {
        let strings = grammar.strings(0, &witness).unwrap();
        let letters = letters(&grammar);
        let left = damaged(&strings.left, &letters).into_iter().map(|left| Strings { left, right: strings.right.clone() });
        let right = damaged(&strings.right, &letters).into_iter().map(|right| Strings { left: strings.left.clone(), right });
        for other in left.chain(right) {
            let parts = part(&grammar, &other.left, &other.right);
            assert_eq!(taken(&grammar, &other), parts, "{}{}", grammar.write(), grammar.lines(&other).unwrap());
            accepted += usize::from(parts);
            all += 1;
        }
    }
    println!("{all} damaged pairs, {accepted} of them part");
    assert!(all > 10_000 && accepted > 50);
}

/// All pairs of short strings that an automaton accepts.
#[test]
fn all_short_pairs() {
    for (terminals, nonterminals, rules) in [
        ("a", "S,W", &["S: a", "S: W", "W: W"][..]),
        ("a", "S,W,X", &["S: S", "S: a", "S: a W", "W: W", "X: S S"]),
        ("a", "S", &["S: S", "S: a"]),
        ("a", "S", &["S: a S a", "S: a"]),
        ("", "S,A,B", &["S: A", "S: B", "A:", "B:"]),
        ("a", "S", &["S: S S", "S: a", "S:"]),
        ("a,b", "S,W", &["S: W a", "S: a", "W: b", "W:"]),
        ("a", "S", &["S: a"]),
        ("a,b", "S", &["S: a S b", "S:"]),
    ] {
        let grammar = Grammar::read(text(terminals, nonterminals, rules).as_bytes()).unwrap();
        let strings = accepted(&grammar, 9, 150);
        let mut parting = 0;
        for (left, right) in strings.iter().flat_map(|left| strings.iter().map(move |right| (left, right))) {
            let pair = Strings { left: left.clone(), right: right.clone() };
            let parts = part(&grammar, left, right);
            assert_eq!(taken(&grammar, &pair), parts, "{}", grammar.lines(&pair).unwrap());
            parting += usize::from(parts);
        }
        let potential = matches!(grammar.search(0), Ok(Searched::Potential { .. }));
        assert_eq!(parting > 0, potential, "{rules:?}: {parting} of {} strings", strings.len());
    }
}

fn odd() -> String {
    text("a,b", "S", &["S: a S a", "S: a", "S: b"])
}

const LEFT: &str = "left=(0 (2 a )2 a )1 )0\n";
const RIGHT: &str = "right=(0 (1 a (2 a )2 )0\n";

/// What is said of two lines on standard error, and for scripts.
fn told(lines: &str, quiet: &str, message: &str) {
    let path = file("told", &odd());
    let ran = run(CHECK, &["--lines", &path, "-"], lines.as_bytes());
    let (line, rest) = message.split_once(':').unwrap();
    let (column, words) = rest.split_once(": ").unwrap();
    let told = format!("<stdin>:{line}:{column}: error: {words}\n");
    assert_eq!((ran.status, ran.out.as_str(), ran.err), (1, "", told), "{lines:?}");
    assert_eq!(run(CHECK, &["--quiet", "--lines", &path, "-"], lines.as_bytes()), said(1, quiet), "{lines:?}");
}

#[test]
fn strings_that_do_not_part() {
    let parting = "at the parting one line closes a rule, and the other closes another rule or passes a terminal";
    let before = "before the parting both lines have the same symbols";
    let behind = "behind the parting both lines have the same terminals";
    let returned = "the reading may stand at `S': S .` or `S: a S . a`, where `)0` or `a` can follow";
    let of_left = |left: &str| format!("left={left}\n{RIGHT}");
    let of_right = |right: &str| format!("{LEFT}right={right}\n");
    for (lines, message) in [
        (of_left("(0 (2 a )2 a )1"), format!("1:21: line 1 ends too early: {returned}")),
        (of_right("(0 (1 a (2 a )2"), format!("2:22: line 2 ends too early: {returned}")),
        (of_left("(0 (2 a )2 )1 )0"), format!("1:17: `)1` cannot follow: {returned}")),
        (of_left("(0 (2 a )2 a )1 )0 )0"), "1:25: `)0` cannot follow: the reading has ended".to_string()),
        (of_left("(1 (2 a )2 )0"), "1:6: `(1` cannot follow: the reading stands at `start`, where `(0` can follow".to_string()),
        (of_left("(0 (2 b )2 )0"), "1:12: `b` cannot follow: the reading stands at `S: . a`, where `a` can follow".to_string()),
        (
            of_left("(0 a"),
            "1:9: `a` cannot follow: the reading stands at `S': . S`, where `(1`, `(2`, `(3` or `S` can follow".to_string(),
        ),
        (of_left("(0 (3 b )3 )0"), format!("2:13: `a` is found, and letter 3 of line 1 is `b`: {before}")),
        (of_right("(0 (1 a (3 b )3 )0"), format!("2:18: `b` is found, and letter 5 of line 1 is `a`: {behind}")),
        (of_right("(0 (2 a )2 )0"), format!("2:15: `)2` is found, and letter 4 of line 1 is `)2`: {parting}")),
        (of_right("(0 (1 a S a )1 )0"), format!("2:15: `S` is found, and letter 4 of line 1 is `)2`: {parting}")),
        (of_right("(0 (1 a (2 a )2 a )1 )0"), format!("2:23: `a` is found, and line 1 has ended: {behind}")),
        (of_left("(0 (2 a )2 a )1 a )1 )0"), format!("1:22: `a` is found, and line 2 has ended: {behind}")),
        (of_right("(0 (1 a"), "2:14: line 2 ends before the parting".to_string()),
        ("left=\nright=\n".to_string(), "1:6: both lines end before the parting".to_string()),
        ("left=(0 S\nright=(0 S\n".to_string(), "1:10: both lines end before the parting".to_string()),
    ] {
        told(&lines, "not-parting\n", &message);
    }
    let behind = "behind the parting both lines have terminals alone";
    let grammar = file("nonterminal-behind", &text("a", "S", &["S: S S", "S: a"]));
    let ran = run(CHECK, &["--lines", &grammar, "-"], b"left=(0 (1 S S )1 S\nright=(0 (1 S (1 S (2 a )2\n");
    assert_eq!(ran.err, format!("<stdin>:1:19: error: `S` is found, and letter 7 of line 2 is `a`: {behind}\n"));
}

#[test]
fn lines_that_are_refused() {
    let of_left = |left: &str| format!("left={left}\nright=\n");
    let malformed = "a name has letters, digits and hyphens";
    let long = "a".repeat(50);
    for (lines, cause, message) in [
        (String::new(), 16, "1:1: the file is empty; line 1 begins with 'left='"),
        (LEFT.to_string(), 16, "2:1: the file ends here; line 2 begins with 'right='"),
        (format!("{LEFT}right=(0"), 16, "2:9: the line does not end with byte 10; put a line break behind it"),
        (format!("{LEFT}{RIGHT}\n"), 16, "2:25: more is found behind this line; line 2 is the last"),
        (format!("{LEFT}rigth=\n"), 16, "2:1: 'rigth=' is found; line 2 begins with 'right='"),
        (format!("{RIGHT}{LEFT}"), 16, "1:1: 'right=' is found; line 1 begins with 'left='"),
        (
            format!("{LEFT}Right=\n"),
            16,
            "2:1: 'Right=' is found; line 2 begins with 'right='; case counts in a key, though not in a name",
        ),
        (
            "states=10\nverdict=potential\n".to_string() + LEFT + RIGHT,
            16,
            "1:1: 'states=' is found; line 1 begins with 'left='; the file has the lines 'left=' and 'right=' alone",
        ),
        (
            "certificate-form=2\n".to_string(),
            16,
            "1:1: 'certificate-form=' is found; line 1 begins with 'left='; a certificate is checked without --lines",
        ),
        ("left\nright=\n".to_string(), 16, "1:1: no '=' is found; line 1 begins with 'left='"),
        (of_left(" a"), 16, "1:6: a space is found behind 'left='; the first letter follows at once"),
        (of_left("a "), 16, "1:7: a space is found at the line's end; take it out"),
        (of_left("a  b"), 16, "1:8: two spaces are found; one space stands between two letters"),
        (of_left("a\tb"), 16, "1:7: a tab is found, byte 9; symbols are parted by one space, and nothing is indented"),
        (of_left("a\r"), 16, "1:7: byte 13 is found at the line's end; save the text with Unix line ends (LF)"),
        (of_left("a,b"), 16, "1:7: ',' is found in 'a,b'; letters are parted by one space"),
        (of_left("a(1"), 16, "1:7: '(' is found in 'a(1'; one space stands between two letters"),
        (of_left("a_b"), 16, &format!("1:7: '_' is found in 'a_b'; {malformed}")),
        (of_left(&long), 16, &format!("1:6: '{}...' has 50 letters; the limit is 15", "a".repeat(40))),
        (of_left("(0 ("), 16, "1:9: '(' has no rule number; rule 1 is opened by '(1' and closed by ')1'"),
        (of_left("(01"), 16, "1:6: '(01' has a leading zero; take it out"),
        (of_left("(1x"), 16, "1:8: 'x' is found in '(1x'; a rule number has digits alone"),
        (of_left(")4"), 16, "1:6: ')4' has the number of no rule; the grammar has the rules 0 to 3"),
        (
            of_left("(99999999999999999999"),
            16,
            "1:6: '(99999999999999999999' has the number of no rule; the grammar has the rules 0 to 3",
        ),
        (of_left("a z"), 17, "1:8: 'z' is no name of the grammar"),
        (format!("{LEFT}right=c\n"), 17, "2:7: 'c' is no name of the grammar"),
    ] {
        let at = message.split(':').next().unwrap();
        told(&lines, &format!("refused={cause}\nat={at}\n"), &format!("{message} (refused={cause} at={at})"));
    }
}

/// A fault of the grammar comes first, and is told of its file.
#[test]
fn a_grammar_that_is_refused() {
    let lines = file("refused-grammar-lines", "");
    let ran = run(CHECK, &["--lines", "-", &lines], b"terminals=a\nnonterminals=S\nrule=S: b\n");
    let message = "<stdin>:3:9: error: 'b' is not declared; add it to the terminals on line 1 or to the nonterminals on line 2";
    assert_eq!((ran.status, ran.err), (4, format!("{message} (refused=17 at=3)\n")));
}

/// Whatever byte is damaged, the message has the line that the library names, and a column of that line.
#[test]
fn damaged_bytes() {
    let grammar = Grammar::read(odd().as_bytes()).unwrap();
    let lines = format!("{LEFT}{RIGHT}");
    for (place, byte) in (0..lines.len()).flat_map(|place| (0..=255u8).map(move |byte| (place, byte))) {
        let mut damaged = lines.clone().into_bytes();
        damaged[place] = byte;
        let Err(refusal) = grammar.read_back(&damaged) else { continue };
        let finding = diagnosis::of_strings(&grammar, &damaged, refusal);
        assert_eq!(finding.line, refusal.at);
        let line = damaged.split(|byte| *byte == b'\n').nth(finding.line - 1).unwrap_or_default();
        assert!((1..=line.len() + 1).contains(&finding.column), "{finding:?}");
        assert!(finding.message.is_ascii() && !finding.message.contains('\n'));
    }
}

/// Megabytes of letters are walked through, whether they part or not.
#[test]
fn long_strings() {
    let grammar = file("long-strings", &text("a", "S", &["S: S S", "S: a", "S:"]));
    let pair = |inner: &str, left: usize, right: usize| {
        let (left, right) = (inner.repeat(left), inner.repeat(right));
        format!("left=(0 (1 S S )1 {left})0\nright=(0 (1 S (1 S (3 )3 {right})0\n")
    };
    for inner in [")1 ", "(3 )3 ", "(2 a )2 ", "(1 (3 )3 (2 a )2 )1 "] {
        let many = 1_000_000 / inner.len();
        let lines = pair(inner, many, many);
        assert_eq!(run(CHECK, &["--lines", &grammar, "-"], lines.as_bytes()), said(0, "accepted\n"), "{inner}");
    }
    let ran = run(CHECK, &["--lines", &grammar, "-"], pair("(2 a )2 ", 100_000, 99_999).as_bytes());
    let behind = "behind the parting both lines have the same terminals";
    assert_eq!((ran.status, ran.err), (1, format!("<stdin>:1:800014: error: `a` is found, and line 2 has ended: {behind}\n")));
    let ran = run(CHECK, &["--lines", &grammar, "-"], pair("(1 ", 300_000, 300_000).as_bytes());
    let message = "`)0` cannot follow: the reading stands at `S: . S S`, where `(1`, `(2` or `(3` can follow";
    assert_eq!((ran.status, ran.err), (1, format!("<stdin>:1:900019: error: {message}\n")));
}

#[test]
fn lines_over_the_limit() {
    let lines = format!("left={}\nright=\n", "a".repeat(strings::MOST_BYTES));
    let ran = run(CHECK, &["--lines", &file("over-the-limit", &odd()), "-"], lines.as_bytes());
    assert_eq!(
        (ran.status, ran.out.as_str(), ran.err.as_str()),
        (2, "", "<stdin>: error: more than 67108864 bytes; that is the limit\n")
    );
}

/// Two ways to make a row of one terminal, which agree only in rows of many thousands: as large as a grammar can be.
#[test]
fn long_witnesses() {
    let ring = |name: &str, count: usize| {
        let steps = count.div_ceil(11);
        let of = |step: usize| if step == 0 || step == steps { name.to_string() } else { format!("{name}{step}") };
        let rule = |step: usize| format!("{}:{} {}", of(step), " a".repeat((count - 11 * step).min(11)), of(step + 1));
        ((1..steps).map(of).collect::<Vec<_>>(), (0..steps).map(rule).collect::<Vec<_>>())
    };
    let ((names, rules), (other_names, other_rules)) = (ring("W", 421), ring("X", 431));
    let nonterminals = [vec!["S".to_string(), "W".to_string(), "X".to_string()], names, other_names].concat().join(",");
    let first = ["S: W", "S: X", "W:", "X: a"].map(String::from).to_vec();
    let rules = [first, rules, other_rules].concat();
    let text = text("a", &nonterminals, &rules.iter().map(String::as_str).collect::<Vec<_>>());
    let path = file("long-witnesses", &text);
    let quiet = run(CERTIFY, &["--quiet", &path], b"").out;
    assert!(quiet.starts_with("states=1021\nverdict=potential\nleft=(0 "), "{quiet}");
    let lines: String = quiet.split_inclusive('\n').skip(2).collect();
    assert!(lines.len() > 50_000, "{}", lines.len());
    assert_eq!(run(CHECK, &["--lines", &path, "-"], lines.as_bytes()), said(0, "accepted\n"));
}

#[test]
fn several_pairs() {
    let (odd, cycle) = (file("pairs-odd", &odd()), file("pairs-cycle", &text("a", "S", &["S: S", "S: a"])));
    let (good, bad) = (file("pairs-good", &format!("{LEFT}{RIGHT}")), file("pairs-bad", "left=(0 S )0\nright=(0 S )0\n"));
    let ran = run(CHECK, &["-q", "--lines", &odd, &good, &cycle, &bad], b"");
    assert_eq!(ran, said(1, &format!("file={good}\naccepted\nfile={bad}\nnot-parting\n")));
    let swapped = format!("left={}right={}", &RIGHT[6..], &LEFT[5..]);
    assert_eq!(run(CHECK, &["--lines", &odd, "-"], swapped.as_bytes()), said(0, "accepted\n"));
    assert_eq!(run(CHECK, &["--lines", &odd], b"").status, 2);
}
