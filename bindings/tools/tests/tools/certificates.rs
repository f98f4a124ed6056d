//! Certificates as lines: both forms written and read, slips told by line, and what the check refuses.

use crate::support::{certify, corpus, file, folder, one_a, run, said, text, unambiguous, Ran, CERTIFY, CHECK};
use ambig_tools::lines::{self, Form, Malformed};
use ambiguity::{Grammar, Searched};

const PLAIN: &str = "certificate-form=1\nstates=6\nrules=1\nsize=11\n0000: 15 50 21 15 08 00 00 00 00\n";
const CHECKED: &str = "certificate-form=2\nstates=6\nrules=1\nsize=11\n0000: 15 50 21 15 08 00 00 00 00 *d0\n";

/// What the check says of lines, the grammar being in a file.
fn check(grammar: &str, lines: &str) -> Ran {
    run(CHECK, &[grammar, "-"], lines.as_bytes())
}

#[test]
fn the_certificate_of_document_01() {
    let grammar = file("document", &one_a());
    assert_eq!(certify(&one_a()), said(0, CHECKED));
    assert_eq!(run(CERTIFY, &["--form=1", &grammar], b""), said(0, PLAIN));
    assert_eq!(run(CERTIFY, &["--form=2", &grammar], b""), said(0, CHECKED));
    for lines in [PLAIN, CHECKED] {
        assert_eq!(check(&grammar, lines), said(0, "accepted\n"));
        let lines = file("document-lines", lines);
        assert_eq!(run(CHECK, &["-", &lines], one_a().as_bytes()), said(0, "accepted\n"));
        assert_eq!(run(CHECK, &[&grammar, &lines], b""), said(0, "accepted\n"));
    }
}

#[test]
fn the_readme_shows_what_is_printed() {
    let readme = include_str!("../../../README.md");
    for printed in [PLAIN, CHECKED] {
        assert!(readme.contains(printed), "{printed}");
    }
}

#[test]
fn what_cannot_mean_anything_else_is_read() {
    let grammar = file("lenient", &one_a());
    for lines in [PLAIN, CHECKED] {
        let blank = format!("{lines}\n");
        let blanks = format!("{lines}\n\r\n");
        let marked = format!("\u{feff}{lines}");
        for other in [lines.replace('\n', "\r\n"), blank, blanks, marked, lines.trim_end().to_string()] {
            assert_eq!(check(&grammar, &other), said(0, "accepted\n"), "{other:?}");
        }
    }
    let wide = text("a", "S,W,X", &["S: W", "S: X", "W: W a a", "W: a", "X: a a"]);
    let Ran { out: lines, .. } = certify(&wide);
    let (head, bytes) = lines.split_at(lines.find("0000:").unwrap());
    assert_ne!(bytes, bytes.to_uppercase());
    assert_eq!(check(&file("lenient-wide", &wide), &format!("{head}{}", bytes.to_uppercase())), said(0, "accepted\n"));
}

#[test]
fn lines_that_are_malformed() {
    let grammar = file("malformed", &one_a());
    let wide = text("a", "S,W,X", &["S: W", "S: X", "W: W a a", "W: a", "X: a a"]);
    let wide_grammar = file("malformed-wide", &wide);
    let wide_plain = run(CERTIFY, &["--form=1", &wide_grammar], b"").out;
    let wide_checked = certify(&wide).out;
    let line = |lines: &str, place: usize| lines.lines().nth(place).unwrap().to_string() + "\n";
    let (second, last) = (line(&wide_plain, 5), line(&wide_plain, wide_plain.lines().count() - 1));
    let plain = |from: &str, to: &str| (&grammar, PLAIN.replacen(from, to, 1));
    let checked = |from: &str, to: &str| (&grammar, CHECKED.replacen(from, to, 1));
    let wide = |from: &str, to: &str| (&wide_grammar, wide_plain.replacen(from, to, 1));
    let number = "a decimal number without leading zeros is expected";
    let digit = "a hexadecimal digit is expected, 0 to 9 or a to f";
    let bits = "the number of bits that are set below is";
    let other = "is it the certificate of another grammar?";
    for ((grammar, lines), line, column, message) in [
        (plain("form=1", "form=9"), 1, 18, "this program reads the forms 1, 2 and 3"),
        (plain("certificate", "Certificate"), 1, 1, "'certificate-form=' is expected, and 'C' is found"),
        (plain("states=6", "states=7"), 2, 8, &format!("7 is found, and by the grammar this number is 6: {other}")),
        (plain("states=6", "states=06"), 2, 8, number),
        (plain("states=6", "states="), 2, 8, number),
        (plain("states=6", "states=99999999999999999999"), 2, 8, number),
        (plain("states=6", "states=6 "), 2, 9, "the line is to end here, and a space is found"),
        (plain("rules=1", "rules=2"), 3, 7, &format!("2 is found, and by the grammar this number is 1: {other}")),
        (plain("size=11", "size=12"), 4, 6, &format!("{bits} 11: this number is wrong, or lines are missing")),
        (plain("15 50", "15 51"), 4, 6, &format!("{bits} 12: this number is wrong, or lines are missing")),
        (plain("0000:", "0001:"), 5, 4, "'0000:' is expected"),
        (plain("15 50", "1g 50"), 5, 8, &format!("{digit}, and 'g' is found")),
        (plain("15 50", "15 5O"), 5, 11, &format!("{digit}, and 'O' is found")),
        (plain("15 50", "l5 50"), 5, 7, &format!("{digit}, and 'l' is found")),
        (plain("15 50", "15  50"), 5, 10, &format!("{digit}, and a space is found")),
        (plain("15 50", "15\u{a0}50"), 5, 9, "' ' is expected, and a no-break space is found"),
        (plain(" 00\n", "\n"), 5, 30, "' ' is expected, and the line ends"),
        (plain(" 00\n", " 00 00\n"), 5, 33, "the line is to end here, and a space is found"),
        (plain(" 00\n", " 00\n\n0020:"), 6, 1, "the certificate has 9 bytes: nothing is expected here"),
        (plain("0000: 15 50 21 15 08 00 00 00 00\n", ""), 5, 1, "'0000:' is expected"),
        (plain("size=11\n", ""), 4, 1, "'size=' is expected, and '0' is found"),
        (plain("form=1", "form=2"), 5, 33, "' *' is expected, and the line ends"),
        (wide(&second, ""), 6, 3, "'0020:' is expected"),
        (wide(&last, ""), 7, 1, "'0040:' is expected"),
        (wide("0020:", "0040:"), 6, 3, "'0020:' is expected"),
        (checked("form=2", "form=1"), 1, 18, "form 1 has no check digits, but line 5 has them"),
        (
            checked("*d0", "*d1"),
            5,
            35,
            "the check digits are d1, but those of this line's digits are d0: compare the line with the print",
        ),
        (
            checked("15 50", "51 50"),
            5,
            35,
            "the check digits are d0, but those of this line's digits are 51: compare the line with the print",
        ),
        (checked("0000:", "0010:"), 5, 1, "an offset is expected, a multiple of 0010 below 0009"),
        (
            checked("0000: 15 50 21 15 08 00 00 00 00 *d0\n", ""),
            4,
            6,
            &format!("{bits} 0: this number is wrong, or lines are missing"),
        ),
        ((&grammar, String::new()), 1, 1, "'certificate-form=' is expected, and the line ends"),
        ((&grammar, "\u{e9}".to_string()), 1, 1, "'certificate-form=' is expected, and '\u{e9}' is found"),
        ((&grammar, one_a()), 1, 1, "'certificate-form=' is expected; this is a grammar's text, and no certificate"),
    ] {
        let ran = check(grammar, &lines);
        assert_eq!((ran.status, ran.out.as_str()), (1, ""));
        assert_eq!(ran.err, format!("<stdin>:{line}:{column}: error: {message}\n"), "{lines}");
    }
    let (first, second) = (line(&wide_checked, 4), line(&wide_checked, 5));
    let exchanged = wide_checked.replacen(&(first.clone() + &second), &(second + &first), 1);
    let ran = check(&wide_grammar, &exchanged);
    assert_eq!(ran.err, "<stdin>:6:1: error: this line stands behind one with the same or a larger offset\n");
}

#[test]
fn certificates_that_are_refused() {
    let grammar = file("refused", &one_a());
    for (size, bytes, place, words) in [
        (
            0,
            "00 00 00 00 00 00 00 00 00",
            "5:7",
            "the certificate lacks layer 0, left 'start', right 'start' (refused=11 at=0)",
        ),
        (72, "ff ff ff ff ff ff ff ff ff", "5:22", "the certificate holds layer 1, left 'end', right 'end' (refused=12 at=43)"),
        (
            1,
            "01 00 00 00 00 00 00 00 00",
            "5:7",
            "the certificate lacks a successor of layer 0, left 'start', right 'start' (refused=13 at=0)",
        ),
        (
            10,
            "15 50 21 15 00 00 00 00 00",
            "5:16",
            "the certificate lacks a successor of layer 0, left 'S: . a', right 'S: . a' (refused=13 at=28)",
        ),
    ] {
        let lines = file("refused-lines", &format!("certificate-form=1\nstates=6\nrules=1\nsize={size}\n0000: {bytes}\n"));
        let ran = run(CHECK, &[&grammar, &lines], b"");
        assert_eq!((ran.status, ran.out.as_str()), (1, ""));
        assert_eq!(ran.err, format!("{lines}:{place}: error: {words}\n"));
    }
    let empty = check(&grammar, "certificate-form=2\nstates=6\nrules=1\nsize=0\n");
    assert_eq!(empty.err, "<stdin>:4:1: error: the certificate lacks layer 0, left 'start', right 'start' (refused=11 at=0)\n");
}

/// Certificates of grammars without a sentence, and two strings: the grammar is refused, and told of its file.
#[test]
fn certificates_of_grammars_without_a_sentence() {
    let words = "there is no sentence: 'S' has no finite tree; give it a rule without it on the right side";
    for (rules, lines) in [
        (&[][..], "certificate-form=1\nstates=4\nrules=0\nsize=1\n0000: 01 00 00 00\n"),
        (&[], "certificate-form=1\nstates=4\nrules=0\nsize=5\n0000: 05 85 00 00\n"),
        (&["S: S"], "certificate-form=1\nstates=6\nrules=1\nsize=1\n0000: 01 00 00 00 00 00 00 00 00\n"),
        (&["S: S"], "certificate-form=2\n"),
    ] {
        let grammar = file("without-sentence", &text("", "S", rules));
        let ran = check(&grammar, lines);
        assert_eq!((ran.status, ran.out.as_str()), (4, ""));
        assert_eq!(ran.err, format!("{grammar}:2:14: error: {words} (refused=19 at=0)\n"), "{lines}");
        let refused = said(4, "refused=19\nat=0\n");
        assert_eq!(run(CHECK, &["--quiet", &grammar, "-"], lines.as_bytes()), refused);
        let strings = b"left=(0 S )0\nright=(0 (1 S )1 )0\n";
        assert_eq!(run(CHECK, &["--quiet", "--lines", &grammar, "-"], strings), refused);
    }
}

/// The grammars of the corpus that have a certificate in the second form, with it.
fn certified() -> Vec<(Grammar, String)> {
    let of = |text: &str| {
        let grammar = Grammar::read(text.as_bytes()).ok().filter(|grammar| Form::Checked.has(grammar.states()))?;
        let Searched::Unambiguous { certificate, size, .. } = grammar.search(0).unwrap() else { return None };
        let lines = lines::written(&grammar, 0, size, &certificate, Form::Checked);
        Some((grammar, lines))
    };
    corpus().iter().filter_map(|entry| of(&entry.text)).collect()
}

#[test]
fn both_forms_give_the_same_bytes() {
    let certified = certified();
    assert!(certified.len() >= 50);
    for (grammar, checked) in certified {
        let Searched::Unambiguous { certificate, size, .. } = grammar.search(0).unwrap() else { unreachable!() };
        let plain = lines::written(&grammar, 0, size, &certificate, Form::Plain);
        let runs = lines::written(&grammar, 0, size, &certificate, Form::Runs);
        assert!(runs.len() <= checked.len() + 20, "{runs}");
        let (head, bytes) = checked.split_at(checked.match_indices('\n').nth(3).unwrap().0 + 1);
        let spread = format!("{head}\n\n{bytes}");
        for lines in [plain, checked, spread, runs.to_uppercase().replace("CERTIFICATE-FORM", "certificate-form"), runs] {
            let lines = lines.replace("STATES", "states").replace("RULES", "rules").replace("SIZE", "size");
            assert_eq!(lines::read(&grammar, lines.as_bytes()).unwrap().bytes, certificate);
        }
    }
}

/// Numbers that look random, the same ones every time.
struct Random(u64);

impl Random {
    fn below(&mut self, limit: usize) -> usize {
        self.0 = self.0.wrapping_mul(6_364_136_223_846_793_005).wrapping_add(1_442_695_040_888_963_407);
        (self.0 >> 33) as usize % limit
    }
}

/// The places of the digits on a line: of its number, or of offset, bytes and check digits.
fn digits(line: &[u8]) -> Vec<usize> {
    let start = line.iter().position(|byte| *byte == b'=').unwrap_or(0);
    (start..line.len()).filter(|place| line[*place].is_ascii_hexdigit()).collect()
}

/// A slip must be told with its line, whatever else is said, and is never accepted.
fn told_by_line(grammar: &Grammar, lines: &[Vec<u8>], slip: usize) {
    let text: Vec<u8> = lines.join(&b'\n');
    match lines::read(grammar, &text) {
        Err(faults) => match &faults[..] {
            [Malformed { line, .. }] => assert_eq!(*line, slip + 1, "{}", String::from_utf8_lossy(&text)),
            faults => panic!("{faults:?}"),
        },
        Ok(_) => panic!("line {} has a slip: {}", slip + 1, String::from_utf8_lossy(&text)),
    }
}

#[test]
fn a_thousand_wrong_digits_and_a_thousand_swaps_are_told_by_line() {
    slips_are_told_by_line(certified());
}

/// The same of form 3, in which `z` is a digit too; and letters put in, left out or doubled.
#[test]
fn two_thousand_slips_in_form_3() {
    let certified: Vec<(Grammar, String)> = certified().into_iter().map(|(grammar, _)| in_runs(grammar)).collect();
    let mut random = Random(3);
    for _ in 0..2000 {
        let (grammar, text) = &certified[random.below(certified.len())];
        let mut lines: Vec<Vec<u8>> = text.lines().map(|line| line.as_bytes().to_vec()).collect();
        let slip = 4 + random.below(lines.len() - 4);
        let place = random.below(lines[slip].len());
        let letter = b"0123456789abcdefz: *"[random.below(20)];
        let before = lines[slip].clone();
        match random.below(3) {
            0 => lines[slip].insert(place, letter),
            1 => drop(lines[slip].remove(place)),
            _ => lines[slip][place] = letter,
        }
        if lines[slip] != before {
            told_by_line(grammar, &lines, slip);
        }
    }
    slips_are_told_by_line(certified);
}

/// A grammar with its certificate in form 3.
fn in_runs(grammar: Grammar) -> (Grammar, String) {
    let Searched::Unambiguous { certificate, size, .. } = grammar.search(0).unwrap() else { panic!("it is unambiguous") };
    let lines = lines::written(&grammar, 0, size, &certificate, Form::Runs);
    (grammar, lines)
}

fn slips_are_told_by_line(certified: Vec<(Grammar, String)>) {
    let mut random = Random(1);
    let (mut wrong, mut swapped) = (0, 0);
    while wrong < 1000 || swapped < 1000 {
        let (grammar, text) = &certified[random.below(certified.len())];
        let lines: Vec<Vec<u8>> = text.lines().map(|line| line.as_bytes().to_vec()).collect();
        let slip = random.below(lines.len());
        let places = digits(&lines[slip]);
        let place = random.below(places.len());
        if wrong < 1000 {
            let all = if slip < 4 { &b"0123456789"[..] } else { b"0123456789abcdef" };
            let digit = all[random.below(all.len())];
            if digit != lines[slip][places[place]] {
                let mut lines = lines.clone();
                lines[slip][places[place]] = digit;
                told_by_line(grammar, &lines, slip);
                wrong += 1;
            }
        }
        if let Some(next) = places.get(place + 1).filter(|_| swapped < 1000) {
            if lines[slip][places[place]] != lines[slip][*next] {
                let mut lines = lines.clone();
                lines[slip].swap(places[place], *next);
                told_by_line(grammar, &lines, slip);
                swapped += 1;
            }
        }
    }
}

/// The same lines with another byte at a place, and with another size.
fn with_byte(lines: &str, size: usize, at: usize, byte: u8) -> String {
    let mut lines: Vec<String> = lines.lines().map(String::from).collect();
    lines[3] = format!("size={size}");
    lines[4 + at / 32].replace_range(6 + at % 32 * 3..8 + at % 32 * 3, &format!("{byte:02x}"));
    lines.join("\n") + "\n"
}

#[test]
fn every_bit_of_a_certificate_is_needed() {
    assert!(unambiguous().len() >= 20);
    for text in unambiguous() {
        let grammar = Grammar::read(text.as_bytes()).unwrap();
        let Searched::Unambiguous { certificate: bytes, size, .. } = grammar.search(0).unwrap() else { panic!("{text}") };
        let lines = lines::written(&grammar, 0, size, &bytes, Form::Plain);
        let held: Vec<usize> = (0..8 * bytes.len()).filter(|index| bytes[index / 8] >> (index % 8) & 1 == 1).collect();
        assert_eq!(size, held.len());
        for index in held {
            let flipped = with_byte(&lines, size - 1, index / 8, bytes[index / 8] ^ 1 << (index % 8));
            let without = lines::read(&grammar, flipped.as_bytes()).unwrap();
            let cause = if index == 0 { 11 } else { 13 };
            assert_eq!(grammar.check(0, &without.bytes).unwrap_err().cause.number(), cause, "{text}");
        }
    }
}

/// Grammar text with one nonterminal, so many rules of two terminals, and these rules more.
fn pairs_of_terminals(rules: usize, more: &[&str]) -> String {
    let names: Vec<String> = (0..20).map(|i| format!("a{i}")).collect();
    let rules: Vec<String> = (0..rules).map(|i| format!("S: a{} a{}", i / 20, i % 20)).collect();
    text(&names.join(","), "S", &rules.iter().map(String::as_str).chain(more.iter().copied()).collect::<Vec<_>>())
}

#[test]
fn the_largest_grammar() {
    let text = pairs_of_terminals(340, &[]);
    let grammar = file("largest", &text);
    let lines = certify(&text).out;
    assert!(lines.starts_with("certificate-form=3\nstates=1024\nrules=340\nsize="), "{lines}");
    assert_eq!(run(CERTIFY, &["--form=3", &grammar], b""), said(0, &lines));
    assert_eq!(check(&grammar, &lines), said(0, "accepted\n"));
    // Bytes alone, with line ends of two bytes: there are no longer lines.
    let grammar = Grammar::read(text.as_bytes()).unwrap();
    let lines = lines::written(&grammar, 0, 8 * 262_144, &[0xff; 262_144], Form::Runs).replace('\n', "\r\n");
    assert!(lines.len() < lines::MOST_BYTES && lines.contains("\n3fff0: "), "{}", lines.len());
    assert_eq!(lines::read(&grammar, lines.as_bytes()).unwrap().bytes, [0xff; 262_144]);
}

/// Offsets of four digits serve up to 512 states: forms 1 and 2 end there.
#[test]
fn forms_by_states() {
    // 4 states, 3 for each pair, 4 for the last rule.
    let text = pairs_of_terminals(168, &["S: a0 a0 a0"]);
    let grammar = file("states-512", &text);
    for (form, last) in [("--form=1", "\nffe0: "), ("--form=2", "*"), ("--form=3", "*")] {
        let lines = run(CERTIFY, &[form, &grammar], b"").out;
        assert!(lines.contains("\nstates=512\n") && lines.contains(last), "{lines}");
        assert_eq!(check(&grammar, &lines), said(0, "accepted\n"));
    }
    assert_eq!(certify(&text), run(CERTIFY, &["--form=2", &grammar], b""));
    let more = pairs_of_terminals(168, &["S: a0 a0 a0 a0"]);
    let grammar = file("states-513", &more);
    let lines = certify(&more).out;
    assert!(lines.starts_with("certificate-form=3\nstates=513\n"), "{lines}");
    assert_eq!(check(&grammar, &lines), said(0, "accepted\n"));
    for form in [1, 2] {
        let message = format!("form {form} has at most 512 states; the grammar has 513\n");
        let ran = run(CERTIFY, &[&format!("--form={form}"), &grammar], b"");
        assert_eq!((ran.status, ran.out.as_str(), ran.err), (2, "", format!("{grammar}: error: {message}")));
        let ran = check(&grammar, &lines.replacen("form=3", &format!("form={form}"), 1));
        assert_eq!((ran.status, ran.err), (1, format!("<stdin>:1:18: error: {message}")));
    }
}

/// Slips of people: tests/certificates has a file for each, EXPECTED.txt what is said of it.
#[test]
fn every_file_gives_its_message() {
    let folder = folder("bindings/tools/tests/certificates");
    let path = |name: &str| folder.join(name).to_str().unwrap().to_string();
    let expected = std::fs::read_to_string(folder.join("EXPECTED.txt")).unwrap();
    let names = std::fs::read_dir(&folder).unwrap().map(|entry| entry.unwrap().file_name().into_string().unwrap());
    let mut names: Vec<String> = names.filter(|name| name.ends_with(".certificate")).collect();
    names.sort();
    let mut all = String::new();
    for name in &names {
        let ran = run(CHECK, &[&path("robot.grammar"), &path(name)], b"");
        let accepted = ran == said(0, "accepted\n");
        assert!(accepted || (ran.status, ran.out.as_str()) == (1, ""), "{name}");
        all += &if accepted { format!("{name}: accepted\n") } else { ran.err.replace(&path(""), "") };
    }
    assert_eq!((names.len(), all), (10, expected));
}

/// Several wrong lines are told at once, each by its line.
#[test]
fn several_slips() {
    let (grammar, text) = certified().into_iter().max_by_key(|(_, lines)| lines.len()).unwrap();
    let mut lines: Vec<String> = text.lines().map(String::from).collect();
    for slip in [4, 9, lines.len() - 1] {
        let last = if lines[slip].ends_with('0') { "1" } else { "0" };
        let end = lines[slip].len() - 1;
        lines[slip].replace_range(end.., last);
    }
    let faults = lines::read(&grammar, lines.join("\n").as_bytes()).unwrap_err();
    assert_eq!(faults.iter().map(|fault| fault.line).collect::<Vec<_>>(), [5, 10, lines.len()]);
    assert!(faults.iter().all(|fault| fault.message.starts_with("the check digits are ")));
}
