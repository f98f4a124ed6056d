//! Callers that are remembered: which numbers are tried, the line that a certificate has, and what the states are.

use crate::support::{certify, corpus, file, run, said, text, Ran, CERTIFY, CHECK, JOIN};
use ambig_tools::lines::{self, Form};
use ambig_tools::spots::{self, Spot};
use ambig_tools::words;
use ambiguity::{Code, Grammar, Move, Searched, MAX_CALLERS};

/// Document 02's grammar of a biology group: a false alarm at 0 callers.
fn biology() -> String {
    text("b,c,d,e", "S,A", &["S: b A c", "S: b e d", "S: A d", "A: e"])
}

const CERTIFICATE: &str = "certificate-form=3
states=19
callers=1
rules=4
size=58
00000: 15 11 01 00 40 45 44 10 00 50 11 11 10 41 00 01 *88
00011: 10 00 15 11 01 11 04 00 81 00 10 50 11 11 00 10 *37
00023: 01 44 10 15 11 01 20 10 z02 01 z0e 20 z08 20 *47
";

/// Rules of 0 to 12 symbols S: S has 79 callers.
fn many_calls() -> String {
    let rules: Vec<String> = (0..=12).map(|length| format!("S:{}", " S".repeat(length))).collect();
    text("", "S", &rules.iter().map(String::as_str).collect::<Vec<_>>())
}

#[test]
fn the_grammar_of_document_02() {
    let grammar = file("biology", &biology());
    let note = |callers: &str| format!("{grammar}: note: unambiguous with {callers} remembered\n");
    let ran = run(CERTIFY, &["--form=3", &grammar], b"");
    assert_eq!(ran, Ran { status: 0, out: CERTIFICATE.to_string(), err: note("1 caller") });
    assert_eq!(run(CHECK, &[&grammar, "-"], CERTIFICATE.as_bytes()), said(0, "accepted\ncallers=1\n"));
    assert_eq!(run(CHECK, &["-q", &grammar, "-"], CERTIFICATE.as_bytes()), said(0, "accepted\ncallers=1\n"));
    for (callers, words) in [("1", "1 caller"), ("2", "2 callers")] {
        let ran = run(CERTIFY, &["--callers", callers, "--form=3", &grammar], b"");
        let lines = CERTIFICATE.replace("callers=1", &format!("callers={callers}"));
        assert_eq!(ran, Ran { status: 0, out: lines.clone(), err: note(words) });
        assert_eq!(run(CHECK, &[&grammar, "-"], lines.as_bytes()), said(0, &format!("accepted\ncallers={callers}\n")));
        let quiet = format!("states=19\ncallers={callers}\nverdict=unambiguous\nreached=58\n");
        assert_eq!(run(CERTIFY, &["-q", &format!("--callers={callers}"), &grammar], b""), said(0, &quiet));
        let looked = run(CERTIFY, &["--looked", "--callers", callers, &grammar], b"");
        assert_eq!(looked, said(0, &format!("{quiet}looked=83\n")));
    }
    assert_eq!(run(CERTIFY, &["-q", &grammar], b"").out, "states=19\ncallers=1\nverdict=unambiguous\nreached=58\n");
    let potential = "states=17\nverdict=potential\nleft=(0 (2 b e d )2 )0\nright=(0 (1 b (4 e )4 d )3 )0\n";
    assert_eq!(run(CERTIFY, &["-q", "--callers", "0", &grammar], b""), said(3, potential));
    let ran = run(CERTIFY, &["--callers=0", &grammar], b"");
    assert!(ran.status == 3 && ran.out.starts_with(&format!("{potential}looked=106\ntried=0\nafter `b e`: ")), "{}", ran.out);
    assert_eq!(ran.err, format!("{grammar}:6:6: potential: after 'b e' this rule ends, or line 4 goes on with 'd'\n"));
}

/// A joined text is tried alike.
#[test]
fn joined_texts() {
    let robot = file("biology-robot", &biology().replace("rule=S: A d\n", ""));
    let module = file("biology-module", &text("d", "S,A", &["S: A d"]));
    let quiet = |words: &[&str]| run(JOIN, &[&["--certify", "-q"], words, &[&robot, &module]].concat(), b"");
    assert_eq!(quiet(&[]), said(0, "states=19\ncallers=1\nverdict=unambiguous\nreached=58\n"));
    assert_eq!(quiet(&["--callers", "2"]).out, "states=19\ncallers=2\nverdict=unambiguous\nreached=58\n");
    assert_eq!((quiet(&["--callers=0"]).status, run(JOIN, &["--certify", &robot, &module], b"").status), (3, 0));
}

/// Which numbers were tried is told, and where the states do not fit; the two strings and the trees are those at 0 callers.
#[test]
fn what_was_tried() {
    let cycle = text("a", "S", &["S: S", "S: a"]);
    let lines = |out: &str| out.lines().take_while(|line| !line.starts_with("ambiguous")).map(String::from).collect::<Vec<_>>();
    let all = ["states=8", "verdict=potential", "left=(0 S )0", "right=(0 (1 S )1 )0", "looked=55", "tried=0,1,2"];
    assert_eq!(lines(&certify(&cycle).out), all);
    let one = run(CERTIFY, &["--callers", "1", "-"], cycle.as_bytes());
    let with_one = ["states=12", "callers=1", "verdict=potential", "left=(0 S )0", "right=(0 (1 S )1 )0"];
    assert_eq!(lines(&one.out)[..5], with_one);
    assert!(one.status == 1 && lines(&one.out)[6] == "tried=1" && one.err == certify(&cycle).err, "{}", one.out);
    let many = certify(&many_calls());
    assert!(many.status == 1 && many.out.contains("\ntried=0\ntoo-many-states=1,2\nambiguous: "), "{}", many.out);
    let page = run(CERTIFY, &["--html", "-"], many_calls().as_bytes()).out;
    assert!(page.contains("<br/>Callers remembered: tried with 0; with 1 and 2 there are too many states.\n"), "{page}");
    let page = run(CERTIFY, &["--html", "-"], cycle.as_bytes()).out;
    assert!(page.contains("<br/>Callers remembered: tried with 0, 1 and 2.\n"), "{page}");
    let page = run(CERTIFY, &["--html", "-"], biology().as_bytes()).out;
    assert!(page.contains("States Q = 19, callers remembered 1, rules 4, size of the certificate 58, successors looked at 83."));
    assert!(page.contains("\nstates=19\ncallers=1\nrules=4\n"), "{page}");
}

/// Callers that are asked for and have too many states are refused as the library refuses them.
#[test]
fn too_many_states() {
    let grammar = file("many-calls", &many_calls());
    for (callers, words) in [("1", "1 caller"), ("2", "2 callers")] {
        let asked = |option: &str| run(CERTIFY, &[option, "--callers", callers, &grammar], b"");
        assert_eq!(asked("-q"), said(4, "refused=8\nat=0\n"));
        assert_eq!(asked("--looked"), said(4, "refused=8\nat=0\n"));
        let message = format!("with {words} remembered there are more than 1024 states");
        let told = Ran { status: 4, out: String::new(), err: format!("{grammar}: error: {message} (refused=8 at=0)\n") };
        assert_eq!((asked("--steps"), asked("--html")), (told, asked("--form=1")));
        let json = asked("--json");
        let expected = format!("\"refused\":8,\"at\":0,\"callers\":{callers},\"message\":\"{message}\"}}\n");
        assert!(json.status == 4 && json.out.ends_with(&expected), "{}", json.out);
        let lines = format!("certificate-form=2\nstates=95\ncallers={callers}\nrules=13\nsize=0\n");
        let checked = run(CHECK, &[&grammar, "-"], lines.as_bytes());
        assert_eq!((checked.status, checked.out.as_str()), (1, ""));
        assert_eq!(checked.err, format!("<stdin>:3:9: error: {message}\n"));
        assert_eq!(run(CHECK, &["-q", &grammar, "-"], lines.as_bytes()), said(1, "malformed\n"));
    }
}

/// The lines of a certificate with callers that are wrong.
#[test]
fn lines_with_callers() {
    let grammar = file("lines-with-callers", &biology());
    let channels = text(
        "take,vol,give,repeat,num,close,ch,sep",
        "P,K,L",
        &["P:", "P: P K", "K: take L vol", "K: give L vol", "K: repeat num P close", "L: ch", "L: L sep ch"],
    );
    let wide = file("channels-with-callers", &channels);
    let of_wide = run(CERTIFY, &["--callers", "1", &wide], b"").out;
    assert!(of_wide.starts_with("certificate-form=2\nstates=47\ncallers=1\nrules=7\nsize=214\n"), "{of_wide}");
    let number = "a decimal number without leading zeros is expected";
    let only = "1 or 2 is expected; a certificate of 0 callers has no such line";
    let of = |from: &str, to: &str| (&grammar, CERTIFICATE.replacen(from, to, 1));
    let wide_of = |from: &str, to: &str| (&wide, of_wide.replacen(from, to, 1));
    for ((grammar, lines), line, column, message) in [
        (of("callers=1", "callers=0"), 3, 9, only),
        (of("callers=1", "callers=3"), 3, 9, only),
        (of("callers=1", "callers=18446744073709551615"), 3, 9, only),
        (of("callers=1", "callers=01"), 3, 9, number),
        (of("callers=1", "callers=18446744073709551616"), 3, 9, number),
        (of("callers=1", "callers="), 3, 9, number),
        (of("callers=1", "callers=1 "), 3, 10, "the line is to end here, and a space is found"),
        (of("callers=1\n", "callers=1\ncallers=1\n"), 4, 1, "'rules=' is expected, and 'c' is found"),
        (of("form=3", "form=9"), 1, 18, "this program reads the forms 1, 2 and 3"),
        (of("states=19", "states=019"), 2, 8, number),
        (
            of("rules=4", "rules=5"),
            4,
            7,
            "5 is found, and by the grammar this number is 4: is it the certificate of another grammar?",
        ),
        (
            of("size=58", "size=57"),
            5,
            6,
            "the number of bits that are set below is 58: this number is wrong, or lines are missing",
        ),
        (
            of("states=19", "states=18"),
            2,
            8,
            "18 is found, and by the grammar this number is 19: is it the certificate of another grammar?",
        ),
        (
            of("states=19", "states=17"),
            2,
            8,
            "17 is found, and with 1 caller this number is 19, without callers 17: is the line behind it one too many?",
        ),
        (
            of("callers=1\n", ""),
            2,
            8,
            "19 is found, and without callers this number is 17, with 1 caller 19: is the line 'callers=1' missing behind it?",
        ),
        (
            wide_of("callers=1", "callers=2"),
            2,
            8,
            "47 is found, and with 2 callers this number is 93, with 1 caller 47: is 'callers=1' meant behind it?",
        ),
    ] {
        let ran = run(CHECK, &[grammar, "-"], lines.as_bytes());
        assert_eq!((ran.status, ran.out.as_str()), (1, ""));
        assert_eq!(ran.err, format!("<stdin>:{line}:{column}: error: {message}\n"), "{lines}");
        assert_eq!(run(CHECK, &["-q", grammar, "-"], lines.as_bytes()), said(1, "malformed\n"));
    }
}

/// A triple that lacks a successor is told with the callers of its states.
#[test]
fn refusals_with_callers() {
    let grammar = Grammar::read(biology().as_bytes()).unwrap();
    let path = file("refusals-with-callers", &biology());
    let Searched::Unambiguous { mut certificate, size, .. } = grammar.search(1).unwrap() else { panic!("it is unambiguous") };
    // (0,2,16), to which (0,0,16) leads.
    let index = 2 * 19 + 16;
    assert_eq!(certificate[index / 8] >> (index % 8) & 1, 1);
    certificate[index / 8] ^= 1 << (index % 8);
    let lines = lines::written(&grammar, 1, size - 1, &certificate, Form::Plain);
    let ran = run(CHECK, &[&path, "-"], lines.as_bytes());
    let said =
        "the certificate lacks a successor of layer 0, left 'start', right 'A: . e called at S: . A d' (refused=13 at=16)\n";
    assert!(ran.status == 1 && ran.err.ends_with(said) && ran.err.starts_with("<stdin>:6:"), "{}", ran.err);
    let empty = "certificate-form=2\nstates=19\ncallers=1\nrules=4\nsize=0\n";
    let missing = "<stdin>:5:1: error: the certificate lacks layer 0, left 'start', right 'start' (refused=11 at=0)\n";
    assert_eq!(run(CHECK, &[&path, "-"], empty.as_bytes()).err, missing);
}

/// Every form gives the bytes again, with each number of callers; certificates at 0 have no line more.
#[test]
fn forms_with_callers() {
    let mut counts = [0; MAX_CALLERS + 1];
    for entry in corpus().iter().filter(|entry| entry.text.len() < 2_000) {
        let grammar = Grammar::read(entry.text.as_bytes()).unwrap();
        for (callers, count) in counts.iter_mut().enumerate() {
            let Ok(Searched::Unambiguous { certificate, size, .. }) = grammar.search(callers) else { continue };
            let states = grammar.room(callers).unwrap().states;
            for form in [Form::Plain, Form::Checked, Form::Runs].into_iter().filter(|form| form.has(states)) {
                let lines = lines::written(&grammar, callers, size, &certificate, form);
                assert_eq!(lines.contains("callers="), callers > 0);
                let read = lines::read(&grammar, lines.as_bytes()).unwrap();
                assert_eq!((read.callers, &read.bytes), (callers, &certificate), "{}", entry.name);
            }
            *count += 1;
        }
    }
    assert!(counts.iter().all(|count| *count > 30), "{counts:?}");
}

/// A wrong digit of any line but the third is told by its line, or the certificate is refused; never is another one accepted.
#[test]
fn every_digit_of_a_certificate_with_callers() {
    let grammar = Grammar::read(biology().as_bytes()).unwrap();
    for (place, letter) in CERTIFICATE.bytes().enumerate().filter(|(_, letter)| letter.is_ascii_hexdigit()) {
        let number = CERTIFICATE[..place].matches('\n').count() + 1;
        let line = CERTIFICATE.lines().nth(number - 1).unwrap();
        if line.contains('=') && !letter.is_ascii_digit() {
            continue;
        }
        for digit in b"0123456789".iter().filter(|digit| **digit != letter) {
            let mut lines = CERTIFICATE.as_bytes().to_vec();
            lines[place] = *digit;
            match lines::read(&grammar, &lines) {
                Err(faults) => assert_eq!(faults[0].line, number, "{}", String::from_utf8_lossy(&lines)),
                Ok(read) => assert!(number == 3 && read.callers == 2),
            }
        }
    }
}

/// The rule of an item by its number at 0 callers, its dot, and the symbol ahead.
fn item(grammar: &Grammar, item: usize) -> (usize, usize, Option<Code>) {
    let (rule, ahead) = words::item_at(grammar, item);
    let first = 4 + grammar.rules()[..rule.max(1) - 1].iter().map(|rule| rule.right.len() + 1).sum::<usize>();
    (rule, if rule == 0 { item.saturating_sub(2) } else { item - first }, ahead)
}

/// The moves of a state beside the end, as the library's step records have them.
fn moves(grammar: &Grammar, callers: usize, state: usize) -> Vec<(Move, usize)> {
    let step = |nth| ambiguity::nth_step(grammar.table(), callers, 1, state, 1, nth).unwrap();
    let mut found: Vec<(Move, usize)> = (0..).map_while(step).map(|step| (step.on_left, step.left)).collect();
    let step = |nth| ambiguity::nth_step(grammar.table(), callers, 0, state, state, nth).unwrap();
    let shifts = (0..).map_while(step).filter(|step| matches!(step.on_left, Move::Symbol(_)));
    found.extend(shifts.map(|step| (step.on_left, step.left)));
    found.sort_by_key(|(_, to)| *to);
    found
}

/// The moves of a state by document 02's words: an opening puts the item before its callers, a closing returns to the nearest caller
/// past its nonterminal with any farther caller filled in, a shift keeps them.
fn expected(grammar: &Grammar, callers: usize, spots: &[Spot], from: &Spot) -> Vec<(Move, usize)> {
    let mut found = Vec::new();
    for (to, spot) in spots.iter().enumerate() {
        let ((rule, _, ahead), (other, dot, _)) = (item(grammar, from.item), item(grammar, spot.item));
        let left = other.checked_sub(1).map(|place| grammar.rules()[place].left);
        let pushed: Vec<usize> = [from.item].iter().chain(&from.callers).take(callers).copied().collect();
        match (from.item, spot.item) {
            (0, 2) => found.push((Move::Opening(0), to)),
            (3, 1) => found.push((Move::Closing(0), to)),
            (0 | 1 | 3, _) | (_, 0 | 1) => (),
            _ if ahead.is_some() && spot.item == from.item + 1 && spot.callers == from.callers => {
                found.push((Move::Symbol(u64::from(ahead.unwrap())), to));
            }
            _ if ahead.is_some() && ahead == left && dot == 0 && other > 0 && spot.callers == pushed => {
                found.push((Move::Opening(other as u64), to));
            }
            _ if ahead.is_none() && rule > 0 && from.callers.first().map_or(callers == 0, |near| near + 1 == spot.item) => {
                let before = spot.item.checked_sub(1).map(|item| words::item_at(grammar, item).1);
                let is_past = dot > 0 && before == Some(Some(grammar.rules()[rule - 1].left));
                if is_past && spot.callers.starts_with(from.callers.get(1..).unwrap_or(&[])) {
                    found.push((Move::Closing(rule as u64), to));
                }
            }
            _ => (),
        }
    }
    found
}

/// The states are what the tools say they are: the library's moves lead as document 02 says.
#[test]
fn states_in_their_order() {
    let mut compared = 0;
    let texts = corpus().into_iter().map(|entry| entry.text).filter(|text| text.len() < 400);
    for text in texts.chain([biology(), text("a", "S,W,X", &["S: W", "S: X", "W: a W", "W:", "X: a"])]) {
        let grammar = Grammar::read(text.as_bytes()).unwrap();
        let live = ambiguity::two_trees::live::live_rules(&grammar);
        for callers in 0..=MAX_CALLERS {
            let Ok(room) = grammar.room(callers) else { continue };
            let spots = spots::spots(&grammar, callers);
            assert_eq!(spots.len(), room.states, "{text} {callers}");
            if room.states > 120 || !live.iter().all(|live| *live) {
                continue;
            }
            for (state, from) in spots.iter().enumerate() {
                let found = moves(&grammar, callers, state);
                assert_eq!(found, expected(&grammar, callers, &spots, from), "{text} {callers} {state} {from:?}");
                compared += found.len();
            }
        }
    }
    println!("{compared} moves");
    assert!(compared > 3_000, "{compared}");
}

#[test]
fn states_in_words() {
    let grammar = Grammar::read(biology().as_bytes()).unwrap();
    let words = |callers, state| spots::state(&grammar, callers, state);
    assert_eq!(words(0, 15), "A: . e");
    assert_eq!(words(1, 15), "A: . e called at S: b . A c");
    assert_eq!(words(2, 18), "A: e . called at S: . A d, S': . S");
    assert_eq!((words(1, 0), words(1, 1), words(2, 3)), ("start".into(), "end".into(), "S': S .".into()));
}
