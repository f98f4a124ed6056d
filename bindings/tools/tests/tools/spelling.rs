//! Names that are used in another case than they are declared in: all that is said has the declared spelling.

use crate::support::{certify, corpus, file, run, said, text, unambiguous, without_sentence, Ran, CERTIFY, CHECK};
use ambig_tools::strings;
use ambiguity::{Grammar, Searched};

const OPTIONS: [&str; 4] = ["--looked", "--steps", "--json", "--html"];

/// A text in which some letters have the other case, the same ones every time.
fn mixed(text: &str) -> String {
    let mut seed = 9u32;
    let other = |letter: char| {
        seed = seed.wrapping_mul(1_664_525).wrapping_add(1_013_904_223);
        match letter {
            _ if seed >> 31 == 0 => letter,
            'a'..='z' => letter.to_ascii_uppercase(),
            _ => letter.to_ascii_lowercase(),
        }
    };
    text.chars().map(other).collect()
}

/// The text with the names of its rules in another case; lists and keys stay.
fn mixed_rules(text: &str) -> String {
    let of_line = |line: &str| match line.strip_prefix("rule=") {
        Some(rule) => format!("rule={}", mixed(rule)),
        None => line.to_string(),
    };
    text.split_inclusive('\n').map(of_line).collect()
}

/// The two lines with their names in another case.
fn mixed_lines(lines: &str) -> String {
    let of_line = |line: &str| {
        let (key, letters) = line.split_once('=').unwrap();
        format!("{key}={}", mixed(letters))
    };
    lines.split_inclusive('\n').map(of_line).collect()
}

/// Whatever the tool is asked for, it says of a text in another case what it says of the text as it is declared. Of a false alarm it is
/// not asked for trees, which are looked for long.
#[test]
fn the_tool_says_the_same() {
    let named = corpus().into_iter().chain(without_sentence()).map(|entry| (entry.truth == "false-alarm", entry.text));
    let texts = unambiguous().into_iter().map(|text| (false, text)).chain(named);
    let mut changed = 0;
    for (alarm, text) in texts.filter(|(_, text)| text.len() < 2_000) {
        let other = mixed_rules(&text);
        changed += usize::from(other != text);
        for option in if alarm { &OPTIONS[..1] } else { &OPTIONS[1..] } {
            let said = |text: &str| run(CERTIFY, &[option, "-"], text.as_bytes());
            assert_eq!(said(&other), said(&text), "{option} {other}");
        }
        let grammar = Grammar::read(other.as_bytes());
        assert_eq!(grammar, Grammar::read(text.as_bytes()), "{other}");
        assert!(grammar.map_or(true, |grammar| grammar.write() == text));
    }
    assert!(changed > 80, "{changed}");
}

/// A certificate is the same, and is accepted with either text; so are two lines with names in any case.
#[test]
fn certificates_and_lines() {
    let (mut certificates, mut pairs) = (0, 0);
    for entry in corpus().into_iter().filter(|entry| entry.text.len() < 2_000) {
        let grammar = Grammar::read(entry.text.as_bytes()).unwrap();
        let path = file("in-another-case", &mixed_rules(&entry.text));
        match grammar.search(0).unwrap() {
            Searched::Unambiguous { .. } => {
                let Ran { out, .. } = run(CERTIFY, &["-"], entry.text.as_bytes());
                assert_eq!(run(CHECK, &[&path, "-"], out.as_bytes()), said(0, "accepted\n"), "{}", entry.name);
                certificates += 1;
            }
            Searched::Potential { witness, .. } => {
                let lines = strings::of_witness(&grammar, &witness);
                let other = mixed_lines(&lines);
                assert_eq!(run(CHECK, &["--lines", &path, "-"], other.as_bytes()), said(0, "accepted\n"), "{}", entry.name);
                assert_eq!(grammar.read_back(other.as_bytes()), grammar.read_back(lines.as_bytes()));
                pairs += usize::from(other != lines);
            }
        }
    }
    assert!(certificates > 20 && pairs > 20, "{certificates} {pairs}");
}

const STEPS: &str = "terminals=take,vol,then\nnonterminals=Method,Steps\nrule=METHOD: steps\nrule=steps: STEPS Then sTEPS\n\
                     rule=Steps: Take VOL\n";

/// What is printed, by hand.
#[test]
fn a_text_in_mixed_case() {
    let ran = certify(STEPS);
    assert_eq!(ran.status, 1);
    assert_eq!(ran.err, "<stdin>:4:6: ambiguous: after 'Steps then Steps' this rule ends, or line 4 goes on with 'then'\n");
    for line in [
        "ambiguous: the Steps `Steps then Steps then Steps` has two trees, in a sentence:",
        "Steps: Steps then Steps  (line 4)      Steps: Steps then Steps  (line 4)",
    ] {
        assert!(ran.out.contains(&format!("\n{line}\n")), "{}", ran.out);
    }
    let page = run(CERTIFY, &["--html", "-"], STEPS.as_bytes()).out;
    assert!(page.contains("<td>rule=Steps: Steps then Steps</td>") && !page.contains("STEPS"), "{page}");
}

/// Warnings name what is declared, at the place of the rule.
#[test]
fn warnings_in_mixed_case() {
    let ran = certify(&text("asp,vol", "Method,Wells,Apart", &["METHOD: ASP Vol", "method: asp WELLS", "aPART: vol"]));
    let expected = "<stdin>:2:21: warning: the nonterminal 'Wells' has no rule\n\
                    <stdin>:4:6: warning: no sentence uses this rule: 'Wells' has no finite tree\n\
                    <stdin>:5:6: warning: no sentence uses this rule: 'Apart' is not reached from 'Method'\n";
    assert_eq!((ran.status, ran.err.as_str()), (0, expected));
}

/// What is said of lines shows a name as it is declared, at the place of its use; an unknown name as it stands there.
#[test]
fn lines_in_mixed_case() {
    let path = file("lines-in-mixed-case", &text("take,volume", "S", &["S: take S take", "s: TAKE", "S: Volume"]));
    let told = |lines: &str| run(CHECK, &["--lines", &path, "-"], lines.as_bytes());
    let right = "right=(0 (1 Take (2 TAKE )2 )0\n";
    assert_eq!(told(&format!("left=(0 (2 take )2 TAKE )1 )0\n{right}")), said(0, "accepted\n"));
    let cannot = told(&format!("left=(0 (2 VOLUME )2 )0\n{right}"));
    assert_eq!(
        (cannot.status, cannot.err.as_str()),
        (1, "<stdin>:1:12: error: `volume` cannot follow: the reading stands at `S: . take`, where `take` can follow\n")
    );
    let unknown = told(&format!("left=(0 TAKE Volumne\n{right}"));
    assert_eq!(
        (unknown.status, unknown.err.as_str()),
        (1, "<stdin>:1:14: error: 'Volumne' is no name of the grammar; is 'volume' meant? (refused=17 at=1)\n")
    );
}
