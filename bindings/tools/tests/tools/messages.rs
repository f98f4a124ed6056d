//! Messages about grammar texts: tests/messages has a file for each, EXPECTED.txt what is said of it.

use std::collections::BTreeMap;

use crate::support::{certify, corpus, file, folder, one_a, run, said, text, without_sentence, CERTIFY, CHECK};
use ambiguity::two_trees::live;
use ambiguity::{Grammar, Searched};

/// By file name what is said of it, without the folder.
fn expected() -> BTreeMap<String, String> {
    let lines = std::fs::read_to_string(folder("bindings/tools/tests/messages/EXPECTED.txt")).unwrap();
    let mut expected = BTreeMap::new();
    for line in lines.lines() {
        let said: &mut String = expected.entry(line.split(':').next().unwrap().to_string()).or_default();
        said.push_str(&format!("{line}\n"));
    }
    expected
}

#[test]
fn every_file_gives_its_message() {
    let folder = folder("bindings/tools/tests/messages");
    let expected = expected();
    let grammars = std::fs::read_dir(&folder).unwrap().map(|entry| entry.unwrap().file_name().into_string().unwrap());
    let grammars: Vec<String> = grammars.filter(|name| name.ends_with(".grammar")).collect();
    assert_eq!(grammars.len(), expected.len());
    let lines = file("any-lines", "certificate-form=2\n");
    for name in &grammars {
        let path = folder.join(name).to_str().unwrap().to_string();
        for (tool, words) in [(CERTIFY, vec![path.as_str()]), (CHECK, vec![path.as_str(), lines.as_str()])] {
            let ran = run(tool, &words, b"");
            assert_eq!((ran.status, ran.out.as_str()), (4, ""));
            assert_eq!(ran.err.replace(&path, name), expected[name], "{tool}");
        }
    }
}

/// No two kinds of mistakes share a message.
#[test]
fn messages_differ() {
    let said = |lines: &String| lines.lines().next().unwrap().splitn(5, ':').last().unwrap().to_string();
    let mut messages: Vec<String> = expected().values().map(said).collect();
    let all = messages.len();
    messages.sort();
    messages.dedup();
    assert!(all >= 90 && messages.len() >= 80, "{} of {all}", messages.len());
}

#[test]
fn a_text_over_the_limit() {
    let text = "terminals=\n".repeat(24_000);
    let ran = certify(&text);
    let message = "<stdin>:23832:4: error: the text has more than 262144 bytes; that is the limit (refused=16 at=0)\n";
    assert_eq!((ran.status, ran.err.as_str()), (4, message));
}

/// Whatever byte is damaged, the message has the line that the library names, and a column of that line.
#[test]
fn damaged_texts() {
    let text = one_a() + "rule=S: S a\n";
    for place in 0..text.len() {
        for byte in 0..=127u8 {
            let mut damaged = text.clone().into_bytes();
            damaged[place] = byte;
            let Err(refusal) = ambiguity::Grammar::read(&damaged) else { continue };
            let finding = ambig_tools::diagnosis::of(&damaged, refusal);
            let has_line = !matches!(refusal.cause.number(), 6..=8 | 19);
            assert!(!has_line || finding.line == refusal.at, "{finding:?}");
            let line = damaged.split(|byte| *byte == b'\n').nth(finding.line - 1).unwrap_or_default();
            assert!((1..=line.len() + 1).contains(&finding.column), "{finding:?}");
            assert!(finding.message.is_ascii() && !finding.message.contains('\n'));
        }
    }
}

/// The corpus has grammars without a sentence. In each of them the start alone has no finite tree.
#[test]
fn grammars_without_a_sentence() {
    let entries = without_sentence();
    assert_eq!(entries.len(), 5);
    let words = "there is no sentence: 'S' has no finite tree; give it a rule without it on the right side";
    for entry in entries {
        let ran = certify(&entry.text);
        assert_eq!((ran.status, ran.out.as_str()), (4, ""));
        assert_eq!(ran.err, format!("<stdin>:2:14: error: {words} (refused=19 at=0)\n"), "{}", entry.name);
        assert_eq!(run(CERTIFY, &["--html", "-"], entry.text.as_bytes()), ran);
        assert_eq!(run(CERTIFY, &["--quiet", "-"], entry.text.as_bytes()), said(4, "refused=19\nat=0\n"));
    }
}

/// Half of 127 nonterminals lead to one without a rule, the others to the start; then that one gets a rule.
#[test]
fn many_nonterminals_without_a_tree() {
    let names: Vec<String> = (0..127).map(|i| format!("N{i}")).collect();
    let rules: Vec<String> = (1..100).rev().map(|i| format!("N{i}: N{}", if i % 2 == 0 { 126 } else { 0 })).collect();
    let text = text("a", &names.join(","), &rules.iter().map(String::as_str).collect::<Vec<_>>());
    let named = |has_tree: &dyn Fn(usize) -> bool| {
        let quoted: Vec<String> = (0..127).filter(|i| !has_tree(*i)).map(|i| format!("'N{i}'")).collect();
        let (last, front) = quoted.split_last().unwrap();
        format!("<stdin>:2:14: error: there is no sentence: {} and {last} have no finite tree; ", front.join(", "))
    };
    assert!(certify(&text).err.starts_with(&named(&|_| false)));
    let mended = certify(&(text + "rule=N126: a\n"));
    assert!(mended.err.starts_with(&named(&|i| i == 126 || (1..100).contains(&i) && i % 2 == 0)), "{}", mended.err);
    // Of many the first ones are named.
    let names: Vec<String> = (0..2_000).map(|i| format!("N{i}")).collect();
    let said = certify(&format!("terminals=\nnonterminals={}\n", names.join(","))).err;
    assert!(said.contains("'N18', 'N19' and 1980 others have no finite tree; give one of them "), "{said}");
}

/// As many lines as a text can have, each with the same mistake or with one of its own: they are told in no time.
#[test]
fn many_mistakes() {
    let list = |letter: &str| (0..2_000).map(|i| format!("{letter}{i}")).collect::<Vec<_>>().join(",");
    let lists = format!("terminals={}\nnonterminals={}\n", list("reagent-"), list("N"));
    let same = format!("{lists}{}", "rule=N0: reagent-x\n".repeat(11_000));
    let ran = certify(&same);
    assert_eq!((ran.status, ran.err.lines().count()), (4, 1));
    assert!(ran.err.starts_with("<stdin>:3:10: error: 'reagent-x' is not declared; is 'reagent-0' meant?"), "{}", ran.err);
    let each: String = (0..10_000).map(|i| format!("rule=N0: reagnet-{i}\n")).collect();
    let ran = certify(&format!("{lists}{each}"));
    assert_eq!((ran.status, ran.err.lines().count()), (4, 20));
    assert!(ran.err.contains("<stdin>:22:10: error: 'reagnet-19' is not declared; is 'reagent-19' meant?\n"), "{}", ran.err);
    let twice = format!("terminals={},a7\n", (0..35_000).map(|i| format!("a{i}")).collect::<Vec<_>>().join(","));
    assert!(certify(&twice).err.contains("'a7' is declared twice, first on line 1, column 32; take one of them out"));
}

/// What the search says of a text: the verdict, with the size or the number of the witness's entries, and how much it looked at.
fn searched(text: &str) -> (bool, usize, usize) {
    match Grammar::read(text.as_bytes()).unwrap().search(0).unwrap() {
        Searched::Unambiguous { size, looked, .. } => (true, size, looked),
        Searched::Potential { witness, looked } => (false, witness.len(), looked),
    }
}

/// Rules that are warned of have no part in the verdict: it is the same without them, and the search looks at as much.
#[test]
fn unused_rules_change_no_verdict() {
    let mut texts: Vec<String> = corpus().into_iter().map(|entry| entry.text).collect();
    texts.extend([
        text("a", "S,W", &["S: a", "S: W", "W: W"]),
        text("a,b", "S,W,X", &["S: W", "W: X", "X: W b", "W: X a", "S: a"]),
        text("a", "S,W,X", &["W: W a", "S: S", "S: W X", "S:", "X: a"]),
        text("a", "S,W,X,Y", &["Y: S S", "S: a S a", "X: a", "S: W X", "S: a", "W: X W", "Y: a"]),
        text("a", "S,W,X", &["X: a X", "S: S S", "W: S W", "S: a", "X: S", "W: X W"]),
    ]);
    let mut unused = 0;
    for text in texts {
        let live = live::live_rules(&Grammar::read(text.as_bytes()).unwrap());
        let kept = |place: usize| place < 2 || live[place - 2];
        let lines = text.split_inclusive('\n').enumerate().filter(|(place, _)| kept(*place));
        let without: String = lines.map(|(_, line)| line).collect();
        assert_eq!(searched(&text), searched(&without), "{text}");
        unused += usize::from(text != without);
    }
    assert!(unused >= 8, "{unused}");
}

#[test]
fn warnings() {
    let text =
        "terminals=asp,vol,mix\nnonterminals=Method,Wells,Step\nrule=Method: asp vol\nrule=Method: asp Wells\nrule=Step: vol\n";
    let path = file("holes", text);
    let place = |place: &str, message: &str| format!("{path}:{place}: warning: {message}\n");
    let warnings = [
        place("1:19", "the terminal 'mix' stands in no rule"),
        place("2:21", "the nonterminal 'Wells' has no rule"),
        place("4:6", "no sentence uses this rule: 'Wells' has no finite tree"),
        place("5:6", "no sentence uses this rule: 'Step' is not reached from 'Method'"),
    ];
    let ran = run(CERTIFY, &[&path], b"");
    assert_eq!((ran.status, ran.err), (0, warnings.concat()));
    let counted = run(CERTIFY, &["-Werror", &path], b"");
    assert_eq!((counted.status, counted.err, &counted.out), (4, warnings.concat(), &ran.out));
    assert_eq!(run(CHECK, &[&path, "-"], ran.out.as_bytes()).out, "accepted\n");
    // Warnings that count are told in any case, those that do not are not.
    for option in ["--quiet", "--looked", "--json"] {
        let quiet = run(CERTIFY, &[option, "-Werror", &path], b"");
        assert_eq!((quiet.status, quiet.err), (4, warnings.concat()), "{option}");
        let quiet = run(CERTIFY, &[option, &path], b"");
        assert_eq!((quiet.status, quiet.err.as_str()), (0, ""), "{option}");
    }
    assert_eq!(run(CERTIFY, &["-Werror", &file("no-holes", &one_a())], b"").status, 0);
}
