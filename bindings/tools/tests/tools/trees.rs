//! The trees of sentences: none, the one tree, several; messages about words; pages and lines for scripts.

use std::collections::BTreeMap;

use crate::pages::well_formed;
use crate::support::{certify, corpus, file, run, said, text, Ran, CERTIFY, TREES};
use ambig_tools::answers::MOST_RULES;
use ambiguity::two_trees::tree::{self, Node};
use ambiguity::{Grammar, MAX_ROW, START};

/// Document 02's eight-channel command set, with names for its three nonterminals.
fn channels() -> String {
    text(
        "take,vol,give,repeat,num,close,ch,sep",
        "Plan,Step,Lines",
        &[
            "Plan:",
            "Plan: Plan Step",
            "Step: take Lines vol",
            "Step: give Lines vol",
            "Step: repeat num Plan close",
            "Lines: ch",
            "Lines: Lines sep ch",
        ],
    )
}

fn dangling() -> String {
    text("if,else,x", "S", &["S: if S", "S: if S else S", "S: x"])
}

const METHOD: &str = "<stdin>:1: one: `take ch sep ch vol repeat num give ch vol close` has one tree,
  of 11 rules
Plan: Plan Step  (rule 2)
  Plan: Plan Step  (rule 2)
    Plan: (empty)  (rule 1)
    Step: take Lines vol  (rule 3)
      take
      Lines: Lines sep ch  (rule 7)
        Lines: ch  (rule 6)
        sep ch
      vol
  Step: repeat num Plan close  (rule 5)
    repeat num
    Plan: Plan Step  (rule 2)
      Plan: (empty)  (rule 1)
      Step: give Lines vol  (rule 4)
        give
        Lines: ch  (rule 6)
        vol
    close
";

#[test]
fn a_method_and_its_plan() {
    let grammar = file("channels", &channels());
    let sentence = "take ch sep ch vol repeat num give ch vol close\n";
    assert_eq!(run(TREES, &[&grammar], sentence.as_bytes()), said(0, METHOD));
    assert_eq!(run(TREES, &[&grammar, "-"], sentence.as_bytes()), said(0, METHOD));
    // A longer name breaks the line elsewhere.
    let method = file("method", sentence);
    let words = |out: &str| out.replace(&method, "<stdin>").split_whitespace().map(String::from).collect::<Vec<_>>();
    for ran in [run(TREES, &[&grammar, &method], b""), run(TREES, &["-", &method], channels().as_bytes())] {
        assert_eq!((ran.status, words(&ran.out), ran.err.as_str()), (0, words(METHOD), ""));
        assert!(
            ran.out.starts_with(&format!("{method}:1: one: `take"))
                && ran.out.ends_with(METHOD.split_once(" rules\n").unwrap().1)
        );
    }
}

/// Each line has its answer; the status is that of the worst.
#[test]
fn none_one_and_several() {
    let grammar = file("dangling-trees", &dangling());
    let trees = |sentences: &str| run(TREES, &[&grammar], sentences.as_bytes());
    let several = "<stdin>:1: several: `if if x else x` has several trees\n";
    assert_eq!(trees("if if x else x\n"), said(1, several));
    assert_eq!(trees("else x\n"), said(3, "<stdin>:1: none: `else x` has no tree\n"));
    assert_eq!(trees("x"), said(0, "<stdin>:1: one: `x` has one tree, of 1 rule\nS: x  (rule 3)\n"));
    let all = trees("IF X\n# a comment\n\n  x   else\t\r\nIf if x ELSE x\n");
    let one = "<stdin>:1: one: `if x` has one tree, of 2 rules\nS: if S  (rule 1)\n  if\n  S: x  (rule 3)\n";
    let rest = "<stdin>:3: none: the empty sentence has no tree\n<stdin>:4: none: `x else` has no tree\n";
    assert_eq!(all, said(1, &format!("{one}{rest}{}", several.replace(":1:", ":5:"))));
    assert_eq!(trees("x\nelse\n").status, 3);
}

#[test]
fn the_empty_sentence() {
    let empty = file("empty-trees", &text("a", "S", &["S:", "S: a S"]));
    let told = "<stdin>:1: one: the empty sentence has one tree, of 1 rule\nS: (empty)  (rule 1)\n";
    for sentences in ["\n", " \n", "\r\n", "#\n\n"] {
        let line = if sentences.starts_with('#') { 2 } else { 1 };
        assert_eq!(run(TREES, &[&empty], sentences.as_bytes()), said(0, &told.replace(":1:", &format!(":{line}:"))));
    }
    for nothing in ["", "# only a comment\n"] {
        let ran = run(TREES, &[&empty], nothing.as_bytes());
        let said = "<stdin>: error: no sentence is found; a line without words is the empty sentence\n";
        assert_eq!(ran, Ran { status: 2, out: String::new(), err: said.to_string() });
    }
}

/// Messages have the place of the word; the first of a line has the library's number and position.
#[test]
fn words_that_are_none() {
    let grammar = file("words", &channels());
    let sixty_four = "take ch vol ".repeat(21) + "take";
    for (sentence, messages) in [
        ("tkae ch vol", &["1:1: error: 'tkae' is no terminal of the grammar; is 'take' meant? (refused=22 at=0)"][..]),
        ("take  blank vol", &["1:7: error: 'blank' is no terminal of the grammar (refused=22 at=1)"]),
        ("take ch plan", &["1:9: error: 'Plan' is a nonterminal; a sentence has terminals alone (refused=22 at=2)"]),
        (
            "take ch,sep vol",
            &["1:8: error: ',' is found in 'ch,sep'; a name has letters, digits and hyphens, and spaces stand between names \
               (refused=22 at=1)"],
        ),
        (
            "take mix Step mix vlo",
            &[
                "1:6: error: 'mix' is no terminal of the grammar (refused=22 at=1)",
                "1:10: error: 'Step' is a nonterminal; a sentence has terminals alone",
                "1:19: error: 'vlo' is no terminal of the grammar; is 'vol' meant?",
            ],
        ),
        (
            &format!("{sixty_four} take take"),
            &["1:258: error: 'take' is word 65 of the sentence; the limit is 64 (refused=22 at=64)"],
        ),
        (
            &format!("{sixty_four} foo bar"),
            &["1:258: error: 'foo' is word 65 of the sentence; the limit is 64 (refused=22 at=64)"],
        ),
        (
            &format!("foo {sixty_four} vol"),
            &[
                "1:1: error: 'foo' is no terminal of the grammar (refused=22 at=0)",
                "1:257: error: 'take' is word 65 of the sentence; the limit is 64",
            ],
        ),
    ] {
        let ran = run(TREES, &[&grammar], sentence.as_bytes());
        let expected: String = messages.iter().map(|message| format!("<stdin>:{message}\n")).collect();
        assert_eq!(ran, Ran { status: 4, out: String::new(), err: expected }, "{sentence}");
    }
    // The other lines are answered.
    let ran = run(TREES, &[&grammar], b"take\nfoo\n\n");
    let out = "<stdin>:1: none: `take` has no tree\n<stdin>:3: one: the empty sentence has one tree, of 1 rule\nPlan: (empty)  (rule 1)\n";
    assert_eq!((ran.status, ran.out.as_str()), (4, out));
    assert!(ran.err.starts_with("<stdin>:2:1: error: 'foo' is no terminal"), "{}", ran.err);
    assert_eq!(run(TREES, &[&grammar], sixty_four.as_bytes()).status, 3);
}

#[test]
fn grammars_that_are_refused() {
    let slip = text("a", "S", &["S: b"]);
    let grammar = file("refused-trees", &slip);
    let told = run(TREES, &[&grammar], b"a\n");
    assert_eq!((told.status, told.out.as_str(), told.err), (4, "", run(CERTIFY, &[&grammar], b"").err));
    assert_eq!(run(TREES, &["-q", &grammar], b"a\n"), said(4, "refused=17\nat=3\n"));
    let endless = file("endless-trees", &text("a", "S", &["S: S"]));
    assert_eq!(run(TREES, &["-q", &endless], b"foo\n"), said(4, "refused=19\nat=0\n"));
    let json = run(TREES, &["--json", &grammar], b"a\n").out;
    assert!(json.contains("\"trees\":\"refused\",\"refused\":17,\"at\":3,\"line\":3,\"column\":9,\"message\":"), "{json}");
}

#[test]
fn lines_for_scripts() {
    let grammar = file("scripts-trees", &dangling());
    let sentences = b"if x else if x\nelse\nif if x else x\nfoo\nif S\n";
    let lines = "line=1\ntrees=one\nrules=2,3,1,3\nline=2\ntrees=none\nline=3\ntrees=several\nline=4\nrefused=22\nat=0\n\
                 line=5\nrefused=22\nat=1\n";
    assert_eq!(run(TREES, &["--quiet", &grammar], sentences), said(4, lines));
    let version = include_str!("../../../../VERSION").trim_end();
    let head = |trees: &str| format!("{{\"version\":\"{version}\",\"file\":\"<stdin>\",\"trees\":\"{trees}\"");
    let one = "\"line\":1,\"sentence\":[\"if\",\"x\",\"else\",\"if\",\"x\"],\"rules\":[2,3,1,3],\
               \"tree\":[2,\"if\",3,\"x\",\"else\",1,\"if\",3,\"x\"]}";
    let fault = |at: usize, line: usize, column: usize, message: &str| {
        format!(
            "{},\"refused\":22,\"at\":{at},\"line\":{line},\"column\":{column},\"message\":\"{message}\"}}\n",
            head("refused")
        )
    };
    let expected = [
        format!("{},{one}\n", head("one")),
        format!("{},\"line\":2,\"sentence\":[\"else\"]}}\n", head("none")),
        format!("{},\"line\":3,\"sentence\":[\"if\",\"if\",\"x\",\"else\",\"x\"]}}\n", head("several")),
        fault(0, 4, 1, "'foo' is no terminal of the grammar"),
        fault(1, 5, 4, "'S' is a nonterminal; a sentence has terminals alone"),
    ];
    assert_eq!(run(TREES, &["--json", &grammar], sentences), said(4, &expected.concat()));
}

/// One tree may have more rules than are listed.
#[test]
fn a_tree_that_is_too_large() {
    let names: Vec<String> = (0..20).map(|i| format!("N{i}")).collect();
    let mut rules: Vec<String> = (1..20).map(|i| format!("N{}: N{i} N{i}", i - 1)).collect();
    rules.push("N19:".to_string());
    let grammar = text("", &names.join(","), &rules.iter().map(String::as_str).collect::<Vec<_>>());
    let path = file("too-large", &grammar);
    let message = format!("the sentence has one tree, of more than {MOST_RULES} rules; it is not listed");
    let told = format!("<stdin>:1:1: error: {message} (refused=14 at=0)\n");
    assert_eq!(run(TREES, &[&path], b"\n"), Ran { status: 4, out: String::new(), err: told });
    assert_eq!(run(TREES, &["-q", &path], b"\n"), said(4, "line=1\nrefused=14\nat=0\n"));
    assert!(run(TREES, &["--json", &path], b"\n").out.contains(&format!("\"column\":1,\"message\":\"{message}\"")));
    // With five nonterminals less it has 32,767 rules.
    let smaller = grammar.replace("nonterminals=N0,N1,N2,N3,N4,", "nonterminals=");
    let smaller: String =
        smaller.split_inclusive('\n').filter(|line| !(0..5).any(|i| line.starts_with(&format!("rule=N{i}:")))).collect();
    let ran = run(TREES, &["-q", &file("just-listed", &smaller)], b"\n");
    assert_eq!((ran.status, ran.out.matches(',').count()), (0, (1 << 15) - 2));
}

#[test]
fn sentences_that_are_too_many_bytes() {
    let grammar = file("bytes-trees", &dangling());
    let ran = run(TREES, &[&grammar], &vec![b' '; (1 << 20) + 1]);
    assert_eq!((ran.status, ran.err.as_str()), (2, "<stdin>: error: more than 1048576 bytes; that is the limit\n"));
    // Very many words that are none, and a very long one, are told soon.
    let many: String = (0..60_000).map(|i| format!("w{i}\n")).collect();
    let ran = run(TREES, &[&grammar], many.as_bytes());
    assert_eq!((ran.status, ran.err.lines().count()), (4, 60_000));
    assert_eq!(run(TREES, &[&grammar], &vec![b'x'; 1 << 20]).status, 4);
}

/// Every sentence that ambig-certify calls ambiguous has several trees, and it says that this is confirmed; where it does not show one,
/// it says that it is not.
#[test]
fn sentences_that_are_called_ambiguous() {
    let mut confirmed = 0;
    for entry in corpus() {
        let out = certify(&entry.text).out.replace("\n  ", " ");
        let is_ambiguous = out.contains("\nambiguous: ");
        let line = "\nconfirmed: the proved entry find_trees finds several trees of this sentence\n";
        assert_eq!(is_ambiguous, out.contains(line), "{}: {out}", entry.name);
        if is_ambiguous {
            let json = run(CERTIFY, &["--json", "-"], entry.text.as_bytes()).out;
            assert!(json.contains("\"confirmed\":true"), "{}: {json}", entry.name);
            let sentence = json.split("\"sentence\":[").nth(1).unwrap().split(']').next().unwrap().replace(['"', ','], " ");
            let grammar = file(&format!("ambiguous-{}", entry.name), &entry.text);
            let ran = run(TREES, &["-q", &grammar], format!("{sentence}\n").as_bytes());
            assert_eq!(ran, said(1, "line=1\ntrees=several\n"), "{}: {sentence}", entry.name);
            confirmed += 1;
        }
    }
    assert_eq!(confirmed, 36);
    let mut doubled: Vec<String> = (1..60).map(|i| format!("D{}: D{i} D{i}", i - 1)).collect();
    doubled.extend(["S: D0", "D59: a", "D59: D59 D59"].map(String::from));
    let names: Vec<String> = (0..60).map(|i| format!("D{i}")).collect();
    let long = text("a", &format!("S,{}", names.join(",")), &doubled.iter().map(String::as_str).collect::<Vec<_>>());
    let told = certify(&long);
    assert!(told.status == 1 && told.out.contains("\nnot confirmed: the proved entry find_trees takes 64 terminals at most\n"));
    let json = run(CERTIFY, &["--json", "-"], long.as_bytes()).out;
    assert!(json.contains("\"sentence\":null,\"confirmed\":false"), "{json}");
}

/// The trees that are printed are read again: by indentation, rules and words they are those of the sentence.
#[test]
fn printed_trees_of_the_corpus() {
    let mut trees = 0;
    for entry in corpus().iter().filter(|entry| entry.truth == "unambiguous") {
        let grammar = Grammar::read(entry.text.as_bytes()).unwrap();
        let Some(row) = shortest(&grammar) else { continue };
        let sentence: Vec<&str> = row.iter().map(|code| grammar.name(*code).unwrap()).collect();
        let path = file(&format!("printed-{}", entry.name), &entry.text);
        let ran = run(TREES, &[&path], format!("{}\n", sentence.join(" ")).as_bytes());
        assert!(ran.status == 0 && ran.out.lines().all(|line| line.len() <= 80), "{}: {}", entry.name, ran.out);
        let quiet = run(TREES, &["-q", &path], format!("{}\n", sentence.join(" ")).as_bytes()).out;
        let rules: Vec<u16> = quiet
            .lines()
            .nth(2)
            .unwrap()
            .strip_prefix("rules=")
            .unwrap()
            .split(',')
            .map(|rule| rule.parse().unwrap())
            .collect();
        let tree = tree::of_rules(&grammar, &rules).unwrap();
        assert_eq!(tree::row(&grammar, START, &tree), Ok(row), "{}", entry.name);
        let mut counted: BTreeMap<usize, usize> = BTreeMap::new();
        for node in &tree {
            if let Node::Rule(number) = node {
                *counted.entry(*number).or_default() += 1;
            }
        }
        let numbers = ran
            .out
            .replace("\n", " ")
            .split("(rule")
            .skip(1)
            .flat_map(|part| {
                let part = part.split(')').next().unwrap().trim_start_matches('s').to_string();
                part.split(',').map(|number| number.trim().parse::<usize>().unwrap()).collect::<Vec<_>>()
            })
            .collect::<Vec<_>>();
        assert_eq!(numbers, rules.iter().map(|rule| usize::from(*rule)).collect::<Vec<_>>(), "{}: {}", entry.name, ran.out);
        trees += 1;
    }
    assert!(trees > 50, "{trees}");
}

/// A shortest sentence of a grammar, by the rules of least depth; none if it is too long.
fn shortest(grammar: &Grammar) -> Option<Vec<u16>> {
    let mut known: BTreeMap<u16, Vec<u16>> = BTreeMap::new();
    loop {
        let mut better = false;
        for rule in grammar.rules() {
            let parts: Option<Vec<Vec<u16>>> = rule
                .right
                .iter()
                .map(|code| if *code < START { Some(vec![*code]) } else { known.get(code).cloned() })
                .collect();
            let Some(row) = parts.map(|parts| parts.concat()).filter(|row| row.len() <= MAX_ROW) else { continue };
            if known.get(&rule.left).map_or(true, |shorter| row.len() < shorter.len()) {
                known.insert(rule.left, row);
                better = true;
            }
        }
        if !better {
            return known.remove(&START);
        }
    }
}

#[test]
fn pages() {
    let grammar = file("a <b> & c.grammar", &channels());
    let page = |sentences: &str| run(TREES, &["--html", &grammar], sentences.as_bytes());
    let Ran { status, out, err } = page("take ch vol\ntake vol\nfoo <b>\n\n");
    assert_eq!((status, err.lines().count()), (4, 2));
    well_formed(&out);
    for part in [
        "<h1>Sentences &lt;stdin&gt; of grammar a &lt;b&gt; &amp; c.grammar</h1>",
        "<h2>Line 1</h2>\n<p class=\"verdict yes\"><strong>One</strong>\n<br/><code>take ch vol</code> has one tree, of 4 rules.\n</p>",
        "<h2>Line 2</h2>\n<p class=\"verdict no\"><strong>None</strong>\n<br/><code>take vol</code> has no tree.\n</p>",
        "<h2>Line 3</h2>\n<p class=\"verdict no\"><strong>Refused</strong>\n<br/>&lt;stdin&gt;:3:1: error: &#39;foo&#39; is no terminal",
        "<h2>Line 4</h2>\n<p class=\"verdict yes\"><strong>One</strong>\n<br/>The empty sentence has one tree, of 1 rule.\n</p>",
        ">rule 2</text>",
        ">rule 1, empty</text>",
        "<text class=\"leaf\"",
        "<td class=\"number\">3</td><td>rule=Plan:</td>",
        "<footer>ambig-trees ",
    ] {
        assert!(out.contains(part), "{part}\n{out}");
    }
    assert_eq!((out.matches("<svg ").count(), out.matches("<rect class=\"mark\"").count()), (2, 0));
    assert!(!out.contains("<line class=\"parting\"") && !out.contains("script"));
    let several = run(TREES, &["--html", &file("several-page", &dangling())], b"if if x else x\n");
    assert!(several.status == 1 && several.out.contains("<strong>Several</strong>"));
    well_formed(&several.out);
}

/// A tree that no page holds stands there as lines, and its parts as drawings, which hold each word once.
#[test]
fn a_tree_that_no_page_holds() {
    let grammar = file("wide-trees", &channels());
    let sentence = "take ch sep ch vol give ch vol ".repeat(8);
    let ran = run(TREES, &["--html", &grammar], sentence.as_bytes());
    assert_eq!(ran.status, 0);
    well_formed(&ran.out);
    assert!(
        ran.out.contains("<pre class=\"tree\">Plan: Plan Step  (rule 2)\n")
            && ran.out.contains("The tree is larger than a page.")
    );
    assert_eq!(ran.out.matches("<text class=\"leaf\"").count(), MAX_ROW);
    assert!(ran.out.matches("<svg ").count() > 8);
    let widths = ran.out.split("viewBox=\"0 0 ").skip(1).map(|part| part.split(' ').next().unwrap().parse::<usize>().unwrap());
    assert!(widths.max().unwrap() <= 670);
}
