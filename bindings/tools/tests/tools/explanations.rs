//! Why a verdict is potential: two real trees, the parting, and the witness step by step.

use crate::support::{certify, corpus, file, folder, run, text, Ran, CERTIFY};
use ambig_tools::parting::{Next, Side};
use ambiguity::two_trees::tree::{self, Node};
use ambiguity::two_trees::{self, Extent, Limits, Outcome};
use ambiguity::{Code, Grammar};

const DANGLING: &str = "states=14
verdict=potential
left=(0 (2 if S else (3 x )3 )0
right=(0 (1 if S )1 else (3 x )3 )0
looked=390
tried=0,1,2
ambiguous: `if if S else S` has two trees, for example `if if x else x`
confirmed: the proved entry find_trees finds several trees of this sentence
after `if if S`: left goes on with `else`, right ends `S: if S`, line 3
left tree:                    right tree:
S: if S  (line 3)             S: if S else S  (line 4)
  if                            if
  S: if S else S  (line 4)      S: if S  (line 3)
                                else S
";

const CYCLE: &str = "states=8
verdict=potential
left=(0 S )0
right=(0 (1 S )1 )0
looked=55
tried=0,1,2
ambiguous: `a` has two trees
confirmed: the proved entry find_trees finds several trees of this sentence
after `a`: left ends the sentence, right ends `S: S`, line 3
left tree:        right tree:
S: a  (line 4)    S: S: a  (lines 3, 4)
";

const STEPS: &str = "
entries=7

entry  layer  left     right    left moves   right moves
0      0      start    start                 open S': S
1      0      start    S': . S               open S: S
2      0      start    S: . S   open S': S
3      0      S': . S  S: . S   S            S
4      0      S': S .  S: S .   close S': S  close S: S
5      1      end      S': S .               close S': S
6      1      end      end

left string  right string
open S': S   open S': S
S            open S: S
close S': S  S
             close S: S
             close S': S
";

/// Lines before those that explain: states, verdict, two strings, how much the search looked at, and the callers that were tried.
const VERDICT: usize = 6;

fn dangling() -> String {
    text("if,else,x", "S", &["S: if S", "S: if S else S", "S: x"])
}

#[test]
fn the_dangling_else() {
    let ran = certify(&dangling());
    assert_eq!((ran.status, ran.out.as_str()), (1, DANGLING));
    assert_eq!(ran.err, "<stdin>:3:6: ambiguous: after 'if if S' this rule ends, or line 4 goes on with 'else'\n");
}

#[test]
fn steps_come_when_they_are_asked_for() {
    let cycle = file("cycle", &text("a", "S", &["S: S", "S: a"]));
    assert_eq!(run(CERTIFY, &[&cycle], b"").out, CYCLE);
    assert_eq!(run(CERTIFY, &["--steps", &cycle], b"").out, format!("{CYCLE}{STEPS}"));
}

#[test]
fn the_readme_shows_what_is_printed() {
    let readme = include_str!("../../../README.md");
    for printed in [DANGLING, STEPS] {
        assert!(readme.contains(printed.trim_start()), "{printed}");
    }
}

/// The readme's table beside bison has the number of lines that explain.
#[test]
fn the_table_beside_bison() {
    let readme = include_str!("../../../README.md");
    let rows = readme.lines().skip_while(|line| !line.starts_with("| grammar | ours | bison")).skip(2);
    let rows: Vec<Vec<&str>> = rows.take_while(|line| line.starts_with('|')).map(|line| line.split(" | ").collect()).collect();
    assert_eq!(rows.len(), 6);
    for row in rows {
        let name = row[0].trim_start_matches("| ");
        let path = folder("bindings/tools/tests/beside-bison").join(format!("{name}.grammar"));
        let out = run(CERTIFY, &[path.to_str().unwrap()], b"").out;
        let explained = out.lines().skip(VERDICT).filter(|line| !line.starts_with("confirmed:")).count();
        assert_eq!(explained.to_string(), row[1], "{name}");
        assert!(explained <= row[2].parse().unwrap(), "{name}");
    }
}

/// Every ambiguous grammar of the corpus is called so, with two trees that are checked again here; no other one is.
#[test]
fn the_corpus() {
    let mut ambiguous = 0;
    for entry in corpus() {
        let grammar = Grammar::read(entry.text.as_bytes()).unwrap();
        match two_trees::look(&grammar, Limits::default()) {
            Outcome::Two { root, row, left, right, .. } => {
                assert_eq!(entry.truth, "ambiguous", "{}", entry.name);
                assert_eq!(tree::common_row(&grammar, root, &left, &right), Ok(row));
                ambiguous += 1;
            }
            Outcome::NotFound(_) => assert_ne!(entry.truth, "ambiguous", "{}", entry.name),
        }
    }
    assert_eq!(ambiguous, 36);
}

/// What is said of the corpus at 0 callers fits on a page, and is the same when it is printed again.
#[test]
fn pages_of_the_corpus() {
    let certify = |text: &str| run(CERTIFY, &["--callers=0", "-"], text.as_bytes());
    for entry in corpus().iter().filter(|entry| entry.truth != "unambiguous") {
        let Ran { status, out, .. } = certify(&entry.text);
        assert_eq!(status, if entry.truth == "ambiguous" { 1 } else { 3 });
        assert!(out.lines().skip(VERDICT).all(|line| line.len() <= 80), "{out}");
        assert_eq!(out.contains("\nambiguous: "), entry.truth == "ambiguous", "{out}");
        assert_eq!(out.contains("\nno sentence with two trees was found: "), entry.truth == "false-alarm", "{out}");
        assert_eq!(certify(&entry.text).out, out);
    }
}

#[test]
fn false_alarms() {
    let look = |text: String| {
        two_trees::look(&Grammar::read(text.as_bytes()).unwrap(), Limits { pairs: 1000, moves: 100_000, ..Limits::default() })
    };
    let palindromes = look(text("a,b", "S", &["S: a S a", "S: b S b", "S:"]));
    assert!(matches!(palindromes, Outcome::NotFound(Extent::Limit { pairs: 1000, .. })));
    // Rules that no sentence uses have no moves, so that no strings part.
    let unused = look(text("a", "S,W", &["S: a S", "S:", "W: S S"]));
    assert_eq!(unused, Outcome::NotFound(Extent::All { pairs: 0 }));
    let few = two_trees::look(
        &Grammar::read(dangling().as_bytes()).unwrap(),
        Limits { pairs: 1_000_000, moves: 10, ..Limits::default() },
    );
    assert!(matches!(few, Outcome::NotFound(Extent::Limit { .. })));
}

/// Grammars that are made to be searched long: the search ends within its limits.
#[test]
fn hostile_grammars() {
    let of = |terminals: &str, nonterminals: &str, rules: Vec<String>, last: &[&str]| {
        let rules: Vec<&str> = rules.iter().map(String::as_str).chain(last.iter().copied()).collect();
        Grammar::read(text(terminals, nonterminals, &rules).as_bytes()).unwrap()
    };
    let names = |letter: &str, count: usize| (0..count).map(|i| format!("{letter}{i}")).collect::<Vec<_>>().join(",");
    let mirrored = (0..250).map(|i| format!("S: t{i} S t{i}")).collect();
    let palindromes = of(&names("t", 250), "S", mirrored, &["S: t0"]);
    // Rules of twelve symbols; the bits of their numbers are symbols in front, and all else is S.
    let bits = |i: usize| (0..7).map(|bit| if i >> bit & 1 == 1 { " a" } else { " S" }).collect::<String>();
    let dense = of("a,b", "S", (0..78).map(|i| format!("S:{}{}", bits(i), " S".repeat(5))).collect(), &["S: b"]);
    let chain = (1..397).map(|i| format!("N{}: N{i}", i - 1)).collect();
    let chain = of("a", &names("N", 397), chain, &["N396: a", "N396: a N396 a"]);
    // Every nonterminal leads to every other, and has palindromes: one after the other is tried as a root.
    let web = (0..60).flat_map(|i| (0..3).map(move |j| format!("N{i}: t{j} N{} t{j}", (i + 1 + j) % 60))).collect();
    let ends: Vec<String> = (0..60).map(|i| format!("N{i}:")).collect();
    let web = of("t0,t1,t2", &names("N", 60), web, &ends.iter().map(String::as_str).collect::<Vec<_>>());
    for grammar in [palindromes, dense, chain, web] {
        match two_trees::look(&grammar, Limits::default()) {
            Outcome::NotFound(Extent::Limit { pairs, moves }) => assert!(pairs <= 400_000 && moves > 10, "{pairs} {moves}"),
            other => panic!("{}{other:?}", grammar.write()),
        }
    }
}

/// With two hundred operators there are more pairs of stacks than are tried; two trees of the rules that the witness uses are found.
#[test]
fn many_operators() {
    let names: Vec<String> = (0..200).map(|i| format!("t{i}")).collect();
    let rules: Vec<String> = (0..200).map(|i| format!("S: S t{i} S")).chain(["S: t0".to_string()]).collect();
    let text = text(&names.join(","), "S", &rules.iter().map(String::as_str).collect::<Vec<_>>());
    let whole = two_trees::look(&Grammar::read(text.as_bytes()).unwrap(), Limits::default());
    assert!(matches!(whole, Outcome::NotFound(Extent::Limit { .. })), "{whole:?}");
    let ran = certify(&text);
    assert_eq!(ran.status, 1, "{}", ran.err);
    assert!(ran.out.contains("\nambiguous: `S t0 S t0 S` has two trees, for example `t0 t0 t0 t0 t0`\n"), "{}", ran.out);
}

/// All trees of a row up to two, by brute force over short rows: another way to count than the search.
fn trees_of(grammar: &Grammar, symbol: Code, row: &[Code], depth: usize) -> Vec<Vec<Node>> {
    let mut found = if row == [symbol] { vec![vec![Node::Leaf(symbol)]] } else { Vec::new() };
    if depth > 0 {
        for (place, rule) in grammar.rules().iter().enumerate().filter(|(_, rule)| rule.left == symbol) {
            for children in splits(grammar, &rule.right, row, depth - 1) {
                found.push([&[Node::Rule(place + 1)], &children[..]].concat());
            }
        }
    }
    found
}

fn splits(grammar: &Grammar, symbols: &[Code], row: &[Code], depth: usize) -> Vec<Vec<Node>> {
    let [first, rest @ ..] = symbols else { return if row.is_empty() { vec![Vec::new()] } else { Vec::new() } };
    let mut found = Vec::new();
    for length in 0..=row.len() {
        let behind = splits(grammar, rest, &row[length..], depth);
        for front in trees_of(grammar, *first, &row[..length], depth) {
            found.extend(behind.iter().map(|behind| [&front[..], behind].concat()));
        }
    }
    found
}

#[test]
fn the_trees_are_found_by_brute_force_too() {
    for rules in [
        &["S: if S", "S: if S else S", "S: x"][..],
        &["S: S x S", "S: if"],
        &["S: A", "S: B", "A: if", "B: if"],
        &["S: if A x", "S: B x", "A: else", "B: if else"],
    ] {
        let grammar = Grammar::read(text("if,else,x", "S,A,B", rules).as_bytes()).unwrap();
        let Outcome::Two { row, left, right, .. } = two_trees::look(&grammar, Limits::default()) else { panic!("{rules:?}") };
        let trees = trees_of(&grammar, ambiguity::START, &row, 4);
        assert!(trees.contains(&left) && trees.contains(&right) && left != right, "{rules:?}");
    }
}

/// The cells under some names of a head, in the lines up to an empty one.
fn cells<'a, const N: usize>(out: &'a str, head: [&str; N]) -> Vec<[&'a str; N]> {
    let mut lines = out.lines().skip_while(|line| !head.iter().all(|name| line.contains(name)));
    let line = format!("  {}  ", lines.next().unwrap());
    let starts = head.map(|name| line.find(&format!("  {name}  ")).unwrap());
    let end = |i: usize| if i + 1 < N { starts[i + 1] } else { usize::MAX };
    let cell = |line: &'a str, i: usize| line.get(starts[i]..end(i).min(line.len())).unwrap_or("").trim();
    lines.take_while(|line| !line.is_empty()).map(|line| std::array::from_fn(|i| cell(line, i))).collect()
}

/// The symbols of a string, openings and closings dropped.
fn symbols<'a>(string: impl Iterator<Item = &'a str>) -> Vec<&'a str> {
    string.filter(|name| !name.is_empty() && !name.starts_with("open ") && !name.starts_with("close ")).collect()
}

#[test]
fn steps_hold_together() {
    for text in [
        text("a", "S", &["S: S", "S: a"]),
        text("a", "S", &["S: a S a", "S: a"]),
        text("", "S,A,B", &["S: A", "S: B", "A:", "B:"]),
        text("plus,id", "expr", &["expr: expr plus expr", "expr: id"]),
        dangling(),
        text("a,b,c", "S,W,X,Y,Z", &["S: W Z", "S: X Y", "W: a W", "W:", "Z: b Z c", "Z:", "X: a X b", "X:", "Y: c Y", "Y:"]),
    ] {
        let Ran { status, out, .. } = run(CERTIFY, &["--steps", "-"], text.as_bytes());
        assert!(status == 1 || status == 3);
        let entries = cells(&out, ["left", "right", "left moves", "right moves"]);
        assert!(out.contains(&format!("\nentries={}\n", entries.len())));
        assert_eq!((entries[0][0], entries[0][1]), ("start", "start"));
        assert_eq!(entries[entries.len() - 1], ["end", "end", "", ""]);
        for steps in entries.windows(2) {
            assert!(!steps[0][2].is_empty() || !steps[0][3].is_empty());
            for side in 0..2 {
                // A side that stays has no move, and a symbol's dot passes it.
                let (from, to, name) = (steps[0][side], steps[1][side], steps[0][side + 2]);
                assert!(!name.is_empty() || from == to, "{out}");
                let passes = from.replacen(&format!(". {name}"), &format!("{name} ."), 1) == to;
                assert!(name.is_empty() || name.starts_with("open ") || name.starts_with("close ") || passes, "{out}");
            }
        }
        let strings = cells(&out, ["left string", "right string"]);
        for side in 0..2 {
            let string: Vec<&str> = strings.iter().map(|row| row[side]).filter(|name| !name.is_empty()).collect();
            let moves: Vec<&str> = entries.iter().map(|row| row[side + 2]).filter(|name| !name.is_empty()).collect();
            assert_eq!(string, moves);
            assert!(string[0].starts_with("open ") && string[string.len() - 1].starts_with("close "));
        }
        assert!(strings.iter().any(|row| row[0] != row[1]));
        assert_eq!(symbols(strings.iter().map(|row| row[0])), symbols(strings.iter().map(|row| row[1])));
    }
}

/// Two grammars whose shortest ambiguous sentences are long: 899 letters and one more, and 2 to the power of 59 letters and more.
#[test]
fn ambiguities_far_from_the_start() {
    let chain = |letter: &str, length: usize| {
        let rule = |i: usize| format!("{letter}{i}: a {letter}{}", (i + 1) % length);
        (0..length).map(rule).chain([format!("{letter}0: e")]).collect::<Vec<_>>()
    };
    let of = |terminals: &str, nonterminals: String, rules: Vec<String>| {
        certify(&text(terminals, &nonterminals, &rules.iter().map(String::as_str).collect::<Vec<_>>()))
    };
    let names = |letter: &str, count: usize| (0..count).map(|i| format!("{letter}{i}")).collect::<Vec<_>>().join(",");
    let chains = [vec!["S: a A1".to_string(), "S: a B1".to_string()], chain("A", 31), chain("B", 29)].concat();
    let two_chains = of("a,e", format!("S,{},{}", names("A", 31), names("B", 29)), chains);
    assert!(two_chains.out.contains("(900 symbols) has two trees; a sentence with"), "{}", two_chains.out);
    assert!(two_chains.out.lines().count() < 200 && two_chains.out.lines().skip(VERDICT).all(|line| line.len() <= 80));
    assert!(two_chains.err.starts_with("<stdin>:66:6: ambiguous: after 'a a a a a a a a ... a a a a a a a e' this rule ends"));

    let mut doubled: Vec<String> = (1..60).map(|i| format!("D{}: D{i} D{i}", i - 1)).collect();
    doubled.extend(["S: D0", "D59: a", "D59: D59 D59"].map(String::from));
    let bottom = of("a", format!("S,{}", names("D", 60)), doubled);
    assert!(bottom.out.contains("ambiguous: the D58 `D59 D59 D59` has two trees; a sentence with it has more than\n"));
    assert_eq!((two_chains.status, bottom.status), (1, 1));
}

/// The phrase comes first, and then a sentence around it in which nothing stands that could be left out.
#[test]
fn the_phrase_and_its_sentence() {
    let gcode = text(
        "g1,x,f,num,eol",
        "Program,Line,Axes",
        &[
            "Program:",
            "Program: Program Line",
            "Line: g1 Axes f num eol",
            "Line: g1 Axes Axes eol",
            "Axes:",
            "Axes: x num",
            "Axes: f num",
        ],
    );
    let out = certify(&gcode).out;
    let said = "\nambiguous: the Line `g1 Axes f num eol` has two trees, in a sentence: `g1 f num\n  eol`\n";
    assert!(out.contains(said), "{out}");
}

/// Of the corpus and of the grammars beside bison: the trees' left is the strings' left wherever one side ends a rule and the other
/// goes on, with strings and trees alike.
#[test]
fn left_is_left() {
    let mut compared = 0;
    for entry in corpus().iter().filter(|entry| entry.truth == "ambiguous") {
        let grammar = Grammar::read(entry.text.as_bytes()).unwrap();
        let ambiguity::Searched::Potential { witness, .. } = grammar.search(0).unwrap() else { panic!("{}", entry.name) };
        let steps = ambig_tools::readings::steps(&grammar, &witness);
        let strings = ambig_tools::parting::of_witness(&grammar, &witness, &steps);
        let trees = ambig_tools::explanation::of(&grammar, &witness).parting;
        let ends = |side: Side| matches!(side.next, Next::Closing(_));
        let (string_ends, tree_ends) = ([strings.left, strings.right].map(ends), [trees.left, trees.right].map(ends));
        if string_ends[0] != string_ends[1] && tree_ends[0] != tree_ends[1] {
            assert_eq!(string_ends, tree_ends, "{}", entry.name);
            compared += 1;
        }
        assert!(!trees.is_mirrored(&strings), "{}", entry.name);
    }
    assert!(compared >= 20, "{compared}");
}

/// Each pair of rules that part has a line, the first pair its trees.
#[test]
fn all_ambiguities() {
    let typedef = text(
        "id,star,semi,lparen,rparen",
        "Block,Stat,Expr,Decl",
        &[
            "Block: Stat",
            "Block: Block Stat",
            "Stat: Expr semi",
            "Stat: Decl semi",
            "Expr: Expr star Expr",
            "Expr: id",
            "Decl: id star id",
        ],
    );
    let out = certify(&typedef).out;
    let first = "\nambiguous: ";
    let also: Vec<&str> = out.split("\nalso: ").skip(1).collect();
    assert!(out.matches(first).count() == 1 && also.len() == 1, "{out}");
    assert!(out.contains("line 9") && out.contains("line 7"), "{out}");
    let operators: Vec<String> = (0..9).map(|i| format!("E: E o{i} E")).chain(["E: x".to_string()]).collect();
    let names: Vec<String> = (0..9).map(|i| format!("o{i}")).collect();
    let many = text(&format!("x,{}", names.join(",")), "E", &operators.iter().map(String::as_str).collect::<Vec<_>>());
    let many = certify(&many).out;
    assert_eq!(many.matches("\nalso: ").count(), 8);
    assert!(many.ends_with("\nmore: other pairs of rules part too; nine are shown\n"), "{many}");
}

/// Calls without brackets, in which rules part in five ways: the list is whole, and where it may not be, that is told.
#[test]
fn whole_lists_and_others() {
    let calls = text(
        "nl,id,eq,if,lparen,rparen,comma,minus,num",
        "Prog,Stmt,Call,Args,Expr,Primary",
        &[
            "Prog: Stmt",
            "Prog: Prog nl Stmt",
            "Stmt: Call",
            "Stmt: id eq Expr",
            "Stmt: Stmt if Expr",
            "Call: id Args",
            "Call: id lparen Args rparen",
            "Args: Expr",
            "Args: Args comma Expr",
            "Expr: Primary",
            "Expr: Expr minus Primary",
            "Expr: Call",
            "Primary: id",
            "Primary: num",
            "Primary: minus num",
            "Primary: lparen Expr rparen",
        ],
    );
    let out = certify(&calls).out;
    assert_eq!((out.matches("\nalso: ").count(), out.matches("\nmore: ").count()), (4, 0), "{out}");
    let json = |text: &str| run(CERTIFY, &["--json", "-"], text.as_bytes()).out;
    assert!(json(&calls).contains("\"more\":null"));
    let hidden = corpus().into_iter().find(|entry| entry.name == "left-hidden").unwrap().text;
    let told = "other pairs of rules may part; the search for them ended at its limit";
    assert!(certify(&hidden).out.ends_with(&format!("\nmore: {told}\n")));
    assert!(json(&hidden).contains("\"more\":\"limit\""));
    assert!(run(CERTIFY, &["--html", "-"], hidden.as_bytes()).out.contains(&format!("<p>More: {told}.</p>")));
}

/// Where every pair was tried, the tool says what that means. With one caller this grammar has a certificate.
#[test]
fn an_exhausted_search() {
    let grammar = corpus().into_iter().find(|entry| entry.name == "left-and-right").unwrap().text;
    assert_eq!(certify(&grammar).status, 0);
    let out = run(CERTIFY, &["--callers", "0", "-"], grammar.as_bytes()).out;
    let said = "no sentence with two trees was found: all 13 pairs of unfinished trees were\n  tried. By this search, which is not proved, \
                no sentence has two trees.";
    assert!(out.contains(said), "{out}");
    let limited = certify(&corpus().into_iter().find(|entry| entry.name == "palin-even").unwrap().text).out;
    assert!(limited.contains("400000 pairs of unfinished trees") && limited.contains("The alarm may be false."), "{limited}");
}
