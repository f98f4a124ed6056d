//! Grammars that are edited line by line: sessions with what they print, what is refused and told, and verdicts as `ambig-certify` has them.

use crate::support::{corpus, file, folder, run, said, text, without_sentence, Ran, CERTIFY, DRAFT};
use ambig_tools::drafts::line;
use ambig_tools::drafts::MOST_BYTES;

/// A session without a grammar.
fn session(lines: &str) -> Ran {
    run(DRAFT, &[], lines.as_bytes())
}

/// A session that has begun with a, b and S, T; behind it the lines.
fn begun(lines: &str) -> Ran {
    run(DRAFT, &[&file("begun-draft", &text("a,b", "S,T", &[]))], lines.as_bytes())
}

const CLASS: &str = "terminals take vol heat for
nonterminals Method Step

# The first draft
add Method ->
add Method -> method STEP
add Step: take vol
mark 1
judge
rule=step: heat VOL
add step -> heat vol for vol
add rule=Step: heat vol for
withdraw 6
mark 2
list
return 1
list
return 2
add Step -> heat vol Step
judge
marks
withdraw 2
text
";

const CLASS_OUT: &str = "4 terminals, 2 nonterminals, no rules
added: rule 1, Method:
added: rule 2, Method: Method Step
added: rule 3, Step: take vol
mark 1 keeps 3 rules
states=11
verdict=unambiguous
reached=30
unambiguous: no sentence has two derivation trees
added: rule 4, Step: heat vol
added: rule 5, Step: heat vol for vol
added: rule 6, Step: heat vol for
withdrawn: rule 6, Step: heat vol for
mark 2 keeps 5 rules
1  Method:
2  Method: Method Step
3  Step: take vol
4  Step: heat vol
5  Step: heat vol for vol
returned to mark 1: 3 rules
1  Method:
2  Method: Method Step
3  Step: take vol
returned to mark 2: 5 rules
added: rule 6, Step: heat vol Step
states=23
verdict=potential
left=(0 (2 Method (6 heat vol (3 take vol )3 )2 )0
right=(0 (2 Method (4 heat vol )4 )2 (3 take vol )3 )2 )0
tried=0,1,2
ambiguous: `Method heat vol Step` has two trees, for example `heat vol take vol`
confirmed: the proved entry find_trees finds several trees of this sentence
after `Method heat vol`: left goes on with `Step`, right ends `Step: heat vol`,
  rule 4
mark 1 keeps 3 rules
mark 2 keeps 5 rules
withdrawn: rule 2, Method: Method Step; rules 3 to 6 move down by one
terminals=take,vol,heat,for
nonterminals=Method,Step
rule=Method:
rule=Step: take vol
rule=Step: heat vol
rule=Step: heat vol for vol
rule=Step: heat vol Step
";

#[test]
fn a_class() {
    assert_eq!(session(CLASS), said(0, CLASS_OUT));
    // Line ends of two bytes, capitals, tabs and a byte-order mark are taken; the last line may lack its end.
    let other = CLASS.to_ascii_uppercase().replace("RULE=", "rule=").replace(' ', "\t ").replace('\n', "\r\n");
    let spelled = other.replacen("TAKE\t VOL\t HEAT\t FOR", "take vol heat for", 1).replacen("METHOD\t STEP", "Method Step", 1);
    assert_eq!(session(&format!("\u{FEFF}{}", spelled.trim_end())), said(0, CLASS_OUT));
    // From a file with the same names.
    let names = file("class-draft", &text("take,vol,heat,for", "Method,Step", &[]));
    let rest = CLASS.split_once("Step\n").unwrap().1;
    let head = format!("{names}: {CLASS_OUT}");
    assert_eq!(run(DRAFT, &[&names], rest.as_bytes()), said(0, &head));
}

/// A whole grammar text is a session, and the text of it comes back, spelled as it is declared.
#[test]
fn grammar_text_is_a_session() {
    for entry in corpus() {
        if entry.text.len() > 5_000 {
            continue;
        }
        let ran = run(DRAFT, &["--quiet"], format!("{}text\njudge\n", entry.text).as_bytes());
        let judged = run(CERTIFY, &["--quiet", "-"], entry.text.as_bytes()).out;
        assert_eq!(ran, said(0, &format!("{}{judged}", entry.text)), "{}", entry.name);
    }
}

/// Begun from files the drafts are the same; without a sentence too, of which text and verdict are refused as the verdict is there.
#[test]
fn grammars_on_file() {
    for entry in corpus().into_iter().chain(without_sentence()) {
        let path = folder("corpus").join(format!("{}.grammar", entry.name));
        let path = path.to_str().unwrap();
        let certified = run(CERTIFY, &["--quiet", path], b"");
        let ran = run(DRAFT, &["--quiet", path], b"text\njudge\n");
        if certified.status == 4 {
            assert_eq!(certified.out, "refused=19\nat=0\n");
            assert_eq!(ran, said(4, "line=1\nrefused=19\nat=0\nline=2\nrefused=19\nat=0\n"), "{path}");
            let told = run(CERTIFY, &[path], b"").err;
            let message = told.split_once(" error: ").unwrap().1;
            assert_eq!(run(DRAFT, &[path], b"judge\n").err, format!("<stdin>:1:1: error: {message}"));
        } else {
            assert_eq!(ran, said(0, &(entry.text + &certified.out)), "{path}");
        }
        let listed = run(DRAFT, &["--quiet", path], b"list\n").out;
        let rules: Vec<&str> =
            listed.lines().filter_map(|line| line.trim_start().split_once("  ").map(|(_, rule)| rule)).collect();
        let text = std::fs::read_to_string(path).unwrap();
        let written: Vec<&str> = text.lines().skip(2).map(|line| &line["rule=".len()..]).collect();
        assert!(rules == written || rules.is_empty() && listed == "no rules\n", "{path}");
    }
}

/// With callers, and where no trees are found.
#[test]
fn other_verdicts() {
    let biology = text("b,c,d,e", "S,A", &["S: b A c", "S: b e d", "S: A d", "A: e"]);
    let lines = "states=19\ncallers=1\nverdict=unambiguous\nreached=58\n";
    let ran = session(&format!("{biology}judge\n"));
    let words = "unambiguous, with 1 caller remembered: no sentence has two derivation trees\n";
    assert!(ran.out.ends_with(&format!("{lines}{words}")) && ran.status == 0, "{}", ran.out);
    let odd = session(&format!("{}judge\n", text("a", "S", &["S: a S a", "S: a"])));
    for part in
        ["verdict=potential\nleft=(0 ", "tried=0,1,2\n", "left ends `S: a`, rule 2", "no sentence with two trees was found"]
    {
        assert!(odd.out.contains(part), "{part}: {}", odd.out);
    }
    assert!(!odd.out.contains("line "), "rules are numbered: {}", odd.out);
}

/// Of each line that is refused the place, the number and what to do; the draft stays, and the session goes on.
#[test]
fn what_is_refused() {
    let another = "a draft keeps the names that it began with: begin another one with it";
    let example = "a rule is written 'add S -> a b' or 'add S: a b'";
    for (line, messages) in [
        ("withdraw 0", vec!["10: error: there is no rule 0; the draft has the rules 1 to 2 (refused=23 at=0)".to_string()]),
        ("withdraw 3", vec!["10: error: there is no rule 3; the draft has the rules 1 to 2 (refused=23 at=3)".to_string()]),
        ("mark 9", vec!["6: error: there is no mark 9; marks are 1 to 8 (refused=23 at=9)".to_string()]),
        ("return 0", vec!["8: error: there is no mark 0; marks are 1 to 8 (refused=23 at=0)".to_string()]),
        ("return 2", vec!["8: error: mark 2 is empty; mark 8 is set, and 'mark 2' sets it (refused=23 at=2)".to_string()]),
        (
            "mark 18446744073709551615",
            vec!["6: error: there is no mark 18446744073709551615; marks are 1 to 8 (refused=23 at=18446744073709551615)"
                .to_string()],
        ),
        ("add S -> a S b", vec!["5: error: this rule equals rule 1; it is there already (refused=6 at=7)".to_string()]),
        ("add s ->", vec!["5: error: this rule equals rule 2; it is there already (refused=6 at=7)".to_string()]),
        ("add T b", vec![format!("8: error: neither '->' nor a colon is found; {example}")]),
        ("add b -> a", vec!["5: error: 'b' is a terminal; only a nonterminal has rules (refused=3 at=7)".to_string()]),
        ("add X -> a", vec![format!("5: error: 'X' is not declared; {another} (refused=3 at=7)")]),
        (
            "add X -> c a c _ d",
            vec![
                format!("5: error: 'X' is not declared; {another} (refused=3 at=7)"),
                format!("10: error: 'c' is not declared; {another}"),
                "16: error: '_' is found in '_'; a name has letters, digits and hyphens".to_string(),
                format!("18: error: 'd' is not declared; {another}"),
            ],
        ),
        ("add S -> a c", vec![format!("12: error: 'c' is not declared; {another} (refused=5 at=10)")]),
        ("add S -> a | b", vec!["12: error: '|' is found; add a rule for each alternative (refused=5 at=10)".to_string()]),
        (
            "add S: a -> b",
            vec!["11: error: '->' is found; it stands once in a rule, behind the left name (refused=5 at=10)".to_string()],
        ),
        (
            "add T -> Epsilon",
            vec!["10: error: 'Epsilon' is not declared; for an empty right side write 'add T ->' (refused=5 at=9)".to_string()],
        ),
        (
            "add T -> a b a b a b a b a b a b a",
            vec!["34: error: the right side has 13 symbols; the limit is 12: put some of them into a rule of their own \
                  (refused=4 at=7)"
                .to_string()],
        ),
        ("terminals a", vec!["1: error: the draft has begun, and keeps its names; begin another one for others".to_string()]),
        ("  withdaw 1", vec!["3: error: there is no command 'withdaw'; is 'withdraw' meant?".to_string()]),
        ("write /", vec!["/: error: ".to_string()]),
    ] {
        let ran = begun(&format!("add S -> a S b\nadd S ->\nmark 8\n{line}\nlist\nmarks\nreturn 8\nlist\n"));
        let status = if line.starts_with("write") { 2 } else { 4 };
        let expected: String = messages.iter().map(|message| format!("<stdin>:4:{message}\n")).collect();
        if status == 2 {
            assert!(ran.err.starts_with("/: error: ") && ran.err.lines().count() == 1, "{}", ran.err);
        } else {
            assert_eq!(ran.err, expected, "{line}");
        }
        let kept = "1  S: a S b\n2  S:\nmark 8 keeps 2 rules\nreturned to mark 8: 2 rules\n1  S: a S b\n2  S:\n";
        assert!(ran.out.ends_with(&format!("mark 8 keeps 2 rules\n{kept}")), "{}", ran.out);
        assert_eq!(ran.status, status, "{line}");
    }
    let ran = begun("withdraw 1\nreturn 1\nlist\nmarks\n");
    let told = "<stdin>:1:10: error: there is no rule 1: the draft has no rules (refused=23 at=1)\n\
                <stdin>:2:8: error: mark 1 is empty; no mark is set yet, and 'mark 1' sets it (refused=23 at=1)\n";
    assert_eq!((ran.err.as_str(), ran.status), (told, 4));
    assert!(ran.out.ends_with("no rules\nno mark is set\n"), "{}", ran.out);
}

/// A full draft takes nothing more until a rule is withdrawn.
#[test]
fn limits() {
    let names: Vec<String> = (0..401).map(|i| format!("t{i}")).collect();
    let rules: String = names.iter().map(|name| format!("add S -> {name}\n")).collect();
    let ran = run(
        DRAFT,
        &["-q"],
        format!("terminals {}\nnonterminals S\n{rules}withdraw 1\nadd S: T400\n", names.join(" ")).as_bytes(),
    );
    assert_eq!(ran, said(4, "line=403\nrefused=7\nat=1200\n"));
    let told = session(&format!("terminals {}\nnonterminals S\n{rules}", names.join(",")));
    assert_eq!(
        told.err,
        "<stdin>:403:5: error: there are 400 rules, and that is the limit; withdraw one first (refused=7 at=1200)\n"
    );
    let left: Vec<String> = (0..79).map(|i| format!("N{i}")).collect();
    let rules: String = left.iter().map(|name| format!("add {name} ->{}\n", " a".repeat(12))).collect();
    let told = session(&format!("terminals a\nnonterminals {}\n{rules}add N0 -> a a a a a\nadd N1 ->\n", left.join(" ")));
    let states = |line: usize, at: usize, states: usize| {
        let words = "the limit is 1024: withdraw a rule first";
        format!("<stdin>:{line}:5: error: with this rule there are {states} states; {words} (refused=8 at={at})\n")
    };
    assert_eq!(told.err, states(81, 1092, 1031) + &states(83, 1099, 1025));
}

/// The lists of a draft without a grammar: places are those of the lines that were given, in both notations.
#[test]
fn beginnings() {
    let without_rules =
        |lines: &str, size: &str| assert_eq!(session(lines), said(0, &format!("{size}, no rules\n")), "{lines}");
    without_rules("terminals\nnonterminals S\n", "0 terminals, 1 nonterminal");
    without_rules("terminals=\nnonterminals=S,T\n", "0 terminals, 2 nonterminals");
    without_rules("terminals a, b\nterminals N0 n1\nnonterminals S", "2 terminals, 1 nonterminal");
    for (lines, message) in [
        ("nonterminals S\n", "1:1: error: the terminals come first, as in 'terminals a b'; there may be none\n"),
        ("list\n", "1:1: error: the draft has not begun; first come 'terminals a b' and 'nonterminals S T'\n"),
        ("terminals a\n\nadd S -> a\n", "3:1: error: the draft has not begun; now comes 'nonterminals S T', with the start in front\n"),
        (
            "#\nterminals a  b A\n",
            "2:16: error: 'A' is declared twice, first among the terminals as 'a': case does not count; take one of them out, or \
             give it another name (refused=18 at=1)\n",
        ),
        (
            "terminals a b\nnonterminals S a\n",
            "2:16: error: 'a' is declared twice, first among the terminals; take one of them out (refused=18 at=2)\n",
        ),
        (
            "terminals=a\nnonterminals=S,T,S\n",
            "2:18: error: 'S' is declared twice, first among the nonterminals; take one of them out (refused=18 at=2)\n",
        ),
        (
            "terminals a  vol_ul\n",
            "1:17: error: '_' is found in 'vol_ul'; a name has letters, digits and hyphens: write '-' (refused=16 at=1)\n",
        ),
        (
            "  terminals=a,,b\n",
            "1:15: error: a name is missing at this comma; names are parted by one comma (refused=16 at=1)\n",
        ),
        ("terminals aspirate-very-slowly\n", "1:11: error: 'aspirate-very-slowly' has 20 letters; the limit is 15 (refused=16 at=1)\n"),
        (
            "terminals a\nnonterminals\n",
            "2:1: error: no nonterminal is declared; the first one is the start, as in 'nonterminals=S' (refused=1 at=2)\n",
        ),
    ] {
        let ran = session(lines);
        assert_eq!(ran, Ran { status: 4, out: String::new(), err: format!("<stdin>:{message}") }, "{lines}");
    }
    // A list that is refused is asked for again.
    let ran = session("terminals a a\nterminals a\nnonterminals a\nnonterminals S\nadd S -> a\n");
    assert_eq!((ran.status, ran.out.as_str()), (4, "1 terminal, 1 nonterminal, no rules\nadded: rule 1, S: a\n"));
    let many: Vec<String> = (0..2_001).map(|i| format!("t{i}")).collect();
    let ran = session(&format!("terminals {}\n", many.join(" ")));
    assert_eq!(ran.err, "<stdin>:1:10901: error: 't2000' is name 2001 of this list; the limit is 2000 (refused=1 at=1)\n");
}

#[test]
fn grammars_that_are_refused() {
    let slip = file("refused-draft", &text("a", "S", &["S: b"]));
    let told = run(DRAFT, &[&slip], b"list\n");
    assert_eq!((told.status, told.out.as_str(), told.err), (4, "", run(CERTIFY, &[&slip], b"").err));
    assert_eq!(run(DRAFT, &["-q", &slip], b"list\n"), said(4, "refused=17\nat=3\n"));
}

#[test]
fn lines_for_scripts() {
    let lines = "terminals a\nnonterminals S\nadd S -> a\nadd S -> b\nfoo\nmark 1\nwithdraw 1\nmarks\njudge\nreturn 9\nreturn 1\njudge\n";
    let expected = "line=4\nrefused=5\nat=5\nline=5\nmalformed\nmark 1 keeps 1 rule\nline=9\nrefused=19\nat=0\nline=10\nrefused=23\nat=9\n\
                    states=6\nverdict=unambiguous\nreached=11\n";
    assert_eq!(run(DRAFT, &["--quiet"], lines.as_bytes()), said(4, expected));
}

#[test]
fn what_is_written() {
    let path = file("written draft.grammar", "before");
    let ran = session(&format!("terminals a\nnonterminals S\nwrite {path}\nadd s -> A\nwrite {path} \n"));
    assert_eq!(ran.status, 4);
    assert!(ran.err.starts_with("<stdin>:3:1: error: there is no sentence: 'S' has no finite tree; "), "{}", ran.err);
    assert!(ran.out.ends_with(&format!("written: {path}, 1 rule\n")), "{}", ran.out);
    assert_eq!(std::fs::read_to_string(&path).unwrap(), "terminals=a\nnonterminals=S\nrule=S: a\n");
    // What cannot be written is told, and the session goes on.
    let ran = session(&format!("terminals a\nnonterminals S\nadd s -> A\nwrite {path}/x\u{1b}\nlist\n"));
    assert!(ran.status == 2 && ran.out.ends_with("1  S: a\n") && ran.err.starts_with(&format!("{path}/x\\u{{1b}}: error: ")));
}

/// `quit` ends the session; what stands behind it is not read.
#[test]
fn the_end() {
    assert_eq!(session("quit\nfoo\n"), said(0, ""));
    assert_eq!(session(""), said(0, ""));
    assert_eq!(session("foo\nQuit\nfoo\n").err.lines().count(), 1);
    let help = session("help\n");
    assert_eq!(help, said(0, &line::help()));
    assert!(run(DRAFT, &["--help"], b"").out.contains(&line::help()));
    assert!(line::COMMANDS.iter().all(|(name, ..)| help.out.lines().any(|line| line.trim_start().starts_with(name))));
}

/// A line that is too long is refused, and the next one is followed.
#[test]
fn long_lines() {
    for bytes in [MOST_BYTES - 1, MOST_BYTES, MOST_BYTES + 1, MOST_BYTES + 2, 3 * MOST_BYTES + 7] {
        let lines = format!("#{}\nterminals\nnonterminals S\n", "x".repeat(bytes - 1));
        let ran = session(&lines);
        let told =
            format!("<stdin>:1:{}: error: the line has more than {MOST_BYTES} bytes; that is the limit\n", MOST_BYTES + 1);
        let long = bytes > MOST_BYTES;
        assert_eq!((ran.status, ran.err), if long { (4, told) } else { (0, String::new()) });
        assert_eq!(ran.out, "0 terminals, 1 nonterminal, no rules\n");
    }
}

/// A stream of numbers, the same in every run.
struct Random(u64);

impl Random {
    fn below(&mut self, limit: usize) -> usize {
        self.0 ^= self.0 << 13;
        self.0 ^= self.0 >> 7;
        self.0 ^= self.0 << 17;
        (self.0 >> 32) as usize % limit
    }
}

/// Histories of lines: after each the list is that of the rules which the history gives, kept here as words.
#[test]
fn histories() {
    let mut random = Random(0x5EED_0013_0D2A_F7ED);
    let symbols = ["a", "b", "S", "T", "c"];
    let (mut refused, mut steps) = (0, 0);
    for _ in 0..12 {
        let (mut rules, mut marks) = (Vec::<String>::new(), vec![None; 9]);
        let (mut lines, mut expected, mut any) = (String::new(), String::new(), false);
        for _ in 0..120 {
            let number = random.below(10);
            let (line, next) = match random.below(8) {
                0..=3 => {
                    let right: Vec<&str> = (0..random.below(3)).map(|_| symbols[random.below(5)]).collect();
                    let rule = format!("{}: {}", symbols[2 + random.below(2)], right.join(" ")).trim_end().to_string();
                    let taken = !rules.contains(&rule) && !right.contains(&"c");
                    let line = if random.below(2) == 0 { rule.replace(':', " ->") } else { rule.to_ascii_lowercase() };
                    (format!("add {line}"), taken.then(|| [rules.clone(), vec![rule]].concat()))
                }
                4 | 5 => {
                    let mut next = rules.clone();
                    let taken = (1..=rules.len()).contains(&number).then(|| next.remove(number - 1));
                    (format!("withdraw {number}"), taken.map(|_| next))
                }
                6 => {
                    let taken = (1..=8).contains(&number);
                    if taken {
                        marks[number] = Some(rules.clone());
                    }
                    (format!("mark {number}"), taken.then(|| rules.clone()))
                }
                _ => (format!("return {number}"), marks.get(number).cloned().flatten()),
            };
            steps += 1;
            match next {
                Some(next) => rules = next,
                None => (refused, any) = (refused + 1, true),
            }
            lines += &format!("{line}\nlist\n");
            let width = rules.len().to_string().len();
            let listed = (1..).zip(&rules).map(|(number, rule)| format!("{number:width$}  {rule}\n"));
            expected += &if rules.is_empty() { "no rules\n".to_string() } else { listed.collect::<String>() };
        }
        let ran = run(DRAFT, &["--quiet"], format!("terminals a b\nnonterminals S T\n{lines}").as_bytes());
        let out: String = ran.out.split_inclusive('\n').filter(|line| !line.contains('=')).collect();
        assert_eq!((ran.status, out), (if any { 4 } else { 0 }, expected));
    }
    assert!(refused > 300 && steps - refused > 300, "{refused} of {steps}");
}
