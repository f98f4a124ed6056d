//! Two texts that are joined: tests/joins has a module for each message, EXPECTED.txt what is said of it beside plate.robot.

use std::collections::BTreeSet;

use crate::support::{corpus, file, folder, run, said, text, Ran, CERTIFY, JOIN};
use ambig_tools::certify::Place;
use ambig_tools::joins::Pair;
use ambiguity::{Grammar, MAX_RULES};

/// A robot's grammar, and a module whose last rule makes `heat degrees wait minutes` two commands or one.
fn heating() -> (String, String) {
    let robot = text("asp,vol", "Method,Command", &["Method:", "Method: Method Command", "Command: asp vol"]);
    let rules =
        ["command: ASP Vol", "Command: heat degrees", "Command: Hold", "Hold: wait minutes", "COMMAND: heat degrees hold"];
    (robot, text("heat,Degrees,wait,minutes,VOL,asp", "Command,Hold", &rules))
}

/// Files of the tests whose names end so.
fn files(of: &str, ending: &str) -> Vec<String> {
    let entries = std::fs::read_dir(folder(of)).unwrap().map(|entry| entry.unwrap().path().to_str().unwrap().to_string());
    let mut files: Vec<String> = entries.filter(|path| path.ends_with(ending)).collect();
    files.sort();
    files
}

fn name_of(path: &str) -> &str {
    path.rsplit('/').next().unwrap()
}

#[test]
fn every_module_gives_its_message() {
    let joins = "bindings/tools/tests/joins";
    let robot = folder(joins).join("plate.robot").to_str().unwrap().to_string();
    let expected = std::fs::read_to_string(folder(joins).join("EXPECTED.txt")).unwrap();
    let mut said = String::new();
    let mut causes = BTreeSet::new();
    for module in files(joins, ".module") {
        let ran = run(JOIN, &[&robot, &module], b"");
        assert_eq!((ran.status, ran.out.as_str()), (4, ""));
        assert_eq!(run(JOIN, &["--certify", &robot, &module], b""), ran);
        let quiet = run(JOIN, &["-q", &robot, &module], b"").out;
        let numbers = quiet.lines().take(2).collect::<Vec<_>>().join(" ");
        assert!(ran.err.lines().next().unwrap().ends_with(&format!("({numbers})")), "{quiet}");
        causes.insert(quiet.lines().next().unwrap().to_string());
        said += &ran.err.replace(&module, name_of(&module)).replace(&robot, name_of(&robot));
    }
    assert_eq!(said, expected);
    let wanted = [1, 4, 6, 16, 17, 18, 20].map(|cause| format!("refused={cause}"));
    assert_eq!(causes, wanted.into_iter().collect());
}

/// What is said of a text alone is said of it as the robot's and as the module's, but that a module may lack sentences.
#[test]
fn either_text_at_fault() {
    let good = file("joins-good", &text("xyz", "Uvw", &["Uvw: xyz"]));
    let (mut both, mut joined) = (0, 0);
    for path in files("bindings/tools/tests/messages", ".grammar") {
        let alone = run(CERTIFY, &[&path], b"");
        assert_eq!(run(JOIN, &[&path, &good], b""), alone, "{path}");
        let as_module = run(JOIN, &[&good, &path], b"");
        if alone.err.contains("(refused=19 at=0)") {
            assert_eq!((as_module.status, as_module.err.as_str()), (0, ""), "{path}");
            joined += 1;
        } else {
            assert_eq!(as_module, alone, "{path}");
            both += 1;
        }
        let quiet = run(CERTIFY, &["-q", &path], b"").out;
        assert_eq!(run(JOIN, &["-q", &path, &path], b""), said(4, &format!("{quiet}part=robot\n")));
    }
    assert!(both >= 80 && joined >= 3, "{both} {joined}");
}

/// `front` with a number for each from one to the other.
fn numbered(front: &str, from: usize, to: usize) -> Vec<String> {
    (from..to).map(|i| format!("{front}{i}")).collect()
}

/// What is said of the joined text's limits: the place is that of the module's name or rule.
#[test]
fn limits_of_the_joined_text() {
    let rules = |left: &str, names: &[String]| -> Vec<String> { names.iter().map(|name| format!("{left}: {name}")).collect() };
    let of = |terminals: &[String], nonterminals: &str, rules: &[String]| {
        text(&terminals.join(","), nonterminals, &rules.iter().map(String::as_str).collect::<Vec<_>>())
    };
    let robot = file("joins-limits", &of(&numbered("t", 0, 1_999), "S", &["S:".to_string()]));
    let check = |robot: &str, module: &str, quiet: &str, place: &str, message: &str| {
        let numbers = quiet.replacen('\n', " ", 1);
        let ran = run(JOIN, &[robot, "-"], module.as_bytes());
        let expected = format!("<stdin>:{place}: error: {message} ({})\n", numbers.trim_end());
        assert_eq!(ran, Ran { status: 4, out: String::new(), err: expected.replace("ROBOT", robot) });
        assert_eq!(run(JOIN, &["-q", robot, "-"], module.as_bytes()), said(4, &format!("{quiet}part=join\n")));
    };
    let module = of(&["T7", "u", "t8", "V", "w"].map(String::from), "s", &[]);
    let message = "with 'V' there are 2001 terminals; ROBOT alone has 1999, and the limit is 2000";
    check(&robot, &module, "refused=1\nat=1\n", "1:19", message);

    let robot = file("joins-limits-2", &text("", &numbered("N", 0, 2_000).join(","), &["N0:"]));
    let message = "with 'M' there are 2001 nonterminals; ROBOT alone has 2000, and the limit is 2000";
    check(&robot, &text("", "n3,M,L", &[]), "refused=1\nat=2\n", "2:17", message);

    let names = numbered("t", 0, 405);
    let robot = file("joins-limits-3", &of(&names, "S", &rules("S", &names[..398])));
    let module = of(&names, "S", &rules("s", &names[395..403]));
    let message = format!("with this rule there are 401 rules; ROBOT alone has 398, and the limit is {MAX_RULES}");
    check(&robot, &module, "refused=7\nat=1200\n", "8:6", &message);

    let wide: Vec<String> = rules("S", &names).iter().map(|rule| format!("{rule}{}", " t0".repeat(11))).collect();
    let robot = file("joins-limits-4", &of(&names, "S", &wide[..76]));
    let module = of(&names, "S", &[&wide[74..79], &["S: t9".to_string()]].concat());
    let message = "with this rule there are 1031 states; ROBOT alone has 992, and the limit is 1024";
    check(&robot, &module, "refused=8\nat=1092\n", "7:6", message);
}

/// The joined text of any two grammars of the corpus, and what is said of it, is that of the library and of the other tool.
#[test]
fn pairs_of_the_corpus() {
    let entries: Vec<_> = corpus().into_iter().filter(|entry| entry.text.len() < 400).collect();
    let (mut joined, mut refused) = (0, 0);
    let modules = |place: usize| [7, 11, 13].map(|step| &entries[(place * step + 3) % entries.len()]);
    let pairs = entries.iter().enumerate().flat_map(|(place, robot)| modules(place).map(|module| (robot, module)));
    for (robot, module) in pairs {
        let path = file("joins-corpus", &robot.text);
        let ran = run(JOIN, &[&path, "-"], module.text.as_bytes());
        match ambiguity::joined_text(robot.text.as_bytes(), module.text.as_bytes()) {
            Ok(text) => {
                assert_eq!(ran, said(0, &text));
                let judged = run(JOIN, &["--certify", "-q", &path, "-"], module.text.as_bytes());
                assert_eq!(judged, run(CERTIFY, &["-q", "-"], text.as_bytes()), "{text}");
                joined += 1;
            }
            Err(refusal) => {
                assert_eq!((ran.status, ran.out.as_str()), (4, ""));
                assert!(ran.err.contains(&format!("({})", refusal.refusal)), "{}", ran.err);
                refused += 1;
            }
        }
    }
    assert!(joined >= 200 && refused >= 5, "{joined} {refused}");
}

/// With --certify all is said that is said of the joined text as a file; notes have the places of the two rules in the files.
#[test]
fn a_verdict_of_two_files() {
    let (robot, module) = heating();
    let (robot_file, module_file) = (file("joins-robot", &robot), file("joins-heating", &module));
    let joined = run(JOIN, &[&robot_file, &module_file], b"");
    let rules = ["Command: heat Degrees", "Command: Hold", "Hold: wait minutes", "Command: heat Degrees Hold"];
    let lists = ["asp,vol,heat,Degrees,wait,minutes", "Method,Command,Hold"];
    let of_robot = ["Method:", "Method: Method Command", "Command: asp vol"];
    assert_eq!(joined, said(0, &text(lists[0], lists[1], &[&of_robot[..], &rules].concat())));
    let alone = run(CERTIFY, &["-"], joined.out.as_bytes());
    let notes = format!(
        "{module_file}:4:6: note: this is line 6 of the joined text\n{module_file}:7:6: note: this is line 9 of the joined text\n"
    );
    let judged = run(JOIN, &["--certify", &robot_file, &module_file], b"");
    assert_eq!((judged.status, &judged.out), (1, &alone.out));
    assert_eq!(judged.err, format!("{}{notes}", alone.err.replace("<stdin>", "<joined>")));
    assert!(judged
        .err
        .starts_with("<joined>:6:6: ambiguous: after 'Method heat Degrees' this rule ends, or line 9 goes on with"));
    // Each of the two alone is unambiguous.
    for alone in [&robot_file, &module_file] {
        assert_eq!(run(CERTIFY, &["-q", alone], b"").status, 0);
    }
    // Joined without its last rule, it is unambiguous too, and its certificate is that of the joined text.
    let mended = module.replace("rule=COMMAND: heat degrees hold\n", "");
    let certificate = run(JOIN, &["--certify", &robot_file, "-"], mended.as_bytes());
    let text = run(JOIN, &[&robot_file, "-"], mended.as_bytes()).out;
    assert_eq!(certificate, run(CERTIFY, &["-"], text.as_bytes()));
    assert_eq!(certificate.status, 0);
}

/// Warnings about the joined text have their places in the files.
#[test]
fn warnings_in_either_file() {
    let robot = file("joins-warned", &text("a,mix", "S", &["S: a"]));
    let module = file("joins-warning", &text("A,shake,stir", "Step,s,Wells", &["s: shake", "Step: stir", "S: a Wells"]));
    let ran = run(JOIN, &["--certify", &robot, &module], b"");
    let warnings = [
        format!("{robot}:1:13: warning: the terminal 'mix' stands in no rule\n"),
        format!("{module}:2:21: warning: the nonterminal 'Wells' has no rule\n"),
        format!("{module}:4:6: warning: no sentence uses this rule: 'Step' is not reached from 'S'\n"),
        format!("{module}:5:6: warning: no sentence uses this rule: 'Wells' has no finite tree\n"),
    ];
    assert_eq!((ran.status, ran.err), (0, warnings.concat()));
    assert_eq!(run(JOIN, &["--certify", "--quiet", &robot, &module], b"").err, "");
}

/// Of every name and rule of a joined text the place is where it stands in the file: the same name, or the same rule.
#[test]
fn places_in_the_files() {
    let (robot, module) = heating();
    let empty = text("", "S", &["S:"]);
    for (robot, module) in [(&robot, &module), (&module, &robot), (&empty, &module), (&robot, &robot), (&robot, &empty)] {
        let pair = Pair { robot_file: "R", robot: robot.as_bytes(), module_file: "M", module: module.as_bytes() };
        let joined = ambiguity::joined_text(robot.as_bytes(), module.as_bytes()).unwrap();
        let grammar = Grammar::read(joined.as_bytes()).unwrap();
        let rest = |place: &Place| {
            let text = if place.file == "R" { robot } else { module };
            &text.lines().nth(place.line - 1).unwrap()[place.column - 1..]
        };
        let mut symbol = 0;
        for (line, names) in [(1, grammar.terminals()), (2, grammar.nonterminals())] {
            let mut column = ["terminals=", "nonterminals="][line - 1].len() + 1;
            for name in names {
                let place = pair.place(joined.as_bytes(), line, column);
                assert_eq!((place.line, rest(&place).split(',').next()), (line, Some(name.as_str())));
                // It is the part that the library shows.
                let shown = ambiguity::joined_name(robot.as_bytes(), module.as_bytes(), symbol);
                assert_eq!(shown.as_ptr(), rest(&place).as_ptr());
                column += name.len() + 1;
                symbol += 1;
            }
        }
        for (number, rule) in (1..).zip(joined.lines()).skip(2) {
            let place = pair.place(joined.as_bytes(), number, 6);
            assert!(rest(&place).eq_ignore_ascii_case(&rule[5..]), "{rule}");
            assert_eq!(place.file == "R", number <= robot.lines().count());
        }
    }
}

/// Either file may be standard input, and what is joined is joined again.
#[test]
fn joins_of_joins() {
    let (robot, module) = heating();
    let (robot_file, module_file) = (file("joins-again-robot", &robot), file("joins-again-module", &module));
    let joined = run(JOIN, &[&robot_file, &module_file], b"");
    assert_eq!(run(JOIN, &["-", &module_file], robot.as_bytes()), joined);
    assert_eq!(run(JOIN, &[&robot_file, "-"], module.as_bytes()), joined);
    assert_eq!(run(JOIN, &["-", &module_file], joined.out.as_bytes()), joined);
    let shaking = file("joins-shaking", &text("shake", "Command", &["Command: shake"]));
    let again = run(JOIN, &["-", &shaking], joined.out.as_bytes());
    assert!(
        again.out.starts_with("terminals=asp,vol,heat,Degrees,wait,minutes,shake\n") && again.out.ends_with("Command: shake\n")
    );
}
