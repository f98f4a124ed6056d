//! What the tools have in common: options, several files, standard input, exit statuses, lines for scripts.

use crate::support::{certify, corpus, file, one_a, run, said, text, Ran, CERTIFY, CHECK, DRAFT, JOIN, PLAN, TREES};

const VERSION: &str = include_str!("../../../../VERSION");

#[test]
fn help_and_version() {
    for (tool, name) in [
        (CERTIFY, "ambig-certify"),
        (CHECK, "ambig-check"),
        (DRAFT, "ambig-draft"),
        (JOIN, "ambig-join"),
        (PLAN, "ambig-plan"),
        (TREES, "ambig-trees"),
    ] {
        for word in ["--help", "-h"] {
            let ran = run(tool, &[word], b"");
            assert!(ran.status == 0 && ran.out.starts_with(&format!("usage: {name} [OPTION]")) && ran.err.is_empty());
            assert!(ran.out.lines().all(|line| line.len() <= 80));
        }
        for word in ["--version", "-V"] {
            assert_eq!(run(tool, &[word], b""), said(0, &format!("{name} {VERSION}")));
        }
    }
    assert_eq!(VERSION.trim_end(), env!("CARGO_PKG_VERSION"));
}

#[test]
fn bad_use() {
    let path = file("used", &one_a());
    let grammar = path.as_str();
    let usage = |tool: &str, arguments: &str| format!("usage: {tool} [OPTION]... [--] {arguments}\nTry {tool} --help.\n");
    for (words, said) in [
        (&[][..], "files are missing"),
        (&["--"], "files are missing"),
        (&["-", "-"], "standard input can be read once only"),
        (&["-x", grammar], "there is no option -x"),
        (&["--form=9", grammar], "there is no option --form=9; is --form=1 meant?"),
        (&["--htlm", grammar], "there is no option --htlm; is --html meant?"),
        (&["-qV", grammar], "there is no option -qV; write -q -V"),
        (&["--quie", grammar], "there is no option --quie; is --quiet meant?"),
        (&["--Werror", grammar], "there is no option --Werror; is -Werror meant?"),
        (&["--\u{1b}[2J", grammar], "there is no option --\\u{1b}[2J"),
        (&["--html", grammar, grammar], "--html takes one file"),
        (&["--html", "-q", grammar], "--html and --quiet do not go together"),
        (&["--html", "--looked", grammar], "--html and --looked do not go together"),
        (&["--html", "--steps", grammar], "--html and --steps do not go together"),
        (&["--html", "--form=1", grammar], "--html and --form=1 do not go together"),
        (&["-q", "--steps", grammar], "--quiet and --steps do not go together"),
        (&["--json", "--html", grammar], "--html and --json do not go together"),
        (&["--form=1", "--form=2", grammar], "--form=1 and --form=2 do not go together"),
        (&["--callers", "3", grammar], "--callers takes 0, 1 or 2"),
        (&["--callers=3", grammar], "--callers takes 0, 1 or 2"),
        (&["--callers=", grammar], "--callers takes 0, 1 or 2"),
        (&["--callers", "01", grammar], "--callers takes 0, 1 or 2"),
        (&["--callers", grammar], "--callers takes 0, 1 or 2"),
        (&[grammar, "--callers"], "--callers takes 0, 1 or 2"),
        (&["--caller=1", grammar], "there is no option --caller=1; is --callers=1 meant?"),
        (&["--callers", "1", "--callers=2", grammar], "--callers=1 and --callers=2 do not go together"),
        (&["--fix", "--callers", "1", grammar], "--fix and --callers=1 do not go together"),
    ] {
        let ran = run(CERTIFY, words, b"");
        assert_eq!((ran.status, ran.out.as_str()), (2, ""));
        assert_eq!(ran.err, format!("ambig-certify: {said}\n{}", usage("ambig-certify", "FILE...")));
    }
    for (words, said) in [
        (&[][..], "files are missing"),
        (&[grammar], "files are missing"),
        (&["-", "-"], "standard input can be read once only"),
        (&[grammar, "-", "-"], "files are missing"),
        (&[grammar, "--steps"], "there is no option --steps"),
        (&["--callers", "1", grammar], "there is no option --callers"),
    ] {
        let ran = run(CHECK, words, b"");
        assert_eq!((ran.status, ran.out.as_str()), (2, ""));
        let usage = usage("ambig-check", "GRAMMAR CERTIFICATE [GRAMMAR CERTIFICATE]...");
        assert_eq!(ran.err, format!("ambig-check: {said}\n{usage}"));
    }
    for (words, said) in [
        (&[][..], "files are missing"),
        (&[grammar], "files are missing"),
        (&["-", "-"], "standard input can be read once only"),
        (&[grammar, grammar, grammar], "there are too many files"),
        (&[grammar, grammar, grammar, grammar], "there are too many files"),
        (&["--certfy", grammar, grammar], "there is no option --certfy; is --certify meant?"),
        (&["--html", grammar, grammar], "there is no option --html"),
        (&["--callers", "1", grammar, grammar], "--callers=1 is taken together with --certify only"),
        (&["--callers", "7", "--certify", grammar, grammar], "--callers takes 0, 1 or 2"),
    ] {
        let ran = run(JOIN, words, b"");
        assert_eq!((ran.status, ran.out.as_str()), (2, ""));
        assert_eq!(ran.err, format!("ambig-join: {said}\n{}", usage("ambig-join", "ROBOT MODULE")));
    }
    for (words, said) in [
        (&[][..], "files are missing"),
        (&["-"], "standard input can be read once only"),
        (&["-", "-"], "standard input can be read once only"),
        (&[grammar, grammar, grammar], "there are too many files"),
        (&["--htlm", grammar], "there is no option --htlm; is --html meant?"),
        (&["--html", "--json", grammar], "--html and --json do not go together"),
        (&["-q", "--html", grammar], "--html and --quiet do not go together"),
        (&["--callers", "1", grammar], "there is no option --callers"),
    ] {
        let ran = run(TREES, words, b"");
        assert_eq!((ran.status, ran.out.as_str()), (2, ""));
        assert_eq!(ran.err, format!("ambig-trees: {said}\n{}", usage("ambig-trees", "GRAMMAR [SENTENCES]")));
    }
    for (words, said) in [
        (&[grammar, grammar][..], "there are too many files"),
        (&["-", grammar], "there are too many files"),
        (&["--quite", grammar], "there is no option --quite; is --quiet meant?"),
        (&["--html", grammar], "there is no option --html"),
    ] {
        let ran = run(DRAFT, words, b"");
        assert_eq!((ran.status, ran.out.as_str()), (2, ""));
        assert_eq!(ran.err, format!("ambig-draft: {said}\n{}", usage("ambig-draft", "[GRAMMAR]")));
    }
    for (words, said) in [
        (&[grammar, grammar][..], "there are too many files"),
        (&["-", "-"], "there are too many files"),
        (&["--jsn", grammar], "there is no option --jsn; is --json meant?"),
        (&["--html", "-q"], "--html and --quiet do not go together"),
        (&["--json", "--html", grammar], "--html and --json do not go together"),
    ] {
        let ran = run(PLAN, words, b"");
        assert_eq!((ran.status, ran.out.as_str()), (2, ""));
        assert_eq!(ran.err, format!("ambig-plan: {said}\n{}", usage("ambig-plan", "[METHODS]")));
    }
    let missing = format!("{grammar}-that-is-not-there");
    for ran in [
        run(PLAN, &[&missing], b"take\n"),
        run(DRAFT, &[&missing], b"list\n"),
        run(TREES, &[&missing], b"a\n"),
        run(TREES, &[grammar, &missing], b""),
        run(CERTIFY, &[&missing], b""),
        run(CHECK, &[&missing, "-"], b""),
        run(CHECK, &[grammar, &missing], b""),
        run(JOIN, &[&missing, "-"], b""),
        run(JOIN, &[grammar, &missing], b""),
    ] {
        assert_eq!((ran.status, ran.out.as_str()), (2, ""));
        assert!(ran.err.starts_with(&format!("{missing}: error: ")));
    }
}

#[test]
fn several_files() {
    let good = file("several-good", &one_a());
    let cycle = file("several-cycle", &text("a", "S", &["S: S", "S: a"]));
    let wrong = file("several-wrong", "terminals=a\nnonterminals=S\nrule=S: b\n");
    let missing = format!("{good}-that-is-not-there");
    let quiet = |files: &[&str]| run(CERTIFY, &[&["-q", "--"], files].concat(), one_a().as_bytes());
    let lines = |file: &str, lines: &str| format!("file={file}\n{lines}");
    let yes = "states=6\nverdict=unambiguous\nreached=11\n";
    let potential = "states=8\nverdict=potential\nleft=(0 S )0\nright=(0 (1 S )1 )0\n";
    assert_eq!(quiet(&[&good, "-"]), said(0, &(lines(&good, yes) + &lines("<stdin>", yes))));
    assert_eq!(quiet(&[&cycle, &good]), said(3, &(lines(&cycle, potential) + &lines(&good, yes))));
    assert_eq!(
        quiet(&[&good, &wrong, &cycle]),
        said(4, &(lines(&good, yes) + &lines(&wrong, "refused=17\nat=3\n") + &lines(&cycle, potential)))
    );
    let with_missing = quiet(&[&missing, &wrong, &good]);
    assert_eq!(with_missing.status, 2);
    assert!(with_missing.out.ends_with(yes) && with_missing.err.starts_with(&missing));

    let certificate = file("several-certificate", &certify(&one_a()).out);
    let pairs = run(CHECK, &[&good, &certificate, &good, "-"], b"certificate-form=2\n");
    assert_eq!((pairs.status, pairs.out), (1, format!("file={certificate}\naccepted\nfile=<stdin>\n")));
    assert_eq!(pairs.err, "<stdin>:2:1: error: 'states=' is expected, and the line ends\n");
}

#[test]
fn a_name_that_looks_like_an_option() {
    let path = file("-x", &one_a());
    let folder = std::path::Path::new(&path).parent().unwrap();
    let mut command = std::process::Command::new(CERTIFY);
    let output = command.args(["--quiet", "--", "-x"]).current_dir(folder).output().unwrap();
    assert_eq!(output.stdout, b"states=6\nverdict=unambiguous\nreached=11\n");
}

#[test]
fn lines_for_scripts() {
    let good = file("scripts", &one_a());
    let quiet = |lines: &str| run(CHECK, &["--quiet", &good, "-"], lines.as_bytes());
    let lines = certify(&one_a()).out;
    assert_eq!(quiet(&lines), said(0, "accepted\n"));
    assert_eq!(
        quiet("certificate-form=1\nstates=6\nrules=1\nsize=0\n0000: 00 00 00 00 00 00 00 00 00\n"),
        said(1, "refused=11\nat=0\n")
    );
    assert_eq!(quiet(""), said(1, "malformed\n"));
}

/// Where `--looked` is asked for, one line stands behind those of `--quiet`, with either verdict and in every order of the options; a
/// refusal has none, and neither has a certificate.
#[test]
fn how_much_the_search_looked_at() {
    let pairs = text("", "S", &["S:", "S: S S"]);
    for (text, looked) in [(one_a(), 14), (text("a", "S", &["S: S", "S: a"]), 55), (pairs, 235)] {
        let quiet = run(CERTIFY, &["--quiet", "-"], text.as_bytes());
        let expected = Ran { out: format!("{}looked={looked}\n", quiet.out), ..quiet };
        for options in [&["--looked", "-"][..], &["-q", "--looked", "-"], &["--looked", "-q", "-"]] {
            assert_eq!(run(CERTIFY, options, text.as_bytes()), expected);
        }
    }
    assert_eq!(run(CERTIFY, &["--looked", "-"], b""), said(4, "refused=16\nat=1\n"));
    assert!(!certify(&one_a()).out.contains("looked="));
}

/// Where `--quiet` is asked for at 0 callers, the tool prints what `ambig` prints, whose lines the index has; with others it prints the
/// same, but for false alarms that are none with callers.
#[test]
fn the_corpus_as_the_program_prints_it() {
    for entry in corpus() {
        let ran = run(CERTIFY, &["--quiet", "--callers", "0", "-"], entry.text.as_bytes());
        let other = run(CERTIFY, &["--quiet", "-"], entry.text.as_bytes());
        assert!(other == ran || entry.truth == "false-alarm" && other.out.contains("\ncallers="), "{}", entry.name);
        let verdict = if entry.truth == "unambiguous" { "unambiguous" } else { "potential" };
        let mut lines = ran.out.lines();
        assert!(lines.next().unwrap().starts_with("states="));
        assert_eq!(lines.next(), Some(format!("verdict={verdict}").as_str()));
        let keys = if verdict == "unambiguous" { &["reached="][..] } else { &["left=(0 ", "right=(0 "] };
        assert!(keys.iter().all(|key| lines.next().is_some_and(|line| line.starts_with(key))), "{}", ran.out);
        assert_eq!((lines.next(), ran.err.as_str(), ran.status), (None, "", if verdict == "potential" { 3 } else { 0 }));
    }
}

/// A file's name cannot add lines, and nothing in it reaches the terminal that a terminal obeys.
#[test]
fn names_with_line_breaks_and_escapes() {
    let forged = file("x\nverdict=unambiguous\n\u{1b}[31m", &text("a", "S", &["S: S", "S: a"]));
    let shown = forged.replace('\n', "\\n").replace('\u{1b}', "\\u{1b}");
    let ran = run(CERTIFY, &["-q", &forged, &forged], b"");
    let lines = format!("file={shown}\nstates=8\nverdict=potential\nleft=(0 S )0\nright=(0 (1 S )1 )0\n");
    assert_eq!(ran, said(3, &lines.repeat(2)));
    let told = run(CERTIFY, &[&forged], b"").err;
    assert!(told.starts_with(&format!("{shown}:3:6: ambiguous: ")) && told.lines().count() == 1, "{told}");
    assert!(run(CERTIFY, &[&format!("{forged}-missing")], b"").err.starts_with(&format!("{shown}-missing: error: ")));
}

/// Nothing can be written to a standard output that is closed; where nothing is to be written, that does no harm.
#[test]
fn a_closed_standard_output() {
    let (good, wrong) = (file("closed", &one_a()), file("closed-wrong", "terminals\n"));
    let method = file("closed-method", "take ch vol\n");
    for (tool, grammars, status) in [
        (CERTIFY, vec![&good], 2),
        (CERTIFY, vec![&wrong], 4),
        (JOIN, vec![&good, &good], 2),
        (JOIN, vec![&good, &wrong], 4),
        (DRAFT, vec![&good], 2),
        (DRAFT, vec![&wrong], 4),
        (PLAN, vec![&method], 2),
        (PLAN, vec![&wrong], 4),
    ] {
        let files: String = grammars.iter().map(|file| format!(" '{file}'")).collect();
        let command = format!("'{tool}'{files} >&-");
        let ran = run("/bin/sh", &["-c", &command], b"");
        assert_eq!((ran.status, ran.err.contains("standard output: it is closed\n")), (status, status == 2), "{command}");
    }
}

/// The verdicts, a refusal and bad use each have a status.
#[test]
fn statuses() {
    let grammars = [
        (one_a(), 0),
        (text("a", "S", &["S: S", "S: a"]), 1),
        (text("a", "S", &["S: a S a", "S: a"]), 3),
        (text("a", "S", &["S: b"]), 4),
    ];
    for (text, status) in &grammars {
        assert_eq!(certify(text).status, *status, "{text}");
        assert_eq!(run(CERTIFY, &["--json", "-"], text.as_bytes()).status, *status, "{text}");
    }
    // Of several the worst: 2, 4, 1, 3, 0.
    let files: Vec<String> = (0..4).map(|i| file(&format!("status-{i}"), &grammars[i].0)).collect();
    let worst = |places: &[usize]| run(CERTIFY, &places.iter().map(|i| files[*i].as_str()).collect::<Vec<_>>(), b"").status;
    assert_eq!([worst(&[0, 2]), worst(&[1, 2, 0]), worst(&[3, 1, 2]), worst(&[0, 0])], [3, 1, 4, 0]);
    let missing = format!("{}-missing", files[0]);
    assert_eq!(run(CERTIFY, &[&files[3], &missing], b"").status, 2);
    assert_eq!(run(CHECK, &[&files[3], &files[0]], b"").status, 4);
    assert_eq!(run(CHECK, &[&files[0], &files[0]], b"").status, 1);
    let joined = |words: &[&str], other: usize| run(JOIN, &[words, &[&files[0], &files[other]]].concat(), b"").status;
    assert_eq!([0, 1, 2, 3].map(|other| joined(&[], other)), [0, 0, 0, 4]);
    assert_eq!([0, 1, 2, 3].map(|other| joined(&["--certify"], other)), [0, 1, 3, 4]);
}
