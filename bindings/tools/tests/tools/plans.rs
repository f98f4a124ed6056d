//! Plans of methods of the eight-channel command set: the plan, none with the place of the fault, messages about words; pages and lines
//! for scripts. What has a plan is told as `ambig-trees` tells it of the set's grammar.

use crate::pages::well_formed;
use crate::support::{certify, file, run, said, Ran, PLAN, TREES};
use ambig_tools::plans::TEXT;

const METHOD: &str = "take ch sep ch vol repeat num give ch vol close";

#[test]
fn a_method_and_its_plan() {
    let plan = "\
<stdin>:1: one: `take ch sep ch vol repeat num give ch vol close` has one plan,
  of 11 rules
P: P K  (rule 2)
  P: P K  (rule 2)
    P: (empty)  (rule 1)
    K: take L vol  (rule 3)
      take
      L: L sep ch  (rule 7)
        L: ch  (rule 6)
        sep ch
      vol
  K: repeat num P close  (rule 5)
    repeat num
    P: P K  (rule 2)
      P: (empty)  (rule 1)
      K: give L vol  (rule 4)
        give
        L: ch  (rule 6)
        vol
    close
";
    for method in [METHOD, &METHOD.to_uppercase(), &METHOD.replace(' ', "  \t"), &format!(" {METHOD} \r")] {
        assert_eq!(run(PLAN, &[], format!("{method}\n").as_bytes()), said(0, plan), "{method}");
    }
    let path = file("plan.method", &format!("# A dilution\n{METHOD}"));
    let Ran { status, out, err } = run(PLAN, &[&path], b"");
    assert!(status == 0 && err.is_empty() && out.starts_with(&format!("{path}:2: one: `take ")), "{out}");
    assert_eq!(out.split_once("\nP: ").unwrap().1, plan.split_once("\nP: ").unwrap().1);
    assert_eq!(run(PLAN, &["-"], METHOD.as_bytes()), said(0, plan));
    assert_eq!(
        run(PLAN, &[], b"\n"),
        said(0, "<stdin>:1: one: the empty method has one plan, of 1 rule\nP: (empty)  (rule 1)\n")
    );
}

/// The first place that no method has so, and what may stand there.
#[test]
fn places_of_faults() {
    for (method, column, fault) in [
        ("take vol", 6, "word 2, `vol`, stands where `ch` is expected"),
        ("take  Vol vol", 7, "word 2, `vol`, stands where `ch` is expected"),
        ("close", 1, "word 1, `close`, stands where `take`, `give`, `repeat` or the end is expected"),
        ("take ch vol ch", 13, "word 4, `ch`, stands where `take`, `give`, `repeat` or the end is expected"),
        ("give ch num", 9, "word 3, `num`, stands where `sep` or `vol` is expected"),
        ("repeat take ch vol close", 8, "word 2, `take`, stands where `num` is expected"),
        ("repeat num take ch vol sep", 24, "word 6, `sep`, stands where `take`, `give`, `repeat` or `close` is expected"),
        ("take", 5, "the method ends where `ch` is expected"),
        ("take ch  ", 8, "the method ends where `sep` or `vol` is expected"),
        ("repeat num repeat num close", 28, "the method ends where `take`, `give`, `repeat` or `close` is expected"),
    ] {
        let Ran { status, out, err } = run(PLAN, &[], format!("{method}\n").as_bytes());
        let words = method.to_lowercase().split_whitespace().collect::<Vec<_>>().join(" ");
        let told = format!("<stdin>:1: none: `{words}` has no plan <stdin>:1:{column}: fault: {fault} ");
        assert_eq!((status, out.replace("\n  ", " ").replace('\n', " "), err.as_str()), (3, told, ""), "{method}");
        assert!(out.lines().all(|line| line.len() <= 80), "{out}");
        let quiet = run(PLAN, &["-q"], method.as_bytes()).out;
        let words: Vec<&str> = method.split_whitespace().collect();
        let place = if fault.starts_with("word ") { fault[5..6].parse::<usize>().unwrap() - 1 } else { words.len() };
        assert_eq!(quiet, format!("line=1\ntrees=none\nfault={place}\n"), "{method}");
        let json = run(PLAN, &["--json"], method.as_bytes()).out;
        assert!(json.contains(&format!("\"fault\":{place},\"column\":{column},\"expected\":[\"")), "{json}");
        assert!(json.contains(&format!("],\"may-end\":{}}}", fault.contains("the end is"))), "{json}");
    }
}

/// Where there is a plan, and where something is refused, all is told as `ambig-trees` tells it of the grammar; with none a place is added.
#[test]
fn as_the_trees_of_the_grammar() {
    let grammar = file("command-set.grammar", TEXT);
    let mut methods =
        vec![METHOD.to_string(), String::new(), "take".to_string(), "foo take".to_string(), "take ch K".to_string()];
    methods.extend((1..=22).map(|count| "Take ch vol ".repeat(count)));
    methods.extend((1..=16).map(|count| "repeat num ".repeat(count) + &"close ".repeat(count)));
    for method in methods {
        for form in ["--quiet", "--json", "--"] {
            let [plan, trees] = [(PLAN, vec![form]), (TREES, vec![form, &grammar])]
                .map(|(tool, words)| run(tool, &words, format!("{method}\n").as_bytes()));
            let as_tree = |told: &str| told.replace("plan", "tree").replace("method", "sentence");
            let lines = |text: &str| text.lines().map(String::from).collect::<Vec<_>>();
            assert_eq!((plan.status, &plan.err), (trees.status, &trees.err), "{method}");
            if plan.status == 3 {
                let told = [trees.out.trim_end(), trees.out.trim_end_matches("}\n")];
                assert!(
                    told.iter().any(|told| plan.out.len() > told.len() && as_tree(&plan.out).starts_with(told)),
                    "{}",
                    plan.out
                );
            } else {
                // The words are of other lengths, so that lines may break elsewhere.
                let joined = |text: &str| lines(text).join(" ").split_whitespace().collect::<Vec<_>>().join(" ");
                assert_eq!(joined(&as_tree(&plan.out)), joined(&trees.out), "{method}");
            }
        }
    }
}

#[test]
fn words_that_are_none() {
    let sixty_four = "take ch vol ".repeat(21) + "take";
    for (method, message) in [
        ("tkae ch vol", "1:1: error: 'tkae' is no terminal of the grammar; is 'take' meant? (refused=22 at=0)"),
        ("take ch,sep vol", "1:8: error: ',' is found in 'ch,sep'; a name has letters, digits and hyphens, and spaces stand between names (refused=22 at=1)"),
        ("take L vol", "1:6: error: 'L' is a nonterminal; a sentence has terminals alone (refused=22 at=1)"),
        (&format!("{sixty_four} ch"), "1:258: error: 'ch' is word 65 of the sentence; the limit is 64 (refused=22 at=64)"),
    ] {
        let ran = run(PLAN, &[], method.as_bytes());
        assert_eq!(ran, Ran { status: 4, out: String::new(), err: format!("<stdin>:{message}\n") }, "{method}");
    }
    assert_eq!(
        run(PLAN, &["-q"], b"take ch vol\nfoo\nclose"),
        said(4, "line=1\ntrees=one\nrules=2,1,3,6\nline=2\nrefused=22\nat=0\nline=3\ntrees=none\nfault=0\n")
    );
    assert_eq!(run(PLAN, &["-q"], sixty_four.as_bytes()), said(3, "line=1\ntrees=none\nfault=64\n"));
    for nothing in ["", "# only a comment\n"] {
        let told = "<stdin>: error: no method is found; a line without words is the empty method\n";
        assert_eq!(run(PLAN, &[], nothing.as_bytes()), Ran { status: 2, out: String::new(), err: told.to_string() });
    }
    let ran = run(PLAN, &[], &vec![b' '; (1 << 20) + 1]);
    assert_eq!((ran.status, ran.err.as_str()), (2, "<stdin>: error: more than 1048576 bytes; that is the limit\n"));
}

/// A page has the methods with their plans, the grammar and its certificate, which is the one that `ambig-certify` prints.
#[test]
fn pages() {
    let methods = file("a <b> & c.method", "take ch sep ch vol\ntake vol\nfoo <b>\n\n");
    let Ran { status, out, err } = run(PLAN, &["--html", &methods], b"");
    assert_eq!((status, err.lines().count()), (4, 2));
    well_formed(&out);
    let certificate = certify(TEXT).out;
    assert!(certificate.starts_with("certificate-form=2\nstates=27\nrules=7\nsize=90\n"), "{certificate}");
    for part in [
        "<h1>Methods a &lt;b&gt; &amp; c.method of the eight-channel command set</h1>",
        "<br/><code>take ch sep ch vol</code> has one plan, of 5 rules.\n</p>",
        "<figcaption>The only plan</figcaption>",
        "<br/><code>take vol</code> has no plan.\n<br/>Word 2, <code>vol</code>, stands where <code>ch</code> is expected.\n</p>",
        "<strong>Refused</strong>",
        "<br/>The empty method has one plan, of 1 rule.\n</p>",
        "<td class=\"number\">7</td><td>rule=K: repeat num P close</td>",
        "The words of the method are its leaves.",
        &format!("<h2>Certificate</h2>\n<pre class=\"one\">{certificate}</pre>"),
        "<footer>ambig-plan ",
    ] {
        assert!(out.contains(part), "{part}\n{out}");
    }
    assert_eq!((out.matches("<svg ").count(), out.matches("<h2>").count()), (2, 6));
    let wide = run(PLAN, &["--html"], "take ch sep ch vol give ch vol ".repeat(8).as_bytes());
    well_formed(&wide.out);
    assert!(wide.status == 0 && wide.out.contains("The plan is larger than a page."));
    assert_eq!(wide.out.matches("<text class=\"leaf\"").count(), 64);
}
