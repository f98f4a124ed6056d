//! Pages in HTML: what stands on them, and that they are well-formed. .ci/product reads them with an XML parser too.

use crate::support::{certify, corpus, file, one_a, run, text, CERTIFY};

fn page(text: &str) -> String {
    run(CERTIFY, &["--html", "-"], text.as_bytes()).out
}

/// Every tag is closed in its place, and nothing is left unescaped.
pub fn well_formed(page: &str) {
    let mut open: Vec<&str> = Vec::new();
    let mut rest = page.strip_prefix("<!DOCTYPE html>\n").expect("a document type");
    while let Some((text, behind)) = rest.split_once('<') {
        assert!(!text.contains('>') || open.last() == Some(&"style"), "{text}");
        let (tag, behind) = behind.split_once('>').expect("a tag ends");
        if let Some(name) = tag.strip_prefix('/') {
            assert_eq!(open.pop(), Some(name));
        } else if !tag.ends_with('/') {
            open.push(tag.split(' ').next().unwrap());
        }
        rest = behind;
    }
    assert!(open.is_empty() && rest == "\n", "{open:?}");
}

#[test]
fn a_certificate_on_a_page() {
    let page = page(&one_a());
    well_formed(&page);
    assert!(page.contains("<strong>Unambiguous</strong>"));
    assert!(page.contains("States Q = 6, rules 1, size of the certificate 11, successors looked at 14."));
    assert!(page.contains("<td class=\"number\">3</td><td>rule=S: a</td>"));
    assert!(page.contains(&format!("<pre class=\"one\">{}</pre>", certify(&one_a()).out)));
    assert!(page.contains("<meta name=\"viewport\" content=\"width=device-width, initial-scale=1\"/>"));
    assert!(page.contains("<code>ambig-check GRAMMAR CERTIFICATE</code>") && !page.contains("Warnings"));
    // Lines of a certificate are wider than a phone: they are scrolled in their box, and the page is not.
    assert!(page.contains("\n@media screen { pre { overflow-x: auto; } }\n"));
}

#[test]
fn two_trees_on_a_page() {
    let grammar = text("if,else,x", "S", &["S: if S", "S: if S else S", "S: x"]);
    let page = page(&grammar);
    well_formed(&page);
    assert!(page.contains("<strong>Ambiguous</strong>\n<br/><code>if if S else S</code> has two trees"));
    assert_eq!((page.matches("<svg ").count(), page.matches("</svg>").count()), (2, 2));
    assert_eq!((page.matches("<rect class=\"mark\"").count(), page.matches("<line class=\"parting\"").count()), (2, 2));
    // Five leaves and two rules in either tree, each rule with its line.
    assert_eq!(page.matches("<text class=\"leaf\"").count() + page.matches("<text class=\"open\"").count(), 10);
    assert_eq!((page.matches(">line 3</text>").count(), page.matches(">line 4</text>").count()), (2, 2));
    for line in [3, 4] {
        assert!(page.contains(&format!("<tr class=\"parting\"><td class=\"number\">{line}</td>")));
    }
    assert!(!page.contains("<tr class=\"parting\"><td class=\"number\">5</td>"));
    let quiet = run(CERTIFY, &["--quiet", "-"], grammar.as_bytes()).out;
    let lines: String = quiet.split_inclusive('\n').skip(2).collect();
    assert!(lines.starts_with("left=(0 ") && page.contains(&format!("<pre class=\"strings\">{lines}</pre>")));
}

#[test]
fn names_that_need_escaping() {
    let path = file("a <b> & \"c\" 'd'.grammar", &one_a());
    let page = run(CERTIFY, &["--html", &path], b"").out;
    well_formed(&page);
    let name = "a &lt;b&gt; &amp; &quot;c&quot; &#39;d&#39;.grammar";
    assert!(page.contains(&format!("<title>{name}</title>")) && page.contains(&format!("<h1>Grammar {name}</h1>")));
}

#[test]
fn every_grammar_has_a_page() {
    for entry in corpus().iter().filter(|entry| entry.truth != "false-alarm") {
        let page = page(&entry.text);
        well_formed(&page);
        assert_eq!(page.contains("<strong>Ambiguous</strong>"), entry.truth == "ambiguous", "{}", entry.name);
        assert!(!page.contains("script") && !page.contains("http-equiv") && !page.contains("src="), "{}", entry.name);
    }
}

#[test]
fn one_page_for_one_file() {
    let path = file("page", &one_a());
    let ran = run(CERTIFY, &["--html", &path, &path], b"");
    assert_eq!((ran.status, ran.out.as_str(), ran.err.lines().count()), (2, "", 3));
    let refused = run(CERTIFY, &["--html", "-"], b"");
    assert_eq!((refused.status, refused.out.as_str()), (4, ""));
}

#[test]
fn warnings_on_a_page() {
    let page = page(&text("a,b", "S,W", &["S: a", "S: W b"]));
    well_formed(&page);
    let warnings = "<p class=\"warnings\"><strong>Warnings</strong>\n<br/>Line 2: the nonterminal &#39;W&#39; has no rule\n\
                    <br/>Line 4: no sentence uses this rule: &#39;W&#39; has no finite tree\n</p>";
    assert!(page.contains("<strong>Unambiguous</strong>") && page.contains(warnings), "{page}");
}

/// A tree that no page holds stands there as text, not as a drawing that is made smaller.
#[test]
fn trees_that_are_too_wide_or_too_deep() {
    let letters = " terminal-letter".repeat(5);
    let rules = [format!("S:{letters} S"), format!("S: A{letters}"), format!("A:{letters}"), format!("S:{letters}")];
    let wide = text("terminal-letter", "S,A", &rules.iter().map(String::as_str).collect::<Vec<_>>());
    let names: Vec<String> = (0..25).map(|i| format!("N{i}")).collect();
    let mut rules: Vec<String> = (1..25).map(|i| format!("N{}: x N{i}", i - 1)).collect();
    rules.extend((1..25).map(|i| format!("M{}: x M{i}", i - 1)));
    rules.extend(["S: N0", "S: M0", "N24: x", "M24: x"].map(String::from));
    let nonterminals = format!("S,{},{}", names.join(","), names.join(",").replace('N', "M"));
    let deep = text("x", &nonterminals, &rules.iter().map(String::as_str).collect::<Vec<_>>());
    for grammar in [wide, deep] {
        let page = page(&grammar);
        well_formed(&page);
        assert!(page.contains("<pre class=\"tree\">left tree:\n") && !page.contains("<svg"), "{page}");
    }
}
