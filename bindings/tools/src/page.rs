//! One page about a grammar, to be printed: its text, the verdict, and the certificate or the two trees.

use ambiguity::{Grammar, Searched};

use crate::callers::Verdict;
use crate::command::VERSION;
use crate::drawing::{self, Drawing, Marks};
use crate::explanation::{self, Explanation, Found};
use crate::layout;
use crate::lines::{self, Form};
use crate::markup::{escaped, sentence};
use crate::warnings::Told;
use crate::words::{self, Naming};
use crate::{parting, strings};

/// Sizes in pixels. Drawings wider than half a page stand one below the other; those that no page holds are shown as lines of text.
pub const HALF_PAGE: usize = 400;
pub const PAGE_WIDTH: usize = 670;
pub const PAGE_HEIGHT: usize = 860;

/// A certificate of more lines stands in two columns; the lines of form 3 are too long for that.
const ONE_COLUMN: usize = 60;

const STYLE: &str = "\
@page { size: A4; margin: 15mm; }
body { font: 11pt/1.4 serif; color: #000; background: #fff; max-width: 180mm; margin: 8mm auto; padding: 0 5mm; }
h1 { font-size: 17pt; margin: 0 0 3mm; overflow-wrap: anywhere; }
h2 { font-size: 13pt; margin: 6mm 0 2mm; break-after: avoid; }
code, pre, td { font-family: monospace; }
code { font-size: 10pt; }
.verdict { border-left: 1.5mm solid; padding: 1mm 3mm; margin: 3mm 0; }
.verdict strong { font-size: 13pt; }
.yes { border-color: #1a7f37; background: #eef8f0; }
.no { border-color: #b35900; background: #fdf3e7; }
table { border-collapse: collapse; }
td { padding: 0 2mm; font-size: 9.5pt; vertical-align: top; overflow-wrap: anywhere; }
td.number { color: #555; text-align: right; user-select: none; overflow-wrap: normal; }
tr.parting td { background: #fbe3c8; }
pre { font-size: 7pt; line-height: 1.3; column-width: 57ch; column-gap: 4mm; margin: 0; }
pre.one { font-size: 9pt; column-width: auto; }
pre.runs { column-width: auto; }
pre.strings { font-size: 9.5pt; column-width: auto; white-space: pre-wrap; overflow-wrap: anywhere; }
.trees { display: flex; flex-wrap: wrap; gap: 4mm; align-items: flex-start; }
figure { margin: 0; flex: 1 1 40%; break-inside: avoid; }
.stacked figure { flex-basis: 100%; }
figcaption { font-style: italic; }
figure { overflow-x: auto; }
pre.tree { font-size: 9.5pt; column-width: auto; overflow-x: auto; }
.warnings { border: 0.3mm solid #b35900; padding: 1mm 3mm; margin: 3mm 0; }
svg text { text-anchor: middle; font: 13px monospace; }
svg text.rule { font-weight: bold; }
svg text.open { font-style: italic; }
svg text.line { font: 10px sans-serif; fill: #555; }
svg polyline { fill: none; stroke: #888; }
svg .mark { fill: #fbe3c8; stroke: #b35900; stroke-width: 1.5; }
svg .parting { stroke: #b35900; stroke-dasharray: 5 4; }
footer { margin-top: 8mm; font-size: 9pt; color: #555; }
@media screen { pre { overflow-x: auto; } }
@media print { svg { max-width: 100%; height: auto; } pre.tree { white-space: pre-wrap; } }
@media print { body { margin: 0; padding: 0; max-width: none; } * { print-color-adjust: exact; } }
";

const LEGEND: &str =
    "Up to the broken line the two trees pass the same symbols. Framed is what each of them does next: it passes \
                      a symbol, or ends a rule. Symbols in italics are nonterminals that stand for themselves.";
const EMPTY_LEGEND: &str =
    "The sentence is empty: the trees pass no symbol. Framed is the first rule that one of them ends where \
                            the other does not.";

const STRINGS: &str =
    "In these lines `(1` opens rule 1, which stands on line 3 of the text, and `)1` closes it; a symbol stands by its \
                       name. Rule 0 leads to the start. ambig-check --lines takes the two lines.";

/// How a certificate is checked.
const CHECKING: &str =
    "Whoever has the grammar and the certificate can check them: `ambig-check GRAMMAR CERTIFICATE`, or, with \
                        Python alone, `python3 second/judge.py GRAMMAR CERTIFICATE`. Both are part of Yisaronu, a library that \
                        judges grammars, with its proofs.";

/// What a page is made of.
pub struct Subject<'a> {
    pub file: &'a str,
    pub text: &'a [u8],
    pub grammar: &'a Grammar,
    pub verdict: &'a Verdict,
    /// Why a verdict is potential.
    pub explanation: Option<&'a Explanation>,
    pub warnings: &'a [Told],
}

/// The page of a grammar that was read from a file.
pub fn of(subject: &Subject) -> String {
    let (grammar, verdict) = (subject.grammar, subject.verdict);
    let parts = match (&verdict.searched, &verdict.witness, subject.explanation) {
        (Searched::Unambiguous { certificate, size, .. }, ..) => {
            let lines = lines::written(grammar, verdict.callers, *size, certificate, Form::usual(verdict.states));
            [unambiguous(grammar, verdict, *size), grammar_part(grammar, &[]), certificate_part(&lines, verdict.states)]
        }
        (Searched::Potential { .. }, Some(witness), Some(explanation)) => {
            let strings = strings_part(&strings::printed(subject.text, grammar, witness));
            let text = grammar_part(grammar, &parting_lines(explanation));
            [potential(grammar, verdict, explanation), trees_part(grammar, explanation), text + &strings]
        }
        (Searched::Potential { .. }, ..) => [String::new(), String::new(), String::new()],
    };
    let [verdict, first, second] = parts;
    let parts = [verdict, warnings_part(subject.warnings), first, second].concat();
    let name = name(subject.file);
    whole("ambig-certify", &name, &format!("Grammar {name}"), &parts)
}

/// A file's name without its folders, escaped.
pub fn name(file: &str) -> String {
    escaped(file.rsplit('/').next().unwrap_or(file))
}

/// A page with this title, this heading and these parts, made by a tool.
pub fn whole(tool: &str, title: &str, heading: &str, parts: &str) -> String {
    let version = VERSION.trim_end();
    format!(
        "<!DOCTYPE html>\n<html xmlns=\"http://www.w3.org/1999/xhtml\" lang=\"en\">\n<head>\n<meta charset=\"utf-8\"/>\n\
         <meta name=\"viewport\" content=\"width=device-width, initial-scale=1\"/>\n\
         <title>{title}</title>\n<style>\n{STYLE}</style>\n</head>\n<body>\n<h1>{heading}</h1>\n{parts}\
         <footer>{tool} {version}. Each line of the grammar ends with byte 10, the last one too.</footer>\n</body>\n</html>\n"
    )
}

/// What no sentence uses, if there is any.
fn warnings_part(warnings: &[Told]) -> String {
    if warnings.is_empty() {
        return String::new();
    }
    let lines = warnings.iter().map(|warning| format!("<br/>Line {}: {}\n", warning.line, escaped(&warning.message)));
    format!("<p class=\"warnings\"><strong>Warnings</strong>\n{}</p>\n", lines.collect::<String>())
}

/// A verdict: its title, and what is said of it.
pub fn banner(class: &str, title: &str, paragraphs: &[String]) -> String {
    let paragraphs: String = paragraphs.iter().map(|text| format!("<br/>{}\n", sentence(text))).collect();
    format!("<p class=\"verdict {class}\"><strong>{title}</strong>\n{paragraphs}</p>\n")
}

fn figures(grammar: &Grammar, verdict: &Verdict) -> String {
    let remembered = if verdict.callers > 0 { format!(", callers remembered {}", verdict.callers) } else { String::new() };
    format!("States Q = {}{remembered}, rules {}", verdict.states, grammar.rules().len())
}

fn unambiguous(grammar: &Grammar, verdict: &Verdict, size: usize) -> String {
    let (figures, looked) = (figures(grammar, verdict), verdict.searched.looked());
    let figures = format!("{figures}, size of the certificate {size}, successors looked at {looked}.");
    banner("yes", "Unambiguous", &["No sentence has two derivation trees.".to_string(), figures])
}

/// With how many callers the verdict is potential, and with how many there are too many states.
fn tried(verdict: &Verdict) -> String {
    let numbers = |numbers: &[usize]| words::all_of(&numbers.iter().map(usize::to_string).collect::<Vec<_>>());
    let unfit = match &verdict.too_many_states[..] {
        [] => String::new(),
        unfit => format!("; with {} there are too many states", numbers(unfit)),
    };
    format!("Callers remembered: tried with {}{unfit}.", numbers(&verdict.tried))
}

fn potential(grammar: &Grammar, verdict: &Verdict, explanation: &Explanation) -> String {
    let figures = format!("{}, successors looked at {}.", figures(grammar, verdict), verdict.searched.looked());
    let (title, said) = match &explanation.found {
        Found::Two(phrase, example) => {
            let said = explanation::ambiguous(grammar, phrase, example);
            let confirmed = capital(&explanation::confirmation(example)) + ".";
            ("Ambiguous", vec![capital(&said.replacen("ambiguous: ", "", 1)) + ".", confirmed])
        }
        Found::Not(extent) => ("Potentially ambiguous", vec![capital(&explanation::not_found(extent))]),
        Found::Denied(sentence, counted) => {
            ("Potentially ambiguous", vec![capital(&explanation::denied(grammar, sentence, counted))])
        }
    };
    let parting = format!("The readings part {}.", explanation.parting.sentence(grammar, Naming::Lines));
    banner("no", title, &[said, vec![parting, figures, tried(verdict)]].concat())
}

/// A text with its first letter as a capital.
pub fn capital(text: &str) -> String {
    let mut letters = text.chars();
    letters.next().map_or(String::new(), |first| first.to_uppercase().chain(letters).collect())
}

/// The lines of the two rules at which the readings part.
fn parting_lines(explanation: &Explanation) -> Vec<usize> {
    let rules = [explanation.parting.left.rule, explanation.parting.right.rule];
    rules.into_iter().filter(|rule| *rule > 0).map(words::line_of_rule).collect()
}

/// The grammar's text, each name as it is declared; the lines are those of the file.
pub fn grammar_part(grammar: &Grammar, marked: &[usize]) -> String {
    let text = grammar.write();
    let rows = text.lines().enumerate().map(|(place, line)| {
        let class = if marked.contains(&(place + 1)) { " class=\"parting\"" } else { "" };
        // Long lists may be broken behind a comma.
        let line = escaped(line).replace(',', ",<wbr/>");
        format!("<tr{class}><td class=\"number\">{}</td><td>{line}</td></tr>\n", place + 1)
    });
    format!("<h2>Text</h2>\n<table>\n{}</table>\n", rows.collect::<String>())
}

/// A certificate's lines, and how it is checked.
pub fn certificate_part(lines: &str, states: usize) -> String {
    let class = match Form::usual(states) {
        _ if lines.lines().count() <= ONE_COLUMN => " class=\"one\"",
        Form::Runs => " class=\"runs\"",
        _ => "",
    };
    format!("<h2>Certificate</h2>\n<pre{class}>{}</pre>\n<p>{}</p>\n", escaped(lines), sentence(CHECKING))
}

fn strings_part(lines: &str) -> String {
    format!("<h2>Two readings</h2>\n<pre class=\"strings\">{}</pre>\n<p>{}</p>\n", escaped(lines), sentence(STRINGS))
}

/// A drawing with what it shows.
pub fn figure(caption: &str, Drawing { svg, .. }: &Drawing) -> String {
    format!("<figure>\n<figcaption>{caption}</figcaption>\n{svg}</figure>\n")
}

fn trees_part(grammar: &Grammar, explanation: &Explanation) -> String {
    let Found::Two(phrase, _) = &explanation.found else { return String::new() };
    let parting = &explanation.parting;
    let draw = |side: parting::Side, tree: &[_], title| {
        let passed = Some(parting.passed.len());
        drawing::tree(grammar, tree, Marks { title, naming: Naming::Lines, framed: side.node, passed })
    };
    let drawings = [draw(parting.left, &phrase.left, "left tree"), draw(parting.right, &phrase.right, "right tree")];
    let also = explanation
        .also
        .iter()
        .map(|other| format!("<p>{}.</p>\n", sentence(&capital(&explanation::also_told(grammar, other)))));
    let more = explanation.more.map(|more| format!("<p>{}.</p>\n", capital(more.told())));
    let also: String = also.chain(more).collect();
    if drawings.iter().any(|drawing| drawing.width > PAGE_WIDTH || drawing.height > PAGE_HEIGHT) {
        let lines = escaped(&layout::trees(grammar, &phrase.left, &phrase.right));
        return format!("<h2>Two trees</h2>\n<pre class=\"tree\">{lines}</pre>\n{also}");
    }
    let class = if drawings.iter().any(|drawing| drawing.width > HALF_PAGE) { "trees stacked" } else { "trees" };
    let figures = figure("Left", &drawings[0]) + &figure("Right", &drawings[1]);
    let legend = if phrase.row.is_empty() { EMPTY_LEGEND } else { LEGEND };
    format!("<h2>Two trees</h2>\n<div class=\"{class}\">\n{figures}</div>\n<p>{legend}</p>\n{also}")
}
