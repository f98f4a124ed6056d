//! One page about sentences, to be printed: of each whether it has a tree, the only tree as a drawing, and the grammar's text. So about
//! methods and their plans.

use ambiguity::two_trees::tree::{self, Node, Tree};
use ambiguity::Grammar;

use crate::answers::{Answered, Trees, Wording};
use crate::drawing::{self, Marks};
use crate::layout;
use crate::markup::{escaped, sentence};
use crate::page::{self, HALF_PAGE, PAGE_HEIGHT, PAGE_WIDTH};
use crate::words::{self, Naming};

/// What stands at a page's head, and behind the grammar's text.
pub struct Frame<'a> {
    pub tool: &'a str,
    /// The file of the sentences.
    pub file: &'a str,
    pub heading: &'a str,
    pub behind: &'a str,
}

/// The page of sentences that were read from a file.
pub fn of(grammar: &Grammar, grammar_file: &str, file: &str, answers: &[Answered]) -> String {
    let heading = format!("Sentences {} of grammar {}", page::name(file), page::name(grammar_file));
    framed(grammar, Frame { tool: "ambig-trees", file, heading: &heading, behind: "" }, answers)
}

/// The page with this frame.
pub fn framed(grammar: &Grammar, frame: Frame, answers: &[Answered]) -> String {
    let Frame { tool, file, heading, behind } = frame;
    let parts: String = answers.iter().map(|answered| part(grammar, file, answered)).collect();
    let legend = answers.first().map_or(String::new(), |answered| format!("<p>{}</p>\n", legend(answered.wording)));
    page::whole(tool, &page::name(file), heading, &[&parts, &page::grammar_part(grammar, &[])[..], &legend, behind].concat())
}

fn legend(Wording { sentence, tree }: &Wording) -> String {
    format!(
        "In a {tree} each node applies a rule, whose number stands below its left side; rule 1 stands on line 3 of the text. \
         The words of the {sentence} are its leaves."
    )
}

/// What is said of one sentence, with its tree.
fn part(grammar: &Grammar, file: &str, answered: &Answered) -> String {
    let line = format!("<h2>Line {}</h2>\n", answered.sentence.line);
    let (class, title, tree) = match &answered.trees {
        Trees::None => ("no", "None", None),
        Trees::One(tree, _) => ("yes", "One", Some(tree)),
        Trees::Several => ("no", "Several", None),
        Trees::Refused(..) => ("no", "Refused", None),
    };
    let sentence = |text: &str| page::capital(text) + ".";
    let said = match answered.said(grammar) {
        // Behind the title that the word in front has become.
        Some(said) => {
            let said = sentence(said.split_once(": ").map_or(said.as_str(), |(_, said)| said));
            let fault = answered.fault_said(grammar).map(|fault| sentence(&fault));
            std::iter::once(said).chain(fault).collect()
        }
        None => answered.refused(file).lines().map(String::from).collect::<Vec<_>>(),
    };
    let tree = tree.map_or(String::new(), |tree| drawn(grammar, tree, answered.wording.tree));
    line + &page::banner(class, title, &said) + &tree
}

/// A tree as a drawing; one that is larger than a page as lines, and its parts as drawings. `called` is what it is called.
fn drawn(grammar: &Grammar, tree: &Tree, called: &str) -> String {
    let parts = drawing::parts(grammar, tree, Naming::Rules, (PAGE_WIDTH, PAGE_HEIGHT));
    let draw = |tree: &[Node], title: &str| {
        drawing::tree(grammar, tree, Marks { title, naming: Naming::Rules, framed: None, passed: None })
    };
    if parts == [0] {
        return format!(
            "<div class=\"trees stacked\">\n{}</div>\n",
            page::figure(&format!("The only {called}"), &draw(tree, &format!("the only {called}")))
        );
    }
    let drawings: Vec<_> = parts
        .iter()
        .map(|start| {
            let part = &tree[*start..tree::end(grammar, tree, *start)];
            let row: Vec<_> = part.iter().filter_map(|node| node.leaf()).collect();
            let row = words::row(grammar, &row);
            (sentence(&format!("`{row}`")), draw(part, &row))
        })
        .collect();
    let class = if drawings.iter().any(|(_, drawing)| drawing.width > HALF_PAGE) { "trees stacked" } else { "trees" };
    let figures: String = drawings.iter().map(|(row, drawing)| page::figure(row, drawing)).collect();
    let lines = escaped(&layout::tree(grammar, tree));
    let larger = format!("The {called} is larger than a page. These are its largest parts that are not, from left to right.");
    format!("<pre class=\"tree\">{lines}</pre>\n<p>{larger}</p>\n<div class=\"{class}\">\n{figures}</div>\n")
}
