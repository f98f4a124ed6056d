//! Trees as drawings in SVG. The leaves of a tree stand in one row, so that two trees of one row can be compared.

use std::fmt::Write;

use ambiguity::two_trees::tree::Node;
use ambiguity::{Grammar, START};

use crate::layout;
use crate::markup::escaped;
use crate::words::{self, Naming};

/// Sizes in pixels: a letter's width, that of a small one, the gap between two neighbours, the height of a level, the margin.
const LETTER: usize = 8;
const SMALL_LETTER: usize = 5;
const GAP: usize = 20;
const LEVEL: usize = 44;
const MARGIN: usize = 12;

/// Half the height of a label, and what a mark stands off it.
const HALF: usize = 9;

/// A drawing and its natural size.
pub struct Drawing {
    pub svg: String,
    pub width: usize,
    pub height: usize,
}

/// What stands in a node's place.
struct Label {
    text: String,
    /// The line of the rule, or its number, under the left name; a leaf has none.
    line: Option<String>,
    class: &'static str,
}

fn label(grammar: &Grammar, node: Node, naming: Naming) -> Label {
    match node {
        Node::Leaf(code) => {
            let class = if code >= START { "open" } else { "leaf" };
            Label { text: words::symbol(grammar, code).to_string(), line: None, class }
        }
        Node::Rule(number) => {
            let rule = &grammar.rules()[number - 1];
            let empty = if rule.right.is_empty() { ", empty" } else { "" };
            let line = Some(naming.of(&[number]) + empty);
            Label { text: words::symbol(grammar, rule.left).to_string(), line, class: "rule" }
        }
    }
}

impl Label {
    fn width(&self) -> usize {
        let line = self.line.as_ref().map_or(0, |line| SMALL_LETTER * line.len());
        (LETTER * self.text.len()).max(line) + GAP
    }
}

/// Where everything stands.
struct Plan {
    labels: Vec<Label>,
    children: Vec<Vec<usize>>,
    depths: Vec<usize>,
    /// The width that a node's subtree takes, and its middle.
    widths: Vec<usize>,
    middles: Vec<usize>,
    bottom: usize,
}

impl Plan {
    fn new(grammar: &Grammar, tree: &[Node], naming: Naming) -> Plan {
        let labels: Vec<Label> = tree.iter().map(|node| label(grammar, *node, naming)).collect();
        let children = layout::children(grammar, tree);
        let mut depths = vec![0; tree.len()];
        for place in 0..tree.len() {
            for child in &children[place] {
                depths[*child] = depths[place] + 1;
            }
        }
        // Children stand behind their parents in the list: from the back, their widths are known first.
        let mut widths = vec![0; tree.len()];
        for place in (0..tree.len()).rev() {
            let below: usize = children[place].iter().map(|child| widths[*child]).sum();
            widths[place] = labels[place].width().max(below);
        }
        let mut plan = Plan { labels, children, depths, widths, middles: vec![0; tree.len()], bottom: 0 };
        plan.place();
        plan
    }

    /// Puts every subtree into its part of the width, parents over the middle of their children.
    fn place(&mut self) {
        let mut starts = vec![MARGIN; self.labels.len()];
        for place in 0..self.labels.len() {
            let below: usize = self.children[place].iter().map(|child| self.widths[*child]).sum();
            let mut start = starts[place] + (self.widths[place] - below) / 2;
            for child in &self.children[place] {
                starts[*child] = start;
                start += self.widths[*child];
            }
            self.middles[place] = starts[place] + self.widths[place] / 2;
        }
        let leaves = (0..self.labels.len()).any(|place| self.is_leaf(place));
        self.bottom = self.depths.iter().max().map_or(0, |depth| depth + usize::from(leaves));
    }

    fn is_leaf(&self, place: usize) -> bool {
        self.labels[place].line.is_none()
    }

    fn level(&self, place: usize) -> usize {
        if self.is_leaf(place) {
            self.bottom
        } else {
            self.depths[place]
        }
    }

    fn height(&self, level: usize) -> usize {
        MARGIN + HALF + LEVEL * level
    }

    /// Between the leaves that were passed and the next one; nowhere in a tree without leaves.
    fn parting(&self, passed: usize) -> Option<usize> {
        let leaves: Vec<usize> = (0..self.labels.len()).filter(|place| self.is_leaf(*place)).collect();
        let half = |place: usize| self.widths[place] / 2;
        match passed.checked_sub(1) {
            Some(last) => leaves.get(last).map(|last| self.middles[*last] + half(*last)),
            None => leaves.first().map(|next| self.middles[*next] - half(*next)),
        }
    }
}

/// The width and the height of a drawing of so many levels.
fn size(width: usize, height: usize) -> (usize, usize) {
    (width + 2 * MARGIN, height + 2 * HALF + MARGIN)
}

/// Where the largest parts of a tree begin that have a leaf and whose drawings are no larger than this: the tree itself, or parts of it
/// from left to right.
pub fn parts(grammar: &Grammar, tree: &[Node], naming: Naming, most: (usize, usize)) -> Vec<usize> {
    let plan = Plan::new(grammar, tree, naming);
    // By node how many levels are below it, and whether one of them is a leaf's; children stand behind their parents.
    let mut below = vec![(0, false); tree.len()];
    for place in (0..tree.len()).rev() {
        let deepest = plan.children[place].iter().map(|child| below[*child].0 + 1).max().unwrap_or(0);
        below[place] = (deepest, plan.is_leaf(place) || plan.children[place].iter().any(|child| below[*child].1));
    }
    let fits = |place: usize| {
        let (deepest, leaves) = below[place];
        let (width, height) = size(plan.widths[place], plan.height(deepest + usize::from(leaves)));
        width <= most.0 && height <= most.1
    };
    let (mut parts, mut rest) = (Vec::new(), vec![0]);
    while let Some(place) = rest.pop() {
        match fits(place) {
            _ if plan.is_leaf(place) || !below[place].1 && place > 0 => (),
            true => parts.push(place),
            false => rest.extend(plan.children[place].iter().rev()),
        }
    }
    parts
}

/// What stands at a drawing beside the tree.
#[derive(Clone, Copy)]
pub struct Marks<'a> {
    pub title: &'a str,
    /// How nodes name their rules.
    pub naming: Naming,
    /// The place of a node that is framed.
    pub framed: Option<usize>,
    /// Behind how many leaves a broken line stands.
    pub passed: Option<usize>,
}

/// A tree in SVG.
pub fn tree(grammar: &Grammar, tree: &[Node], Marks { title, naming, framed, passed }: Marks) -> Drawing {
    let plan = Plan::new(grammar, tree, naming);
    let (width, height) = size(plan.widths[0], plan.height(plan.bottom));
    let mut svg = format!(
        "<svg xmlns=\"http://www.w3.org/2000/svg\" role=\"img\" aria-label=\"{}\" viewBox=\"0 0 {width} {height}\" \
         style=\"width:{width}px\">\n",
        escaped(title)
    );
    let mut put = |part: std::fmt::Arguments| svg.write_fmt(part).expect("a string takes every part");
    if let Some(x) = passed.and_then(|passed| plan.parting(passed)) {
        let top = plan.height(plan.bottom) - LEVEL / 2;
        put(format_args!("<line class=\"parting\" x1=\"{x}\" y1=\"{top}\" x2=\"{x}\" y2=\"{height}\"/>\n"));
    }
    for place in 0..tree.len() {
        edges(&plan, place, &mut put);
    }
    for place in 0..tree.len() {
        node(&plan, place, framed == Some(place), &mut put);
    }
    svg.push_str("</svg>\n");
    Drawing { svg, width, height }
}

/// Lines from a node to its children: aslant to the next level, then down to a leaf.
fn edges(plan: &Plan, place: usize, put: &mut impl FnMut(std::fmt::Arguments)) {
    let (x, y) = (plan.middles[place], plan.height(plan.level(place)) + HALF + 9);
    for child in &plan.children[place] {
        let (to, end) = (plan.middles[*child], plan.height(plan.level(*child)) - HALF);
        let next = (plan.height(plan.depths[place] + 1) - HALF).min(end);
        put(format_args!("<polyline points=\"{x},{y} {to},{next} {to},{end}\"/>\n"));
    }
}

fn node(plan: &Plan, place: usize, marked: bool, put: &mut impl FnMut(std::fmt::Arguments)) {
    let label = &plan.labels[place];
    let (x, y) = (plan.middles[place], plan.height(plan.level(place)));
    if marked {
        let (half, height) = ((label.width() - GAP) / 2 + 6, if label.line.is_some() { 3 * HALF + 4 } else { 2 * HALF + 4 });
        let (left, top) = (x - half, y - HALF - 2);
        put(format_args!(
            "<rect class=\"mark\" x=\"{left}\" y=\"{top}\" width=\"{}\" height=\"{height}\" rx=\"4\"/>\n",
            2 * half
        ));
    }
    put(format_args!("<text class=\"{}\" x=\"{x}\" y=\"{}\">{}</text>\n", label.class, y + 4, escaped(&label.text)));
    if let Some(line) = &label.line {
        put(format_args!("<text class=\"line\" x=\"{x}\" y=\"{}\">{line}</text>\n", y + 15));
    }
}
