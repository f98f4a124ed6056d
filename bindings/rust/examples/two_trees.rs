//! Looks for two derivation trees: reads the file that is named, prints the smallest part in which they differ, a sentence with it, and
//! what the library says of that.

use std::error::Error;

use ambiguity::two_trees::phrase::{self, Example};
use ambiguity::two_trees::tree::Node;
use ambiguity::two_trees::{look, Limits, Outcome};
use ambiguity::{Code, Grammar, START};

fn main() -> Result<(), Box<dyn Error>> {
    let path = std::env::args_os().nth(1).ok_or("usage: two_trees FILE")?;
    let grammar = Grammar::read(&std::fs::read(path)?).map_err(|refusal| format!("{refusal:#}"))?;
    let name = |code: Code| match code.checked_sub(START) {
        Some(place) => grammar.nonterminals()[usize::from(place)].clone(),
        None => grammar.terminals()[usize::from(code) - 1].clone(),
    };
    let word = |node: &Node| match node {
        Node::Rule(number) => format!("({number}"),
        Node::Leaf(code) => name(*code),
    };
    let words = |tree: &[Node]| tree.iter().map(word).collect::<Vec<_>>().join(" ");
    match look(&grammar, Limits::default()) {
        Outcome::Two { root, left, right, .. } => {
            let phrase = phrase::smallest(&grammar, root, &left, &right);
            println!("{}\nleft  {}\nright {}", name(phrase.root), words(&phrase.left), words(&phrase.right));
            if let Example::Sentence(sentence) = phrase.example(&grammar) {
                let names: Vec<String> = sentence.iter().map(|code| name(*code)).collect();
                println!("{}: {:?}", names.join(" "), grammar.trees(&sentence, 0)?);
            }
        }
        Outcome::NotFound(extent) => println!("no two trees were found: {extent:?}"),
    }
    Ok(())
}
