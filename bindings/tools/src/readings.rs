//! A witness step by step: what either side stands at and what moves it on, then the two strings.

use ambiguity::{Code, Grammar, Move, Step};

use crate::words;

/// What moved on one side, by name; nothing where the side stays.
fn moved(grammar: &Grammar, side: Move) -> String {
    match side {
        Move::Still => String::new(),
        Move::Opening(rule) => format!("open {}", words::rule(grammar, rule as usize)),
        Move::Closing(rule) => format!("close {}", words::rule(grammar, rule as usize)),
        Move::Symbol(code) => words::symbol(grammar, code as Code).to_string(),
    }
}

/// The step records that lead through a witness.
pub fn steps(grammar: &Grammar, witness: &[u32]) -> Vec<Step> {
    grammar.steps(0, witness).expect("an entry of a witness is a successor of the one before")
}

/// Rows of cells as lines, each column as wide as its widest cell.
fn aligned<const N: usize>(rows: &[[String; N]]) -> String {
    let width = |column: usize| rows.iter().map(|row| row[column].len()).max().unwrap_or(0);
    let widths: [usize; N] = std::array::from_fn(width);
    let line = |row: &[String; N]| {
        let cells: Vec<String> = row.iter().zip(widths).map(|(cell, width)| format!("{cell:width$}")).collect();
        format!("{}\n", cells.join("  ").trim_end())
    };
    rows.iter().map(line).collect()
}

/// The moves of one side, one after the other.
fn string(moves: &[[String; 2]], side: usize) -> Vec<&str> {
    moves.iter().map(|step| step[side].as_str()).filter(|name| !name.is_empty()).collect()
}

/// The entries of a witness, and the two strings that they give.
pub fn told(grammar: &Grammar, witness: &[u32], steps: &[Step]) -> String {
    let moves: Vec<[String; 2]> =
        steps.iter().map(|step| [step.on_left, step.on_right].map(|side| moved(grammar, side))).collect();
    let mut entries = vec![["entry", "layer", "left", "right", "left moves", "right moves"].map(String::from)];
    for (i, index) in witness.iter().enumerate() {
        let (layer, left, right) = words::triple(grammar, *index as usize);
        let [on_left, on_right] = moves.get(i).cloned().unwrap_or_default();
        let [left, right] = [left, right].map(|state| words::state(grammar, state));
        entries.push([i.to_string(), layer.to_string(), left, right, on_left, on_right]);
    }
    let sides = [string(&moves, 0), string(&moves, 1)];
    let mut strings = vec![["left string", "right string"].map(String::from)];
    for i in 0..sides[0].len().max(sides[1].len()) {
        strings.push([0, 1].map(|side| sides[side].get(i).unwrap_or(&"").to_string()));
    }
    format!("entries={}\n\n{}\n{}", witness.len(), aligned(&entries), aligned(&strings))
}
