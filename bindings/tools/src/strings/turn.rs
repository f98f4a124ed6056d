//! Which side moves next. Before the parting: what the left side opens, then what the right side opens, then the symbol that both
//! pass. Behind it: what the left side opens or closes, then what the right side does, then the terminal that both pass. In which
//! order the sides move makes no difference to whether two strings part.

use ambiguity::{Code, Letter, START};

/// The sides that make the next move, as numbers from 0; none at the end.
pub type Turn = &'static [usize];

const LEFT: Turn = &[0];
const RIGHT: Turn = &[1];
pub const BOTH: Turn = &[0, 1];
const END: Turn = &[];

/// Why no move follows.
#[derive(Clone, Copy, Debug, PartialEq, Eq)]
pub enum Stop {
    /// The symbols that both are to pass differ.
    OtherSymbol,
    /// Both close the same rule.
    SameClosing,
    /// This side goes on with a nonterminal where a terminal must stand.
    Nonterminal(usize),
    /// The string of this side ends.
    Ends(usize),
}

pub fn is_terminal(code: Code) -> bool {
    code < START
}

/// The next move in a layer, by the next letters of the two sides, and the layer then.
pub fn next(layer: usize, letters: [Option<Letter>; 2]) -> Result<(Turn, usize), Stop> {
    match layer {
        0 => front(letters),
        _ => back(letters).map(|turn| (turn, 1)),
    }
}

fn front(letters: [Option<Letter>; 2]) -> Result<(Turn, usize), Stop> {
    use Letter::{Opening, Symbol};
    let [left, right] = match letters {
        [Some(Opening(_)), _] => return Ok((LEFT, 0)),
        [_, Some(Opening(_))] => return Ok((RIGHT, 0)),
        [None, _] => return Err(Stop::Ends(0)),
        [_, None] => return Err(Stop::Ends(1)),
        [Some(left), Some(right)] => [left, right],
    };
    match (left, right) {
        (Symbol(_), Symbol(_)) if left == right => Ok((BOTH, 0)),
        (Symbol(_), Symbol(_)) => Err(Stop::OtherSymbol),
        (Symbol(code), _) if is_terminal(code) => Ok((RIGHT, 1)),
        (Symbol(_), _) => Err(Stop::Nonterminal(0)),
        (_, Symbol(code)) if is_terminal(code) => Ok((LEFT, 1)),
        (_, Symbol(_)) => Err(Stop::Nonterminal(1)),
        (_, _) if left != right => Ok((BOTH, 1)),
        (_, _) => Err(Stop::SameClosing),
    }
}

fn back(letters: [Option<Letter>; 2]) -> Result<Turn, Stop> {
    use Letter::{Closing, Opening, Symbol};
    match letters {
        [Some(Opening(_) | Closing(_)), _] => Ok(LEFT),
        [_, Some(Opening(_) | Closing(_))] => Ok(RIGHT),
        [Some(Symbol(code)), _] if !is_terminal(code) => Err(Stop::Nonterminal(0)),
        [_, Some(Symbol(code))] if !is_terminal(code) => Err(Stop::Nonterminal(1)),
        [None, None] => Ok(END),
        [None, _] => Err(Stop::Ends(0)),
        [_, None] => Err(Stop::Ends(1)),
        [left, right] if left == right => Ok(BOTH),
        [_, _] => Err(Stop::OtherSymbol),
    }
}
