//! How many callers a state remembers: which numbers are tried, and which of them the verdict is of.

use ambiguity::{Cause, Grammar, Refusal, Searched, MAX_CALLERS, MAX_STATES};

/// What the searches of a grammar say.
pub struct Verdict {
    /// The callers that `states` and `searched` are of.
    pub callers: usize,
    /// Q with these callers.
    pub states: usize,
    pub searched: Searched,
    /// The callers that were searched with, and those with which there are too many states.
    pub tried: Vec<usize>,
    pub too_many_states: Vec<usize>,
    /// Of a potential verdict the witness at 0 callers, whose two readings are shown whatever was tried.
    pub witness: Option<Vec<u32>>,
}

/// The verdict at 0, 1 or 2 callers, the first that is unambiguous; where none is, that at 0. Of callers that are asked for, theirs.
///
/// # Errors
///
/// 8 at 0, if the callers that are asked for have too many states.
pub fn verdict(grammar: &Grammar, asked: Option<usize>) -> Result<Verdict, Refusal> {
    let mut verdict = with(grammar, asked.unwrap_or(0))?;
    for callers in 1..=MAX_CALLERS {
        if asked.is_some() || verdict.is_unambiguous() {
            break;
        }
        verdict = match with(grammar, callers) {
            Ok(next) if next.is_unambiguous() => Verdict { tried: [verdict.tried, next.tried].concat(), ..next },
            Ok(next) => Verdict { tried: [verdict.tried, next.tried].concat(), ..verdict },
            Err(_) => Verdict { too_many_states: [verdict.too_many_states, vec![callers]].concat(), ..verdict },
        };
    }
    // What is potential with some callers is so with fewer.
    verdict.witness = match (&verdict.searched, verdict.callers) {
        (Searched::Unambiguous { .. }, _) => None,
        (Searched::Potential { witness, .. }, 0) => Some(witness.clone()),
        (Searched::Potential { .. }, _) => match grammar.search(0)? {
            Searched::Potential { witness, .. } => Some(witness),
            Searched::Unambiguous { .. } => unreachable!("unambiguous at 0 callers alone"),
        },
    };
    Ok(verdict)
}

/// The verdict with so many callers, without the witness at 0.
fn with(grammar: &Grammar, callers: usize) -> Result<Verdict, Refusal> {
    let states = grammar.room(callers)?.states;
    let searched = grammar.search(callers)?;
    Ok(Verdict { callers, states, searched, tried: vec![callers], too_many_states: Vec::new(), witness: None })
}

impl Verdict {
    pub fn is_unambiguous(&self) -> bool {
        matches!(self.searched, Searched::Unambiguous { .. })
    }
}

/// The line that tells the callers of a certificate or a verdict, behind that of the states; none at 0.
pub fn line(callers: usize) -> String {
    match callers {
        0 => String::new(),
        callers => format!("{KEY}{callers}\n"),
    }
}

/// What that line begins with.
pub const KEY: &str = "callers=";

/// `1 caller`, `2 callers`.
pub fn counted(callers: usize) -> String {
    format!("{callers} caller{}", if callers == 1 { "" } else { "s" })
}

/// Numbers with commas between them.
pub fn listed(numbers: &[usize]) -> String {
    numbers.iter().map(usize::to_string).collect::<Vec<_>>().join(",")
}

/// Why callers are refused; those that are asked for are no more than two, so that there are too many states.
pub fn refused(callers: usize, refusal: Refusal) -> String {
    match refusal.cause {
        Cause::TooManyStates => format!("with {} remembered there are more than {MAX_STATES} states", counted(callers)),
        cause => cause.to_string(),
    }
}
