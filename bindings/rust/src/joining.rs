//! A module's text joined to the robot's: the joined grammar, its text, and the name shown for a symbol.

use std::fmt;

use crate::{raw, read_text, refusal, Cause, Code, Grammar, Read, Refusal, MAX_TEXT_BYTES};

/// What joining refuses.
#[derive(Clone, Copy, Debug, PartialEq, Eq)]
pub enum JoinPart {
    /// The robot's text.
    Robot,
    /// The module's text, read alone.
    Module,
    /// Both together: 20 at a line of the module, a limit that the joined text passes, or a row that is too short.
    Join,
}

/// `robot`, `module` or `join`.
impl fmt::Display for JoinPart {
    fn fmt(&self, f: &mut fmt::Formatter) -> fmt::Result {
        f.write_str(match self {
            JoinPart::Robot => "robot",
            JoinPart::Module => "module",
            JoinPart::Join => "join",
        })
    }
}

/// A refusal of joining, and which part is refused: both texts have lines.
#[derive(Clone, Copy, Debug, PartialEq, Eq)]
pub struct JoinRefusal {
    /// The part.
    pub part: JoinPart,
    /// Its refusal.
    pub refusal: Refusal,
}

/// `refused=20 at=1 part=join`.
impl fmt::Display for JoinRefusal {
    fn fmt(&self, f: &mut fmt::Formatter) -> fmt::Result {
        write!(f, "{} part={}", self.refusal, self.part)
    }
}

impl std::error::Error for JoinRefusal {}

/// The part that a refusal is about. The reader is asked about the robot's text, then about the module's, which may lack sentences; it
/// is lent nothing, so that a text without fault is refused with 14.
fn refused_part(robot: &[u8], module: &[u8]) -> JoinPart {
    let cause = |text: &[u8]| read_text(text, &mut [], &mut [], &mut []).map_err(|refusal| refusal.cause);
    match (cause(robot), cause(module)) {
        (Err(Cause::BufferTooShort), Err(Cause::BufferTooShort | Cause::NoSentence)) => JoinPart::Join,
        (Err(Cause::BufferTooShort), _) => JoinPart::Module,
        _ => JoinPart::Robot,
    }
}

/// What a reply gives, or its refusal with the part.
fn or_refused<T>(cause: u64, at: u64, robot: &[u8], module: &[u8], given: impl FnOnce() -> T) -> Result<T, JoinRefusal> {
    refusal::or_else(cause, at, given).map_err(|refusal| JoinRefusal { part: refused_part(robot, module), refusal })
}

/// Joins a module's text to the robot's; the joined table comes at the front of the lent row, and is the one that [`read_text`] gives
/// for the joined text. Terminals are the robot's, then those that the module adds; so nonterminals, and the start is the robot's; rules
/// are the robot's, then those of the module that are not already there. [`MAX_TABLE_ENTRIES`](crate::MAX_TABLE_ENTRIES) are always
/// enough.
///
/// # Errors
///
/// Those of [`read_text`] for the robot's text, then for the module's, without 14, and without 19 for the module; 20 at the module's
/// first line that declares a name which is of the other kind in the robot's text; 1, 7 and 8 of the joined text; then 14.
pub fn join_texts(robot: &[u8], module: &[u8], table: &mut [Code]) -> Result<Read, JoinRefusal> {
    // SAFETY: the pointers and lengths are those of slices, which live on during the call; so in every call below.
    let reply = unsafe {
        raw::ambiguity_join_texts(robot.as_ptr(), robot.len(), module.as_ptr(), module.len(), table.as_mut_ptr(), table.len())
    };
    or_refused(reply.cause, reply.at, robot, module, || Read {
        terminals: reply.terminals as usize,
        nonterminals: reply.nonterminals as usize,
        entries: reply.entries as usize,
        states: reply.states as usize,
    })
}

/// Writes the joined text to the front of `out`, each use of a name as it is declared, the robot's spelling where both texts declare
/// it; back comes its length. `MAX_TEXT_BYTES` are always enough.
///
/// # Errors
///
/// Those of [`join_texts`]; 14 if the output is shorter than the text.
pub fn write_joined(robot: &[u8], module: &[u8], out: &mut [u8]) -> Result<usize, JoinRefusal> {
    let reply = unsafe {
        raw::ambiguity_write_joined(robot.as_ptr(), robot.len(), module.as_ptr(), module.len(), out.as_mut_ptr(), out.len())
    };
    or_refused(reply.cause, reply.at, robot, module, || reply.length as usize)
}

/// The name shown for a symbol of the joined grammar: the part of the text that declares it, the robot's where both do. Symbols are
/// numbered from 0, the joined terminals, then the joined nonterminals. Empty for a number past the last one, and for texts that
/// [`join_texts`] refuses with another cause than 14. Each call reads both texts; for all names ask the grammar of [`join`].
///
/// ```
/// let robot = b"terminals=take,vol\nnonterminals=Step\nrule=Step: take vol\n";
/// let module = b"terminals=heat,VOL\nnonterminals=STEP\nrule=STEP: heat VOL\n";
/// let name = |symbol| ambiguity::joined_name(robot, module, symbol);
/// assert_eq!([0, 1, 2, 3].map(name), [&b"take"[..], b"vol", b"heat", b"Step"]);
/// assert_eq!(name(4), b"");
/// ```
#[must_use]
pub fn joined_name<'a>(robot: &'a [u8], module: &'a [u8], symbol: usize) -> &'a [u8] {
    let reply = unsafe { raw::ambiguity_joined_name(robot.as_ptr(), robot.len(), module.as_ptr(), module.len(), symbol) };
    let text = match reply.text {
        0 => return &[],
        1 => robot,
        2 => module,
        other => unreachable!("no text has the number {other}"),
    };
    &text[reply.start as usize..][..reply.length as usize]
}

/// The joined text. Uses as much stack as [`write_joined`] does.
///
/// # Errors
///
/// Those of [`join_texts`], never 14.
pub fn joined_text(robot: &[u8], module: &[u8]) -> Result<String, JoinRefusal> {
    let mut text = vec![0; MAX_TEXT_BYTES];
    let length = write_joined(robot, module, &mut text)?;
    text.truncate(length);
    Ok(String::from_utf8(text).expect("grammar text is ASCII"))
}

/// The grammar of the joined text: the robot's, with the names and rules that the module adds.
///
/// ```
/// let robot = b"terminals=take,vol\nnonterminals=Step\nrule=Step: take vol\n";
/// let module = b"terminals=heat,VOL\nnonterminals=STEP\nrule=STEP: heat VOL\nrule=Step: heat\n";
/// let joined = ambiguity::join(robot, module)?;
/// let rules = "rule=Step: take vol\nrule=Step: heat vol\nrule=Step: heat\n";
/// assert_eq!(joined.write(), format!("terminals=take,vol,heat\nnonterminals=Step\n{rules}"));
/// let clash = b"terminals=step\nnonterminals=Heat\nrule=Heat: step\n";
/// assert_eq!(ambiguity::join(robot, clash).unwrap_err().to_string(), "refused=20 at=1 part=join");
/// # Ok::<(), ambiguity::JoinRefusal>(())
/// ```
///
/// # Errors
///
/// Those of [`join_texts`], never 14.
pub fn join(robot: &[u8], module: &[u8]) -> Result<Grammar, JoinRefusal> {
    let text = joined_text(robot, module)?;
    Ok(Grammar::read(text.as_bytes()).expect("a joined text is read"))
}

#[cfg(test)]
mod tests {
    use super::*;

    #[test]
    fn the_part_stands_behind_the_numbers() {
        let refusal = Refusal { cause: Cause::KindsClash, at: 2 };
        let told = |part| JoinRefusal { part, refusal }.to_string();
        let parts = [JoinPart::Robot, JoinPart::Module, JoinPart::Join].map(told);
        assert_eq!(parts, ["robot", "module", "join"].map(|part| format!("refused=20 at=2 part={part}")));
    }
}
