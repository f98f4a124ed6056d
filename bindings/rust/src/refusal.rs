//! Refusals: the causes of document 01, and 19 to 23 of document 02, each with its position.

use std::fmt;

/// Why something is refused; the numbers are document 01's, and 19 to 23 are document 02's.
#[derive(Clone, Copy, Debug, PartialEq, Eq)]
#[repr(u8)]
pub enum Cause {
    /// t or n is outside its range: at 0, or the line.
    OutOfRange = 1,
    /// The table ends inside a rule: at the rule's offset.
    Truncated = 2,
    /// The left code is no declared nonterminal: at the rule's offset.
    LeftUndeclared = 3,
    /// A right side has more than 12 codes: at the rule's offset, or the line.
    RuleTooLong = 4,
    /// A right code is undeclared: at the code's offset.
    CodeUndeclared = 5,
    /// A rule equals an earlier one: at the later rule's offset.
    RuleRepeated = 6,
    /// A rule past [`MAX_RULES`](crate::MAX_RULES): at its offset.
    TooManyRules = 7,
    /// Q would pass [`MAX_STATES`](crate::MAX_STATES): at the rule's offset; at 0 if it does so only with the callers that are remembered.
    TooManyStates = 8,
    /// The certificate has the wrong length: at 0.
    CertificateLength = 9,
    /// A bit past the last triple is set: at the lowest such index.
    SpareBit = 10,
    /// (0,0,0) is missing: at 0.
    StartMissing = 11,
    /// (1,1,1) is present: at its index.
    EndPresent = 12,
    /// A successor is missing: at the lowest index that lacks one.
    SuccessorMissing = 13,
    /// A lent output or work row is too short: at 0.
    BufferTooShort = 14,
    /// The witness is wrong: at its first wrong entry, or at its length if only the end fails.
    WitnessWrong = 15,
    /// A line or a name is malformed: at the line; for the writer at the symbol's number from 0.
    Malformed = 16,
    /// A name is unknown or of the wrong kind: at the line. A name that is declared in another case is known.
    NameUnknown = 17,
    /// A name is declared twice, in whatever case: at the line, or at the symbol's number.
    NameRepeated = 18,
    /// The start, the first nonterminal, has no finite tree, so the grammar has no sentence: at 0.
    NoSentence = 19,
    /// A name is a terminal in one text and a nonterminal in the other: at the module's line.
    KindsClash = 20,
    /// More callers are to be remembered than [`MAX_CALLERS`](crate::MAX_CALLERS): at 0.
    TooManyCallers = 21,
    /// A row of terminals has a code that is none, or one terminal more than [`MAX_ROW`](crate::MAX_ROW): at the first such place, from 0.
    RowWrong = 22,
    /// A number that is no mark's, an empty mark, or a number that no rule has: at the number given. A row that holds no draft: at 0.
    NotPresent = 23,
}

pub(crate) const CAUSES: [Cause; 23] = [
    Cause::OutOfRange,
    Cause::Truncated,
    Cause::LeftUndeclared,
    Cause::RuleTooLong,
    Cause::CodeUndeclared,
    Cause::RuleRepeated,
    Cause::TooManyRules,
    Cause::TooManyStates,
    Cause::CertificateLength,
    Cause::SpareBit,
    Cause::StartMissing,
    Cause::EndPresent,
    Cause::SuccessorMissing,
    Cause::BufferTooShort,
    Cause::WitnessWrong,
    Cause::Malformed,
    Cause::NameUnknown,
    Cause::NameRepeated,
    Cause::NoSentence,
    Cause::KindsClash,
    Cause::TooManyCallers,
    Cause::RowWrong,
    Cause::NotPresent,
];

/// What is refused, and where; bindings/c/ambiguity.h says for each cause what the position counts.
#[derive(Clone, Copy, Debug, PartialEq, Eq)]
pub struct Refusal {
    /// Why.
    pub cause: Cause,
    /// Where.
    pub at: usize,
}

impl Cause {
    /// Its number, 1 to 23.
    #[must_use]
    pub fn number(self) -> u8 {
        self as u8
    }
}

/// `refused=17 at=6`; with `{:#}` the words follow in brackets.
impl fmt::Display for Refusal {
    fn fmt(&self, f: &mut fmt::Formatter) -> fmt::Result {
        write!(f, "refused={} at={}", self.cause.number(), self.at)?;
        if f.alternate() {
            write!(f, " ({})", self.cause)?;
        }
        Ok(())
    }
}

impl std::error::Error for Refusal {}

/// The refusal of a reply, or what comes where nothing is refused. That a cause is at most 23 is proved (`CauseTheorems`).
pub(crate) fn or_else<T>(cause: u64, at: u64, given: impl FnOnce() -> T) -> Result<T, Refusal> {
    if cause == 0 {
        return Ok(given());
    }
    Err(Refusal { cause: CAUSES[cause as usize - 1], at: at as usize })
}

#[cfg(test)]
mod tests {
    use super::*;

    #[test]
    fn causes_stand_at_their_numbers() {
        for (i, cause) in CAUSES.iter().enumerate() {
            assert_eq!(cause.number() as usize, i + 1);
        }
    }

    #[test]
    fn words_stand_behind_the_numbers() {
        let refusal = Refusal { cause: Cause::NameRepeated, at: 2 };
        assert_eq!(format!("{refusal}"), "refused=18 at=2");
        assert_eq!(format!("{refusal:#}"), "refused=18 at=2 (a name is declared twice)");
    }
}
