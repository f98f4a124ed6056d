//! Words for every cause, the same as those of `ambiguity_cause_text` (bindings/c/ambiguity_cause_text.h).

use std::fmt;

use crate::Cause;

impl Cause {
    /// What is wrong, in words.
    #[must_use]
    pub fn text(self) -> &'static str {
        match self {
            Cause::OutOfRange => "the number of terminals or of nonterminals is out of range",
            Cause::Truncated => "the table ends inside a rule",
            Cause::LeftUndeclared => "the left code of a rule is no declared nonterminal",
            Cause::RuleTooLong => "the right side of a rule is too long",
            Cause::CodeUndeclared => "a code on a right side is not declared",
            Cause::RuleRepeated => "a rule equals an earlier one",
            Cause::TooManyRules => "there are too many rules",
            Cause::TooManyStates => "there are too many states",
            Cause::CertificateLength => "the certificate has the wrong length",
            Cause::SpareBit => "a bit past the last triple is set",
            Cause::StartMissing => "the certificate lacks (0,0,0)",
            Cause::EndPresent => "the certificate holds (1,1,1)",
            Cause::SuccessorMissing => "the certificate lacks a successor of a triple that it holds",
            Cause::BufferTooShort => "a lent row is too short",
            Cause::WitnessWrong => "the row of triples is no witness",
            Cause::Malformed => "a line or a name is malformed or missing",
            Cause::NameUnknown => "a name is not declared, or is of the wrong kind",
            Cause::NameRepeated => "a name is declared twice",
            Cause::NoSentence => "the start has no finite tree, so there is no sentence",
            Cause::KindsClash => "a name is a terminal in one text and a nonterminal in the other",
            Cause::TooManyCallers => "more callers are to be remembered than two",
            Cause::RowWrong => "the row has more than 64 terminals, or a code that is none",
            Cause::NotPresent => "no such mark, rule or draft",
        }
    }
}

impl fmt::Display for Cause {
    fn fmt(&self, f: &mut fmt::Formatter) -> fmt::Result {
        f.write_str(self.text())
    }
}

#[cfg(test)]
mod tests {
    use crate::refusal::CAUSES;

    #[test]
    fn the_header_has_the_same_words() {
        let header = include_str!("../../c/ambiguity_cause_text.h");
        for cause in CAUSES {
            let line = format!("return \"{}\";", cause.text());
            assert_eq!(header.matches(&line).count(), 1, "{line}");
        }
        assert_eq!(header.matches("case AMBIGUITY_").count(), CAUSES.len() + 1);
    }
}
