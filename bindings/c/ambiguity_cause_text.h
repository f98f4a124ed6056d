/* Words for every cause of refusal. ambiguity.h includes this file; it needs nothing of the archive. */
#ifndef AMBIGUITY_CAUSE_TEXT_H
#define AMBIGUITY_CAUSE_TEXT_H

#include "ambiguity.h"

/* What a cause means, in words; the string is constant. A number that is no cause has words too. */
static inline const char *ambiguity_cause_text(uint64_t cause)
{
    switch (cause) {
    case AMBIGUITY_NOT_REFUSED: return "nothing is refused";
    case AMBIGUITY_OUT_OF_RANGE: return "the number of terminals or of nonterminals is out of range";
    case AMBIGUITY_TRUNCATED: return "the table ends inside a rule";
    case AMBIGUITY_LEFT_UNDECLARED: return "the left code of a rule is no declared nonterminal";
    case AMBIGUITY_RULE_TOO_LONG: return "the right side of a rule is too long";
    case AMBIGUITY_CODE_UNDECLARED: return "a code on a right side is not declared";
    case AMBIGUITY_RULE_REPEATED: return "a rule equals an earlier one";
    case AMBIGUITY_TOO_MANY_RULES: return "there are too many rules";
    case AMBIGUITY_TOO_MANY_STATES: return "there are too many states";
    case AMBIGUITY_CERTIFICATE_LENGTH: return "the certificate has the wrong length";
    case AMBIGUITY_SPARE_BIT: return "a bit past the last triple is set";
    case AMBIGUITY_START_MISSING: return "the certificate lacks (0,0,0)";
    case AMBIGUITY_END_PRESENT: return "the certificate holds (1,1,1)";
    case AMBIGUITY_SUCCESSOR_MISSING: return "the certificate lacks a successor of a triple that it holds";
    case AMBIGUITY_BUFFER_TOO_SHORT: return "a lent row is too short";
    case AMBIGUITY_WITNESS_WRONG: return "the row of triples is no witness";
    case AMBIGUITY_MALFORMED: return "a line or a name is malformed or missing";
    case AMBIGUITY_NAME_UNKNOWN: return "a name is not declared, or is of the wrong kind";
    case AMBIGUITY_NAME_REPEATED: return "a name is declared twice";
    case AMBIGUITY_NO_SENTENCE: return "the start has no finite tree, so there is no sentence";
    case AMBIGUITY_KINDS_CLASH: return "a name is a terminal in one text and a nonterminal in the other";
    case AMBIGUITY_TOO_MANY_CALLERS: return "more callers are to be remembered than two";
    case AMBIGUITY_ROW_WRONG: return "the row has more than 64 terminals, or a code that is none";
    case AMBIGUITY_NOT_PRESENT: return "no such mark, rule or draft";
    default: return "a cause that this header does not know";
    }
}

#endif
