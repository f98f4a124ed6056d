//! The verdict of a grammar's text, as `ambig-certify` tells it for a file and `ambig-join --certify` for two that are joined.

use ambiguity::{Grammar, Refusal, Searched};

use crate::callers::{self, Verdict};
use crate::command::{Answer, Request, Status};
use crate::explanation::{self, Explanation, Found};
use crate::lines::{self, Form, MOST_STATES};
use crate::warnings::{self, Told};
use crate::{diagnosis, json, page, readings, refusals, strings, words};

/// A place in a file; line and column count from 1.
pub struct Place {
    pub file: String,
    pub line: usize,
    pub column: usize,
}

/// A text that is judged.
#[derive(Clone, Copy)]
pub struct Source<'a> {
    /// Its name in messages.
    pub file: &'a str,
    pub text: &'a [u8],
    /// Of a text that was made of files, where a place of it stands in them, by line and column.
    pub origin: Option<&'a dyn Fn(usize, usize) -> Place>,
}

/// A grammar with its verdict.
struct Judged<'a> {
    source: Source<'a>,
    grammar: &'a Grammar,
    verdict: &'a Verdict,
    warnings: &'a [Told],
    /// Why the verdict is potential, unless few lines are asked for.
    explanation: Option<Explanation>,
}

impl Judged<'_> {
    /// The lines that the program `ambig` prints for a verdict; where callers are remembered, one more.
    fn lines(&self) -> String {
        lines(self.source.text, self.grammar, self.verdict)
    }

    /// The two lines of a potential verdict.
    fn strings(&self) -> String {
        two_strings(self.source.text, self.grammar, self.verdict)
    }

    /// These lines, and how much the search looked at.
    fn long_lines(&self) -> String {
        format!("{}looked={}\n", self.lines(), self.verdict.searched.looked())
    }

    fn json(&self) -> String {
        json::judged(self.source.file, self.grammar, self.verdict, self.explanation.as_ref(), &self.strings(), self.warnings)
    }

    fn page(&self) -> String {
        page::of(&page::Subject {
            file: self.source.file,
            text: self.source.text,
            grammar: self.grammar,
            verdict: self.verdict,
            explanation: self.explanation.as_ref(),
            warnings: self.warnings,
        })
    }

    /// What standard output gets: the certificate, or the explanation. The certificate's form has no place for other lines.
    fn printed(&self, request: &Request) -> String {
        let Verdict { callers, states, searched, witness, .. } = self.verdict;
        match (searched, &self.explanation, witness) {
            _ if request.has("--looked") => self.long_lines(),
            _ if request.has("--quiet") => self.lines(),
            _ if request.has("--json") => self.json(),
            _ if request.has("--html") => self.page(),
            (Searched::Unambiguous { certificate, size, .. }, ..) => {
                lines::written(self.grammar, *callers, *size, certificate, form_asked(request, *states))
            }
            (Searched::Potential { .. }, Some(explanation), Some(witness)) => {
                let steps = match request.has("--steps") {
                    true => format!("\n{}", readings::told(self.grammar, witness, &explanation.steps)),
                    false => String::new(),
                };
                self.long_lines() + &tried(self.verdict) + &explanation.told(self.grammar) + &steps
            }
            (Searched::Potential { .. }, ..) => self.long_lines(),
        }
    }

    /// That a certificate holds with callers.
    fn note(&self) -> String {
        match self.verdict {
            Verdict { callers: 0, .. } => String::new(),
            Verdict { callers, searched: Searched::Unambiguous { .. }, .. } => {
                format!("{}: note: unambiguous with {} remembered\n", self.source.file, callers::counted(*callers))
            }
            Verdict { .. } => String::new(),
        }
    }

    /// The place of a potential verdict, and what is said there; of a text that was made of files, where both rules stand in them.
    fn headline(&self) -> String {
        let Some(explanation) = &self.explanation else { return String::new() };
        let (word, said) = explanation.headline(self.grammar);
        let (side, other) = explanation.parting.sides();
        let place = |rule: usize| {
            let line = words::line_of_rule(rule);
            (line, words::key(line).len() + 1)
        };
        let (line, column) = place(side.rule);
        let headline = refusals::message(self.source.file, line, column, word, &said.replace('`', "'"));
        let Some(origin) = self.source.origin else { return headline };
        let mut rules = vec![side.rule, other.rule];
        rules.retain(|rule| *rule > 0);
        rules.dedup();
        let note = |rule: usize| {
            let (line, column) = place(rule);
            let said = format!("this is line {line} of the joined text");
            let Place { file, line, column } = origin(line, column);
            refusals::message(&file, line, column, "note", &said)
        };
        headline + &rules.into_iter().map(note).collect::<String>()
    }

    /// The warnings, at their places in files.
    fn warned(&self) -> String {
        let Some(origin) = self.source.origin else { return warnings::told(self.source.file, self.warnings) };
        let said = |told: &Told| {
            let Place { file, line, column } = origin(told.line, told.column);
            refusals::message(&file, line, column, "warning", &told.message)
        };
        self.warnings.iter().map(said).collect()
    }

    fn status(&self) -> Status {
        match &self.explanation {
            _ if self.verdict.is_unambiguous() => Status::Yes,
            Some(Explanation { found: Found::Two(..), .. }) => Status::No,
            _ => Status::Potential,
        }
    }
}

/// The lines that the program `ambig` prints for the verdict of a text; where callers are remembered, one more.
pub fn lines(text: &[u8], grammar: &Grammar, verdict: &Verdict) -> String {
    let Verdict { callers, states, searched, .. } = verdict;
    let head = format!("states={states}\n{}", callers::line(*callers));
    match searched {
        Searched::Unambiguous { size, .. } => format!("{head}verdict=unambiguous\nreached={size}\n"),
        Searched::Potential { .. } => format!("{head}verdict=potential\n{}", two_strings(text, grammar, verdict)),
    }
}

/// The two lines of a potential verdict.
fn two_strings(text: &[u8], grammar: &Grammar, verdict: &Verdict) -> String {
    let witness = verdict.witness.as_ref();
    witness.map_or(String::new(), |witness| strings::printed(text, grammar, witness))
}

/// With how many callers a verdict is potential, and with how many there are too many states.
pub fn tried(verdict: &Verdict) -> String {
    let line = |key: &str, numbers: &[usize]| match numbers {
        [] => String::new(),
        numbers => format!("{key}={}\n", callers::listed(numbers)),
    };
    line("tried", &verdict.tried) + &line("too-many-states", &verdict.too_many_states)
}

/// The form of a certificate that is asked for, or the usual one.
fn form_asked(request: &Request, states: usize) -> Form {
    let forms = [("--form=1", Form::Plain), ("--form=2", Form::Checked), ("--form=3", Form::Runs)];
    forms.into_iter().find(|(option, _)| request.has(option)).map_or(Form::usual(states), |(_, form)| form)
}

/// The callers that are asked for, if any are.
fn callers_asked(request: &Request) -> Option<usize> {
    ["--callers=0", "--callers=1", "--callers=2"].iter().position(|option| request.has(option))
}

/// Few lines are asked for, and no messages.
fn is_quiet(request: &Request) -> bool {
    request.has("--quiet") || request.has("--looked")
}

fn refused(request: &Request, Source { file, text, .. }: Source, refusal: Refusal) -> Answer {
    let out = if is_quiet(request) {
        refusals::numbers(refusal)
    } else if request.has("--json") {
        json::refused(file, refusal, &diagnosis::of(text, refusal))
    } else {
        String::new()
    };
    let err = if out.is_empty() { refusals::of_text(file, text, refusal) } else { String::new() };
    Answer { status: Status::Refused, out, err }
}

/// Callers that are asked for have too many states: the text has no place for that.
fn unfit(request: &Request, file: &str, callers: usize, refusal: Refusal) -> Answer {
    let message = callers::refused(callers, refusal);
    let (out, err) = match request {
        _ if is_quiet(request) => (refusals::numbers(refusal), String::new()),
        _ if request.has("--json") => (json::unfit(file, callers, refusal, &message), String::new()),
        _ => (String::new(), format!("{file}: error: {message} ({refusal})\n")),
    };
    Answer { status: Status::Refused, out, err }
}

/// What is said of a text, as the options ask for it.
pub fn judged(request: &Request, source: Source) -> Answer {
    let grammar = match Grammar::read(source.text) {
        Ok(grammar) => grammar,
        Err(refusal) => return refused(request, source, refusal),
    };
    let asked = callers_asked(request);
    let verdict = match callers::verdict(&grammar, asked) {
        Ok(verdict) => verdict,
        Err(refusal) => return unfit(request, source.file, asked.unwrap_or(0), refusal),
    };
    let (states, form) = (verdict.states, form_asked(request, verdict.states));
    if verdict.is_unambiguous() && !form.has(states) {
        let (file, form) = (source.file, form as usize);
        let with = if verdict.callers > 0 { format!(" with {}", callers::counted(verdict.callers)) } else { String::new() };
        return Answer::misuse(&format!(
            "{file}: error: form {form} has at most {MOST_STATES} states; the grammar has {states}{with}"
        ));
    }
    let warnings = warnings::of(&grammar);
    let explained = verdict.witness.as_ref().filter(|_| !is_quiet(request));
    let explanation = explained.map(|witness| explanation::of(&grammar, witness));
    let judged = Judged { source, grammar: &grammar, verdict: &verdict, warnings: &warnings, explanation };
    let counts = request.has("-Werror") && !warnings.is_empty();
    let silent = is_quiet(request) || request.has("--json");
    let said = if counts || !silent { judged.warned() } else { String::new() };
    let headline = if silent { String::new() } else { judged.headline() + &judged.note() };
    Answer {
        status: if counts { Status::Refused } else { judged.status() },
        out: judged.printed(request),
        err: said + &headline,
    }
}

#[cfg(test)]
mod tests {
    use super::*;
    use crate::confirmation::Counted;

    /// A sentence that the library's entry does not confirm is called ambiguous nowhere: not by the status, in lines, in JSON or on the page.
    #[test]
    fn what_is_denied_is_potential() {
        let text = b"terminals=a\nnonterminals=S\nrule=S: S\nrule=S: a\n";
        let grammar = Grammar::read(text).unwrap();
        let verdict = callers::verdict(&grammar, None).unwrap();
        let source = Source { file: "cycle", text, origin: None };
        let judged = |counted: Counted| {
            let explanation = explanation::of_counted(&grammar, verdict.witness.as_ref().unwrap(), &|_| counted.clone());
            Judged { source, grammar: &grammar, verdict: &verdict, warnings: &[], explanation: Some(explanation) }
        };
        let said = |judged: &Judged| [judged.headline(), judged.json(), judged.page()].concat();
        let confirmed = judged(Counted::Several);
        assert_eq!(confirmed.status(), Status::No);
        for word in ["cycle:3:6: ambiguous: ", "\"verdict\":\"ambiguous\"", "\"confirmed\":true", "<strong>Ambiguous</strong>"]
        {
            assert!(said(&confirmed).contains(word), "{word}");
        }
        assert!(confirmed
            .page()
            .contains("<br/>Confirmed: the proved entry find_trees finds several trees of this sentence.\n"));
        for (counted, word) in [(Counted::None, "none"), (Counted::One, "one")] {
            let denied = judged(counted);
            assert_eq!(denied.status(), Status::Potential);
            let json = format!("\"denied\":{{\"sentence\":[\"a\"],\"trees\":\"{word}\"}}");
            for word in [
                "cycle:3:6: potential: ",
                "\"verdict\":\"potential\"",
                &json,
                "<strong>Potentially ambiguous</strong>",
                "find_trees answers",
            ] {
                assert!(said(&denied).contains(word), "{word}");
            }
            assert!(!said(&denied).contains("mbiguous: ") && !said(&denied).contains("<svg"), "{}", said(&denied));
        }
    }
}
