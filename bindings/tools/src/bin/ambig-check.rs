//! Checks certificates that stand in lines against grammars, and pairs of strings that stand in lines.

use std::ffi::OsString;
use std::process::ExitCode;

use ambig_tools::command::{self, Answer, Request, Status, Tool};
use ambig_tools::strings::{self, Wrong};
use ambig_tools::{callers, lines, refusals};
use ambiguity::{Grammar, MAX_TEXT_BYTES};

const TOOL: Tool = Tool {
    name: "ambig-check",
    usage: "ambig-check [OPTION]... [--] GRAMMAR CERTIFICATE [GRAMMAR CERTIFICATE]...",
    help: "
Reads grammar text from GRAMMAR and the lines of ambig-certify from CERTIFICATE;
one of the files may be -, standard input. Says 'accepted' if the certificate is
acceptable: then no sentence of the grammar has two derivation trees. A
certificate that remembers callers has a line callers=, and the answer has it
too. Otherwise says on standard error what is wrong, in which file, line and
column.

With --lines the second file has the lines left= and right=, as ambig prints
them. Says 'accepted' if their strings part in the grammar: then its verdict is
potential.

  --lines        check the lines left= and right=, not a certificate
  -q, --quiet    print only 'accepted', or the lines refused= and at=, or
                 'malformed' (a certificate), or 'not-parting' (two strings)
  -h, --help     print this help
  -V, --version  print the version

Exit status: 0 accepted, 1 not accepted, 2 bad use, or a file that cannot be
read or written, 4 the grammar is refused. Of several pairs the worst: 2, then
4, 1, 0.
",
    options: &["--lines", "--quiet"],
    numbered: &[],
    exclusive: &[],
    single: &[],
    bare: &[],
    needs: &[],
    files: 2,
    once: false,
    spare: false,
};

/// Refused: numbers for scripts, or a message.
fn refused(request: &Request, numbers: String, message: String) -> Answer {
    let (out, err) = if request.has("--quiet") { (numbers, String::new()) } else { (String::new(), message) };
    Answer { status: Status::No, out, err }
}

/// What is accepted with so many callers; at 0 they are not told.
fn accepted(callers: usize) -> Answer {
    Answer { status: Status::Yes, out: format!("accepted\n{}", callers::line(callers)), err: String::new() }
}

fn judged_certificate(request: &Request, file: &str, grammar: &Grammar, certificate: &[u8]) -> Answer {
    let certificate = match lines::read(grammar, certificate) {
        Ok(certificate) => certificate,
        Err(malformed) => return refused(request, "malformed\n".to_string(), refusals::of_lines(file, &malformed)),
    };
    match grammar.check(certificate.callers, &certificate.bytes) {
        Ok(()) => accepted(certificate.callers),
        Err(refusal) => {
            let message = refusals::of_certificate(file, &certificate, refusal, grammar);
            refused(request, refusals::numbers(refusal), message)
        }
    }
}

fn judged_strings(request: &Request, file: &str, grammar: &Grammar, lines: &[u8]) -> Answer {
    if lines.len() > strings::MOST_BYTES {
        return Answer::misuse(&format!("{file}: error: more than {} bytes; that is the limit", strings::MOST_BYTES));
    }
    let strings = match grammar.read_back(lines) {
        Ok(strings) => strings,
        Err(refusal) => {
            let message = refusals::of_strings(file, grammar, lines, refusal);
            return refused(request, refusals::numbers(refusal), message);
        }
    };
    match strings::check(grammar, &strings) {
        Ok(()) => accepted(0),
        Err(Wrong::NotParting(fault)) => {
            refused(request, "not-parting\n".to_string(), refusals::of_not_parting(file, lines, &fault))
        }
        Err(Wrong::Row(refusal)) => refused(request, refusals::numbers(refusal), format!("{file}: error: {refusal:#}\n")),
    }
}

fn answer(request: &Request, files: &[OsString]) -> Answer {
    let most = if request.has("--lines") { strings::MOST_BYTES } else { lines::MOST_BYTES };
    let (text, lines) = match (command::bytes(&files[0], MAX_TEXT_BYTES), command::bytes(&files[1], most)) {
        (Ok(text), Ok(lines)) => (text, lines),
        (Err(misuse), _) | (_, Err(misuse)) => return misuse,
    };
    let [grammar_file, file] = [&files[0], &files[1]].map(|file| command::shown(file));
    match Grammar::read(&text) {
        Ok(grammar) if request.has("--lines") => judged_strings(request, &file, &grammar, &lines),
        Ok(grammar) => judged_certificate(request, &file, &grammar, &lines),
        Err(refusal) => {
            let message = refusals::of_text(&grammar_file, &text, refusal);
            Answer { status: Status::Refused, ..refused(request, refusals::numbers(refusal), message) }
        }
    }
}

fn main() -> ExitCode {
    command::run(&TOOL, answer)
}
