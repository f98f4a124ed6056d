//! Finds the derivation trees of sentences: none, the only one, which is printed, or several.

use std::ffi::OsString;
use std::process::ExitCode;

use ambig_tools::command::{self, Answer, Request, Status, Tool};
use ambig_tools::{answers, diagnosis, json, refusals, rows, trees_page};
use ambiguity::{Grammar, Refusal, MAX_TEXT_BYTES};

const TOOL: Tool = Tool {
    name: "ambig-trees",
    usage: "ambig-trees [OPTION]... [--] GRAMMAR [SENTENCES]",
    help: "
Reads grammar text from GRAMMAR and sentences from SENTENCES, standard input if
it is left out; one of the files may be -, standard input. A sentence is a line:
names of terminals, in any case, with spaces between them, at most 64. A line
without words is the empty sentence; a line that begins with # is a comment.

Says of each sentence 'none', 'one' or 'several': how many derivation trees it
has. With 'one' the tree is printed, a line for each rule with its number, and
the words as leaves. If GRAMMAR has a certificate, 'several' is never said. What
is refused goes to standard error, with file, line and column.

  --html         write one page in HTML, with the trees as drawings
  --json         print one line of JSON for each sentence
  -q, --quiet    print only the lines line= and trees=, with 'one' the line
                 rules=, each node before its children; or refused= and at=
  -h, --help     print this help
  -V, --version  print the version

Exit status: 0 every sentence has one tree, 1 one has several, 2 bad use, or a
file that cannot be read or written, 3 one has none, 4 the grammar or a sentence
is refused. Of several sentences the worst: 4, then 1, 3, 0.
",
    options: &["--html", "--json", "--quiet"],
    numbered: &[],
    exclusive: &[&["--html", "--json", "--quiet"]],
    single: &[],
    bare: &[],
    needs: &[],
    files: 2,
    once: true,
    spare: true,
};

/// A grammar's text that is refused.
fn refused(request: &Request, file: &str, text: &[u8], refusal: Refusal) -> Answer {
    let (out, err) = match request {
        _ if request.has("--quiet") => (refusals::numbers(refusal), String::new()),
        _ if request.has("--json") => (json::refused_sentence(file, refusal, &diagnosis::of(text, refusal)), String::new()),
        _ => (String::new(), refusals::of_text(file, text, refusal)),
    };
    Answer { status: Status::Refused, out, err }
}

fn answered(request: &Request, grammar: &Grammar, grammar_file: &str, file: &str, text: &[u8]) -> Answer {
    let sentences = match answers::sentences(grammar, &answers::SENTENCES, file, text) {
        Ok(sentences) => sentences,
        Err(misuse) => return misuse,
    };
    let answers = answers::of(grammar, sentences);
    answers::all_said(request, grammar, file, &answers, || trees_page::of(grammar, grammar_file, file, &answers))
}

/// The grammar is judged before the sentences are read, which may come from a keyboard.
fn answer(request: &Request, files: &[OsString]) -> Answer {
    let [grammar_file, file] = [&files[0], &files[1]].map(|file| command::shown(file));
    let text = match command::bytes(&files[0], MAX_TEXT_BYTES) {
        Ok(text) => text,
        Err(misuse) => return misuse,
    };
    let grammar = match Grammar::read(&text) {
        Ok(grammar) => grammar,
        Err(refusal) => return refused(request, &grammar_file, &text, refusal),
    };
    match command::bytes(&files[1], rows::MOST_BYTES) {
        Ok(sentences) => answered(request, &grammar, &grammar_file, &file, &sentences),
        Err(misuse) => misuse,
    }
}

fn main() -> ExitCode {
    command::run(&TOOL, answer)
}
