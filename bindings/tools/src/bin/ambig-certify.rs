//! Searches grammars: prints a certificate as lines, or explains why the verdict is potential; both also as a page.

use std::ffi::OsString;
use std::process::ExitCode;

use ambig_tools::certify::{self, Source};
use ambig_tools::command::{self, Answer, Request, Status, Tool};
use ambig_tools::{fix, refusals};
use ambiguity::{Grammar, MAX_TEXT_BYTES};

const TOOL: Tool = Tool {
    name: "ambig-certify",
    usage: "ambig-certify [OPTION]... [--] FILE...",
    help: "
Reads grammar text from each FILE, standard input for -. If the verdict is
unambiguous, no sentence has two derivation trees: prints the certificate as
lines that ambig-check reads. If the verdict is potential: prints two strings
as ambig does, looks for a phrase with two trees, and tells where two readings
part; of a sentence that is called ambiguous the proved library confirms, up to
64 terminals, that it has several trees. What is refused, the place of a
potential verdict, and warnings about rules and names that no sentence uses, go
to standard error.

A state may remember the callers of its rule: at 0 none, which is tried first,
then 1 and 2, where the states fit, until the verdict is unambiguous. A
certificate with callers has a line callers=. A potential verdict has a line
tried=, and too-many-states= where the states do not fit; its two strings are
those at 0.

  --callers M    ask with M callers alone, 0, 1 or 2

  --steps        print the witness too, entry by entry
  --looked       print the lines of --quiet, and looked=, the number of
                 successors that the search looked at
  --json         print one line of JSON for each FILE
  --fix          judge nothing: print FILE as grammar text, and tell what was
                 changed; takes slips of editors, BNF, EBNF and bison (one FILE)
  --html         write one page in HTML, with the trees as drawings (one FILE)
  --form=1       print the certificate without check digits
  --form=2       print it with check digits (this is the default up to 512
                 states; above, there is form 3 alone)
  --form=3       print it with check digits, and runs of zeros by their length
  -Werror        let warnings count as a refusal in the exit status
  -q, --quiet    print only the lines that the program ambig prints, and look
                 for no trees
  -h, --help     print this help
  -V, --version  print the version

Exit status: 0 unambiguous, 1 ambiguous (two trees were found), 2 bad use, or a
file that cannot be read or written, 3 potential (no trees were found, or
--quiet), 4 refused. Of several files the worst: 2, then 4, 1, 3, 0.
",
    options: &[
        "--callers=0",
        "--callers=1",
        "--callers=2",
        "--steps",
        "--looked",
        "--json",
        "--fix",
        "--html",
        "--form=1",
        "--form=2",
        "--form=3",
        "-Werror",
        "--quiet",
    ],
    numbered: &[("--callers", "0, 1 or 2")],
    exclusive: &[
        &["--fix", "--callers=0", "--callers=1", "--callers=2"],
        &["--html", "--json", "--fix", "--quiet", "--steps"],
        &["--html", "--json", "--fix", "--looked", "--steps"],
        &["--html", "--json", "--fix", "--quiet", "--form=1", "--form=2", "--form=3"],
        &["--fix", "-Werror"],
        &["--looked", "--form=1", "--form=2", "--form=3"],
    ],
    single: &["--html", "--fix"],
    bare: &["--json"],
    needs: &[],
    files: 1,
    once: false,
    spare: false,
};

/// Bytes of a text that is to be fixed: one for people may have comments and code.
const MAX_FIXED_BYTES: usize = 4 * MAX_TEXT_BYTES;

/// A text as grammar text, and what was changed; what is still refused is told too.
fn fixed(file: &str, text: &[u8]) -> Answer {
    if text.len() > MAX_FIXED_BYTES {
        return Answer::misuse(&format!("{file}: error: more than {MAX_FIXED_BYTES} bytes; that is the limit"));
    }
    let fixed = match fix::fixed(text) {
        Ok(fixed) => fixed,
        Err(fault) => {
            let err = refusals::message(file, fault.line, fault.column, "error", &fault.message);
            return Answer { status: Status::Refused, out: String::new(), err };
        }
    };
    let told = |note: &fix::Note| refusals::message(file, note.line, 1, "note", &note.message);
    let mut err: String = fixed.notes.iter().map(told).collect();
    if fixed.text.as_bytes() == text {
        err = format!("{file}: note: nothing is changed\n");
    }
    let status = match Grammar::read(fixed.text.as_bytes()) {
        Ok(_) => Status::Yes,
        Err(refusal) => {
            err += &refusals::of_text("<printed>", fixed.text.as_bytes(), refusal);
            Status::Refused
        }
    };
    Answer { status, out: fixed.text, err }
}

fn answer(request: &Request, files: &[OsString]) -> Answer {
    if request.has("--fix") {
        return match command::bytes(&files[0], MAX_FIXED_BYTES) {
            Ok(text) => fixed(&command::shown(&files[0]), &text),
            Err(misuse) => misuse,
        };
    }
    match command::bytes(&files[0], MAX_TEXT_BYTES) {
        Ok(text) => certify::judged(request, Source { file: &command::shown(&files[0]), text: &text, origin: None }),
        Err(misuse) => misuse,
    }
}

fn main() -> ExitCode {
    command::run(&TOOL, answer)
}
