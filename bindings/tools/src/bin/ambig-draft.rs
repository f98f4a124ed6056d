//! A grammar is edited line by line, with marks to return to, and judged on the way.

use std::ffi::OsString;
use std::io::{self, BufRead, IsTerminal, Read, Write};
use std::process::ExitCode;

use ambig_tools::command::{self, Answer, Request, Status, Tool};
use ambig_tools::drafts::{Session, Turn, INPUT, MOST_BYTES};
use ambig_tools::refusals;
use ambiguity::MAX_TEXT_BYTES;

const TOOL: Tool = Tool {
    name: "ambig-draft",
    usage: "ambig-draft [OPTION]... [--] [GRAMMAR]",
    help: "
Edits a grammar: reads commands from standard input, one on each line. The draft
begins from the grammar text in GRAMMAR, which may lack sentences; if GRAMMAR is
left out, or -, from the commands terminals and nonterminals, without rules.
Names are taken in any case. A line without words does nothing; so does one that
begins with #. Lines of grammar text are taken as commands too: 'rule=S: a' adds
a rule.

  terminals a b    declare the terminals, before all else if no GRAMMAR is named
  nonterminals S T declare the nonterminals, the start first: the draft begins
  add S -> a S b   add a rule behind the last one; also 'add S: a S b'
  withdraw 3       withdraw rule 3; later rules move down by one number
  mark 1           keep the rules under mark 1; marks are 1 to 8
  return 1         bring the rules of mark 1 back; all marks stay
  list             print the rules with their numbers
  names            print the names that are declared
  marks            print which marks are set, and how many rules each keeps
  judge            print the verdict, with 0, 1 or 2 callers remembered
  text             print the draft as grammar text
  write FILE       write the draft as grammar text to FILE
  help             print these lines
  quit             end; so does the end of the input

What is refused goes to standard error, with the line of the input, the number
of the cause and what to do; it changes nothing, and the session goes on.

  -q, --quiet    print only what is asked for: nothing for a step that is done,
                 for judge the lines that the program ambig prints; for what is
                 refused the lines line=, refused= and at=, or 'malformed'
  -h, --help     print this help
  -V, --version  print the version

Exit status: 0 every line was followed, 2 bad use, or a file that cannot be read
or written, 4 GRAMMAR or a line was refused. Verdicts do not count.
",
    options: &["--quiet"],
    numbered: &[],
    exclusive: &[],
    single: &[],
    bare: &[],
    needs: &[],
    files: 1,
    once: true,
    spare: true,
};

const PROMPT: &str = "draft> ";

/// The next line without its end; none behind the last. Of one that is too long only its front is kept.
fn next_line(input: &mut impl BufRead) -> io::Result<Option<Vec<u8>>> {
    let mut line = Vec::new();
    input.by_ref().take(MOST_BYTES as u64 + 2).read_until(b'\n', &mut line)?;
    if line.is_empty() {
        return Ok(None);
    }
    let mut rest = Vec::new();
    while line.last() != Some(&b'\n') && rest.last() != Some(&b'\n') {
        rest.clear();
        if input.by_ref().take(MOST_BYTES as u64).read_until(b'\n', &mut rest)? == 0 {
            break;
        }
    }
    if line.last() == Some(&b'\n') {
        line.pop();
    }
    Ok(Some(line))
}

/// Follows the lines of standard input; each is answered before the next one is read.
fn followed(session: &mut Session, prompts: bool) -> Status {
    let mut input = io::stdin().lock();
    let mut status = Status::Yes;
    for number in 1.. {
        if prompts {
            let _ = write!(io::stderr(), "{PROMPT}");
        }
        let line = match next_line(&mut input) {
            Ok(Some(line)) => line,
            Ok(None) => {
                if prompts {
                    let _ = writeln!(io::stderr());
                }
                break;
            }
            Err(error) => {
                let misuse = command::said(Answer::misuse(&format!("{INPUT}: error: {error}")));
                return status.worse(misuse);
            }
        };
        let Turn { answer, ends } = session.answer(number, &line);
        let own = answer.status;
        let said = command::said(answer);
        status = status.worse(said);
        // Output that fails once would fail for each line.
        if ends || own != said {
            break;
        }
    }
    status
}

fn answer(request: &Request, files: &[OsString]) -> Answer {
    let quiet = request.has("--quiet");
    let prompts = !quiet && io::stdin().is_terminal();
    let ended = |status: Status| Answer { status, out: String::new(), err: String::new() };
    if files[0] == "-" {
        return ended(followed(&mut Session::new(quiet), prompts));
    }
    let file = command::shown(&files[0]);
    let text = match command::bytes(&files[0], MAX_TEXT_BYTES) {
        Ok(text) => text,
        Err(misuse) => return misuse,
    };
    match Session::of_text(&file, &text, quiet) {
        Ok((mut session, out)) => {
            let begun = command::said(Answer { status: Status::Yes, out, err: String::new() });
            if begun != Status::Yes {
                return ended(begun);
            }
            ended(followed(&mut session, prompts))
        }
        Err(refusal) if quiet => Answer { status: Status::Refused, out: refusals::numbers(refusal), err: String::new() },
        Err(refusal) => Answer { status: Status::Refused, out: String::new(), err: refusals::of_text(&file, &text, refusal) },
    }
}

fn main() -> ExitCode {
    command::run(&TOOL, answer)
}
