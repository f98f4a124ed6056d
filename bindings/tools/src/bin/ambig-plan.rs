//! Reads methods of the eight-channel command set to their plans, or says where they go wrong.

use std::ffi::OsString;
use std::process::ExitCode;

use ambig_tools::command::{self, Answer, Request, Tool};
use ambig_tools::{answers, plans, rows};

const TOOL: Tool = Tool {
    name: "ambig-plan",
    usage: "ambig-plan [OPTION]... [--] [METHODS]",
    help: "
Reads methods of the eight-channel command set from METHODS, standard input if
it is left out or -. A method is a line: the words take, vol, give, repeat, num,
close, ch and sep, in any case, with spaces between them, at most 64. A line
without words is the empty method; a line that begins with # is a comment.

Says of each method 'one' or 'none', and with 'one' prints its plan: its only
derivation tree, a line for each rule with its number, and the words as leaves.
A method never has two plans. With 'none' a line says where the method goes
wrong: behind the longest front that some method begins with, and what is
expected there. What is refused goes to standard error, with file, line and
column. These are the rules:

  1  P:                      a plan is empty,
  2  P: P K                  or a plan and a command
  3  K: take L vol
  4  K: give L vol
  5  K: repeat num P close
  6  L: ch                   a list of channels
  7  L: L sep ch

  --html         write one page in HTML, with the plans as drawings, the rules
                 and their certificate
  --json         print one line of JSON for each method
  -q, --quiet    print only the lines line= and trees=, with 'one' the line
                 rules=, each node before its children, with 'none' the line
                 fault=, the words before the fault; or refused= and at=
  -h, --help     print this help
  -V, --version  print the version

Exit status: 0 every method has a plan, 2 bad use, or a file that cannot be read
or written, 3 one has none, 4 a method is refused. Of several methods the worst:
4, then 3, 0.
",
    options: &["--html", "--json", "--quiet"],
    numbered: &[],
    exclusive: &[&["--html", "--json", "--quiet"]],
    single: &[],
    bare: &[],
    needs: &[],
    files: 1,
    once: true,
    spare: true,
};

fn answer(request: &Request, files: &[OsString]) -> Answer {
    let file = command::shown(&files[0]);
    let text = match command::bytes(&files[0], rows::MOST_BYTES) {
        Ok(text) => text,
        Err(misuse) => return misuse,
    };
    let grammar = plans::grammar();
    match answers::sentences(&grammar, &plans::METHODS, &file, &text) {
        Ok(methods) => {
            let answers = plans::of(&grammar, methods);
            answers::all_said(request, &grammar, &file, &answers, || plans::page(&grammar, &file, &answers))
        }
        Err(misuse) => misuse,
    }
}

fn main() -> ExitCode {
    command::run(&TOOL, answer)
}
