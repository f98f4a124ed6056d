//! Joins a module's grammar text to the robot's: prints the joined text, or goes on to its verdict.

use std::ffi::OsString;
use std::process::ExitCode;

use ambig_tools::certify::{self, Source};
use ambig_tools::command::{self, Answer, Request, Status, Tool};
use ambig_tools::joins::Pair;
use ambig_tools::refusals;
use ambiguity::{JoinRefusal, MAX_TEXT_BYTES};

const TOOL: Tool = Tool {
    name: "ambig-join",
    usage: "ambig-join [OPTION]... [--] ROBOT MODULE",
    help: "
Reads the robot's grammar text from ROBOT and a module's from MODULE; one of the
files may be -, standard input. Prints the joined text: the robot's lists, then
the names that the module adds, the robot's rules, then those of the module that
are not already there. The start is the robot's. The module declares each name
that it uses; it need not have a sentence of its own. What is refused goes to
standard error, with the file, line and column at fault.

  --certify      print no text but the verdict of it, as ambig-certify does
                 for a file
  --callers M    with --certify: ask with M callers remembered alone, 0, 1 or 2
  -q, --quiet    print the lines refused=, at= and part= for what is refused;
                 with --certify the lines that the program ambig prints
  -h, --help     print this help
  -V, --version  print the version

Exit status: 0 joined, 2 bad use, or a file that cannot be read or written, 4
refused. With --certify: 0 unambiguous, 1 ambiguous (two trees were found), 3
potential (no trees were found, or --quiet).
",
    options: &["--certify", "--callers=0", "--callers=1", "--callers=2", "--quiet"],
    numbered: &[("--callers", "0, 1 or 2")],
    exclusive: &[&["--callers=0", "--callers=1", "--callers=2"]],
    single: &[],
    bare: &[],
    needs: &[("--callers=0", "--certify"), ("--callers=1", "--certify"), ("--callers=2", "--certify")],
    files: 2,
    once: true,
    spare: false,
};

/// The name of the joined text in messages.
const JOINED: &str = "<joined>";

fn refused(request: &Request, pair: &Pair, refused: JoinRefusal) -> Answer {
    let (out, err) = match request.has("--quiet") {
        true => (format!("{}part={}\n", refusals::numbers(refused.refusal), refused.part), String::new()),
        false => (String::new(), refusals::of_join(pair, refused)),
    };
    Answer { status: Status::Refused, out, err }
}

fn joined(request: &Request, pair: &Pair) -> Answer {
    let text = match ambiguity::joined_text(pair.robot, pair.module) {
        Ok(text) => text,
        Err(refusal) => return refused(request, pair, refusal),
    };
    if !request.has("--certify") {
        return Answer { status: Status::Yes, out: text, err: String::new() };
    }
    let origin = |line: usize, column: usize| pair.place(text.as_bytes(), line, column);
    certify::judged(request, Source { file: JOINED, text: text.as_bytes(), origin: Some(&origin) })
}

fn answer(request: &Request, files: &[OsString]) -> Answer {
    let (robot, module) = match (command::bytes(&files[0], MAX_TEXT_BYTES), command::bytes(&files[1], MAX_TEXT_BYTES)) {
        (Ok(robot), Ok(module)) => (robot, module),
        (Err(misuse), _) | (_, Err(misuse)) => return misuse,
    };
    let [robot_file, module_file] = [&files[0], &files[1]].map(|file| command::shown(file));
    joined(request, &Pair { robot_file: &robot_file, robot: &robot, module_file: &module_file, module: &module })
}

fn main() -> ExitCode {
    command::run(&TOOL, answer)
}
