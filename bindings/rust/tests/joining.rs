//! Joins that were worked out by hand: a heating module and the robot's grammar, the limits of the joined text, each refusal with the
//! text that it is about, and names as parts of the texts.

mod support;

use ambiguity::{join, join_texts, joined_name, joined_text, write_joined, Cause, Code, Grammar, JoinPart, JoinRefusal};
use ambiguity::{Read, Refusal, Searched, MAX_NAMES, MAX_RULES, MAX_STATES, MAX_TABLE_ENTRIES, MAX_TERMINALS, MAX_TEXT_BYTES};
use support::{Lent, A, B, S};

const ROBOT: &str = "\
terminals=take,Vol
nonterminals=Method,Step
rule=Method:
rule=Method: Method step
rule=Step: take vol
";

/// It declares what it uses, in its own order and spelling; one rule is the robot's, and `Method` has no rule, so that there is no
/// sentence.
const MODULE: &str = "\
terminals=heat,VOL,Take,hold
nonterminals=method,STEP,Warm
rule=step: TAKE Vol
rule=Step: Warm VOL
rule=WARM: heat
rule=STEP: Hold method
";

const JOINED: &str = "\
terminals=take,Vol,heat,hold
nonterminals=Method,Step,Warm
rule=Method:
rule=Method: Method Step
rule=Step: take Vol
rule=Step: Warm Vol
rule=Warm: heat
rule=Step: hold Method
";

const JOINED_RULES: [Code; 21] = [S, 0, S, 2, S, A, A, 2, 1, 2, A, 2, B, 2, B, 1, 3, A, 2, 4, S];

fn refused<T>(part: JoinPart, cause: Cause, at: usize) -> Result<T, JoinRefusal> {
    Err(JoinRefusal { part, refusal: Refusal { cause, at } })
}

/// The refusal of all three functions that refuse; the name of symbol 0 is then empty, and nothing that is lent changes.
fn expect_refused(robot: &str, module: &str, part: JoinPart, cause: Cause, at: usize) {
    let (robot, module) = (robot.as_bytes(), module.as_bytes());
    let mut table = Lent::new(&[7; MAX_TABLE_ENTRIES], 9);
    let mut out = Lent::new(&vec![7; MAX_TEXT_BYTES], 9);
    assert_eq!(join_texts(robot, module, table.row_mut()), refused(part, cause, at));
    assert_eq!(write_joined(robot, module, out.row_mut()), refused(part, cause, at));
    assert!(table.kept() && out.kept());
    assert_eq!(join(robot, module), refused(part, cause, at));
    assert_eq!(joined_text(robot, module), refused(part, cause, at));
    assert_eq!(joined_name(robot, module, 0), b"");
    // A refusal comes before 14.
    assert_eq!(join_texts(robot, module, &mut []), refused(part, cause, at));
}

#[test]
fn a_heating_module() {
    assert_eq!(Grammar::read(MODULE.as_bytes()).unwrap_err().cause, Cause::NoSentence);
    let mut table = Lent::new(&[7; 30], 9);
    let read = join_texts(ROBOT.as_bytes(), MODULE.as_bytes(), table.row_mut());
    assert_eq!(read, Ok(Read { terminals: 4, nonterminals: 3, entries: 21, states: 19 }));
    assert!(table.row()[..21] == JOINED_RULES && table.kept_past(21));
    assert_eq!(joined_text(ROBOT.as_bytes(), MODULE.as_bytes()).as_deref(), Ok(JOINED));
    let grammar = join(ROBOT.as_bytes(), MODULE.as_bytes()).unwrap();
    assert_eq!(grammar, Grammar::read(JOINED.as_bytes()).unwrap());
    assert_eq!((grammar.table().rules, grammar.states()), (&JOINED_RULES[..], 19));
    // The robot's grammar is unambiguous. In the joined one what is held has no end: a further step is inside or behind.
    let verdict = |grammar: &Grammar| matches!(grammar.search(0), Ok(Searched::Unambiguous { .. }));
    assert!(verdict(&Grammar::read(ROBOT.as_bytes()).unwrap()) && !verdict(&grammar));
}

/// Names are compared without case, and shown as the robot declares them.
#[test]
fn rules_and_names_that_are_there() {
    let again = ROBOT.to_ascii_uppercase().replace("TERMINALS=", "terminals=").replace("NONterminals=", "nonterminals=");
    let again = again.replace("RULE=", "rule=");
    assert_eq!(Grammar::read(again.as_bytes()).unwrap().rules().len(), 3);
    let declared = ROBOT.replace("Method step", "Method Step").replace("take vol", "take Vol");
    for module in [ROBOT, &again] {
        assert_eq!(joined_text(ROBOT.as_bytes(), module.as_bytes()).as_ref(), Ok(&declared));
    }
    assert_eq!(joined_text(again.as_bytes(), ROBOT.as_bytes()).as_ref(), Ok(&again));
}

/// Lent just the entries of the table, or the bytes of the text, it is joined; lent one less it is refused with 14, and names are shown
/// all the same.
#[test]
fn lent_less() {
    let (robot, module) = (ROBOT.as_bytes(), MODULE.as_bytes());
    let too_short = (JoinPart::Join, Cause::BufferTooShort, 0);
    for (entries, joined) in [(21, true), (22, true), (20, false), (0, false)] {
        let mut table = Lent::new(&vec![7; entries], 9);
        let answer = join_texts(robot, module, table.row_mut()).map(|read| read.entries);
        assert_eq!(answer, if joined { Ok(21) } else { refused(too_short.0, too_short.1, too_short.2) });
        assert!(table.kept_past(if joined { 21 } else { 0 }));
    }
    for (bytes, joined) in [(JOINED.len(), true), (JOINED.len() + 9, true), (JOINED.len() - 1, false), (0, false)] {
        let mut out = Lent::new(&vec![7; bytes], 9);
        let answer = write_joined(robot, module, out.row_mut());
        assert_eq!(answer, if joined { Ok(JOINED.len()) } else { refused(too_short.0, too_short.1, too_short.2) });
        assert!(out.kept_past(if joined { JOINED.len() } else { 0 }));
    }
    assert_eq!(joined_name(robot, module, 2), b"heat");
}

/// Where a part of a text stands in it; none if it is no part of it.
fn place(text: &str, part: &[u8]) -> Option<usize> {
    let (text, part) = (text.as_bytes().as_ptr_range(), part.as_ptr_range());
    (text.start <= part.start && part.end <= text.end).then(|| part.start as usize - text.start as usize)
}

/// Each name lies in the text that declares it, at its declaration; that of both texts lies in the robot's.
#[test]
fn names_are_parts_of_the_texts() {
    let shown = |symbol| joined_name(ROBOT.as_bytes(), MODULE.as_bytes(), symbol);
    let of_robot = [(0, "take", 10), (1, "Vol", 15), (4, "Method", 32), (5, "Step", 39)];
    for (symbol, name, start) in of_robot {
        assert_eq!((shown(symbol), place(ROBOT, shown(symbol))), (name.as_bytes(), Some(start)));
        assert_eq!(place(MODULE, shown(symbol)), None);
    }
    let of_module = [(2, "heat", 10), (3, "hold", 24), (6, "Warm", 54)];
    for (symbol, name, start) in of_module {
        assert_eq!((shown(symbol), place(MODULE, shown(symbol))), (name.as_bytes(), Some(start)));
        assert_eq!(place(ROBOT, shown(symbol)), None);
    }
    for symbol in [7, 8, MAX_NAMES, 1 << 16, 1 << 32, (1 << 32) + 2, usize::MAX] {
        assert_eq!(shown(symbol), b"", "{symbol}");
    }
}

/// A part lives as long as the texts, and not as long as what is done with it.
#[test]
fn a_part_outlives_the_call() {
    fn longest<'a>(robot: &'a [u8], module: &'a [u8]) -> &'a [u8] {
        (0..7).map(|symbol| joined_name(robot, module, symbol)).max_by_key(|name| name.len()).unwrap()
    }
    assert_eq!(longest(ROBOT.as_bytes(), MODULE.as_bytes()), b"Method");
}

/// Each fault of a text, in the robot's and in the module's; the module alone may lack sentences.
#[test]
fn faults_of_either_text() {
    let rules = |count: usize| (0..count).map(|i| format!("rule=S: {}\n", vec!["a"; i % 12 + 1].join(" "))).collect::<String>();
    let list = |count: usize| (0..count).map(|i| format!("b{i}")).collect::<Vec<_>>().join(",");
    let lists = "terminals=a\nnonterminals=S\n";
    let long = "rule=S: a\n".repeat(30_000);
    let many: String = (0..=MAX_RULES).map(|i| format!("rule=S: b{i}\n")).collect();
    let wide: String = (0..80).map(|i| format!("rule=S: b{i}{}\n", " a".repeat(11))).collect();
    let faults = [
        (String::new(), Cause::Malformed, 1),
        (format!("{lists}rule=S: a"), Cause::Malformed, 3),
        (long, Cause::Malformed, 0),
        (format!("{lists}rule=S: b\n"), Cause::NameUnknown, 3),
        ("terminals=a,A\nnonterminals=S\nrule=S: a\n".to_string(), Cause::NameRepeated, 1),
        ("terminals=a\nnonterminals=S,A\nrule=S: a\n".to_string(), Cause::NameRepeated, 2),
        (format!("terminals={}\nnonterminals=S\n", list(MAX_TERMINALS + 1)), Cause::OutOfRange, 1),
        ("terminals=a\nnonterminals=\n".to_string(), Cause::OutOfRange, 2),
        (format!("{lists}rule=S: {}\n", vec!["a"; 13].join(" ")), Cause::RuleTooLong, 3),
        (format!("{lists}{}", rules(13)), Cause::RuleRepeated, 102),
        (format!("terminals={}\nnonterminals=S\n{many}", list(MAX_RULES + 1)), Cause::TooManyRules, 1_200),
        (format!("terminals=a,{}\nnonterminals=S\n{wide}", list(80)), Cause::TooManyStates, 1_092),
    ];
    for (text, cause, at) in &faults {
        for module in [MODULE, ROBOT, ""] {
            expect_refused(text, module, JoinPart::Robot, *cause, *at);
        }
        expect_refused(ROBOT, text, JoinPart::Module, *cause, *at);
    }
    let endless = "terminals=\nnonterminals=Method\nrule=Method: Method\n";
    expect_refused(endless, ROBOT, JoinPart::Robot, Cause::NoSentence, 0);
    assert!(join(ROBOT.as_bytes(), endless.as_bytes()).is_ok());
    assert!(join(ROBOT.as_bytes(), b"terminals=\nnonterminals=Method\n").is_ok());
}

/// 20 at the module's first line that declares such a name, in any case; a fault of the module comes before it.
#[test]
fn names_of_two_kinds() {
    let clash = |terminals: &str, nonterminals: &str| format!("terminals={terminals}\nnonterminals={nonterminals}\n");
    for (module, at) in [
        (clash("Step", "Heat"), 1),
        (clash("heat,STEP", "Method"), 1),
        (clash("heat", "take"), 2),
        (clash("heat", "Method,VOL"), 2),
        (clash("method", "take"), 1),
    ] {
        expect_refused(ROBOT, &module, JoinPart::Join, Cause::KindsClash, at);
        expect_refused(ROBOT, &format!("{module}rule=x:\n"), JoinPart::Module, Cause::NameUnknown, 3);
    }
    // A name of both kinds in the module itself is its own fault.
    expect_refused(ROBOT, &clash("heat,step", "Heat"), JoinPart::Module, Cause::NameRepeated, 2);
}

/// Each limit of the joined text, just met and passed by one. What both texts have counts once.
#[test]
fn limits_of_the_joined_text() {
    let list = |front: &str, from: usize, to: usize| (from..to).map(|i| format!("{front}{i}")).collect::<Vec<_>>().join(",");
    let robot = format!("terminals={}\nnonterminals=S\nrule=S:\n", list("t", 0, 1_500));
    let module = |to: usize| format!("terminals={}\nnonterminals=S\n", list("T", 1_000, to));
    let joined = join(robot.as_bytes(), module(MAX_TERMINALS).as_bytes()).unwrap();
    assert_eq!((joined.terminals().len(), joined.terminals()[1_500].as_str()), (MAX_TERMINALS, "T1500"));
    expect_refused(&robot, &module(MAX_TERMINALS + 1), JoinPart::Join, Cause::OutOfRange, 1);

    let robot = format!("terminals=\nnonterminals={}\nrule=N0:\n", list("N", 0, 1_500));
    let module = |to: usize| format!("terminals=\nnonterminals={}\n", list("n", 1_000, to));
    assert_eq!(join(robot.as_bytes(), module(2_000).as_bytes()).unwrap().nonterminals().len(), 2_000);
    expect_refused(&robot, &module(2_001), JoinPart::Join, Cause::OutOfRange, 2);

    let rules = |from: usize, to: usize| {
        let lines: String = (from..to).map(|i| format!("rule=S: t{i}\n")).collect();
        format!("terminals={}\nnonterminals=S\n{lines}", list("t", 0, 401))
    };
    let joined = join(rules(0, 300).as_bytes(), rules(100, MAX_RULES).as_bytes()).unwrap();
    assert_eq!((joined.rules().len(), joined.states()), (MAX_RULES, 4 + 2 * MAX_RULES));
    expect_refused(&rules(0, 300), &rules(100, MAX_RULES + 1), JoinPart::Join, Cause::TooManyRules, 3 * MAX_RULES);

    // 78 rules of twelve symbols and one of five have 1,024 states.
    let wide = |from: usize, to: usize, last: usize| {
        let lines: String = (from..to).map(|i| format!("rule=S: t{i}{}\n", " t0".repeat(11))).collect();
        format!("terminals={}\nnonterminals=S\n{lines}rule=S:{}\n", list("t", 0, 80), " t1".repeat(last))
    };
    let joined = join(wide(0, 60, 0).as_bytes(), wide(60, 77, 5).as_bytes()).unwrap();
    assert_eq!(joined.states(), 4 + 77 * 13 + 1 + 6);
    let joined = join(wide(0, 60, 5).as_bytes(), wide(40, 78, 5).as_bytes()).unwrap();
    assert_eq!(joined.states(), MAX_STATES);
    // The robot's rule of five symbols stands before the module's; the one of six is the last.
    expect_refused(&wide(0, 60, 0), &wide(60, 78, 5), JoinPart::Join, Cause::TooManyStates, 78 * 14 + 2);
}
