//! The library's answers on the second program's cases, for each of the fifteen entries: damaged, short and long inputs, each row lent
//! between guards, and any number of callers where an entry takes one; of a search all that it wrote is compared, the witness entry by
//! entry, and of lines read back every letter. What is
//! told beforehand is compared, and held to every search and every text that is written, and to how much a search looked at. What is read
//! is written again, and lines that are read back are printed again, with the declared spelling of names. A joined table is the reader's
//! for the joined text, and the name shown for a symbol lies in the text that is said.

mod support;

use ambiguity::{certificate_bytes, row_entries, Cause, Code, Grammar, Letter, Names, Part, PartRefusal, Refusal, Strings};
use ambiguity::{JoinPart, JoinRefusal, Room, Table, TripleRecord, Verdict};
use std::collections::HashSet;
use support::{all_steps, lent_room, refused, Cases, Comparison, Lent};

/// The causes of a table that is refused, and where callers are remembered.
const TABLE_CAUSES: [usize; 9] = [1, 2, 3, 4, 5, 6, 7, 8, 19];
const CALLERS_CAUSES: [usize; 10] = [1, 2, 3, 4, 5, 6, 7, 8, 19, 21];

fn whole(line: &str) -> &str {
    line
}

/// The columns of the checked grammar stay in the library.
fn without_columns(line: &str) -> &str {
    line.split(" offsets=").next().unwrap()
}

fn line_of(answer: Result<String, Refusal>) -> String {
    answer.unwrap_or_else(|refusal| refusal.to_string())
}

fn joined<T: ToString>(row: &[T]) -> String {
    row.iter().map(T::to_string).collect::<Vec<_>>().join(",")
}

fn hex(bytes: &[u8]) -> String {
    bytes.iter().map(|byte| format!("{byte:02x}")).collect()
}

fn half(guard: u8) -> Code {
    Code::from_le_bytes([guard; 2])
}

fn word(guard: u8) -> u32 {
    u32::from_le_bytes([guard; 4])
}

/// Asks about the next table of the file, which is only looked at.
fn with_table<A>(cases: &mut Cases, guard: u8, ask: impl FnOnce(&mut Cases, Table) -> A) -> A {
    let (terminals, nonterminals, rules) = cases.table();
    let rules = Lent::new(&rules, half(guard));
    let answer = ask(cases, Table { terminals, nonterminals, rules: rules.row() });
    assert!(rules.kept());
    answer
}

/// The same, with how many callers are remembered: behind the table, in eight bytes.
fn with_callers<A>(cases: &mut Cases, guard: u8, ask: impl FnOnce(&mut Cases, Table, usize) -> A) -> A {
    with_table(cases, guard, |cases, table| {
        let callers = cases.long();
        ask(cases, table, callers)
    })
}

fn table_line(cases: &mut Cases, guard: u8) -> String {
    let answer = with_table(cases, guard, |_, table| ambiguity::check_table(table));
    line_of(answer.map(|states| format!("passed states={states}")))
}

fn step_line(cases: &mut Cases, guard: u8) -> String {
    with_callers(cases, guard, |cases, table, callers| {
        let (layer, left, right) = (cases.number(), cases.number(), cases.number());
        line_of(all_steps(table, callers, layer, left, right))
    })
}

fn certificate_line(cases: &mut Cases, guard: u8) -> String {
    with_callers(cases, guard, |cases, table, callers| {
        let certificate = Lent::new(&cases.bytes(), guard);
        let answer = ambiguity::check_certificate(table, callers, certificate.row());
        assert!(certificate.kept());
        line_of(answer.map(|()| "accepted".to_string()))
    })
}

fn witness_line(cases: &mut Cases, guard: u8) -> String {
    with_callers(cases, guard, |cases, table, callers| {
        let row = Lent::new(&cases.words(), word(guard));
        let answer = ambiguity::check_witness(table, callers, row.row());
        assert!(row.kept());
        line_of(answer.map(|()| "accepted".to_string()))
    })
}

fn record_line(cases: &mut Cases, guard: u8) -> String {
    with_callers(cases, guard, |cases, table, callers| {
        let number = word(guard);
        let records = Lent::new(&cases.records(), TripleRecord { layer: number, left: number, right: number });
        let answer = ambiguity::check_witness_records(table, callers, records.row());
        assert!(records.kept());
        line_of(answer.map(|()| "accepted".to_string()))
    })
}

/// What is lent to the search, and what it leaves there.
struct Searched {
    certificate: Lent<u8>,
    queue: Lent<u32>,
    parents: Lent<u32>,
    witness: Lent<u32>,
}

impl Searched {
    fn new(cases: &mut Cases, guard: u8) -> Self {
        let lengths = [cases.number(), cases.number(), cases.number(), cases.number()];
        let fill = cases.byte();
        let row = |length| Lent::new(&vec![word(fill); length], word(guard));
        let certificate = Lent::new(&vec![fill; lengths[0]], guard);
        Searched { certificate, queue: row(lengths[1]), parents: row(lengths[2]), witness: row(lengths[3]) }
    }

    fn ask(&mut self, table: Table, callers: usize) -> Result<Verdict, Refusal> {
        let (certificate, queue) = (self.certificate.row_mut(), self.queue.row_mut());
        ambiguity::search(table, callers, certificate, queue, self.parents.row_mut(), self.witness.row_mut())
    }

    /// What is told beforehand: the refusals but 14, and 14 exactly where less is lent; else the room.
    fn told(&self, table: Table, callers: usize) -> Result<Room, Refusal> {
        let room = ambiguity::search_room(table, callers)?;
        let rows = [&self.queue, &self.parents, &self.witness];
        let less = rows.iter().any(|row| row.row().len() < room.entries);
        if less || self.certificate.row().len() < room.certificate {
            return refused(Cause::BufferTooShort, 0);
        }
        Ok(room)
    }

    fn kept(&self) -> bool {
        self.certificate.kept() && self.queue.kept() && self.parents.kept() && self.witness.kept()
    }

    /// The fronts of the work rows are 0, and nothing past the fronts was written.
    fn written(&self, states: usize, certificate: usize, witness: usize) -> bool {
        let front = row_entries(states);
        let cleared = |row: &Lent<u32>| row.row()[..front].iter().all(|entry| *entry == 0) && row.kept_past(front);
        cleared(&self.queue)
            && cleared(&self.parents)
            && self.certificate.kept_past(certificate)
            && self.witness.kept_past(witness)
    }
}

fn search_line(cases: &mut Cases, guard: u8) -> String {
    with_callers(cases, guard, |cases, table, callers| {
        let mut lent = Searched::new(cases, guard);
        let answer = lent.ask(table, callers);
        let told = lent.told(table, callers);
        let (verdict, Room { states, .. }) = match (answer, told) {
            (Ok(verdict), Ok(room)) if verdict.looked() <= room.most_looked() => (verdict, room),
            (Err(refusal), Err(told)) if refusal == told => {
                assert!(lent.kept());
                return refusal.to_string();
            }
            (answer, told) => panic!("{answer:?}, and told beforehand {told:?}"),
        };
        assert!(callers > 0 || ambiguity::check_table(table) == Ok(states));
        match verdict {
            Verdict::Unambiguous { size, looked } => {
                let bytes = certificate_bytes(states);
                assert!(lent.written(states, bytes, 0));
                let certificate = &lent.certificate.row()[..bytes];
                assert_eq!(ambiguity::check_certificate(table, callers, certificate), Ok(()));
                format!("unambiguous size={size} looked={looked} certificate={}", hex(certificate))
            }
            Verdict::Potential { entries, looked } => {
                assert!(lent.written(states, 0, entries));
                let witness = &lent.witness.row()[..entries];
                assert_eq!(ambiguity::check_witness(table, callers, witness), Ok(()));
                format!("potential looked={looked} witness={}", joined(witness))
            }
        }
    })
}

/// A search that is lent the room is not refused, and one that is lent less is.
fn room_line(cases: &mut Cases, guard: u8) -> String {
    with_callers(cases, guard, |_, table, callers| {
        let answer = ambiguity::search_room(table, callers);
        if answer.is_ok() {
            lent_room(table, callers);
        }
        line_of(answer.map(|room| {
            format!(
                "room states={} certificate={} entries={} moves={}",
                room.states, room.certificate, room.entries, room.moves
            )
        }))
    })
}

/// A text that was read is written with the same lists, and with each use of a name as it is declared; that is read alike, and comes
/// back unchanged.
fn written_again(text: &[u8], table: Table, starts: &[u32], lengths: &[u32]) {
    let write = |bytes: &[u8]| {
        let names = Names { bytes, starts, lengths };
        let mut out = vec![0; ambiguity::written_length(table, names).unwrap()];
        assert_eq!(ambiguity::write_text(table, names, &mut out), Ok(out.len()));
        out
    };
    let written = write(text);
    assert!(written.eq_ignore_ascii_case(text));
    let lines = |text: &[u8]| text.split(|byte| *byte == b'\n').map(<[u8]>::to_vec).collect::<Vec<_>>();
    let (read, again) = (lines(text), lines(&written));
    assert_eq!(read[..2], again[..2]);
    let declared: HashSet<&[u8]> =
        starts.iter().zip(lengths).map(|(start, length)| &text[*start as usize..][..*length as usize]).collect();
    let uses = again[2..again.len() - 1].iter().flat_map(|line| line["rule=".len()..].split(|byte| b": ".contains(byte)));
    assert!(uses.filter(|name| !name.is_empty()).all(|name| declared.contains(name)));
    let mut rows = (vec![0; table.rules.len()], vec![0; starts.len()], vec![0; lengths.len()]);
    ambiguity::read_text(&written, &mut rows.0, &mut rows.1, &mut rows.2).unwrap();
    assert_eq!((&rows.0[..], &rows.1[..], &rows.2[..]), (table.rules, starts, lengths));
    assert_eq!(write(&written), written);
}

fn read_line(cases: &mut Cases, guard: u8) -> String {
    let text = Lent::new(&cases.bytes(), guard);
    let mut table = Lent::new(&vec![half(guard ^ 0x5A); cases.number()], half(guard));
    let mut starts = Lent::new(&vec![word(guard ^ 0x5A); cases.number()], word(guard));
    let mut lengths = Lent::new(&vec![word(guard ^ 0xA5); cases.number()], word(guard));
    let answer = ambiguity::read_text(text.row(), table.row_mut(), starts.row_mut(), lengths.row_mut());
    let (entries, names) = answer.map_or((0, 0), |read| (read.entries, read.terminals + read.nonterminals));
    assert!(text.kept() && table.kept_past(entries) && starts.kept_past(names) && lengths.kept_past(names));
    line_of(answer.map(|read| {
        let rules = &table.row()[..entries];
        let told = Table { terminals: read.terminals, nonterminals: read.nonterminals, rules };
        written_again(text.row(), told, &starts.row()[..names], &lengths.row()[..names]);
        format!(
            "read terminals={} nonterminals={} states={} table={} starts={} lengths={}",
            read.terminals,
            read.nonterminals,
            read.states,
            joined(&table.row()[..entries]),
            joined(&starts.row()[..names]),
            joined(&lengths.row()[..names])
        )
    }))
}

/// What is told beforehand of a text for which so many bytes are lent.
fn told_of_text(table: Table, names: Names, lent: usize) -> Result<usize, Refusal> {
    let length = ambiguity::written_length(table, names)?;
    if lent < length {
        return refused(Cause::BufferTooShort, 0);
    }
    Ok(length)
}

fn write_line(cases: &mut Cases, guard: u8) -> String {
    with_table(cases, guard, |cases, table| {
        let bytes = Lent::new(&cases.bytes(), guard);
        let starts = Lent::new(&cases.words(), word(guard));
        let lengths = Lent::new(&cases.words(), word(guard));
        let mut out = Lent::new(&vec![guard ^ 0x5A; cases.number()], guard);
        let names = Names { bytes: bytes.row(), starts: starts.row(), lengths: lengths.row() };
        let answer = ambiguity::write_text(table, names, out.row_mut());
        assert_eq!(told_of_text(table, names, out.row().len()), answer);
        let length = answer.unwrap_or(0);
        assert!(bytes.kept() && starts.kept() && lengths.kept() && out.kept_past(length));
        line_of(answer.map(|length| format!("written={length} text={}", hex(&out.row()[..length]))))
    })
}

/// The writer that is lent so many bytes writes as many, and is refused with one less.
fn length_line(cases: &mut Cases, guard: u8) -> String {
    with_table(cases, guard, |cases, table| {
        let bytes = Lent::new(&cases.bytes(), guard);
        let starts = Lent::new(&cases.words(), word(guard));
        let lengths = Lent::new(&cases.words(), word(guard));
        let names = Names { bytes: bytes.row(), starts: starts.row(), lengths: lengths.row() };
        let answer = ambiguity::written_length(table, names);
        if let Ok(length) = answer {
            assert_eq!(ambiguity::write_text(table, names, &mut vec![guard; length]), answer);
            let less = ambiguity::write_text(table, names, &mut vec![guard; length - 1]);
            assert_eq!(less, refused(Cause::BufferTooShort, 0));
        }
        assert!(bytes.kept() && starts.kept() && lengths.kept());
        line_of(answer.map(|length| format!("length={length}")))
    })
}

fn report_line(cases: &mut Cases, guard: u8) -> String {
    let text = Lent::new(&cases.bytes(), guard);
    let mut out = Lent::new(&vec![guard ^ 0x5A; cases.number()], guard);
    let answer = ambiguity::report(text.row(), out.row_mut());
    let length = answer.unwrap_or(0);
    assert!(text.kept() && out.kept_past(length));
    line_of(answer.map(|length| format!("written={length} text={}", hex(&out.row()[..length]))))
}

/// Lines that are read back are printed again the same, but for the spelling of names, which is then that of their declarations.
fn printed_again(text: &[u8], lines: &[u8], left: &[u32], right: &[u32]) {
    let grammar = Grammar::read(text).unwrap();
    let letters = |row: &[u32]| row.iter().map(|entry| Letter::of_entry(*entry).unwrap()).collect();
    let strings = Strings { left: letters(left), right: letters(right) };
    let printed = grammar.lines(&strings).unwrap();
    assert!(printed.as_bytes().eq_ignore_ascii_case(lines));
    for lines in [lines, printed.as_bytes()] {
        assert_eq!(grammar.read_back(lines).as_ref(), Ok(&strings));
    }
}

fn back_line(cases: &mut Cases, guard: u8) -> String {
    let text = Lent::new(&cases.bytes(), guard);
    let lines = Lent::new(&cases.bytes(), guard);
    let mut left = Lent::new(&vec![word(guard ^ 0x5A); cases.number()], word(guard));
    let mut right = Lent::new(&vec![word(guard ^ 0xA5); cases.number()], word(guard));
    let answer = ambiguity::read_back(text.row(), lines.row(), left.row_mut(), right.row_mut());
    let (in_left, in_right) = answer.map_or((0, 0), |read| (read.left, read.right));
    assert!(text.kept() && lines.kept() && left.kept_past(in_left) && right.kept_past(in_right));
    let (in_left, in_right) = (&left.row()[..in_left], &right.row()[..in_right]);
    match answer {
        Ok(_) => {
            printed_again(text.row(), lines.row(), in_left, in_right);
            format!("read left={} right={}", joined(in_left), joined(in_right))
        }
        Err(PartRefusal { part: Part::Grammar, refusal }) => format!("grammar-{refusal}"),
        Err(PartRefusal { part: Part::Lines, refusal }) => refusal.to_string(),
    }
}

/// The two texts in front of a case, which are only looked at.
fn with_texts<A>(cases: &mut Cases, guard: u8, ask: impl FnOnce(&mut Cases, &[u8], &[u8]) -> A) -> A {
    let [robot, module] = [0; 2].map(|_| Lent::new(&cases.bytes(), guard));
    let answer = ask(cases, robot.row(), module.row());
    assert!(robot.kept() && module.kept());
    answer
}

/// What a text alone is refused for, if all is lent.
fn fault(text: &[u8]) -> Option<Cause> {
    Grammar::read(text).err().map(|refusal| refusal.cause)
}

/// The line of a refusal. The part that is refused is the first text that is at fault by the reader, and the join where none is.
fn join_refused(robot: &[u8], module: &[u8], JoinRefusal { part, refusal }: JoinRefusal) -> String {
    let of_join = [Cause::KindsClash, Cause::OutOfRange, Cause::TooManyRules, Cause::TooManyStates, Cause::BufferTooShort];
    match part {
        JoinPart::Robot => assert_eq!(Grammar::read(robot), Err(refusal)),
        JoinPart::Module => {
            assert_eq!((fault(robot), Grammar::read(module)), (None, Err(refusal)));
            assert_ne!(refusal.cause, Cause::NoSentence);
        }
        JoinPart::Join => {
            assert!(fault(robot).is_none() && fault(module).map_or(true, |cause| cause == Cause::NoSentence));
            assert!(of_join.contains(&refusal.cause));
        }
    }
    refusal.to_string()
}

/// The joined text, which is read, and written again unchanged.
fn joined_text(robot: &[u8], module: &[u8]) -> (String, Grammar) {
    let text = ambiguity::joined_text(robot, module).unwrap();
    let grammar = Grammar::read(text.as_bytes()).unwrap();
    assert_eq!(grammar.write(), text);
    (text, grammar)
}

/// The joined table is what the reader gives for the joined text; the robot's table stands in front, with its codes.
fn join_line(cases: &mut Cases, guard: u8) -> String {
    with_texts(cases, guard, |cases, robot, module| {
        let mut table = Lent::new(&vec![half(guard ^ 0x5A); cases.number()], half(guard));
        let answer = ambiguity::join_texts(robot, module, table.row_mut());
        assert!(table.kept_past(answer.map_or(0, |read| read.entries)));
        let read = match answer {
            Ok(read) => read,
            Err(refused) => return join_refused(robot, module, refused),
        };
        let rules = &table.row()[..read.entries];
        let (text, grammar) = joined_text(robot, module);
        let Table { terminals, nonterminals, rules: expected } = grammar.table();
        assert_eq!((read.terminals, read.nonterminals, read.states), (terminals, nonterminals, grammar.states()));
        assert_eq!(rules, expected, "{text}");
        assert_eq!(ambiguity::join(robot, module).as_ref(), Ok(&grammar));
        assert!(rules.starts_with(Grammar::read(robot).unwrap().table().rules));
        format!("joined terminals={terminals} nonterminals={nonterminals} states={} table={}", read.states, joined(rules))
    })
}

/// The writer that is lent just the text's length writes it, and is refused with one less.
fn join_text_line(cases: &mut Cases, guard: u8) -> String {
    with_texts(cases, guard, |cases, robot, module| {
        let mut out = Lent::new(&vec![guard ^ 0x5A; cases.number()], guard);
        let answer = ambiguity::write_joined(robot, module, out.row_mut());
        assert!(out.kept_past(answer.unwrap_or(0)));
        let length = match answer {
            Ok(length) => length,
            Err(refused) => return join_refused(robot, module, refused),
        };
        let written = &out.row()[..length];
        assert_eq!(joined_text(robot, module).0.as_bytes(), written);
        assert_eq!(ambiguity::write_joined(robot, module, &mut vec![guard; length]), Ok(length));
        let less = ambiguity::write_joined(robot, module, &mut vec![guard; length - 1]);
        assert_eq!(less.map_err(|refused| refused.refusal), refused(Cause::BufferTooShort, 0));
        format!("written={length} text={}", hex(written))
    })
}

/// The number of the text that a name lies in, and its start there; for an empty one 0 and 0.
fn place(name: &[u8], robot: &[u8], module: &[u8]) -> (usize, usize) {
    let [robot, module, place] = [robot, module, name].map(<[u8]>::as_ptr_range);
    let lies_in = |text: &std::ops::Range<*const u8>| text.start <= place.start && place.end <= text.end;
    let found = (1..).zip([robot, module]).find(|(_, text)| !name.is_empty() && lies_in(text));
    found.map_or((0, 0), |(number, text)| (number, place.start as usize - text.start as usize))
}

/// A name that is shown is that of the symbol in the joined text; an empty one is that of no symbol, or of texts that are not joined.
fn shown_line(cases: &mut Cases, guard: u8) -> String {
    with_texts(cases, guard, |cases, robot, module| {
        let symbol = cases.long();
        let name = ambiguity::joined_name(robot, module, symbol);
        match ambiguity::join(robot, module) {
            Ok(grammar) => {
                let names = [grammar.terminals(), grammar.nonterminals()].concat();
                assert_eq!(names.get(symbol).map_or(&b""[..], |name| name.as_bytes()), name);
            }
            Err(_) => assert!(name.is_empty()),
        }
        let (text, start) = place(name, robot, module);
        format!("shown text={text} start={start} length={}", name.len())
    })
}

/// The comparison of a kind that has all of an answer's line.
fn comparison<'a>(kind: &'a str, script: &'a str, causes: &'a [usize]) -> Comparison<'a> {
    Comparison { kind, script, verb: "", causes, grammar_causes: &[], told: whole }
}

#[test]
fn table_check() {
    Comparison { told: without_columns, ..comparison("tables", "table_cases.py", &TABLE_CAUSES) }.agrees(table_line);
}

#[test]
fn step_records() {
    comparison("steps", "step_cases.py", &CALLERS_CAUSES).agrees(step_line);
}

#[test]
fn certificate_check() {
    let causes = [1, 2, 3, 4, 5, 6, 7, 8, 9, 10, 11, 12, 13, 19, 21];
    comparison("certificates", "certificate_cases.py", &causes).agrees(certificate_line);
}

#[test]
fn witness_check() {
    comparison("witnesses", "witness_cases.py", &[1, 2, 3, 4, 5, 6, 7, 8, 15, 19, 21]).agrees(witness_line);
}

#[test]
fn witness_check_over_records() {
    comparison("records", "record_cases.py", &[1, 2, 3, 4, 5, 6, 7, 8, 15, 19, 21]).agrees(record_line);
}

#[test]
fn search() {
    comparison("searches", "search_cases.py", &[1, 2, 3, 4, 5, 6, 7, 8, 14, 19, 21]).agrees(search_line);
}

#[test]
fn search_of_the_corpus() {
    comparison("corpus", "corpus_cases.py", &[19]).agrees(search_line);
}

#[test]
fn rooms() {
    comparison("rooms", "room_cases.py", &CALLERS_CAUSES).agrees(room_line);
}

#[test]
fn reader() {
    let causes = [1, 4, 6, 7, 8, 14, 16, 17, 18, 19];
    Comparison { verb: "read-", ..comparison("reads", "text_cases.py", &causes) }.agrees(read_line);
}

#[test]
fn writer() {
    let causes = [1, 2, 3, 4, 5, 6, 7, 8, 14, 16, 18, 19];
    Comparison { verb: "write-", ..comparison("writes", "text_cases.py", &causes) }.agrees(write_line);
}

#[test]
fn written_lengths() {
    let causes = [1, 2, 3, 4, 5, 6, 7, 8, 16, 18, 19];
    comparison("lengths", "length_cases.py", &causes).agrees(length_line);
}

#[test]
fn report() {
    comparison("reports", "report_cases.py", &[14]).agrees(report_line);
}

#[test]
fn reading_back() {
    let grammar_causes = &[1, 4, 6, 7, 8, 16, 17, 18, 19];
    Comparison { grammar_causes, ..comparison("backs", "back_cases.py", &[14, 16, 17]) }.agrees(back_line);
}

#[test]
fn join() {
    let causes = [1, 4, 6, 7, 8, 14, 16, 17, 18, 19, 20];
    Comparison { verb: "join-", ..comparison("joins", "join_cases.py", &causes) }.agrees(join_line);
}

#[test]
fn joined_texts() {
    let causes = [1, 4, 6, 7, 8, 14, 16, 17, 18, 19, 20];
    Comparison { verb: "join-text-", ..comparison("join-texts", "join_cases.py", &causes) }.agrees(join_text_line);
}

#[test]
fn names_shown() {
    Comparison { verb: "shown-", ..comparison("shown", "join_cases.py", &[]) }.agrees(shown_line);
}
