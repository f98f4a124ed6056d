//! The eight-channel command set: a method is read to its only plan, or to none.

use std::fmt;

use crate::{certificate_bytes, raw, refusal, trees_entries, Code, Refusal, MAX_ROW};

/// Q of the command set at 0 callers.
pub const PLAN_STATES: usize = 27;

/// The entries of the work row for a plan.
pub const PLAN_WORK_ENTRIES: usize = trees_entries(PLAN_STATES);

/// The bytes of the command set's certificate at 0 callers.
pub const PLAN_CERTIFICATE_BYTES: usize = certificate_bytes(PLAN_STATES);

/// A terminal of the eight-channel command set; its number is its code. The rules, by their numbers, are
///
/// ```text
/// 1  P ->              a plan is empty,
/// 2  P -> P K          or a plan and a command behind it
/// 3  K -> take L vol
/// 4  K -> give L vol
/// 5  K -> repeat num P close
/// 6  L -> ch           a list of channels
/// 7  L -> L sep ch
/// ```
#[derive(Clone, Copy, Debug, PartialEq, Eq, Hash)]
#[repr(u16)]
pub enum PlanTerminal {
    /// `take`
    Take = 1,
    /// `vol`
    Vol = 2,
    /// `give`
    Give = 3,
    /// `repeat`
    Repeat = 4,
    /// `num`
    Num = 5,
    /// `close`
    Close = 6,
    /// `ch`
    Ch = 7,
    /// `sep`
    Sep = 8,
}

impl PlanTerminal {
    /// All of them, by their codes.
    pub const ALL: [PlanTerminal; 8] = [
        PlanTerminal::Take,
        PlanTerminal::Vol,
        PlanTerminal::Give,
        PlanTerminal::Repeat,
        PlanTerminal::Num,
        PlanTerminal::Close,
        PlanTerminal::Ch,
        PlanTerminal::Sep,
    ];

    /// Its code, 1 to 8.
    #[must_use]
    pub const fn code(self) -> Code {
        self as Code
    }

    /// Its word.
    #[must_use]
    pub const fn word(self) -> &'static str {
        match self {
            PlanTerminal::Take => "take",
            PlanTerminal::Vol => "vol",
            PlanTerminal::Give => "give",
            PlanTerminal::Repeat => "repeat",
            PlanTerminal::Num => "num",
            PlanTerminal::Close => "close",
            PlanTerminal::Ch => "ch",
            PlanTerminal::Sep => "sep",
        }
    }

    /// The terminal of a code; none for a code that is no terminal's.
    #[must_use]
    pub fn of_code(code: Code) -> Option<PlanTerminal> {
        PlanTerminal::ALL.into_iter().find(|terminal| terminal.code() == code)
    }

    /// The terminal of a word, in any case of its ASCII letters.
    #[must_use]
    pub fn of_word(word: &str) -> Option<PlanTerminal> {
        PlanTerminal::ALL.into_iter().find(|terminal| terminal.word().eq_ignore_ascii_case(word))
    }
}

/// The word.
impl fmt::Display for PlanTerminal {
    fn fmt(&self, f: &mut fmt::Formatter) -> fmt::Result {
        f.write_str(self.word())
    }
}

/// How many entries the work row of [`read_plan`] is to have: [`PLAN_WORK_ENTRIES`].
#[must_use]
pub fn plan_room() -> usize {
    unsafe { raw::ambiguity_plan_room() }
}

/// Reads a method of up to [`MAX_ROW`] terminals of the eight-channel command set, given by their codes, to its plan: its only derivation
/// tree. Back comes how many rules the plan has; their numbers stand at the front of the list then, each node before its children, children
/// from left to right. None says that the method is no sentence. A method never has two plans: that is proved of this grammar. Lent are the
/// work row of [`PLAN_WORK_ENTRIES`] entries, whatever it holds, and the list; a list of [`MAX_ROW`] entries is enough.
///
/// After every answer the first [`PLAN_WORK_ENTRIES`] entries of the work row are 0. None leaves the list as it was.
///
/// # Errors
///
/// 22 at the first place of the row that is at fault, from 0: a code that is not 1 to 8, or place 64 of a longer row; 14 for a work row
/// that is too short; then 14 if there is a plan and the list is shorter than its rules. Of this last one the work row is as after an
/// answer; every other refusal leaves it as it was, and each leaves the list. There are no other causes.
///
/// ```
/// use ambiguity::{plan_room, read_plan, Cause, PlanTerminal, Refusal};
///
/// let row = |method: &str| -> Vec<u16> {
///     method.split_whitespace().map(|word| PlanTerminal::of_word(word).map_or(0, PlanTerminal::code)).collect()
/// };
/// let mut work = vec![7; plan_room()];
/// let mut list = [7; 5];
/// assert_eq!(read_plan(&row("take ch vol"), &mut work, &mut list), Ok(Some(4)));
/// assert_eq!(list, [2, 1, 3, 6, 7]);
/// assert!(work.iter().all(|entry| *entry == 0));
/// assert_eq!(read_plan(&row("take vol"), &mut work, &mut []), Ok(None));
/// assert_eq!(read_plan(&row("take tip vol"), &mut work, &mut []), Err(Refusal { cause: Cause::RowWrong, at: 1 }));
/// ```
pub fn read_plan(row: &[Code], work: &mut [u32], list: &mut [u16]) -> Result<Option<usize>, Refusal> {
    // SAFETY: the pointers and the lengths are those of slices, which live on during the call.
    let reply = unsafe {
        raw::ambiguity_read_plan(row.as_ptr(), row.len(), work.as_mut_ptr(), work.len(), list.as_mut_ptr(), list.len())
    };
    refusal::or_else(reply.cause, reply.at, || match reply.found {
        1 => None,
        2 => Some(reply.count as usize),
        other => unreachable!("no answer has the number {other}"),
    })
}

/// The rules of a method's plan, as [`read_plan`] lists them, or none. The rows are lent here.
///
/// # Errors
///
/// 22, as [`read_plan`] has it.
///
/// ```
/// use ambiguity::{plan, PlanTerminal::{Close, Num, Repeat}};
///
/// assert_eq!(plan(&[Repeat, Num, Close].map(|terminal| terminal.code()))?, Some(vec![2, 1, 5, 1]));
/// assert_eq!(plan(&[Repeat.code()])?, None);
/// assert_eq!(plan(&[Repeat.code(), 9]).unwrap_err().to_string(), "refused=22 at=1");
/// # Ok::<(), ambiguity::Refusal>(())
/// ```
pub fn plan(row: &[Code]) -> Result<Option<Vec<u16>>, Refusal> {
    let (mut work, mut list) = (vec![0; PLAN_WORK_ENTRIES], vec![0; MAX_ROW]);
    Ok(read_plan(row, &mut work, &mut list)?.map(|rules| {
        list.truncate(rules);
        list
    }))
}

/// A byte of the command set's certificate at 0 callers, by its place from 0; 0 past the last one.
#[must_use]
pub fn plan_certificate_byte(place: usize) -> u8 {
    unsafe { raw::ambiguity_plan_certificate_byte(place) }
}

/// The command set's certificate at 0 callers: the one that a search writes for its table, which the check accepts.
///
/// ```
/// let text = b"terminals=take,vol,give,repeat,num,close,ch,sep\nnonterminals=P,K,L\nrule=P:\nrule=P: P K\nrule=K: take L vol\n\
///              rule=K: give L vol\nrule=K: repeat num P close\nrule=L: ch\nrule=L: L sep ch\n";
/// let grammar = ambiguity::Grammar::read(text)?;
/// assert_eq!(grammar.check(0, &ambiguity::plan_certificate()), Ok(()));
/// # Ok::<(), ambiguity::Refusal>(())
/// ```
#[must_use]
pub fn plan_certificate() -> [u8; PLAN_CERTIFICATE_BYTES] {
    std::array::from_fn(plan_certificate_byte)
}
