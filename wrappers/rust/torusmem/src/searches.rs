//! All outcomes of scripts, over every schedule, and runs to them.
use super::{code_text, raw, Fault};
use std::error::Error;
use std::fmt;
use torusmem_sys as sys;

/// The outcomes of scripts that are known.
#[derive(Clone, Debug, PartialEq, Eq)]
pub struct Outcomes {
    /// Whether these are all.
    pub exact: bool,
    pub outcomes: u64,
    /// In how many states they were found.
    pub states: u64,
    /// The text that the program prints: a line for each, and a last line.
    pub text: String,
}

/// What is found of a run with some replies, and the text that the program prints.
#[derive(Clone, Debug, PartialEq, Eq)]
pub enum Reached {
    /// The steps of such a run.
    Run { text: String },
    /// No run of any schedule has them.
    Never { text: String },
    /// None is known that has.
    Undecided { text: String },
}

/// Why outcomes are not searched for, or why no run to one is found.
#[derive(Clone, Copy, Debug, PartialEq, Eq)]
pub enum Unsearched {
    /// No outcome of this number is known, and there may be others.
    Undecided,
    /// The scripts have more than 256 operations.
    TooLong,
    /// A word of an answer is no reply.
    NoReply,
    /// The scripts have other numbers of replies than an answer.
    OtherCount,
    /// The first fault of the texts; that memory is refused; or, as fault 6 at line 0, the number of states isn't 1 to 10000000.
    Fault(Fault),
}

impl fmt::Display for Unsearched {
    fn fmt(&self, f: &mut fmt::Formatter) -> fmt::Result {
        match self {
            Unsearched::Undecided => f.write_str(code_text(sys::TORUSMEM_UNDECIDED)),
            Unsearched::TooLong => f.write_str(code_text(sys::TORUSMEM_TOO_LONG)),
            Unsearched::NoReply => f.write_str(code_text(sys::TORUSMEM_NO_REPLY)),
            Unsearched::OtherCount => f.write_str(code_text(sys::TORUSMEM_OTHER_COUNT)),
            Unsearched::Fault(fault) => fault.fmt(f),
        }
    }
}

impl Error for Unsearched {}

/// The outcomes of a scripts text on the machine of a machine text, over all schedules (docs/OUTCOMES.md), in at most so many
/// states, 1 to 10000000, where 100000 is what the program takes.
///
/// ```
/// let machine = b"radix 2\ndims 1\ndepth 4\ntags 4\nwords 2\n";
/// let found = torusmem::outcomes(machine, b"0 store 1 5\n1 load 1\n", 100000)?;
/// assert!(found.exact && found.outcomes == 2 && found.text.starts_with("outcome 0 : ok / "));
/// # Ok::<(), torusmem::Unsearched>(())
/// ```
pub fn outcomes(machine: &[u8], scripts: &[u8], states: u64) -> Result<Outcomes, Unsearched> {
    let mut room = vec![0; 4096];
    let mut said = raw::outcomes(machine, scripts, states, &mut room);
    if said.code == sys::TORUSMEM_SHORT {
        room.resize(said.value as usize, 0);
        said = raw::outcomes(machine, scripts, states, &mut room);
    }
    let sys::torusmem_searched { code, outcomes, states, value } = said;
    if code != sys::TORUSMEM_OK && code != sys::TORUSMEM_UNDECIDED {
        return Err(why_not(code, value));
    }
    Ok(Outcomes { exact: code == sys::TORUSMEM_OK, outcomes, states, text: text_of(&room, value) })
}

/// The steps of a run to the outcome of a number, as [`outcomes`] counts them: a steps text; None where there is no outcome of
/// this number.
pub fn outcomes_run(machine: &[u8], scripts: &[u8], number: u64, states: u64) -> Result<Option<String>, Unsearched> {
    let mut room = vec![0; 4096];
    let mut said = raw::outcomes_run(machine, scripts, states, number, &mut room);
    if said.code == sys::TORUSMEM_SHORT {
        room.resize(said.value as usize, 0);
        said = raw::outcomes_run(machine, scripts, states, number, &mut room);
    }
    match said.code {
        sys::TORUSMEM_OK => Ok(Some(text_of(&room, said.value))),
        sys::TORUSMEM_NONE => Ok(None),
        code => Err(why_not(code, said.value)),
    }
}

/// A run whose replies are those of an answer: of each processor that has any, in the order of issue, with ` / ` between two
/// processors, and `*` for any reply.
///
/// ```
/// use torusmem::{reach, Reached};
///
/// let (machine, scripts) = (b"radix 2\ndims 1\ndepth 4\ntags 4\nwords 2\n", b"0 store 1 5\n1 load 1\n");
/// let Ok(Reached::Never { .. }) = reach(machine, scripts, b"ok / 4", 100000) else { panic!("the word is 0 or 5") };
/// ```
pub fn reach(machine: &[u8], scripts: &[u8], answer: &[u8], states: u64) -> Result<Reached, Unsearched> {
    let mut room = vec![0; 4096];
    let mut said = raw::reach(machine, scripts, answer, states, &mut room);
    if said.code == sys::TORUSMEM_SHORT {
        room.resize(said.value as usize, 0);
        said = raw::reach(machine, scripts, answer, states, &mut room);
    }
    match said.code {
        sys::TORUSMEM_OK => Ok(Reached::Run { text: text_of(&room, said.value) }),
        sys::TORUSMEM_NEVER => Ok(Reached::Never { text: text_of(&room, said.value) }),
        sys::TORUSMEM_UNDECIDED => Ok(Reached::Undecided { text: text_of(&room, said.value) }),
        code => Err(why_not(code, said.value)),
    }
}

fn text_of(room: &[u8], length: u64) -> String {
    String::from_utf8_lossy(&room[..length as usize]).into_owned()
}

fn why_not(code: u32, value: u64) -> Unsearched {
    match code {
        sys::TORUSMEM_UNDECIDED => Unsearched::Undecided,
        sys::TORUSMEM_TOO_LONG => Unsearched::TooLong,
        sys::TORUSMEM_NO_REPLY => Unsearched::NoReply,
        sys::TORUSMEM_OTHER_COUNT => Unsearched::OtherCount,
        sys::TORUSMEM_FAULT_MEMORY => Unsearched::Fault(Fault::Memory),
        fault => Unsearched::Fault(Fault::Text { fault, line: value }),
    }
}
