//! The memory models that a log obeys.
use super::trace::{numbers_of, numbers_of_reply};
use super::{raw, Fault, Operation, Reply};
use std::error::Error;
use std::fmt;
use torusmem_sys as sys;

/// An entry of a log. An operation is named by its processor and its index among what that made, from 0; fences count
/// too.
#[derive(Clone, Copy, Debug, PartialEq, Eq, Hash)]
pub enum LogEntry {
    /// The opening word of an address, 0 where none is given. All of these stand in front.
    Init { address: u32, word: u64 },
    /// The next operation in the program of a processor, below 4096.
    Made { processor: u32, address: u32, operation: Operation },
    /// A fence in its program.
    Fence { processor: u32 },
    /// An operation wrote next on its word. Every one but a load writes.
    Wrote { processor: u32, index: u32 },
    /// A load read what an operation wrote, given by its processor and index.
    Read { processor: u32, index: u32, from: (u32, u32) },
    /// A load read the opening word.
    ReadOpening { processor: u32, index: u32 },
    /// A load read what the last `Wrote` above left on its word.
    Served { processor: u32, index: u32 },
    /// What an operation replied.
    Replied { processor: u32, index: u32, reply: Reply },
}

/// Which memory models a log obeys, weakest first, and the text that the program prints of it.
#[derive(Clone, Debug, PartialEq, Eq)]
pub struct Obeyed {
    pub coherent: bool,
    pub fenced: bool,
    pub pso: bool,
    pub tso: bool,
    pub sc: bool,
    pub text: String,
}

/// Why no model is asked of a log. Entries are numbered from 1, as in the text.
#[derive(Clone, Copy, Debug, PartialEq, Eq)]
pub enum LogFault {
    /// An entry that can't stand, and the fault, as include/torusmem.h says them: 4 for F4 and so on; entry 0 where the
    /// number of words is at fault.
    Entry { fault: u32, entry: u64 },
    /// The reply of this entry isn't what its operation does to this word, which it finds: that of the operation that
    /// entry `writer` made, or with 0 the opening word.
    WrongReply { entry: u64, word: u64, writer: u64 },
    /// A request for memory was refused (F12).
    Memory,
}

impl fmt::Display for LogFault {
    fn fmt(&self, f: &mut fmt::Formatter) -> fmt::Result {
        match self {
            LogFault::Entry { fault, entry } => write!(f, "fault F{fault} at entry {entry}"),
            LogFault::WrongReply { entry, word, writer: 0 } => {
                write!(f, "the reply of entry {entry} is wrong: the word is {word} (opening)")
            }
            LogFault::WrongReply { entry, word, writer } => {
                write!(f, "the reply of entry {entry} is wrong: the word is {word} (entry {writer})")
            }
            LogFault::Memory => Fault::Memory.fmt(f),
        }
    }
}

impl Error for LogFault {}

/// Judges a log by five memory models, over a memory of so many words, 1 to 2^32. The text has a line for each, the cycle
/// of the weakest that it breaks, and with `order` an order of the strongest that it obeys; its lines are entries.
///
/// ```
/// use torusmem::{model, LogEntry, Operation};
///
/// let store = |processor, address| LogEntry::Made { processor, address, operation: Operation::Store(1) };
/// let load = |processor, address| LogEntry::Made { processor, address, operation: Operation::Load };
/// let mut log = vec![store(0, 0), load(0, 1), store(1, 1), load(1, 0)];
/// for processor in 0..2 {
///     log.push(LogEntry::Wrote { processor, index: 0 });
///     log.push(LogEntry::ReadOpening { processor, index: 1 });
/// }
/// let obeyed = model(2, &log, false)?;
/// assert!(obeyed.tso && !obeyed.sc);
/// # Ok::<(), torusmem::LogFault>(())
/// ```
pub fn model(words: u64, entries: &[LogEntry], order: bool) -> Result<Obeyed, LogFault> {
    let raw: Vec<_> = entries.iter().map(raw_of).collect();
    let mut text = vec![0; 4096];
    let mut said = raw::model(words, &raw, u32::from(order), &mut text);
    if said.code == sys::TORUSMEM_SHORT {
        text.resize(said.value as usize, 0);
        said = raw::model(words, &raw, u32::from(order), &mut text);
    }
    let sys::torusmem_models { code, models, value, word, writer } = said;
    match code {
        sys::TORUSMEM_OK => {
            text.truncate(value as usize);
            let obeys = |model| models & model != 0;
            Ok(Obeyed {
                coherent: obeys(sys::TORUSMEM_COHERENT),
                fenced: obeys(sys::TORUSMEM_FENCED),
                pso: obeys(sys::TORUSMEM_PSO),
                tso: obeys(sys::TORUSMEM_TSO),
                sc: obeys(sys::TORUSMEM_SC),
                text: String::from_utf8_lossy(&text).into_owned(),
            })
        }
        sys::TORUSMEM_WRONG_REPLY => Err(LogFault::WrongReply { entry: value, word, writer }),
        sys::TORUSMEM_FAULT_MEMORY => Err(LogFault::Memory),
        fault => Err(LogFault::Entry { fault, entry: value }),
    }
}

/// Whether a log obeys each memory model by its replies alone, weakest first; `None` where the search gave up, or annotations
/// or weaker fences leave it open. And the text that the program prints of it.
#[derive(Clone, Debug, PartialEq, Eq)]
pub struct Decided {
    pub coherent: Option<bool>,
    pub fenced: Option<bool>,
    pub pso: Option<bool>,
    pub tso: Option<bool>,
    pub sc: Option<bool>,
    pub text: String,
}

/// Why no model is asked of a log by its replies alone.
#[derive(Clone, Copy, Debug, PartialEq, Eq)]
pub enum Undecided {
    /// The reply of this line is what no write of its word left, so every model is broken.
    Unwritten { line: u64 },
    /// The atomics of these lines found what only one write of their word left, so every model is broken.
    LostUpdate { line: u64, other: u64 },
    /// The text is refused, or memory is.
    Fault(Fault),
}

impl fmt::Display for Undecided {
    fn fmt(&self, f: &mut fmt::Formatter) -> fmt::Result {
        match self {
            Undecided::Unwritten { line } => write!(f, "the reply of line {line} is what no write left"),
            Undecided::LostUpdate { line, other } => write!(f, "lines {line} and {other} both found one write"),
            Undecided::Fault(fault) => fault.fmt(f),
        }
    }
}

impl Error for Undecided {}

/// Judges the log of a log text (docs/FORMATS.md, "Log text") by five memory models, by its operations and their replies
/// alone, with at most so many nodes for each, where 10000 is what the program takes. With `order` the text has an order of
/// the strongest that it obeys.
///
/// ```
/// let made = "made 0 store 0 1\nmade 0 load 1\nmade 1 store 1 1\nmade 1 load 0\n";
/// let log = format!("log 1\nwords 2\n{made}replied 0 1 0\nreplied 1 1 0\n").into_bytes();
/// let decided = torusmem::model_values(&log, 10000, false)?;
/// assert_eq!((decided.tso, decided.sc), (Some(true), Some(false)));
/// # Ok::<(), torusmem::Undecided>(())
/// ```
pub fn model_values(log: &[u8], nodes: u64, order: bool) -> Result<Decided, Undecided> {
    let mut room = vec![0; 4096];
    let mut said = raw::model_values(log, nodes, u32::from(order), &mut room);
    if said.code == sys::TORUSMEM_SHORT {
        room.resize(said.value as usize, 0);
        said = raw::model_values(log, nodes, u32::from(order), &mut room);
    }
    let sys::torusmem_decided { code, obeyed, broken, value, other } = said;
    let told = |model| if obeyed & model != 0 { Some(true) } else { (broken & model != 0).then_some(false) };
    match code {
        sys::TORUSMEM_OK => Ok(Decided {
            coherent: told(sys::TORUSMEM_COHERENT),
            fenced: told(sys::TORUSMEM_FENCED),
            pso: told(sys::TORUSMEM_PSO),
            tso: told(sys::TORUSMEM_TSO),
            sc: told(sys::TORUSMEM_SC),
            text: String::from_utf8_lossy(&room[..value as usize]).into_owned(),
        }),
        sys::TORUSMEM_UNWRITTEN => Err(Undecided::Unwritten { line: value }),
        sys::TORUSMEM_LOST_UPDATE => Err(Undecided::LostUpdate { line: value, other }),
        sys::TORUSMEM_FAULT_MEMORY => Err(Undecided::Fault(Fault::Memory)),
        fault => Err(Undecided::Fault(Fault::Text { fault, line: value })),
    }
}

fn raw_of(entry: &LogEntry) -> sys::torusmem_log_entry {
    let named = |kind, processor, index| sys::torusmem_log_entry { kind, processor, index, ..Default::default() };
    match *entry {
        LogEntry::Init { address, word } => {
            let kind = sys::TORUSMEM_LOG_INIT;
            sys::torusmem_log_entry { kind, address, first: word, ..Default::default() }
        }
        LogEntry::Made { processor, address, operation } => {
            let (operation, first, second) = numbers_of(operation);
            let kind = sys::TORUSMEM_LOG_MADE;
            sys::torusmem_log_entry { kind, processor, operation, address, first, second, ..Default::default() }
        }
        LogEntry::Fence { processor } => {
            let (kind, operation) = (sys::TORUSMEM_LOG_MADE, sys::TORUSMEM_FENCE);
            sys::torusmem_log_entry { kind, processor, operation, ..Default::default() }
        }
        LogEntry::Wrote { processor, index } => named(sys::TORUSMEM_LOG_WROTE, processor, index),
        LogEntry::Read { processor, index, from: (from_processor, from_index) } => {
            let read = named(sys::TORUSMEM_LOG_READ, processor, index);
            sys::torusmem_log_entry { from_processor, from_index, ..read }
        }
        LogEntry::ReadOpening { processor, index } => named(sys::TORUSMEM_LOG_READ_OPENING, processor, index),
        LogEntry::Served { processor, index } => named(sys::TORUSMEM_LOG_SERVED, processor, index),
        LogEntry::Replied { processor, index, reply } => {
            let (has_old, old) = numbers_of_reply(reply);
            sys::torusmem_log_entry { has_old, old, ..named(sys::TORUSMEM_LOG_REPLIED, processor, index) }
        }
    }
}
