//! Lines that come later, for the script of a processor.
use crate::Machine;
use std::error::Error;
use std::fmt;
use torusmem_sys as sys;

/// A value of a line: a number, or the one replied to the operation just before it.
#[derive(Clone, Copy, Debug, PartialEq, Eq, Hash)]
pub enum Value {
    Number(u64),
    Last,
}

impl From<u64> for Value {
    fn from(number: u64) -> Value {
        Value::Number(number)
    }
}

/// A line of a script: an operation on the word at an address, with its values; a fence, which waits for all answers;
/// or a spin, which loads a word until it finds a number, at most as many times as it says, 1 to 4096.
#[derive(Clone, Copy, Debug, PartialEq, Eq, Hash)]
pub enum Line {
    Load(u32),
    Store(u32, Value),
    Swap(u32, Value),
    Cas { address: u32, expected: Value, new: Value },
    Add(u32, Value),
    And(u32, Value),
    Or(u32, Value),
    Xor(u32, Value),
    Max(u32, Value),
    Min(u32, Value),
    Fence,
    Spin { address: u32, sought: u64, loads: u32 },
}

/// A line that a machine refuses; the machine is as it was then.
#[derive(Clone, Debug, PartialEq, Eq)]
pub struct RefusedLine {
    pub why: Refused,
    /// The sentence on it, as `address 300: the machine has the words 0 to 255`.
    pub sentence: String,
}

impl fmt::Display for RefusedLine {
    fn fmt(&self, f: &mut fmt::Formatter) -> fmt::Result {
        f.write_str(&self.sentence)
    }
}

impl Error for RefusedLine {}

/// Why a machine refuses a line.
#[derive(Clone, Copy, Debug, PartialEq, Eq, Hash)]
pub enum Refused {
    /// There is no such processor (F8).
    Processor,
    /// There is no such address (F7).
    Address,
    /// A spin hasn't 1 to 4096 loads (F6).
    Loads,
    /// A value is the one last replied, and no operation stands before the line (F10).
    Last,
    /// A script has at most 4096 operations, and all together at most 65536 (F9).
    Length,
    /// A request for memory was refused (F12).
    Memory,
    /// Of what is asked: it is a fence or a spin, and no operation.
    NoOperation,
    /// Of what is asked: the script has a spin, so that the index of what comes behind it isn't known.
    BehindSpin,
}

impl fmt::Display for Refused {
    fn fmt(&self, f: &mut fmt::Formatter) -> fmt::Result {
        f.write_str(match self {
            Refused::Processor => "there is no such processor (F8)",
            Refused::Address => "there is no such address (F7)",
            Refused::Loads => "a spin makes 1 to 4096 loads (F6)",
            Refused::Last => "there is no operation before a line with `last` (F10)",
            Refused::Length => "a script has at most 4096 operations, and all together at most 65536 (F9)",
            Refused::Memory => "a request for memory was refused (F12)",
            Refused::NoOperation => "a fence or a spin is no operation that can be asked",
            Refused::BehindSpin => "the script has a spin, and the index of what comes behind it isn't known",
        })
    }
}

impl Error for Refused {}

impl Machine {
    /// Gives a processor a further line at the end of its script, at any time, before steps or after them. Where the
    /// processor has reported that its script is finished, all reports are taken back first.
    pub fn append(&mut self, processor: u32, line: Line) -> Result<(), RefusedLine> {
        let (operation, address, first, second) = parts(line);
        let values = (number(first), number(second));
        let said = self.raw.append(processor, operation, address, values, lasts(first, second));
        self.taken(said, processor, line).map(|_| ())
    }

    /// Gives a processor an operation, as `append` does, and answers its index among the processor's operations, from 0
    /// in the order of issue: the operation that the processor issues under it is the one that was asked.
    pub fn ask(&mut self, processor: u32, line: Line) -> Result<u32, RefusedLine> {
        let (operation, address, first, second) = parts(line);
        let values = (number(first), number(second));
        let said = self.raw.ask(processor, operation, address, values, lasts(first, second));
        self.taken(said, processor, line).map(|index| index as u32)
    }

    /// What is answered where a line is taken, or why it is refused.
    fn taken(&mut self, said: sys::torusmem_outcome, processor: u32, line: Line) -> Result<u64, RefusedLine> {
        let why = match said.code {
            sys::TORUSMEM_OK => return Ok(said.value),
            sys::TORUSMEM_NONE => Refused::NoOperation,
            sys::TORUSMEM_BEHIND_SPIN => Refused::BehindSpin,
            sys::TORUSMEM_FAULT_PROCESSOR => Refused::Processor,
            sys::TORUSMEM_FAULT_ADDRESS => Refused::Address,
            sys::TORUSMEM_FAULT_RANGE => Refused::Loads,
            sys::TORUSMEM_FAULT_LAST => Refused::Last,
            sys::TORUSMEM_FAULT_LENGTH => Refused::Length,
            _ => Refused::Memory,
        };
        if let Refused::NoOperation = why {
            return Err(RefusedLine { why, sentence: why.to_string() });
        }
        let (operation, address, first, second) = parts(line);
        let values = (number(first), number(second));
        let lasts = lasts(first, second);
        let sentence = self.raw.explain_line(said.code, processor, operation, address, values, lasts);
        Err(RefusedLine { why, sentence })
    }
}

/// Which of two values are `last`.
fn lasts(first: Value, second: Value) -> u32 {
    let flags = [(first, sys::TORUSMEM_FIRST_IS_LAST), (second, sys::TORUSMEM_SECOND_IS_LAST)];
    flags.iter().filter(|(value, _)| *value == Value::Last).map(|(_, flag)| flag).sum()
}

/// A line's number, its address, and its values, where it has them.
fn parts(line: Line) -> (u32, u32, Value, Value) {
    const NONE: Value = Value::Number(0);
    match line {
        Line::Load(address) => (sys::TORUSMEM_LOAD, address, NONE, NONE),
        Line::Store(address, value) => (sys::TORUSMEM_STORE, address, value, NONE),
        Line::Swap(address, value) => (sys::TORUSMEM_SWAP, address, value, NONE),
        Line::Cas { address, expected, new } => (sys::TORUSMEM_CAS, address, expected, new),
        Line::Add(address, value) => (sys::TORUSMEM_ADD, address, value, NONE),
        Line::And(address, value) => (sys::TORUSMEM_AND, address, value, NONE),
        Line::Or(address, value) => (sys::TORUSMEM_OR, address, value, NONE),
        Line::Xor(address, value) => (sys::TORUSMEM_XOR, address, value, NONE),
        Line::Max(address, value) => (sys::TORUSMEM_MAX, address, value, NONE),
        Line::Min(address, value) => (sys::TORUSMEM_MIN, address, value, NONE),
        Line::Fence => (sys::TORUSMEM_FENCE, 0, NONE, NONE),
        Line::Spin { address, sought, loads } => {
            (sys::TORUSMEM_SPIN, address, Value::Number(sought), Value::Number(loads.into()))
        }
    }
}

fn number(value: Value) -> u64 {
    match value {
        Value::Number(number) => number,
        Value::Last => 0,
    }
}
