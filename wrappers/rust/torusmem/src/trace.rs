//! The verdict on a trace.
use super::{raw, Fault, Operation, Reply};
use std::collections::HashMap;
use std::error::Error;
use std::fmt;
use torusmem_sys as sys;

/// An event of a trace.
#[derive(Clone, Copy, Debug, PartialEq, Eq, Hash)]
pub enum Event {
    /// A processor, below 4096, issues an operation.
    Issue { processor: u32, address: u64, operation: Operation },
    /// An operation of a processor is answered: the one of this index among its operations, from 0.
    Answer { processor: u32, index: u32, reply: Reply },
}

/// What is judged of a trace. Events are counted from 0.
#[derive(Clone, Debug, PartialEq, Eq)]
pub enum Judged {
    /// One order explains it: the events that issue its operations, in the order. Each operation that is answered is in
    /// it; one that isn't may be.
    Linearizable(Vec<usize>),
    /// What comes before this event has such an order, and with it there is none.
    NotLinearizable { event: usize },
    /// It isn't decided: at this answer a word has more configurations than were allowed.
    TooMany { event: usize },
    /// It isn't decided: at this issue 64 other operations are open on its word.
    TooOpen { event: usize },
}

/// Why events are no trace.
#[derive(Clone, Copy, Debug, PartialEq, Eq)]
pub enum EventFault {
    /// An event that can't stand, from 0, and the fault, as include/torusmem.h says them: 4 for F4 and so on.
    Event { fault: u32, event: usize },
    /// A request for memory was refused (F12).
    Memory,
}

impl fmt::Display for EventFault {
    fn fmt(&self, f: &mut fmt::Formatter) -> fmt::Result {
        match self {
            EventFault::Event { fault, event } => write!(f, "fault F{fault} at event {event}"),
            EventFault::Memory => Fault::Memory.fmt(f),
        }
    }
}

impl Error for EventFault {}

/// Judges a trace: whether one order explains events that are given in the order of time, over a memory that opens with
/// these words, each at its address, and with 0 at all other addresses; with at most so many configurations of a word
/// at once, where 1000000 is what the program takes. Addresses may be any.
///
/// ```
/// use torusmem::{linearize, Event, Judged, Operation, Reply};
///
/// let store = Event::Issue { processor: 0, address: 5, operation: Operation::Store(17) };
/// let load = Event::Issue { processor: 1, address: 5, operation: Operation::Load };
/// let stored = Event::Answer { processor: 0, index: 0, reply: Reply::Ok };
/// let loaded = |old| Event::Answer { processor: 1, index: 0, reply: Reply::Old(old) };
/// let judged = linearize([], &[store, load, loaded(17), stored], 1000000);
/// assert_eq!(judged, Ok(Judged::Linearizable(vec![0, 1])));
/// let judged = linearize([(5, 3)], &[store, stored, load, loaded(3)], 1000000);
/// assert_eq!(judged, Ok(Judged::NotLinearizable { event: 3 }));
/// ```
pub fn linearize(
    opening: impl IntoIterator<Item = (u64, u64)>,
    events: &[Event],
    configurations: u64,
) -> Result<Judged, EventFault> {
    let mut memory = Memory::default();
    let raw: Vec<_> = events.iter().map(|event| raw_of(event, &mut memory)).collect();
    for (address, word) in opening {
        if let Some(place) = memory.places.get(&address) {
            memory.words[*place as usize] = word;
        }
    }
    let mut order = vec![0; events.len()];
    let said = raw::linearize(&memory.words, &raw, configurations, &mut order);
    let event = said.value as usize;
    match said.code {
        sys::TORUSMEM_OK => Ok(Judged::Linearizable(order[..event].iter().map(|at| *at as usize).collect())),
        sys::TORUSMEM_NOT_LINEARIZABLE => Ok(Judged::NotLinearizable { event }),
        sys::TORUSMEM_TOO_MANY => Ok(Judged::TooMany { event }),
        sys::TORUSMEM_TOO_OPEN => Ok(Judged::TooOpen { event }),
        sys::TORUSMEM_FAULT_MEMORY => Err(EventFault::Memory),
        fault => Err(EventFault::Event { fault, event }),
    }
}

/// What is said of a trace text. Lines are counted from 1.
#[derive(Clone, Debug, PartialEq, Eq)]
pub enum Said {
    /// One order explains it: the text has the operations in this order.
    Linearizable { text: String },
    /// No order explains it up to this line: the text says why.
    NotLinearizable { line: u64, text: String },
    /// It isn't decided: the text says why.
    Undecided { line: u64, text: String },
}

/// Judges the trace of a trace text (docs/FORMATS.md, "Trace text"), with at most so many configurations of a word at once, and
/// says why. The faults are those of the text, and memory that is refused.
///
/// ```
/// use torusmem::{linearize_answer, Said};
///
/// let text = b"trace 1\nwords 8\nissue 0 load 5\nanswer 0 0 3\n";
/// let Ok(Said::NotLinearizable { line: 4, text }) = linearize_answer(text, 1000000) else { panic!("the word is 0") };
/// assert!(text.contains("no order gives 3: word 5 can be 0\n"));
/// ```
pub fn linearize_answer(text: &[u8], configurations: u64) -> Result<Said, Fault> {
    let mut room = vec![0; 4096];
    let mut said = raw::linearize_answer(text, configurations, &mut room);
    if said.code == sys::TORUSMEM_SHORT {
        room.resize(said.length as usize, 0);
        said = raw::linearize_answer(text, configurations, &mut room);
    }
    let sys::torusmem_said { code, line, length } = said;
    let text = String::from_utf8_lossy(&room[..length as usize]).into_owned();
    match code {
        sys::TORUSMEM_OK => Ok(Said::Linearizable { text }),
        sys::TORUSMEM_NOT_LINEARIZABLE => Ok(Said::NotLinearizable { line, text }),
        sys::TORUSMEM_TOO_MANY | sys::TORUSMEM_TOO_OPEN => Ok(Said::Undecided { line, text }),
        sys::TORUSMEM_FAULT_MEMORY => Err(Fault::Memory),
        fault => Err(Fault::Text { fault, line }),
    }
}

/// The words that events name, each at the number of its address: that of those which were named before.
#[derive(Default)]
struct Memory {
    places: HashMap<u64, u32>,
    words: Vec<u64>,
}

impl Memory {
    fn place_of(&mut self, address: u64) -> u32 {
        let next = self.words.len() as u32;
        let place = *self.places.entry(address).or_insert(next);
        if place == next {
            self.words.push(0);
        }
        place
    }
}

fn raw_of(event: &Event, memory: &mut Memory) -> sys::torusmem_event {
    match *event {
        Event::Issue { processor, address, operation } => {
            let (operation, first, second) = numbers_of(operation);
            let address = memory.place_of(address);
            let kind = sys::TORUSMEM_ISSUE;
            sys::torusmem_event { kind, processor, operation, address, first, second, ..Default::default() }
        }
        Event::Answer { processor, index, reply } => {
            let (has_old, old) = numbers_of_reply(reply);
            let kind = sys::TORUSMEM_ANSWER;
            sys::torusmem_event { kind, processor, index, has_old, old, ..Default::default() }
        }
    }
}

pub(super) fn numbers_of_reply(reply: Reply) -> (u32, u64) {
    match reply {
        Reply::Ok => (0, 0),
        Reply::Old(old) => (1, old),
    }
}

pub(super) fn numbers_of(operation: Operation) -> (u32, u64, u64) {
    match operation {
        Operation::Load => (sys::TORUSMEM_LOAD, 0, 0),
        Operation::Store(value) => (sys::TORUSMEM_STORE, value, 0),
        Operation::Swap(value) => (sys::TORUSMEM_SWAP, value, 0),
        Operation::Cas { expected, new } => (sys::TORUSMEM_CAS, expected, new),
        Operation::Add(value) => (sys::TORUSMEM_ADD, value, 0),
        Operation::And(value) => (sys::TORUSMEM_AND, value, 0),
        Operation::Or(value) => (sys::TORUSMEM_OR, value, 0),
        Operation::Xor(value) => (sys::TORUSMEM_XOR, value, 0),
        Operation::Max(value) => (sys::TORUSMEM_MAX, value, 0),
        Operation::Min(value) => (sys::TORUSMEM_MIN, value, 0),
    }
}
