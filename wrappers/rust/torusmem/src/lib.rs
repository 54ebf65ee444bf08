//! torusmem from Rust: a shared memory over a wormhole torus, proved to behave like one sequential memory.
//!
//! A [`Machine`] is made from a machine text and a script text, then stepped, looked at, and dropped. Texts, agents,
//! choices, ports and reports are those of docs/FORMATS.md and docs/FLITS-AND-PORTS.md.
//!
//! ```
//! use torusmem::{check, Choice, Machine};
//!
//! let machine = b"radix 2\ndims 1\ndepth 4\ntags 4\nwords 8\n";
//! let mut machine = Machine::load(machine, b"0 store 5 17\n0 fence\n0 load 5\n")?;
//! assert!(machine.step(0, Choice::Send));
//! machine.finish();
//! assert_eq!(machine.word(5), Some(17));
//! check(&machine.report()?)?;
//! # Ok::<(), torusmem::Fault>(())
//! ```
//!
//! The library beneath is proved; these bindings are not. They add nothing but types.
#![deny(unsafe_code)]

mod line;
mod log;
mod network;
#[allow(unsafe_code)]
mod raw;
mod searches;
mod trace;
mod watch;

pub use line::{Line, Refused, RefusedLine, Value};
pub use log::{model, model_values, Decided, LogEntry, LogFault, Obeyed, Undecided};
pub use network::{network, network_answer, By, Fill, Link, Verdict, Why};
use raw::Raw;
pub use searches::{outcomes, outcomes_run, reach, Outcomes, Reached, Unsearched};
use std::error::Error;
use std::fmt;
use torusmem_sys as sys;
pub use trace::{linearize, linearize_answer, Event, EventFault, Judged, Said};
pub use watch::{NotTaken, Watch};

/// Why a text was refused.
#[derive(Clone, Copy, Debug, PartialEq, Eq)]
pub enum Fault {
    /// The first fault of a text, 1 for F1 and so on, and its line, from 1.
    Text { fault: u32, line: u64 },
    /// A request for memory was refused (F12).
    Memory,
    /// A report isn't good: its first bad line, from 1.
    Report { line: u64 },
}

impl fmt::Display for Fault {
    fn fmt(&self, f: &mut fmt::Formatter) -> fmt::Result {
        match self {
            Fault::Text { fault, line } => write!(f, "fault F{fault} at line {line}: {}", code_text(*fault)),
            Fault::Memory => write!(f, "fault F12: {}", code_text(sys::TORUSMEM_FAULT_MEMORY)),
            Fault::Report { line } => write!(f, "bad report at line {line}"),
        }
    }
}

impl Error for Fault {}

/// Why bytes make no machine ([`Machine::restored`]), or no watch ([`Watch::restored`]).
#[derive(Clone, Copy, Debug, PartialEq, Eq)]
pub enum Unrestored {
    /// They are no record of a machine, or of a watch: this byte, from 0, is wrong or missing.
    Byte(u64),
    /// This action of the record, from 0, can't be done.
    Action(u64),
    /// A text of the record has this fault, or a request for memory was refused.
    Fault(Fault),
}

impl fmt::Display for Unrestored {
    fn fmt(&self, f: &mut fmt::Formatter) -> fmt::Result {
        match self {
            Unrestored::Byte(place) => write!(f, "byte {place}: {}", code_text(sys::TORUSMEM_BAD_RECORD)),
            Unrestored::Action(number) => write!(f, "action {number}: {}", code_text(sys::TORUSMEM_BAD_ACTION)),
            Unrestored::Fault(fault) => write!(f, "a text of the record: {fault}"),
        }
    }
}

impl Error for Unrestored {}

/// One of the texts of a load.
#[derive(Clone, Copy, Debug, PartialEq, Eq, Hash)]
pub enum Text {
    Machine,
    Scripts,
}

/// Why texts are refused: what [`explain`] says of a [`Fault`] of [`Machine::load`].
///
/// ```
/// use torusmem::{explain, Fault, Machine, Text};
///
/// let machine = b"radix 2\ndims 1\ndepth 4\ntags 4\nwords 8\n";
/// let scripts = b"0 load 5\n0 load 8\n";
/// assert_eq!(Machine::load(machine, scripts).err(), Some(Fault::Text { fault: 7, line: 2 }));
/// let why = explain(machine, scripts).expect("a fault");
/// assert_eq!((why.fault, why.text, why.line), (7, Some(Text::Scripts), 2));
/// assert_eq!(why.to_string(), "scripts:2: address 8: the machine has the words 0 to 7");
/// assert_eq!(why.named("script.txt"), "script.txt:2: address 8: the machine has the words 0 to 7");
/// ```
#[derive(Clone, Debug, PartialEq, Eq)]
pub struct Explanation {
    /// 1 for F1 and so on.
    pub fault: u32,
    /// The text that the fault is in; none where memory was refused (F12).
    pub text: Option<Text>,
    /// The line of that text, from 1; 0 where memory was refused.
    pub line: u64,
    /// The sentence on it: `machine` or `scripts`, the line, and the reason.
    pub sentence: String,
}

impl Explanation {
    /// What the sentence says behind the name and the line.
    pub fn reason(&self) -> &str {
        self.sentence.split_once(": ").map_or("", |parts| parts.1)
    }

    /// The sentence with a name in the place of `machine` or `scripts`, as that of a file.
    pub fn named(&self, name: &str) -> String {
        match self.line {
            0 => format!("{name}: {}", self.reason()),
            line => format!("{name}:{line}: {}", self.reason()),
        }
    }
}

impl fmt::Display for Explanation {
    fn fmt(&self, f: &mut fmt::Formatter) -> fmt::Result {
        f.write_str(&self.sentence)
    }
}

impl Error for Explanation {}

/// Why these texts are refused: the first fault of the first bad one, which it reads once more; None where they have
/// none. Where memory is refused for the sentence, that says so in place of the reason.
pub fn explain(machine: &[u8], scripts: &[u8]) -> Option<Explanation> {
    let mut room = vec![0; 256];
    let mut said = raw::explain(machine, scripts, &mut room);
    while said.code == sys::TORUSMEM_SHORT {
        room.resize(said.length as usize, 0);
        said = raw::explain(machine, scripts, &mut room);
    }
    let text = match said.text {
        sys::TORUSMEM_MACHINE_TEXT => Some(Text::Machine),
        sys::TORUSMEM_SCRIPTS_TEXT => Some(Text::Scripts),
        _ => None,
    };
    let sentence = match (said.code, text) {
        (sys::TORUSMEM_OK, _) => String::from_utf8_lossy(&room[..said.length as usize]).into_owned(),
        (_, Some(text)) => format!("{}:{}: {REFUSED}", name_of(text), said.line),
        (_, None) => format!("machine: {REFUSED}"),
    };
    (said.fault != 0).then_some(Explanation { fault: said.fault, text, line: said.line, sentence })
}

const REFUSED: &str = "a request for memory was refused";

fn name_of(text: Text) -> &'static str {
    match text {
        Text::Machine => "machine",
        Text::Scripts => "scripts",
    }
}

/// What an agent attempts. An input or output that isn't there makes it idle.
#[derive(Clone, Copy, Debug, PartialEq, Eq, Hash)]
pub enum Choice {
    Send,
    Take,
    TakeFrom(u32),
    Put(u32),
    Credit,
    CreditOf(u32),
    Serve,
    Done,
    Look,
}

/// An operation on one word, with its values.
#[derive(Clone, Copy, Debug, PartialEq, Eq, Hash)]
pub enum Operation {
    Load,
    Store(u64),
    Swap(u64),
    Cas { expected: u64, new: u64 },
    Add(u64),
    And(u64),
    Or(u64),
    Xor(u64),
    Max(u64),
    Min(u64),
}

/// What an operation is answered: a store by `Ok`, any other by the old word.
#[derive(Clone, Copy, Debug, PartialEq, Eq, Hash)]
pub enum Reply {
    Ok,
    Old(u64),
}

/// What has become of an operation that was asked.
#[derive(Clone, Copy, Debug, PartialEq, Eq, Hash)]
pub enum Asked {
    Answered(Answer),
    NotYet,
}

/// An operation of a processor that is answered.
#[derive(Clone, Copy, Debug, PartialEq, Eq, Hash)]
pub struct Answer {
    /// Among the operations of its processor.
    pub index: u32,
    pub operation: Operation,
    /// The tile of the bank that served it.
    pub bank: u32,
    /// Among the services of that bank.
    pub place: u32,
    pub reply: Reply,
}

/// A service of a bank.
#[derive(Clone, Copy, Debug, PartialEq, Eq, Hash)]
pub struct Entry {
    /// The processor that asked.
    pub source: u32,
    pub tag: u32,
    pub address: u32,
    pub operation: Operation,
    pub reply: Reply,
}

/// A row of the one legal order of what is served so far: the service, the operation, and the numbers of its issue, its
/// service and its answer among all such events, from 1.
#[derive(Clone, Copy, Debug, PartialEq, Eq, Hash)]
pub struct Ordered {
    pub bank: u32,
    pub place: u32,
    pub source: u32,
    pub index: u32,
    pub issued: u32,
    pub served: u32,
    /// None while it isn't answered.
    pub answered: Option<u32>,
}

/// What happens to an operation.
#[derive(Clone, Copy, Debug, PartialEq, Eq, Hash)]
pub enum What {
    Issue,
    Service,
    Answer,
}

/// An event of an operation that is served: its number among all events, from 1, and the operation.
#[derive(Clone, Copy, Debug, PartialEq, Eq, Hash)]
pub struct Happened {
    pub number: u32,
    pub what: What,
    pub operation: Ordered,
}

/// A spin that ran out of loads: none of them found the number that it sought.
#[derive(Clone, Copy, Debug, PartialEq, Eq, Hash)]
pub struct Spin {
    pub processor: u32,
    /// The line of the scripts text, from 1.
    pub line: u64,
    pub address: u32,
    pub sought: u64,
    pub loads: u32,
}

/// The class of a packet.
#[derive(Clone, Copy, Debug, PartialEq, Eq, Hash)]
pub enum Class {
    Request,
    Reply,
}

/// The direction of a hop.
#[derive(Clone, Copy, Debug, PartialEq, Eq, Hash)]
pub enum Dir {
    Plus,
    Minus,
}

/// What a channel of a route is.
#[derive(Clone, Copy, Debug, PartialEq, Eq, Hash)]
pub enum Kind {
    Injection,
    Hop { dim: u32, dir: Dir, bit: bool },
    Ejection,
}

/// A channel of a route: out of which tile, what it is, and its number, which rises along every route.
#[derive(Clone, Copy, Debug, PartialEq, Eq, Hash)]
pub struct Channel {
    pub tile: u32,
    pub kind: Kind,
    pub number: u32,
}

/// What a machine is built to.
#[derive(Clone, Debug, PartialEq, Eq, Hash)]
pub struct Shape {
    /// Of each dimension, dimension 0 first; so are the datelines.
    pub radices: Vec<u32>,
    pub datelines: Vec<u32>,
    /// The flits of a channel.
    pub depth: u32,
    /// The tags of a processor.
    pub tags: u32,
    pub words: u32,
    pub tiles: u32,
    /// The inputs of a router, and as many outputs.
    pub ports: u32,
}

/// A machine: its tiles, their channels, and the memory. It may go from thread to thread, and isn't shared:
///
/// ```
/// fn sent<T: Send>() {}
/// sent::<torusmem::Machine>();
/// ```
///
/// ```compile_fail,E0277
/// fn shared<T: Sync>() {}
/// shared::<torusmem::Machine>();
/// ```
pub struct Machine {
    raw: Raw,
}

impl fmt::Debug for Machine {
    fn fmt(&self, f: &mut fmt::Formatter) -> fmt::Result {
        f.debug_struct("Machine").finish_non_exhaustive()
    }
}

/// No route has more channels, as include/torusmem.h says.
const LONGEST_ROUTE: usize = 10;

impl Machine {
    /// The machine of these texts, or the first fault of the first bad one, of which [`explain`] tells more.
    pub fn load(machine: &[u8], scripts: &[u8]) -> Result<Machine, Fault> {
        let mut raw = Raw::empty();
        granted(raw.load(machine, scripts))?;
        Ok(Machine { raw })
    }

    /// The machine of a shape, whose first words are given, and whose others are 0; its tiles and ports are not looked at.
    /// The fault is the first one of the shape, at line 0: 2, not one to three dimensions; 1, a radix; 3, more than 64
    /// tiles; 13, not one dateline for each radix; 14, a dateline; 6, the depth, the tags or the number of words; 7, more
    /// words than there are.
    pub fn open(shape: &Shape, words: &[u64]) -> Result<Machine, Fault> {
        let mut raw = Raw::empty();
        granted(raw.open(&built(shape)?, words))?;
        Ok(Machine { raw })
    }

    /// Finishes its scripts, and opens a machine of the same shape that goes on with its words: what is asked of that is
    /// answered as if this one had gone on. This one keeps its answers. The only fault is that memory is refused.
    pub fn reopened(&mut self) -> Result<Machine, Fault> {
        let mut raw = Raw::empty();
        granted(self.raw.reopen(&mut raw))?;
        Ok(Machine { raw })
    }

    /// The same as [`Machine::load`]; and the machine keeps a record of what is done to it, so that it can be saved.
    pub fn load_recorded(machine: &[u8], scripts: &[u8]) -> Result<Machine, Fault> {
        let mut raw = Raw::empty();
        granted(raw.load_recorded(machine, scripts))?;
        Ok(Machine { raw })
    }

    /// The same as [`Machine::open`]; and the machine keeps a record of what is done to it, so that it can be saved.
    pub fn open_recorded(shape: &Shape, words: &[u64]) -> Result<Machine, Fault> {
        let mut raw = Raw::empty();
        granted(raw.open_recorded(&built(shape)?, words))?;
        Ok(Machine { raw })
    }

    /// The bytes of its record, of which [`Machine::restored`] makes this machine again; None where it keeps none. The only
    /// fault is that memory is refused.
    pub fn save(&mut self) -> Result<Option<Vec<u8>>, Fault> {
        let asked = self.raw.save(&mut []);
        if asked.code == sys::TORUSMEM_NO_RECORD {
            return Ok(None);
        }
        if asked.code != sys::TORUSMEM_SHORT {
            granted(asked)?;
        }
        let mut bytes = vec![0; asked.value as usize];
        granted(self.raw.save(&mut bytes))?;
        Ok(Some(bytes))
    }

    /// The machine that was saved as these bytes: it shows what that showed, does what that would do, and keeps the record.
    pub fn restored(bytes: &[u8]) -> Result<Machine, Unrestored> {
        let mut raw = Raw::empty();
        let said = raw.restore(bytes);
        match said.code {
            sys::TORUSMEM_BAD_RECORD => Err(Unrestored::Byte(said.value)),
            sys::TORUSMEM_BAD_ACTION => Err(Unrestored::Action(said.value)),
            _ => granted(said).map(|_| Machine { raw }).map_err(Unrestored::Fault),
        }
    }

    /// The same machine once more, with the same record, which is done again; None where it keeps none. The only fault is
    /// that memory is refused.
    pub fn cloned(&mut self) -> Result<Option<Machine>, Fault> {
        let mut raw = Raw::empty();
        let said = self.raw.clone_to(&mut raw);
        if said.code == sys::TORUSMEM_NO_RECORD {
            return Ok(None);
        }
        granted(said)?;
        Ok(Some(Machine { raw }))
    }

    /// Attempts one choice of one agent, and answers whether it moved. Tile t has the agents 3t (its processor),
    /// 3t + 1 (its router) and 3t + 2 (its bank). What isn't there doesn't move.
    pub fn step(&mut self, agent: u32, choice: Choice) -> bool {
        let (choice, number) = numbered(choice);
        self.raw.step(agent, choice, number).value == 1
    }

    /// Makes attempts, one after the other, and answers how many of them moved. One call makes as many as fit into a
    /// room of 256.
    pub fn run(&mut self, attempts: impl IntoIterator<Item = (u32, Choice)>) -> u64 {
        let mut attempts = attempts.into_iter();
        let mut room = [sys::torusmem_attempt::default(); 256];
        let mut moved = 0;
        loop {
            let mut count = 0;
            for (place, (agent, choice)) in room.iter_mut().zip(&mut attempts) {
                let (choice, number) = numbered(choice);
                *place = sys::torusmem_attempt { agent, choice, number };
                count += 1;
            }
            if count == 0 {
                return moved;
            }
            let mut rest = &room[..count];
            let mut said = self.raw.run(rest);
            while said.code == sys::TORUSMEM_NONE {
                let (named, others) = rest.split_at(said.value as usize);
                moved += self.raw.run(named).value;
                rest = &others[1..];
                said = self.raw.run(rest);
            }
            moved += said.value;
        }
    }

    /// Whether such an attempt would move now.
    pub fn enabled(&mut self, agent: u32, choice: Choice) -> bool {
        let (choice, number) = numbered(choice);
        self.raw.enabled(agent, choice, number).value == 1
    }

    /// Attempts each choice of each agent once.
    pub fn round(&mut self) {
        self.raw.round();
    }

    /// Makes rounds until every script is finished, and answers how many.
    pub fn finish(&mut self) -> u64 {
        self.raw.finish().value
    }

    /// Makes a fair round: each choice is attempted once that is enabled now, and of the heads in a router the oldest
    /// operation's goes first. Answers whether the guard held back what would have begun: it does where an operation
    /// has been out for more than 241 fair rounds for each tag of each tile. So no operation waits for ever, as it may
    /// in other rounds.
    pub fn fair_round(&mut self) -> bool {
        self.raw.fair_round().value == 1
    }

    /// Makes fair rounds until every script is finished, at most so many, and answers how many.
    pub fn fair_rounds(&mut self, most: u64) -> u64 {
        self.raw.fair_rounds(most).value
    }

    /// Attempts each choice once that is enabled now, so that a flit goes one stage at most. The puts of each router
    /// begin at input `turn` modulo the number of its inputs: give the number of rounds so far.
    pub fn clocked_round(&mut self, turn: u64) {
        self.raw.clocked_round(turn);
    }

    /// Makes clocked rounds, with the turns from 0 on, until every script is finished, and answers how many.
    pub fn finish_clocked(&mut self) -> u64 {
        self.raw.finish_clocked().value
    }

    /// Whether every script is finished.
    pub fn finished(&mut self) -> bool {
        self.raw.finished().value == 1
    }

    /// How many moves any schedule can still make.
    pub fn moves_left(&mut self) -> u64 {
        self.raw.moves_left().value
    }

    /// What it is built to.
    pub fn shape(&mut self) -> Shape {
        let mut told = sys::torusmem_shape::default();
        self.raw.shape(&mut told);
        let sys::torusmem_shape { dims, radices, datelines, depth, tags, words, tiles, ports } = told;
        let (radices, datelines) = (radices[..dims as usize].to_vec(), datelines[..dims as usize].to_vec());
        Shape { radices, datelines, depth, tags, words, tiles, ports }
    }

    /// How many tiles there are.
    pub fn tiles(&mut self) -> u32 {
        self.raw.tiles().value as u32
    }

    /// How many words the memory has.
    pub fn words(&mut self) -> u32 {
        self.raw.words().value as u32
    }

    /// The word at an address.
    pub fn word(&mut self, address: u32) -> Option<u64> {
        found(self.raw.word(address))
    }

    /// The word at a place of the row: the places of all channels in channel order, then the memory, then the count of
    /// the processors that have reported.
    pub fn row(&mut self, at: u32) -> Option<u64> {
        found(self.raw.row(at))
    }

    /// All words of the row.
    pub fn rows(&mut self) -> Vec<u64> {
        let mut row = vec![0; self.raw.rows(&mut []).value as usize];
        self.raw.rows(&mut row);
        row
    }

    /// What has become of the operation of a processor that has this index, from 0 in the order of issue; `None` where
    /// there is no such processor, or its script can't make so many operations.
    pub fn answer_of(&mut self, processor: u32, index: u32) -> Option<Asked> {
        let answer = self.raw.answer_of(processor, index);
        match answer.code {
            sys::TORUSMEM_OK => Some(Asked::Answered(answer_of(&answer))),
            sys::TORUSMEM_NOT_YET => Some(Asked::NotYet),
            _ => None,
        }
    }

    /// The answers that a processor has, in the order of answering.
    pub fn answers(&mut self, processor: u32) -> Option<Vec<Answer>> {
        let count = found(self.raw.answers(processor))? as u32;
        let answer = |i| answer_of(&self.raw.answer_at(processor, i));
        Some((0..count).map(answer).collect())
    }

    /// The services of a bank, in their order.
    pub fn entries(&mut self, bank: u32) -> Option<Vec<Entry>> {
        let count = found(self.raw.entries(bank))? as u32;
        let entry = |i| entry_of(&self.raw.entry_at(bank, i));
        Some((0..count).map(entry).collect())
    }

    /// The operations served so far, in the one legal order, which is that of the services: those from row `from` on. The
    /// only fault is that memory is refused.
    pub fn order(&mut self, from: u32) -> Result<Vec<Ordered>, Fault> {
        let mut room = Vec::new();
        let mut said = self.raw.order(from, &mut room);
        if said.code == sys::TORUSMEM_SHORT {
            room.resize(said.value as usize, sys::torusmem_ordered::default());
            said = self.raw.order(from, &mut room);
        }
        granted(said)?;
        Ok(room.iter().map(ordered_of).collect())
    }

    /// The issues, services and answers of the operations served so far, in the order in which they happened: those
    /// numbered `from` or higher. The issue of an operation comes with its service. The only fault is that memory is refused.
    pub fn events(&mut self, from: u32) -> Result<Vec<Happened>, Fault> {
        let mut room = Vec::new();
        let mut said = self.raw.events(from, &mut room);
        if said.code == sys::TORUSMEM_SHORT {
            room.resize(said.value as usize, sys::torusmem_happened::default());
            said = self.raw.events(from, &mut room);
        }
        granted(said)?;
        Ok(room.iter().map(happened_of).collect())
    }

    /// The events of the operations that stand in the order from row `row` on: it goes over these rows alone. A host that
    /// follows a run gives the row that `answered_to` has told before.
    pub fn events_from(&mut self, row: u32, from: u32) -> Result<Vec<Happened>, Fault> {
        let mut room = Vec::new();
        let mut said = self.raw.events_from(row, from, &mut room);
        if said.code == sys::TORUSMEM_SHORT {
            room.resize(said.value as usize, sys::torusmem_happened::default());
            said = self.raw.events_from(row, from, &mut room);
        }
        granted(said)?;
        Ok(room.iter().map(happened_of).collect())
    }

    /// The first row of the order, from row `from` on, whose operation isn't answered yet; the number of rows, where all are.
    pub fn answered_to(&mut self, from: u32) -> u32 {
        self.raw.answered_to(from).value as u32
    }

    /// The spins that ran out of loads in what was run so far, by processor, and of each in the order of its script: by
    /// the texts of which the machine was loaded, which are read once more. The faults are those of the texts, and want
    /// of memory.
    pub fn spins_out(&mut self, machine: &[u8], scripts: &[u8]) -> Result<Vec<Spin>, Fault> {
        let mut room = Vec::new();
        let mut said = self.raw.spins_out(machine, scripts, &mut room);
        if said.code == sys::TORUSMEM_SHORT {
            room.resize(said.value as usize, sys::torusmem_spin::default());
            said = self.raw.spins_out(machine, scripts, &mut room);
        }
        granted(said)?;
        Ok(room.iter().map(spin_of).collect())
    }

    /// The report of the run so far. The only fault is that memory is refused.
    pub fn report(&mut self) -> Result<Vec<u8>, Fault> {
        let asked = self.raw.report(&mut []);
        if asked.code != sys::TORUSMEM_SHORT {
            granted(asked)?;
        }
        let mut report = vec![0; asked.value as usize];
        granted(self.raw.report(&mut report))?;
        Ok(report)
    }

    /// The channels of a packet's route, or None where a tile isn't there.
    pub fn route(&mut self, from: u32, to: u32, class: Class) -> Option<Vec<Channel>> {
        let mut channels = [sys::torusmem_channel::default(); LONGEST_ROUTE];
        let class = match class {
            Class::Request => sys::TORUSMEM_REQUEST,
            Class::Reply => sys::TORUSMEM_REPLY,
        };
        let count = found(self.raw.route(from, to, class, &mut channels))? as usize;
        Some(channels[..count].iter().map(channel_of).collect())
    }

    /// The output by which a packet to a tile leaves the router of tile `at`, where it came by this input; None where
    /// a tile or the input isn't there.
    pub fn next(&mut self, at: u32, input: u32, to: u32) -> Option<u32> {
        found(self.raw.next(at, input, to)).map(|output| output as u32)
    }
}

/// What a code of include/torusmem.h says, as that of a fault: 7 for F7.
///
/// ```
/// assert_eq!(torusmem::code_text(7), "an address is not below the number of words");
/// ```
pub fn code_text(code: u32) -> &'static str {
    raw::code_text(code)
}

/// The version of the library beneath.
pub fn version() -> &'static str {
    raw::version()
}

/// Whether a text is a good report. A good one replays on one memory, whichever machine wrote it.
pub fn check(report: &[u8]) -> Result<(), Fault> {
    granted(raw::check(report)).map(|_| ())
}

/// A shape as C has it, whose dimensions may be wrong. Fault 13: it hasn't one dateline for each radix.
fn built(shape: &Shape) -> Result<sys::torusmem_shape, Fault> {
    let dims = shape.radices.len();
    if dims <= 3 && shape.datelines.len() != dims {
        return Err(Fault::Text { fault: sys::TORUSMEM_FAULT_COUNT, line: 0 });
    }
    let three = |list: &[u32]| std::array::from_fn(|dim| list.get(dim).copied().unwrap_or(0));
    Ok(sys::torusmem_shape {
        dims: dims.min(4) as u32,
        radices: three(&shape.radices),
        datelines: three(&shape.datelines),
        depth: shape.depth,
        tags: shape.tags,
        words: shape.words,
        ..Default::default()
    })
}

fn granted(said: sys::torusmem_outcome) -> Result<u64, Fault> {
    match said.code {
        sys::TORUSMEM_OK => Ok(said.value),
        sys::TORUSMEM_FAULT_MEMORY => Err(Fault::Memory),
        sys::TORUSMEM_BAD_REPORT => Err(Fault::Report { line: said.value }),
        fault => Err(Fault::Text { fault, line: said.value }),
    }
}

fn found(said: sys::torusmem_outcome) -> Option<u64> {
    (said.code == sys::TORUSMEM_OK).then_some(said.value)
}

fn numbered(choice: Choice) -> (u32, u32) {
    match choice {
        Choice::Send => (sys::TORUSMEM_SEND, 0),
        Choice::Take => (sys::TORUSMEM_TAKE, 0),
        Choice::TakeFrom(input) => (sys::TORUSMEM_TAKE_FROM, input),
        Choice::Put(input) => (sys::TORUSMEM_PUT, input),
        Choice::Credit => (sys::TORUSMEM_CREDIT, 0),
        Choice::CreditOf(output) => (sys::TORUSMEM_CREDIT_OF, output),
        Choice::Serve => (sys::TORUSMEM_SERVE, 0),
        Choice::Done => (sys::TORUSMEM_DONE, 0),
        Choice::Look => (sys::TORUSMEM_LOOK, 0),
    }
}

fn operation_of(operation: u32, first: u64, second: u64) -> Operation {
    match operation {
        sys::TORUSMEM_LOAD => Operation::Load,
        sys::TORUSMEM_STORE => Operation::Store(first),
        sys::TORUSMEM_SWAP => Operation::Swap(first),
        sys::TORUSMEM_CAS => Operation::Cas { expected: first, new: second },
        sys::TORUSMEM_ADD => Operation::Add(first),
        sys::TORUSMEM_AND => Operation::And(first),
        sys::TORUSMEM_OR => Operation::Or(first),
        sys::TORUSMEM_XOR => Operation::Xor(first),
        sys::TORUSMEM_MAX => Operation::Max(first),
        _ => Operation::Min(first),
    }
}

fn reply_of(has_old: u32, old: u64) -> Reply {
    if has_old == 0 {
        Reply::Ok
    } else {
        Reply::Old(old)
    }
}

fn answer_of(answer: &sys::torusmem_answer) -> Answer {
    Answer {
        index: answer.index,
        operation: operation_of(answer.operation, answer.first, answer.second),
        bank: answer.bank,
        place: answer.place,
        reply: reply_of(answer.has_old, answer.old),
    }
}

fn entry_of(entry: &sys::torusmem_entry) -> Entry {
    Entry {
        source: entry.source,
        tag: entry.tag,
        address: entry.address,
        operation: operation_of(entry.operation, entry.first, entry.second),
        reply: reply_of(entry.has_old, entry.old),
    }
}

fn happened_of(event: &sys::torusmem_happened) -> Happened {
    let what = match event.what {
        sys::TORUSMEM_ISSUED => What::Issue,
        sys::TORUSMEM_SERVED => What::Service,
        _ => What::Answer,
    };
    Happened { number: event.number, what, operation: ordered_of(&event.operation) }
}

fn ordered_of(row: &sys::torusmem_ordered) -> Ordered {
    let sys::torusmem_ordered { bank, place, source, index, issued, served, answered } = *row;
    Ordered { bank, place, source, index, issued, served, answered: (answered != 0).then_some(answered) }
}

fn spin_of(spin: &sys::torusmem_spin) -> Spin {
    let sys::torusmem_spin { processor, address, loads, line, sought } = *spin;
    Spin { processor, line, address, sought, loads }
}

fn channel_of(channel: &sys::torusmem_channel) -> Channel {
    let kind = match channel.kind {
        sys::TORUSMEM_INJECTION => Kind::Injection,
        sys::TORUSMEM_HOP => Kind::Hop {
            dim: channel.dim,
            dir: if channel.minus == 0 { Dir::Plus } else { Dir::Minus },
            bit: channel.bit == 1,
        },
        _ => Kind::Ejection,
    };
    Channel { tile: channel.tile, kind, number: channel.number }
}
