//! The judge of traces in plain Rust, of the same algorithm as the crate `trace_judge`:
//!
//!     traces PROCESSES WORDS STEPS LOST SPOILED ROUNDS
//!
//! makes the trace of `bench/traces.rattle`, judges it ROUNDS times, and prints a line `NAME NANOSECONDS` for each
//! time and what was found as numbers.
#[allow(dead_code)]
mod packets;

use packets::{Op, Reply};
use std::collections::HashSet;
use std::env;
use std::process::exit;
use std::time::Instant;

#[derive(Clone, Copy)]
struct Call {
    id: u64,
    address: u32,
    op: Op,
}

#[derive(Clone, Copy)]
enum Event {
    Issue(Call),
    Answer(u64, Reply),
}

fn apply(op: Op, word: u64) -> (u64, Reply) {
    (op.apply(word), op.reply(word))
}

// The trace.

#[derive(Clone, Copy)]
enum Process {
    Rests,
    Issued(Call),
    Done(u64, Reply),
}

fn draw(seed: u64) -> u64 {
    seed.wrapping_mul(6_364_136_223_846_793_005).wrapping_add(1_442_695_040_888_963_407)
}

fn some_op(random: u64) -> Op {
    match random % 5 {
        0 => Op::Load,
        1 => Op::Store(random / 8 % 4),
        2 => Op::Swap(random / 8 % 4),
        3 => Op::Cas(random / 8 % 4, random / 64 % 4),
        _ => Op::Add(1),
    }
}

fn trace(processes: usize, words: usize, steps: u64, lost: u64) -> Vec<Event> {
    let mut events = Vec::new();
    let mut memory = vec![0u64; words];
    let mut all = vec![Process::Rests; processes];
    let mut random = 7;
    let mut done = 0u64;
    for id in 0..steps {
        random = draw(random);
        let who = (random >> 33) as usize % processes;
        random = draw(random);
        all[who] = match all[who] {
            Process::Rests => {
                let address = ((random >> 40) % words as u64 % 65536) as u32;
                let call = Call { id, address, op: some_op(random >> 33) };
                events.push(Event::Issue(call));
                Process::Issued(call)
            }
            Process::Issued(call) => {
                let at = call.address as usize;
                let (word, reply) = apply(call.op, memory[at]);
                memory[at] = word;
                Process::Done(call.id, reply)
            }
            Process::Done(number, reply) => {
                done += 1;
                if lost == 0 || done % lost != 0 {
                    events.push(Event::Answer(number, reply));
                }
                Process::Rests
            }
        };
    }
    events
}

fn spoil(events: &mut [Event]) {
    for event in events.iter_mut().rev() {
        if let Event::Answer(id, Reply::Old(_)) = *event {
            *event = Event::Answer(id, Reply::Old(77777));
            return;
        }
    }
}

/// Whether events are a trace: numbers rise, and what is answered is open.
fn is_trace(words: usize, events: &[Event]) -> bool {
    let mut open = HashSet::new();
    let mut last = None;
    for event in events {
        match *event {
            Event::Issue(call) => {
                if call.address as usize >= words || last.is_some_and(|l| l >= call.id) {
                    return false;
                }
                last = Some(call.id);
                open.insert(call.id);
            }
            Event::Answer(id, _) => {
                if !open.remove(&id) {
                    return false;
                }
            }
        }
    }
    true
}

// The judge.

#[derive(Clone, Copy)]
struct Open {
    call: Call,
    promise: Option<Reply>,
}

#[derive(Clone, Copy, PartialEq, Eq)]
struct Config {
    word: u64,
    taken: u128,
}

#[derive(Clone, Copy)]
struct Node {
    call: Call,
    before: Option<usize>,
}

#[derive(Clone, Copy)]
struct Branch {
    config: Config,
    trail: Option<usize>,
}

struct Idle {
    slot: usize,
    call: Call,
    at: Option<u64>,
}

enum Undecided {
    Configurations(usize),
    Operations(usize),
}

const SLOTS: usize = 64;
const NODES: usize = 1 << 12;

fn hash(config: Config) -> u64 {
    let low = config.taken as u64;
    let high = (config.taken >> 64) as u64;
    let mixed = config.word.wrapping_mul(0x9e37_79b9_7f4a_7c15)
        ^ (low ^ high.rotate_left(32)).wrapping_mul(0xc2b2_ae3d_27d4_eb4f);
    (mixed ^ (mixed >> 29)).wrapping_mul(0xbf58_476d_1ce4_e5b9) >> 24
}

#[derive(Clone, Copy)]
struct Place {
    round: u32,
    at: u32,
}

/// A set of the configurations that were found, which is emptied by beginning another round.
struct Index {
    places: Vec<Place>,
    round: u32,
}

impl Index {
    fn new(count: usize) -> Index {
        Index { places: vec![Place { round: 0, at: 0 }; count], round: 1 }
    }

    fn place_for(&self, found: &[Branch], config: Config) -> Option<usize> {
        let last = self.places.len() - 1;
        let mut place = hash(config) as usize & last;
        loop {
            let taken = self.places[place];
            if taken.round != self.round {
                return Some(place);
            }
            if found[taken.at as usize].config == config {
                return None;
            }
            place = (place + 1) & last;
        }
    }

    fn note(&mut self, place: usize, at: usize) {
        self.places[place] = Place { round: self.round, at: at as u32 };
    }

    fn widen(&mut self, found: &[Branch]) {
        if found.len() <= self.places.len() / 4 {
            return;
        }
        *self = Index::new(self.places.len() * 4);
        for at in 0..found.len() {
            let place = self.place_for(&found[..at], found[at].config).unwrap();
            self.note(place, at);
        }
    }
}

fn idles_of(table: &[Option<Open>]) -> Vec<Idle> {
    let mut idles = Vec::new();
    for (slot, place) in table.iter().enumerate() {
        let Some(open) = place else { continue };
        let at = match open.promise {
            Some(Reply::Old(word)) if apply(open.call.op, word) == (word, Reply::Old(word)) => Some(word),
            None if open.call.op == Op::Load => None,
            _ => continue,
        };
        idles.push(Idle { slot, call: open.call, at });
    }
    idles
}

fn has(taken: u128, slot: usize) -> bool {
    taken >> slot & 1 == 1
}

fn may_take(idle: &Idle, config: Config) -> bool {
    !has(config.taken, idle.slot) && idle.at.is_none_or(|word| word == config.word)
}

fn settle(idles: &[Idle], mut config: Config) -> Config {
    for idle in idles {
        if may_take(idle, config) {
            config.taken |= 1 << idle.slot;
        }
    }
    config
}

struct Search {
    tables: Vec<Vec<Option<Open>>>,
    words: Vec<Vec<Branch>>,
    nodes: Vec<Node>,
    index: Index,
    /// Where there are more nodes than these, those are let go that no branch leads back to.
    most: usize,
    /// An operation that took effect in no branch, where a word has none left.
    stuck: Option<u64>,
}

/// The branches of a word that are found while it is closed.
struct Closing<'a> {
    found: Vec<Branch>,
    nodes: &'a mut Vec<Node>,
    index: &'a mut Index,
    table: &'a [Option<Open>],
    idles: Vec<Idle>,
    bound: usize,
}

impl Closing<'_> {
    /// Adds what a configuration settles to, unless one as good is there. False where there are too many.
    fn add(&mut self, config: Config, trail: Option<usize>, taking: Option<Call>) -> bool {
        let settled = settle(&self.idles, config);
        let Some(place) = self.index.place_for(&self.found, settled) else {
            return true;
        };
        for slot in SLOTS..self.table.len() {
            if has(settled.taken, slot) {
                let less = Config { word: settled.word, taken: settled.taken & !(1 << slot) };
                if self.index.place_for(&self.found, less).is_none() {
                    return true;
                }
            }
        }
        if self.found.len() >= self.bound {
            return false;
        }
        let mut to = Branch { config, trail };
        if let Some(call) = taking {
            self.nodes.push(Node { call, before: to.trail });
            to.trail = Some(self.nodes.len() - 1);
        }
        for idle in &self.idles {
            if may_take(idle, to.config) {
                to.config.taken |= 1 << idle.slot;
                self.nodes.push(Node { call: idle.call, before: to.trail });
                to.trail = Some(self.nodes.len() - 1);
            }
        }
        self.index.note(place, self.found.len());
        self.found.push(to);
        true
    }

    /// Whether an operation asked the same before this one, and waits to take effect as this one does: neither is answered.
    fn has_elder(&self, config: Config, open: Open) -> bool {
        open.promise.is_none()
            && self.table.iter().enumerate().any(|(slot, place)| {
                place.is_some_and(|elder| {
                    elder.promise.is_none() && elder.call.id < open.call.id && elder.call.op == open.call.op
                }) && !has(config.taken, slot)
            })
    }

    fn expand(&mut self, from: Branch) -> bool {
        for slot in 0..self.table.len() {
            let Some(open) = self.table[slot] else { continue };
            if has(from.config.taken, slot) {
                continue;
            }
            if matches!(open.promise, Some(Reply::Old(told)) if told != from.config.word) {
                continue;
            }
            let (word, reply) = apply(open.call.op, from.config.word);
            if open.promise.is_some_and(|promise| promise != reply) {
                continue;
            }
            if self.has_elder(from.config, open) {
                continue;
            }
            let config = Config { word, taken: from.config.taken | 1 << slot };
            if !self.add(config, from.trail, Some(open.call)) {
                return false;
            }
        }
        true
    }

    fn close(&mut self, branches: &[Branch], slot: usize) -> bool {
        self.index.round = self.index.round.wrapping_add(1);
        for branch in branches {
            self.index.widen(&self.found);
            if !self.add(branch.config, branch.trail, None) {
                return false;
            }
        }
        let mut next = 0;
        while next < self.found.len() {
            let from = self.found[next];
            if !has(from.config.taken, slot) {
                self.index.widen(&self.found);
                if !self.expand(from) {
                    return false;
                }
            }
            next += 1;
        }
        true
    }
}

fn promise_of(events: &[Event], from: usize, id: u64) -> Option<Reply> {
    events[from..].iter().find_map(|event| match event {
        Event::Answer(other, reply) if *other == id => Some(*reply),
        _ => None,
    })
}

impl Search {
    fn start(opening: &[u64]) -> Search {
        Search {
            tables: vec![Vec::new(); opening.len()],
            words: opening
                .iter()
                .map(|word| vec![Branch { config: Config { word: *word, taken: 0 }, trail: None }])
                .collect(),
            nodes: Vec::new(),
            index: Index::new(64),
            most: NODES,
            stuck: None,
        }
    }

    fn issue(&mut self, events: &[Event], whole: &[Event], k: usize, call: Call) -> bool {
        let promise = promise_of(events, k + 1, call.id);
        let answered = promise.is_some() || promise_of(whole, events.len(), call.id).is_some();
        let first = if answered { 0 } else { SLOTS };
        let table = &mut self.tables[call.address as usize];
        let end = table.len().min(first + SLOTS);
        let open = Some(Open { call, promise });
        if let Some(slot) = (first..end).find(|slot| table[*slot].is_none()) {
            table[slot] = open;
            return true;
        }
        if table.len() >= first + SLOTS {
            return false;
        }
        while table.len() < first {
            table.push(None);
        }
        table.push(open);
        true
    }

    /// Whether the word has a branch still; none where it has too many.
    fn answer(&mut self, events: &[Event], k: usize, id: u64, bound: usize) -> Option<bool> {
        let call = events[..k].iter().rev().find_map(|event| match event {
            Event::Issue(call) if call.id == id => Some(*call),
            _ => None,
        });
        let word = call.unwrap().address as usize;
        let table = &self.tables[word];
        let slot = table.iter().position(|place| place.is_some_and(|open| open.call.id == id)).unwrap();
        let mut closing = Closing {
            found: Vec::new(),
            nodes: &mut self.nodes,
            index: &mut self.index,
            table,
            idles: idles_of(table),
            bound,
        };
        if !closing.close(&self.words[word], slot) {
            return None;
        }
        let mut kept = closing.found;
        if !kept.iter().any(|branch| has(branch.config.taken, slot)) {
            let taken = kept.iter().fold(0, |all, branch| all | branch.config.taken);
            let left = table.iter().enumerate().filter(|(s, _)| *s != slot && !has(taken, *s));
            let stuck = left.filter_map(|(_, place)| place.filter(|open| open.promise.is_some()));
            self.stuck = stuck.map(|open| open.call.id).min();
            return Some(false);
        }
        kept.retain_mut(|branch| {
            let there = has(branch.config.taken, slot);
            branch.config.taken &= !(1 << slot);
            there
        });
        self.tables[word][slot] = None;
        self.words[word] = kept;
        self.let_go();
        Some(true)
    }

    /// Lets the nodes go that no branch leads back to, where there are many.
    fn let_go(&mut self) {
        if self.nodes.len() <= self.most {
            return;
        }
        let mut marks = vec![false; self.nodes.len()];
        for branch in self.words.iter().flatten() {
            if let Some(i) = branch.trail {
                marks[i] = true;
            }
        }
        for i in (0..self.nodes.len()).rev() {
            if let (true, Some(j)) = (marks[i], self.nodes[i].before) {
                marks[j] = true;
            }
        }
        let mut ranks = Vec::with_capacity(marks.len());
        let mut kept = Vec::new();
        for (node, mark) in self.nodes.iter().zip(&marks) {
            ranks.push(kept.len());
            if *mark {
                kept.push(Node { call: node.call, before: node.before.map(|j| ranks[j]) });
            }
        }
        for branch in self.words.iter_mut().flatten() {
            branch.trail = branch.trail.map(|i| ranks[i]);
        }
        self.most = (2 * kept.len()).max(NODES);
        self.nodes = kept;
    }

    /// The operations of the nodes on the way to the first branch of each word.
    fn order(&self) -> Vec<Call> {
        let mut marks = vec![false; self.nodes.len()];
        for branches in &self.words {
            let mut next = branches[0].trail;
            while let Some(i) = next {
                marks[i] = true;
                next = self.nodes[i].before;
            }
        }
        self.nodes.iter().zip(&marks).filter(|(_, mark)| **mark).map(|(node, _)| node.call).collect()
    }
}

/// The event at which this operation is answered, from event k on; or event k.
fn guess(events: &[Event], k: usize, stuck: Option<u64>) -> usize {
    let is_it = |event: &Event| matches!(event, Event::Answer(id, _) if Some(*id) == stuck);
    k + events[k..].iter().position(is_it).unwrap_or(0)
}

/// An order, or the event at which the search ended and a guess of the first bad one.
fn find_order(
    opening: &[u64],
    events: &[Event],
    whole: &[Event],
    bound: usize,
) -> Result<Result<Vec<Call>, (usize, usize)>, Undecided> {
    let mut search = Search::start(opening);
    for (k, event) in events.iter().enumerate() {
        match *event {
            Event::Issue(call) => {
                if !search.issue(events, whole, k, call) {
                    return Err(Undecided::Operations(k));
                }
            }
            Event::Answer(id, _) => match search.answer(events, k, id, bound) {
                Some(true) => {}
                Some(false) => return Ok(Err((k, guess(events, k, search.stuck)))),
                None => return Err(Undecided::Configurations(k)),
            },
        }
    }
    Ok(Ok(search.order()))
}

/// An order, or the first event up to which there is none.
fn judge(opening: &[u64], events: &[Event], bound: usize) -> Result<Result<Vec<Call>, usize>, Undecided> {
    let (mut good, guessed) = match find_order(opening, events, events, bound)? {
        Ok(order) => return Ok(Ok(order)),
        Err(ended) => ended,
    };
    let mut bad = events.len();
    let mut guess = guessed.max(good + 1);
    let mut step = 1;
    while good + 1 < bad {
        let middle = if good < guess && guess < bad { guess } else { good + (bad - good) / 2 };
        if find_order(opening, &events[..middle], events, bound)?.is_ok() {
            good = middle;
            guess = good + step;
            step *= 2;
        } else {
            bad = middle;
            guess = good + 1;
            step = 1;
        }
    }
    Ok(Err(good))
}

fn sum_of(order: &[Call]) -> u64 {
    let terms = order.iter().zip(1u64..).map(|(call, place)| place.wrapping_mul(call.id));
    terms.fold(0, u64::wrapping_add)
}

fn main() {
    let words: Vec<u64> = env::args().skip(1).filter_map(|word| word.parse().ok()).collect();
    let [processes, memory, steps, lost, spoiled, rounds] = words[..] else {
        eprintln!("give PROCESSES WORDS STEPS LOST SPOILED ROUNDS");
        exit(1);
    };
    for _ in 0..rounds {
        let mut events = trace(processes as usize, memory as usize, steps, lost);
        if spoiled == 1 {
            spoil(&mut events);
        }
        let opening = vec![0u64; memory as usize];
        let start = Instant::now();
        let good = is_trace(opening.len(), &events);
        println!("trace {}", start.elapsed().as_nanos());
        if !good {
            println!("kind 5");
            continue;
        }
        let start = Instant::now();
        let verdict = judge(&opening, &events, 1_000_000);
        println!("judge {}", start.elapsed().as_nanos());
        let (kind, sum) = match verdict {
            Ok(Ok(order)) => (0, sum_of(&order)),
            Ok(Err(event)) => (1, event as u64),
            Err(Undecided::Configurations(event)) => (3, event as u64),
            Err(Undecided::Operations(event)) => (4, event as u64),
        };
        println!("kind {kind}");
        println!("sum {sum}");
        println!("events {}", events.len());
    }
}
