//! Which memory models a log obeys, in plain Rust by the passes of `torusmem model`: `models LOG`. It reads the log text,
//! checks its replies, judges it by five models, and prints a line for each; on standard error the milliseconds of each part.
//! `models LOG --rvwmo` judges it by RISC-V's model, too.
mod rising;
mod weak;

use std::collections::HashMap;
use std::time::Instant;

const NONE: usize = usize::MAX;

#[derive(Clone, Copy, PartialEq)]
enum Kind {
    Load,
    Store,
    Atomic,
    Fence,
}

/// An operation: `place` is that of its write in the row of all writes, or of the write that it read.
#[derive(Clone, Copy)]
struct Operation {
    processor: usize,
    kind: Kind,
    word: usize,
    place: usize,
}

/// What a line made: the operation's name and values, its reply if it has one, and its source.
struct Made<'a> {
    processor: usize,
    name: &'a str,
    address: usize,
    values: [u64; 2],
    reply: Option<u64>,
    source: usize,
    note: weak::Note,
}

/// A log: operations in the order of their lines, those of each processor, each word's writes, and dependencies.
#[derive(Default)]
struct Log<'a> {
    made: Vec<Made<'a>>,
    of: Vec<Vec<usize>>,
    init: HashMap<usize, u64>,
    writes: HashMap<usize, Vec<usize>>,
    dependencies: Vec<weak::Dependency>,
}

fn number(word: Option<&str>) -> u64 {
    word.and_then(|it| it.parse().ok()).expect("a number")
}

fn read(text: &str) -> Log<'_> {
    let mut log = Log::default();
    for line in text.lines() {
        let mut words = line.split(' ');
        let keyword = words.next().unwrap_or("");
        match keyword {
            "init" => {
                log.init.insert(number(words.next()) as usize, number(words.next()));
            }
            "made" => {
                let processor = number(words.next()) as usize;
                let name = words.next().expect("an operation");
                let mut it = Made { processor, name, address: 0, values: [0; 2], reply: None, source: NONE, note: weak::BARE };
                if name != "fence" {
                    it.address = number(words.next()) as usize;
                    let values = match name {
                        "load" => 0,
                        "cas" => 2,
                        _ => 1,
                    };
                    for value in &mut it.values[..values] {
                        *value = number(words.next());
                    }
                }
                let rest: Vec<&str> = words.collect();
                if !rest.is_empty() {
                    it.note = weak::note(&rest);
                }
                if log.of.len() <= processor {
                    log.of.resize(processor + 1, Vec::new());
                }
                log.of[processor].push(log.made.len());
                log.made.push(it);
            }
            "depends" => {
                let own = &log.of[number(words.next()) as usize];
                let operation = own[number(words.next()) as usize];
                let on = own[number(words.nth(1)) as usize];
                let way = match words.next() {
                    Some("address") => weak::Way::Address,
                    Some("data") => weak::Way::Data,
                    _ => weak::Way::Control,
                };
                log.dependencies.push(weak::Dependency { on, operation, way });
            }
            "wrote" | "read" | "served" | "replied" => {
                let at = log.of[number(words.next()) as usize][number(words.next()) as usize];
                let address = log.made[at].address;
                match keyword {
                    "wrote" => log.writes.entry(address).or_default().push(at),
                    "served" => {
                        log.made[at].source = log.writes.get(&address).and_then(|it| it.last()).copied().unwrap_or(NONE)
                    }
                    "read" if words.next() == Some("from") => {
                        log.made[at].source = log.of[number(words.next()) as usize][number(words.next()) as usize]
                    }
                    "replied" => log.made[at].reply = words.next().and_then(|it| it.parse().ok()),
                    _ => {}
                }
            }
            _ => {}
        }
    }
    log
}

/// The word that an operation leaves.
fn left(it: &Made, word: u64) -> u64 {
    let [a, b] = it.values;
    match it.name {
        "store" | "swap" => a,
        "cas" if word == a => b,
        "add" => word.wrapping_add(a),
        "and" => word & a,
        "or" => word | a,
        "xor" => word ^ a,
        "max" => word.max(a),
        "min" => word.min(a),
        _ => word,
    }
}

/// Whether each reply is what its operation finds.
fn are_due(log: &Log) -> bool {
    let mut leaves = vec![0; log.made.len()];
    let opening = |address: usize| log.init.get(&address).copied().unwrap_or(0);
    for (&address, writes) in &log.writes {
        let mut word = opening(address);
        for &at in writes {
            let it = &log.made[at];
            if it.name != "store" && it.reply.is_some_and(|reply| reply != word) {
                return false;
            }
            word = left(it, word);
            leaves[at] = word;
        }
    }
    log.made.iter().all(|it| {
        let found = if it.source == NONE { opening(it.address) } else { leaves[it.source] };
        it.name != "load" || it.reply.is_none_or(|reply| reply == found)
    })
}

/// A log's trace: operations, the writes word by word, the number of words, and where each line's operation stands.
type Traced = (Vec<Operation>, Vec<usize>, usize, Vec<usize>);

/// The trace of a log: opening stores, each of a processor of its own, and then the operations by processor; and the writes,
/// word by word.
fn trace(log: &Log) -> Traced {
    let mut words = HashMap::new();
    for it in log.made.iter().filter(|it| it.name != "fence") {
        let next = words.len();
        words.entry(it.address).or_insert(next);
    }
    let (mut operations, mut at) = (Vec::new(), vec![0; log.made.len()]);
    for word in 0..words.len() {
        operations.push(Operation { processor: log.of.len() + word, kind: Kind::Store, word, place: 0 });
    }
    for own in &log.of {
        for &made in own {
            let it = &log.made[made];
            let kind = match it.name {
                "load" => Kind::Load,
                "store" => Kind::Store,
                "fence" => Kind::Fence,
                _ => Kind::Atomic,
            };
            at[made] = operations.len();
            let word = if kind == Kind::Fence { 0 } else { words[&it.address] };
            operations.push(Operation { processor: it.processor, kind, word, place: 0 });
        }
    }
    let mut addresses: Vec<(usize, usize)> = words.iter().map(|(&address, &word)| (word, address)).collect();
    addresses.sort_unstable();
    let mut writes = Vec::new();
    for (word, address) in addresses {
        for made in std::iter::once(word).chain(log.writes.get(&address).into_iter().flatten().map(|&it| at[it])) {
            operations[made].place = writes.len();
            writes.push(made);
        }
    }
    for (made, it) in log.made.iter().enumerate().filter(|(_, it)| it.name == "load") {
        let source = if it.source == NONE { words[&it.address] } else { at[it.source] };
        operations[at[made]].place = operations[source].place;
    }
    let count = words.len() + 1;
    (operations, writes, count, at)
}

/// Kinds: loads, stores, atomics, fences.
type Kinds = [bool; 4];
const ALL: Kinds = [true; 4];
const BUT_STORES: Kinds = [true, false, true, true];
const BUT_LOADS: Kinds = [false, true, true, true];
const BUT_FENCES: Kinds = [true, true, true, false];
const FENCES: Kinds = [false, false, false, true];
const WRITES: Rule = Rule { from: [false, true, true, false], to: [false, true, true, false], same_word: true };

#[derive(Clone, Copy)]
struct Rule {
    from: Kinds,
    to: Kinds,
    same_word: bool,
}

#[derive(Clone, Copy)]
struct Edge {
    from: usize,
    to: usize,
}

fn key(rule: Rule, it: Operation) -> usize {
    if rule.same_word { it.word } else { 0 }
}

/// To each operation the last one before it that the rule speaks of.
fn rule_arcs(rule: Rule, operations: &[Operation], words: usize, edges: &mut Vec<Edge>) {
    let mut lasts = vec![operations.len(); words];
    for (y, &it) in operations.iter().enumerate() {
        let last = lasts[key(rule, it)];
        if last < y && rule.to[it.kind as usize] && operations[last].processor == it.processor {
            edges.push(Edge { from: last, to: y });
        }
        if rule.from[it.kind as usize] {
            lasts[key(rule, it)] = y;
        }
    }
}

/// From each operation the next one behind it that the rule speaks of.
fn follow_arcs(rule: Rule, operations: &[Operation], words: usize, edges: &mut Vec<Edge>) {
    let mut nexts = vec![operations.len(); words];
    for (y, &it) in operations.iter().enumerate().rev() {
        let next = nexts[key(rule, it)];
        if next < operations.len() && rule.from[it.kind as usize] && operations[next].processor == it.processor {
            edges.push(Edge { from: y, to: next });
        }
        if rule.to[it.kind as usize] {
            nexts[key(rule, it)] = y;
        }
    }
}

/// Onto loads that read an older write than their processor had made itself.
fn stale_arcs(operations: &[Operation], words: usize, edges: &mut Vec<Edge>) {
    let mut lasts = vec![operations.len(); words];
    for (y, &it) in operations.iter().enumerate() {
        let last = lasts[it.word];
        let is_own = last < y && operations[last].processor == it.processor;
        if is_own && it.kind == Kind::Load && it.place < operations[last].place {
            edges.push(Edge { from: last, to: y });
        }
        if WRITES.from[it.kind as usize] {
            lasts[it.word] = y;
        }
    }
}

/// From what each load read, and to the write that follows.
fn word_arcs(operations: &[Operation], writes: &[usize], edges: &mut Vec<Edge>) {
    for (y, it) in operations.iter().enumerate().filter(|(_, it)| it.kind != Kind::Fence) {
        let source = writes[it.place];
        if it.kind == Kind::Load && !(operations[source].processor == it.processor && source < y) {
            edges.push(Edge { from: source, to: y });
        }
        if let Some(&next) = writes.get(it.place + 1).filter(|&&next| operations[next].word == it.word) {
            edges.push(Edge { from: y, to: next });
        }
    }
}

/// Whether there are numbers that rise along each edge.
fn rises(nodes: usize, edges: &[Edge]) -> bool {
    let (mut heads, mut nexts) = (vec![edges.len(); nodes], vec![edges.len(); edges.len()]);
    for (k, edge) in edges.iter().enumerate() {
        nexts[k] = heads[edge.from];
        heads[edge.from] = k;
    }
    rising::find(nodes, edges.len(), |node| heads[node], |_, edge| nexts[edge], |_, edge| edges[edge].to).is_ok()
}

fn judge(rules: &[Rule], operations: &[Operation], writes: &[usize], words: usize) -> bool {
    let mut edges = Vec::new();
    for &rule in rules {
        if (0..4).all(|kind| !rule.from[kind] || rule.to[kind]) {
            rule_arcs(rule, operations, words, &mut edges);
        } else {
            follow_arcs(rule, operations, words, &mut edges);
        }
    }
    rule_arcs(WRITES, operations, words, &mut edges);
    stale_arcs(operations, words, &mut edges);
    word_arcs(operations, writes, &mut edges);
    rises(operations.len(), &edges)
}

/// The notes of the operations of a trace, and its dependencies.
fn notes(log: &Log, count: usize, at: &[usize]) -> (Vec<weak::Note>, Vec<weak::Dependency>) {
    let mut notes = vec![weak::BARE; count];
    for own in &log.of {
        let mut reserved = NONE;
        for &made in own {
            let mut note = log.made[made].note;
            if note.conditional {
                note.pair = reserved;
            }
            if note.conditional || note.reserved {
                reserved = if note.reserved { at[made] } else { NONE };
            }
            notes[at[made]] = note;
        }
    }
    let moved = |it: &weak::Dependency| weak::Dependency { on: at[it.on], operation: at[it.operation], way: it.way };
    (notes, log.dependencies.iter().map(moved).collect())
}

fn main() {
    let path = std::env::args().nth(1).expect("the name of a log");
    let begun = Instant::now();
    let tell = |what: &str| eprintln!("{what} {}", begun.elapsed().as_millis());
    let text = String::from_utf8(std::fs::read(path).expect("a log")).expect("a text");
    let log = read(&text);
    tell("read");
    if !are_due(&log) {
        println!("wrong reply");
        std::process::exit(1);
    }
    let (operations, writes, words, at) = trace(&log);
    tell("trace");
    if std::env::args().nth(2).is_some() {
        let (notes, dependencies) = notes(&log, operations.len(), &at);
        let trace = weak::Trace { notes: &notes, dependencies: &dependencies, operations: &operations, writes: &writes, words };
        println!("rvwmo {}", if trace.is_allowed() { "yes" } else { "no" });
        tell("rvwmo");
    }
    let rule = |from, to| Rule { from, to, same_word: false };
    let on_one_word = Rule { from: BUT_FENCES, to: BUT_FENCES, same_word: true };
    let models: [(&str, Vec<Rule>); 5] = [
        ("coherent", vec![on_one_word]),
        ("fenced", vec![on_one_word, rule(FENCES, ALL), rule(ALL, FENCES)]),
        ("pso", vec![rule(BUT_STORES, ALL), rule(BUT_LOADS, FENCES)]),
        ("tso", vec![rule(BUT_STORES, ALL), rule(BUT_LOADS, BUT_LOADS)]),
        ("sc", vec![rule(ALL, ALL)]),
    ];
    for (name, rules) in &models {
        let is_obeyed = judge(rules, &operations, &writes, words);
        println!("{name} {}", if is_obeyed { "yes" } else { "no" });
        tell(name);
    }
}
