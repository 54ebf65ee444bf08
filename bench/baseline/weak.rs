//! RISC-V's memory model in plain Rust by the passes of `torusmem model --model rvwmo`: a thin graph of its preserved program
//! order, and where that has an order, a look at this with bounds of turns.
use crate::{judge, rising, stale_arcs, rule_arcs, word_arcs, Edge, Kind, Operation, Rule, BUT_FENCES, NONE, WRITES};

/// What a log says of an operation beside its kind. `fence[a][b]`: reads (0) or writes (1) before, and behind.
#[derive(Clone, Copy)]
pub struct Note {
    pub acquire: bool,
    pub release: bool,
    pub rcpc: bool,
    pub reserved: bool,
    pub conditional: bool,
    pub pair: usize,
    pub fence: [[bool; 2]; 2],
}

pub const BARE: Note =
    Note { acquire: false, release: false, rcpc: false, reserved: false, conditional: false, pair: NONE, fence: [[true; 2]; 2] };

#[derive(Clone, Copy, PartialEq)]
pub enum Way {
    Address,
    Data,
    Control,
}

#[derive(Clone, Copy)]
pub struct Dependency {
    pub on: usize,
    pub operation: usize,
    pub way: Way,
}

pub struct Trace<'a> {
    pub notes: &'a [Note],
    pub dependencies: &'a [Dependency],
    pub operations: &'a [Operation],
    pub writes: &'a [usize],
    pub words: usize,
}

/// The note of an operation by the words behind its operands.
pub fn note(words: &[&str]) -> Note {
    let mut it = BARE;
    let set = |word: &str| [word.contains('r'), word.contains('w')];
    match words {
        ["tso"] => it.fence = [[true, true], [false, true]],
        [before, behind] if set(before) != [false; 2] && before.len() < 3 && behind.len() < 3 => {
            for (row, from) in it.fence.iter_mut().zip(set(before)) {
                *row = set(behind).map(|to| from && to);
            }
        }
        _ => {
            it.acquire = words.contains(&"acquire");
            it.release = words.contains(&"release");
            it.rcpc = words.contains(&"rcpc");
            it.reserved = words.contains(&"reserved");
            it.conditional = words.contains(&"conditional");
        }
    }
    it
}

fn is_rcsc(it: Note) -> bool {
    (it.acquire || it.release) && !it.rcpc
}

fn reads(kind: Kind) -> bool {
    kind == Kind::Load || kind == Kind::Atomic
}

fn writes(kind: Kind) -> bool {
    kind == Kind::Store || kind == Kind::Atomic
}

/// Reads and writes of which a kind is.
fn sides(kind: Kind) -> [bool; 2] {
    [reads(kind), writes(kind)]
}

impl Trace<'_> {
    fn is_own(&self, x: usize, y: usize) -> bool {
        x < y && y < self.operations.len() && self.operations[x].processor == self.operations[y].processor
    }

    /// The write that an operation read.
    fn read(&self, y: usize) -> usize {
        let it = self.operations[y];
        let place = if it.kind == Kind::Load { it.place } else { it.place.saturating_sub(1) };
        self.writes.get(place).copied().unwrap_or(0)
    }

    fn is_atomic_source(&self, x: usize, y: usize) -> bool {
        (self.operations[x].kind == Kind::Atomic || self.notes[x].pair != NONE)
            && reads(self.operations[y].kind)
            && self.operations[x].word == self.operations[y].word
    }

    /// From each store conditional to the first write of another processor behind what its load reserved read.
    fn pair_arcs(&self, edges: &mut Vec<Edge>) {
        for (w, note) in self.notes.iter().enumerate().filter(|(_, it)| it.pair != NONE) {
            let it = self.operations[w];
            let behind = &self.writes[self.operations[note.pair].place + 1..];
            let mut on_word = behind.iter().take_while(|&&s| self.operations[s].word == it.word);
            if let Some(&s) = on_word.find(|&&s| self.operations[s].processor != it.processor) {
                edges.push(Edge { from: w, to: s });
            }
        }
    }

    /// Edges of a thin graph: each operation has five helpers, behind all operations.
    fn thin(&self, edges: &mut Vec<Edge>) {
        let count = self.operations.len();
        let before = |side: usize, y: usize| count * (1 + side) + y;
        let behind = |side: usize, y: usize| count * (3 + side) + y;
        let through = |y: usize| count * 5 + y;
        let (mut lasts, mut rcsc) = (vec![NONE; self.words], NONE);
        for (y, &it) in self.operations.iter().enumerate() {
            let note = self.notes[y];
            if y > 0 && self.is_own(y - 1, y) {
                for side in 0..2 {
                    edges.push(Edge { from: before(side, y - 1), to: before(side, y) });
                    edges.push(Edge { from: behind(side, y - 1), to: behind(side, y) });
                    if sides(self.operations[y - 1].kind)[side] {
                        edges.push(Edge { from: y - 1, to: before(side, y) });
                    }
                }
            }
            if it.kind == Kind::Fence {
                for (from, to) in [(0, 0), (0, 1), (1, 0), (1, 1)] {
                    if note.fence[from][to] {
                        edges.push(Edge { from: before(from, y), to: behind(to, y) });
                    }
                }
                continue;
            }
            for side in 0..2 {
                if sides(it.kind)[side] {
                    edges.push(Edge { from: behind(side, y), to: y });
                }
                if note.acquire && self.is_own(y, y + 1) {
                    edges.push(Edge { from: y, to: behind(side, y + 1) });
                }
                if note.release {
                    edges.push(Edge { from: before(side, y), to: y });
                }
            }
            if is_rcsc(note) {
                if rcsc != NONE && self.is_own(rcsc, y) {
                    edges.push(Edge { from: rcsc, to: y });
                }
                rcsc = y;
            }
            if note.pair != NONE {
                edges.push(Edge { from: note.pair, to: y });
            }
            if reads(it.kind) {
                let (source, last) = (self.read(y), lasts[it.word]);
                if self.is_own(source, y) {
                    edges.push(Edge { from: through(source), to: y });
                    if self.is_atomic_source(source, y) {
                        edges.push(Edge { from: source, to: y });
                    }
                }
                if last != NONE && self.is_own(last, y) && reads(self.operations[last].kind) && self.read(last) != source {
                    edges.push(Edge { from: last, to: y });
                }
            }
            lasts[it.word] = y;
        }
        let mut nexts = vec![NONE; self.words];
        for (x, &it) in self.operations.iter().enumerate().rev().filter(|(_, it)| it.kind != Kind::Fence) {
            if self.is_own(x, nexts[it.word]) {
                edges.push(Edge { from: x, to: nexts[it.word] });
            }
            if writes(it.kind) {
                nexts[it.word] = x;
            }
        }
        for it in self.dependencies {
            if it.way == Way::Control {
                edges.push(Edge { from: it.on, to: behind(1, it.operation) });
                continue;
            }
            edges.push(Edge { from: it.on, to: it.operation });
            edges.push(Edge { from: it.on, to: through(it.operation) });
            if it.way == Way::Address && self.is_own(it.operation, it.operation + 1) {
                edges.push(Edge { from: it.on, to: behind(1, it.operation + 1) });
            }
        }
    }

    /// Whether turns keep preserved program order: each operation is looked at once, with bounds of the turns before it.
    fn keep(&self, turns: &[usize]) -> bool {
        let count = turns.len();
        let [mut address, mut through, mut branch] = [0; 3].map(|it| vec![it; count]);
        for it in self.dependencies {
            let above = turns[it.on] + 1;
            let rows: &mut [&mut Vec<usize>] = match it.way {
                Way::Address => &mut [&mut address, &mut through],
                Way::Data => &mut [&mut through],
                Way::Control => &mut [&mut branch],
            };
            for row in rows {
                row[it.operation] = row[it.operation].max(above);
            }
        }
        let (mut seen, mut ahead, mut rcsc) = ([0; 2], [0; 2], 0);
        for (y, &it) in self.operations.iter().enumerate() {
            let (note, turn) = (self.notes[y], turns[y]);
            if y == 0 || !self.is_own(y - 1, y) {
                (seen, ahead, rcsc) = ([0; 2], [0; 2], 0);
            }
            ahead[1] = ahead[1].max(branch[y]);
            if it.kind != Kind::Fence {
                let source = self.read(y);
                let is_behind = (0..2).all(|side| !sides(it.kind)[side] || ahead[side] <= turn)
                    && (!note.release || seen.iter().all(|&it| it <= turn))
                    && (!is_rcsc(note) || rcsc <= turn)
                    && (note.pair == NONE || turns[note.pair] < turn)
                    && through[y] <= turn
                    && (!self.is_own(source, y)
                        || (!reads(it.kind) || through[source] <= turn)
                            && (turns[source] < turn || !self.is_atomic_source(source, y)));
                if !is_behind {
                    return false;
                }
            } else {
                for (from, to) in [(0, 0), (0, 1), (1, 0), (1, 1)] {
                    if note.fence[from][to] {
                        ahead[to] = ahead[to].max(seen[from]);
                    }
                }
            }
            for side in 0..2 {
                if sides(it.kind)[side] {
                    seen[side] = seen[side].max(turn + 1);
                }
                if note.acquire {
                    ahead[side] = ahead[side].max(turn + 1);
                }
            }
            ahead[1] = ahead[1].max(address[y]);
            if is_rcsc(note) {
                rcsc = rcsc.max(turn + 1);
            }
        }
        true
    }

    /// The turn of each operation by numbers of all nodes.
    fn turns(&self, numbers: &[usize]) -> Vec<usize> {
        let mut nodes = vec![NONE; numbers.len()];
        for (x, &number) in numbers.iter().enumerate() {
            nodes[number] = x;
        }
        let mut turns = vec![NONE; self.operations.len()];
        for (turn, &x) in nodes.iter().filter(|&&x| x < self.operations.len()).enumerate() {
            turns[x] = turn;
        }
        turns
    }

    /// Whether the model allows it.
    pub fn is_allowed(&self) -> bool {
        let mut arcs = Vec::new();
        rule_arcs(WRITES, self.operations, self.words, &mut arcs);
        stale_arcs(self.operations, self.words, &mut arcs);
        word_arcs(self.operations, self.writes, &mut arcs);
        self.pair_arcs(&mut arcs);
        let mut edges = arcs.clone();
        self.thin(&mut edges);
        let nodes = self.operations.len() * 6;
        let (mut heads, mut nexts) = (vec![edges.len(); nodes], vec![edges.len(); edges.len()]);
        for (k, edge) in edges.iter().enumerate() {
            nexts[k] = heads[edge.from];
            heads[edge.from] = k;
        }
        let found = rising::find(nodes, edges.len(), |node| heads[node], |_, edge| nexts[edge], |_, edge| edges[edge].to);
        let Ok(numbers) = found else {
            return false;
        };
        let turns = self.turns(&numbers);
        let on_one_word = Rule { from: BUT_FENCES, to: BUT_FENCES, same_word: true };
        let is_order = arcs.iter().all(|it| turns[it.from] < turns[it.to])
            && self.keep(&turns)
            && judge(&[on_one_word], self.operations, self.writes, self.words);
        assert!(is_order, "an order that isn't one");
        true
    }
}
