//! Clocked rounds of a network that is written down in plain Rust, of the same design as the crates `network_machine`,
//! `network_rounds` and `network_traffic`:
//!
//!     clocked NETWORK TRAFFIC DEPTH            prints the report
//!     clocked NETWORK TRAFFIC DEPTH PASSES     prints a line `NAME NUMBER` for each time, in nanoseconds, and each number
use std::collections::HashMap;
use std::env;
use std::fmt::Write;
use std::fs;
use std::time::Instant;

const MOST_ROUNDS: u64 = 1000000;

#[derive(Clone, Copy, PartialEq, Eq)]
enum Kind {
    Injection,
    Hop,
    Ejection,
}

struct Network {
    kinds: Vec<Kind>,
    joined: Vec<bool>,
    choices: Vec<u32>,
    columns: Vec<usize>,
    width: usize,
    replies: Vec<(usize, usize)>,
}

#[derive(Clone, Copy)]
struct Packet {
    round: u64,
    from: usize,
    to: usize,
    length: u64,
}

#[derive(Clone, Copy)]
enum Move {
    Send(usize),
    More(usize),
    Take(usize),
    Put(usize),
    Accept(usize),
    Credit(usize),
}

#[derive(Clone, Copy, Default)]
struct Flit {
    packet: u32,
    is_head: bool,
    is_tail: bool,
}

#[derive(Clone, Default)]
struct Channel {
    flits: [Flit; 8],
    count: usize,
    held: u64,
    returning: u64,
    latch: Option<Flit>,
    owner: Option<usize>,
    owned: Option<usize>,
    left: u64,
    course: u32,
}

impl Channel {
    fn push(&mut self, flit: Flit) {
        self.flits[self.count] = flit;
        self.count += 1;
        self.held -= 1;
    }

    fn pop(&mut self) -> Flit {
        let first = self.flits[0];
        self.flits.copy_within(1..self.count, 0);
        self.count -= 1;
        self.returning += 1;
        first
    }
}

fn numbers(words: &[&str]) -> Vec<usize> {
    words.iter().filter_map(|word| word.parse().ok()).collect()
}

fn read_network(text: &str) -> Network {
    let mut kinds = Vec::new();
    let mut joins = Vec::new();
    let mut hops = Vec::new();
    let mut replies = Vec::new();
    for line in text.lines() {
        let words: Vec<&str> = line.split_ascii_whitespace().collect();
        match words.as_slice() {
            ["channels", rest @ ..] => kinds = vec![Kind::Hop; numbers(rest)[0]],
            ["inject", rest @ ..] => numbers(rest).into_iter().for_each(|x| kinds[x] = Kind::Injection),
            ["eject", rest @ ..] => numbers(rest).into_iter().for_each(|x| kinds[x] = Kind::Ejection),
            ["join", rest @ ..] => joins.push((numbers(rest)[0], numbers(rest)[1])),
            ["next", rest @ ..] => hops.push((numbers(rest)[0], numbers(rest)[1], numbers(rest)[2])),
            ["reply", rest @ ..] => replies.push((numbers(rest)[0], numbers(rest)[1])),
            _ => {}
        }
    }
    let count = kinds.len();
    let mut columns = Vec::new();
    let mut width = 0;
    for kind in &kinds {
        columns.push(width);
        width += (*kind == Kind::Ejection) as usize;
    }
    let mut choices = vec![count as u32; count * width];
    for (x, to, y) in hops {
        choices[x * width + columns[to]] = y as u32;
    }
    let mut joined = vec![false; count * width];
    for (from, to) in joins {
        joined[from * width + columns[to]] = true;
    }
    Network { kinds, joined, choices, columns, width, replies }
}

fn read_traffic(text: &str) -> Vec<Packet> {
    let packet = |line: &str| {
        let words: Vec<&str> = line.split_ascii_whitespace().collect();
        let n = numbers(&words);
        Packet { round: n[0] as u64, from: n[1], to: n[2], length: n[3] as u64 }
    };
    text.lines().filter(|line| line.starts_with("at ")).map(packet).collect()
}

/// The number of the router behind each channel.
fn routers_of(net: &Network) -> Vec<usize> {
    let mut number: Vec<usize> = (0..net.kinds.len()).collect();
    let mut first: HashMap<u32, usize> = HashMap::new();
    for x in (0..net.kinds.len()).filter(|x| net.kinds[*x] != Kind::Ejection) {
        for column in 0..net.width {
            let y = net.choices[x * net.width + column];
            if y as usize >= net.kinds.len() {
                continue;
            }
            let (old, new) = (number[x], number[*first.entry(y).or_insert(x)]);
            if old != new {
                number.iter_mut().filter(|it| **it == old).for_each(|it| *it = new);
            }
        }
    }
    number
}

/// The choices in the order of a round: the groups that have choices.
fn groups_of(net: &Network) -> Vec<Vec<Move>> {
    let of = |kind: Kind| (0..net.kinds.len()).filter(move |x| net.kinds[*x] == kind);
    let inputs = || (0..net.kinds.len()).filter(|x| net.kinds[*x] != Kind::Ejection);
    let mut groups: Vec<Vec<Move>> = vec![of(Kind::Injection).map(Move::More).collect(), inputs().map(Move::Take).collect()];
    let routers = routers_of(net);
    for router in 0..net.kinds.len() {
        groups.push(inputs().filter(|x| routers[*x] == router).map(Move::Put).collect());
    }
    groups.push(of(Kind::Ejection).map(Move::Accept).collect());
    groups.push((0..net.kinds.len()).map(Move::Credit).collect());
    groups.retain(|group| !group.is_empty());
    groups
}

/// The places of the choices of a channel among those of all groups: more, take, put, accept, credit.
type Places = [usize; 5];

/// Of each choice whether what stands at its channel lets it be made, and where the choices of each channel are.
struct Flags {
    up: Vec<bool>,
    places: Vec<Places>,
}

impl Flags {
    fn open(channels: usize, groups: &[Vec<Move>]) -> Self {
        let mut places = vec![[usize::MAX; 5]; channels];
        let mut count = 0;
        for of in groups.iter().flatten() {
            let (x, kind) = match *of {
                Move::Send(_) => continue,
                Move::More(x) => (x, 0),
                Move::Take(x) => (x, 1),
                Move::Put(x) => (x, 2),
                Move::Accept(x) => (x, 3),
                Move::Credit(x) => (x, 4),
            };
            places[x][kind] = count;
            count += 1;
        }
        Flags { up: vec![true; count], places }
    }

    fn tell(&mut self, at: &Channel, x: usize) {
        let lets = [
            at.left > 0 && at.held > 0,
            at.latch.is_none() && at.count > 0,
            at.latch.is_some(),
            at.count > 0,
            at.returning > 0,
        ];
        for (place, may) in self.places[x].iter().zip(lets) {
            if *place < self.up.len() {
                self.up[*place] = may;
            }
        }
    }
}

struct Run<'a> {
    net: &'a Network,
    packets: &'a [Packet],
    queues: Vec<Vec<u32>>,
    senders: Vec<usize>,
    channels: Vec<Channel>,
    begun: Vec<usize>,
    left: Vec<u64>,
    sent: Vec<Option<u64>>,
    delivered: Vec<Option<u64>>,
    flits: Vec<u64>,
    waited: Vec<u64>,
}

impl<'a> Run<'a> {
    fn new(net: &'a Network, packets: &'a [Packet], depth: u64) -> Self {
        let count = net.kinds.len();
        let mut queues = vec![Vec::new(); count];
        for (k, packet) in packets.iter().enumerate() {
            queues[packet.from].push(k as u32);
        }
        Run {
            net,
            packets,
            senders: (0..count).filter(|x| !queues[*x].is_empty()).collect(),
            queues,
            channels: vec![Channel { held: depth, ..Channel::default() }; count],
            begun: vec![0; count],
            left: packets.iter().map(|it| it.length).collect(),
            sent: vec![None; packets.len()],
            delivered: vec![None; packets.len()],
            flits: vec![0; count],
            waited: vec![0; count],
        }
    }

    /// The channel into which the flit in a latch may go.
    fn output(&self, x: usize, flit: Flit) -> Option<usize> {
        let y = if flit.is_head {
            let column = self.net.columns[self.packets[flit.packet as usize].to];
            self.net.choices[x * self.net.width + column] as usize
        } else {
            self.channels[x].owned?
        };
        let there = &self.channels[y];
        (there.held > 0 && (!flit.is_head || there.owner.is_none())).then_some(y)
    }

    fn is_free(&self, of: Move) -> bool {
        match of {
            Move::Send(k) => {
                let packet = self.packets[k];
                let at = &self.channels[packet.from];
                let cell = packet.from * self.net.width + self.net.columns[packet.to];
                at.left == 0 && at.held > 0 && self.net.joined[cell]
            }
            Move::More(x) => self.channels[x].left > 0 && self.channels[x].held > 0,
            Move::Take(x) => self.channels[x].latch.is_none() && self.channels[x].count > 0,
            Move::Put(x) => self.channels[x].latch.is_some_and(|flit| self.output(x, flit).is_some()),
            Move::Accept(x) => {
                let has_credit = |reply: &(usize, usize)| reply.0 != x || self.channels[reply.1].held > 0;
                self.channels[x].count > 0 && self.net.replies.iter().all(has_credit)
            }
            Move::Credit(x) => self.channels[x].returning > 0,
        }
    }

    /// Makes a move, and answers its channel and the other at which something changed.
    fn make(&mut self, of: Move, round: u64) -> (usize, usize) {
        match of {
            Move::Send(k) => {
                let packet = self.packets[k];
                let at = &mut self.channels[packet.from];
                at.push(Flit { packet: k as u32, is_head: true, is_tail: packet.length == 1 });
                at.left = packet.length - 1;
                at.course = k as u32;
                self.begun[packet.from] += 1;
                self.sent[k] = Some(round);
                (packet.from, packet.from)
            }
            Move::More(x) => {
                let at = &mut self.channels[x];
                at.push(Flit { packet: at.course, is_head: false, is_tail: at.left == 1 });
                at.left -= 1;
                (x, x)
            }
            Move::Take(x) => {
                let flit = self.channels[x].pop();
                self.channels[x].latch = Some(flit);
                self.flits[x] += 1;
                (x, x)
            }
            Move::Put(x) => {
                let Some(flit) = self.channels[x].latch else { return (x, x) };
                let Some(y) = self.output(x, flit) else { return (x, x) };
                self.channels[x].latch = None;
                self.channels[y].push(flit);
                self.channels[y].owner = (!flit.is_tail).then_some(x);
                self.channels[x].owned = (!flit.is_tail).then_some(y);
                (x, y)
            }
            Move::Accept(x) => {
                let k = self.channels[x].pop().packet as usize;
                self.flits[x] += 1;
                self.left[k] -= 1;
                if self.left[k] == 0 {
                    self.delivered[k] = Some(round);
                }
                (x, x)
            }
            Move::Credit(x) => {
                self.channels[x].returning -= 1;
                self.channels[x].held += 1;
                (x, x)
            }
        }
    }

    fn next_of(&self, x: usize) -> Option<usize> {
        self.queues[x].get(self.begun[x]).map(|k| *k as usize)
    }

    /// Makes a round, and answers how many moves it makes.
    fn round(&mut self, groups: &[Vec<Move>], flags: &mut Flags, before: u64, enabled: &mut Vec<Move>, stood: &mut [bool]) -> usize {
        enabled.clear();
        for (stood, at) in stood.iter_mut().zip(&self.channels) {
            *stood = at.latch.is_some();
        }
        for &x in &self.senders {
            if let Some(k) = self.next_of(x) {
                if self.packets[k].round <= before + 1 && self.is_free(Move::Send(k)) {
                    enabled.push(Move::Send(k));
                }
            }
        }
        let mut from = 0;
        for group in groups {
            let first = (before % group.len() as u64) as usize;
            let up = &flags.up[from..from + group.len()];
            for (moves, up) in [(&group[first..], &up[first..]), (&group[..first], &up[..first])] {
                let may = moves.iter().zip(up).filter(|(_, up)| **up).map(|(of, _)| of);
                enabled.extend(may.filter(|of| self.is_free(**of)));
            }
            from += group.len();
        }
        let mut count = 0;
        for of in enabled {
            if self.is_free(*of) {
                let (x, y) = self.make(*of, before + 1);
                flags.tell(&self.channels[x], x);
                if y != x {
                    flags.tell(&self.channels[y], y);
                }
                count += 1;
            }
        }
        for x in 0..self.queues.len() {
            self.waited[x] += (stood[x] && self.channels[x].latch.is_some()) as u64;
        }
        count
    }

    /// Makes rounds until nothing moves and no packet is to come; answers the rounds, and the last that moves.
    fn run(&mut self) -> (u64, u64) {
        let groups = groups_of(self.net);
        let mut flags = Flags::open(self.queues.len(), &groups);
        for (x, at) in self.channels.iter().enumerate() {
            flags.tell(at, x);
        }
        let (mut enabled, mut stood) = (Vec::new(), vec![false; self.queues.len()]);
        let mut last = 0;
        for before in 0..MOST_ROUNDS {
            if self.round(&groups, &mut flags, before, &mut enabled, &mut stood) > 0 {
                last = before + 1;
            } else if (0..self.queues.len()).all(|x| self.next_of(x).map_or(true, |k| self.packets[k].round <= before + 1)) {
                return (before + 1, last);
            }
        }
        (MOST_ROUNDS, last)
    }

    fn report(&self, last: u64) -> String {
        let mut text = String::new();
        let word = |of: Option<u64>| of.map_or("-".to_string(), |round| round.to_string());
        for (k, it) in self.packets.iter().enumerate() {
            let latency = self.delivered[k].map(|round| round - (it.round - 1));
            let (begun, delivered) = (word(self.sent[k]), word(self.delivered[k]));
            let Packet { round, from, to, length } = it;
            let _ = write!(text, "packet {round} {from} {to} {length} begun {begun} delivered {delivered} ");
            let _ = writeln!(text, "latency {}", word(latency));
        }
        for (x, (flits, waited)) in self.flits.iter().zip(&self.waited).enumerate() {
            let _ = writeln!(text, "channel {x} flits {flits} waited {waited}");
        }
        let stands = self.channels.iter().any(|it| it.count > 0 || it.latch.is_some());
        let _ = writeln!(text, "{} after round {last}", if stands { "locked" } else { "empty" });
        text
    }
}

fn sum_of(text: &[u8]) -> u64 {
    text.iter().fold(0, |sum, byte| sum.wrapping_mul(31).wrapping_add(*byte as u64))
}

fn main() {
    let words: Vec<String> = env::args().collect();
    let read = |place: usize| fs::read_to_string(&words[place]).expect("a file");
    let (network, traffic, depth) = (read(1), read(2), words[3].parse().expect("a depth"));
    for _ in 0..words.get(4).map_or(0, |word| word.parse().expect("passes")) {
        let start = Instant::now();
        let net = read_network(&network);
        let packets = read_traffic(&traffic);
        println!("reading {}", start.elapsed().as_nanos());
        let start = Instant::now();
        let mut run = Run::new(&net, &packets, depth);
        let (_, last) = run.run();
        let text = run.report(last);
        println!("simulating {}", start.elapsed().as_nanos());
        println!("rounds {last}\nflits {}\nsum {}", run.flits.iter().sum::<u64>(), sum_of(text.as_bytes()));
    }
    if words.len() == 4 {
        let (net, packets) = (read_network(&network), read_traffic(&traffic));
        let mut run = Run::new(&net, &packets, depth);
        let (_, last) = run.run();
        print!("{}", run.report(last));
    }
}
