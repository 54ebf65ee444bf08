//! The reader and the judge of networks whose routers choose in plain Rust, of the same design as the crates
//! `network_text` and `network_adaptive`:
//!
//!     adaptive FILE            prints the numbers and the verdict, without the edges of a cycle
//!     adaptive FILE ROUNDS     prints a line `NAME NANOSECONDS` for each time, and what was found as numbers
use std::env;
use std::fs;
use std::time::Instant;

#[allow(dead_code)]
#[path = "networks.rs"]
mod networks;

use networks::rising::find;
use networks::{Fault, Kind, Network, Pair, first_words, index, next_line, nothing, refused, sum_of};

// Reading.

/// What the lines gave: the first choices as in a network of routes, further ones in layers, and escapes.
struct Choosing {
    fixed: Network,
    layers: usize,
    further: Vec<u32>,
    escapes: Vec<u32>,
}

impl Choosing {
    /// The cell of a line `next` whose channel and destination have a choice already.
    fn taken(&self, words: &[&[u8]]) -> Option<(usize, u32)> {
        let [_, x, j, y] = words else { return None };
        let (x, j, y) = (index(x).ok()? as usize, index(j).ok()? as usize, index(y).ok()?);
        let net = &self.fixed;
        if net.choices.is_empty() || x >= net.kinds.len() || net.kinds.get(j) != Some(&Kind::Ejection) {
            return None;
        }
        let cell = x * net.ejections + net.columns[j];
        (net.choices[cell] as usize != net.kinds.len()).then_some((cell, y))
    }

    fn put(&mut self, cell: usize, choice: u32) -> Result<(), Fault> {
        self.fixed.channel(choice)?;
        if self.fixed.choices[cell] == choice {
            return Err("F5");
        }
        let (size, none) = (self.fixed.choices.len(), self.fixed.kinds.len() as u32);
        for layer in 0..self.layers {
            let at = layer * size + cell;
            if self.further[at] == none {
                self.further[at] = choice;
                return Ok(());
            }
            if self.further[at] == choice {
                return Err("F5");
            }
        }
        let mut layer = vec![none; size];
        layer[cell] = choice;
        self.further.extend_from_slice(&layer);
        self.layers += 1;
        Ok(())
    }

    fn take(&mut self, words: &[&[u8]]) -> Result<(), Fault> {
        match words {
            [b"escape", y] => {
                let y = index(y)?;
                self.fixed.channel(y)?;
                if self.escapes.contains(&y) {
                    return Err("F5");
                }
                self.escapes.push(y);
                Ok(())
            }
            [b"next", ..] => match self.taken(words) {
                Some((cell, choice)) => self.put(cell, choice),
                None => self.fixed.take(words),
            },
            _ => self.fixed.take(words),
        }
    }
}

/// The network of a text, or the first fault and its line.
fn read(text: &[u8]) -> Result<Choosing, (Fault, u64)> {
    let mut network = Choosing { fixed: nothing(), layers: 0, further: Vec::new(), escapes: Vec::new() };
    let mut number = 1;
    let mut rest = text;
    while let Some((line, after)) = next_line(rest) {
        let (words, count) = first_words(line);
        network.take(&words[..count]).map_err(|fault| (fault, number))?;
        number += 1;
        rest = after;
    }
    if network.fixed.kinds.is_empty() {
        return Err(("F5", number));
    }
    network.fixed.begin();
    Ok(network)
}

// Judging.

/// A block of choices for each channel as destination, in it a row for each channel.
struct Lists {
    kinds: Vec<Kind>,
    joins: Vec<Pair>,
    replies: Vec<Pair>,
    ways: usize,
    choices: Vec<u32>,
    marks: Vec<bool>,
}

fn lists_of(net: Choosing) -> Lists {
    let (count, size, ways) = (net.fixed.kinds.len(), net.fixed.choices.len(), net.layers + 1);
    let mut choices = Vec::new();
    for to in 0..count {
        for at in 0..count {
            for place in 0..ways {
                choices.push(if net.fixed.kinds[to] != Kind::Ejection {
                    count as u32
                } else {
                    let cell = at * net.fixed.ejections + net.fixed.columns[to];
                    if place == 0 { net.fixed.choices[cell] } else { net.further[(place - 1) * size + cell] }
                });
            }
        }
    }
    let flagged = |x: usize| net.escapes.is_empty() || net.escapes.contains(&(x as u32));
    let marks = (0..count).map(|x| flagged(x) || net.fixed.kinds[x] != Kind::Hop).collect();
    Lists { kinds: net.fixed.kinds, joins: net.fixed.joins, replies: net.fixed.replies, ways, choices, marks }
}

enum Verdict {
    NoRoute(Pair),
    NoChoice(usize, usize, usize),
    NoEscape(usize, usize),
    Cycle(Vec<usize>),
    Rising(Vec<usize>, Travel),
}

impl Lists {
    /// The choices behind a channel: none behind an ejection channel.
    fn after(&self, to: usize, x: usize) -> &[u32] {
        let at = (to * self.kinds.len() + x) * self.ways;
        if self.kinds[x] == Kind::Ejection { &[] } else { &self.choices[at..at + self.ways] }
    }

    /// Spreads flags along the choices, to channels that aren't shut, pass by pass.
    fn spread(&self, to: usize, shut: &[bool], seen: &mut [bool]) {
        let mut more = true;
        while more {
            more = false;
            for x in 0..self.kinds.len() {
                if !seen[x] {
                    continue;
                }
                for y in self.after(to, x) {
                    let y = *y as usize;
                    if y < self.kinds.len() && !shut[y] && !seen[y] {
                        seen[y] = true;
                        more = true;
                    }
                }
            }
        }
    }

    fn comes_to(&self, none: &[bool], to: usize) -> Vec<bool> {
        let mut seen = vec![false; self.kinds.len()];
        for pair in &self.joins {
            if pair.to == to {
                seen[pair.from] = true;
            }
        }
        self.spread(to, none, &mut seen);
        seen
    }

    fn has_escape(&self, to: usize, x: usize) -> bool {
        self.after(to, x).iter().any(|y| self.marks.get(*y as usize) == Some(&true))
    }

    /// Flags what packets wait for; or the first channel without an escape.
    fn waits(&self, none: &[bool], edges: &mut [bool]) -> Option<(usize, usize)> {
        let count = self.kinds.len();
        for to in 0..count {
            let seen = self.comes_to(none, to);
            for x in 0..count {
                if seen[x] && self.kinds[x] != Kind::Ejection && !self.has_escape(to, x) {
                    return Some((x, to));
                }
            }
            for e in 0..count {
                if !seen[e] || !self.marks[e] {
                    continue;
                }
                let mut held = vec![false; count];
                held[e] = true;
                self.spread(to, &self.marks, &mut held);
                for x in (0..count).filter(|x| held[*x]) {
                    for y in self.after(to, x) {
                        let y = *y as usize;
                        if y < count && self.marks[y] {
                            edges[e * count + y] = true;
                        }
                    }
                }
            }
        }
        None
    }

    fn wrong_pair(&self) -> Option<Pair> {
        let is = |x: usize, kind: Kind| self.kinds.get(x) == Some(&kind);
        self.joins.iter().find(|it| !is(it.from, Kind::Injection) || !is(it.to, Kind::Ejection)).copied()
    }

    fn wrong_choice(&self) -> Option<(usize, usize, usize)> {
        let count = self.kinds.len();
        for to in 0..count {
            for x in 0..count {
                let at = (to * count + x) * self.ways;
                for y in &self.choices[at..at + self.ways] {
                    let y = *y as usize;
                    let fits = match self.kinds.get(y) {
                        None | Some(Kind::Hop) => y != x,
                        Some(Kind::Injection) => false,
                        Some(Kind::Ejection) => y == to && y != x,
                    };
                    if !fits {
                        return Some((x, to, y));
                    }
                }
            }
        }
        None
    }
}

/// How far packets can go.
enum Travel {
    Bounded(usize),
    Round(usize, usize),
}

/// How many channels packets go over at most, or where the choices for some destination lead around.
fn travel(net: &Lists, none: &[bool]) -> Travel {
    let count = net.kinds.len();
    let mut most = 0;
    for to in 0..count {
        let seen = net.comes_to(none, to);
        let choice = |x: usize, k: usize| net.choices[(to * count + x) * net.ways + k] as usize;
        let takes = |x: usize, k: usize| seen[x] && net.kinds[x] != Kind::Ejection && choice(x, k) < count;
        let next = |x: usize, k: usize| (k..net.ways).find(|k| takes(x, *k)).unwrap_or(net.ways);
        match find(count, net.ways, |x| next(x, 0), |x, k| next(x, k + 1), choice) {
            Err(around) => return Travel::Round(to, around[0].0),
            Ok(numbers) => {
                let mut order = vec![count; count];
                for (x, number) in numbers.iter().enumerate() {
                    order[*number] = x;
                }
                let mut far = vec![0; count];
                for x in order.into_iter().rev() {
                    far[x] = 1 + (0..net.ways).filter(|k| takes(x, *k)).map(|k| far[choice(x, k)]).max().unwrap_or(0);
                }
                most = net.joins.iter().filter(|pair| pair.to == to).map(|pair| far[pair.from]).fold(most, usize::max);
            }
        }
    }
    Travel::Bounded(most)
}

fn judge(net: &Lists) -> Verdict {
    if let Some(pair) = net.wrong_pair() {
        return Verdict::NoRoute(pair);
    }
    if let Some((x, to, y)) = net.wrong_choice() {
        return Verdict::NoChoice(x, to, y);
    }
    let count = net.kinds.len();
    let none = vec![false; count];
    let mut edges = vec![false; count * count];
    if let Some((x, to)) = net.waits(&none, &mut edges) {
        return Verdict::NoEscape(x, to);
    }
    let all = count + net.replies.len();
    let leads = |x: usize, k: usize| if k < count { edges[x * count + k] } else { net.replies[k - count].from == x };
    let next = |x: usize, k: usize| (k..all).find(|k| leads(x, *k)).unwrap_or(all);
    let end = |_: usize, k: usize| if k < count { k } else { net.replies[k - count].to };
    match find(count, all, |x| next(x, 0), |x, k| next(x, k + 1), end) {
        Err(around) => Verdict::Cycle(around.iter().map(|it| it.0).collect()),
        Ok(numbers) => Verdict::Rising(numbers, travel(net, &none)),
    }
}

/// A verdict as a kind and a sum over what it names.
fn sums(verdict: &Verdict) -> (u64, u64) {
    let sum = |found: &[usize]| sum_of(found.iter().copied());
    match verdict {
        Verdict::Rising(numbers, Travel::Bounded(most)) => (0, sum(numbers).wrapping_add(*most as u64)),
        Verdict::Rising(numbers, Travel::Round(..)) => (1, sum(numbers)),
        Verdict::NoEscape(x, to) => (2, sum(&[*x, *to])),
        Verdict::Cycle(channels) => (3, sum(channels)),
        Verdict::NoRoute(pair) => (4, sum(&[pair.from, pair.to])),
        Verdict::NoChoice(x, to, y) => (5, sum(&[*x, *to, *y])),
    }
}

fn tell(verdict: &Verdict) {
    match verdict {
        Verdict::Rising(numbers, round) => {
            for (x, number) in numbers.iter().enumerate() {
                println!("number {x} {number}");
            }
            match round {
                Travel::Bounded(most) => println!("bounded {most}\nrising"),
                Travel::Round(to, at) => println!("round {to} {at}\nrising"),
            }
        }
        Verdict::NoEscape(x, to) => println!("no escape {x} {to}"),
        Verdict::Cycle(channels) => println!("cycle\n{channels:?}\nmay lock up"),
        Verdict::NoRoute(pair) => println!("no route {} {}", pair.from, pair.to),
        Verdict::NoChoice(x, to, y) => println!("no choice {x} {to} {y}"),
    }
}

fn main() {
    let words: Vec<String> = env::args().collect();
    let text = fs::read(&words[1]).expect("the file can't be read");
    if words.len() < 3 {
        tell(&judge(&lists_of(read(&text).unwrap_or_else(|fault| refused(fault)))));
        return;
    }
    for _ in 0..words[2].parse().expect("ROUNDS is a number") {
        let start = Instant::now();
        let network = read(&text).unwrap_or_else(|fault| refused(fault));
        println!("read {}", start.elapsed().as_nanos());
        let start = Instant::now();
        let lists = lists_of(network);
        let verdict = judge(&lists);
        println!("judge {}", start.elapsed().as_nanos());
        let (kind, sum) = sums(&verdict);
        println!("kind {kind}\nsum {sum}\nchannels {}\npairs {}", lists.kinds.len(), lists.joins.len());
    }
}
