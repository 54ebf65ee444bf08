//! The reader and the judge of networks in plain Rust, of the same design as the crates `network_text` and
//! `network_judge`:
//!
//!     networks FILE            prints the text of the verdict, as `torusmem network FILE` does, but for what stands behind it
//!     networks FILE ROUNDS     prints a line `NAME NANOSECONDS` for each time, and what was found as numbers
pub mod rising;

use rising::find;
use std::env;
use std::fs;
use std::process::exit;
use std::time::Instant;

#[derive(Clone, Copy, PartialEq, Eq)]
pub enum Kind {
    Injection,
    Hop,
    Ejection,
}

#[derive(Clone, Copy)]
pub struct Pair {
    pub from: usize,
    pub to: usize,
}

#[derive(Clone, Copy)]
enum Why {
    NoSender,
    NoReceiver,
    Leaves(usize),
    Ejects(usize),
    Injects(usize),
    Round,
}

#[derive(Clone, Copy)]
enum By {
    To(usize),
    Replied,
}

enum Verdict {
    Rising(Vec<usize>),
    NoRoute(Pair, Why),
    Cycle(Vec<(usize, By)>),
}

/// The fault of a line, by its code.
pub type Fault = &'static str;

// Reading.

const WORDS: usize = 7;

/// The first line of a text and what follows it.
pub fn next_line(text: &[u8]) -> Option<(&[u8], &[u8])> {
    if text.is_empty() {
        return None;
    }
    match text.iter().position(|b| *b == b'\n') {
        Some(end) => {
            let line = &text[..end];
            Some((line.strip_suffix(b"\r").unwrap_or(line), &text[end + 1..]))
        }
        None => Some((text, &text[text.len()..])),
    }
}

fn is_blank(byte: u8) -> bool {
    byte == b' ' || byte == b'\t'
}

/// The first words of a line, and how many they are.
pub fn first_words(line: &[u8]) -> ([&[u8]; WORDS], usize) {
    let mut words: [&[u8]; WORDS] = [b""; WORDS];
    let mut count = 0;
    let mut rest = line;
    while count < WORDS {
        let start = rest.iter().position(|b| !is_blank(*b)).unwrap_or(rest.len());
        rest = &rest[start..];
        if rest.is_empty() {
            break;
        }
        let end = rest.iter().position(|b| is_blank(*b)).unwrap_or(rest.len());
        words[count] = &rest[..end];
        count += 1;
        rest = &rest[end..];
    }
    (words, count)
}

/// The number that a word spells, at most 2^31.
pub fn index(word: &[u8]) -> Result<u32, Fault> {
    if word.is_empty() {
        return Err("F4");
    }
    let mut number = 0u64;
    for digit in word {
        if !digit.is_ascii_digit() {
            return Err("F4");
        }
        number = (number * 10 + u64::from(*digit - b'0')).min(1 << 31);
    }
    Ok(number as u32)
}

pub struct Network {
    pub kinds: Vec<Kind>,
    pub joins: Vec<Pair>,
    pub replies: Vec<Pair>,
    pub ejections: usize,
    begun: bool,
    pub columns: Vec<usize>,
    pub choices: Vec<u32>,
}

/// The column of each channel: how many ejection channels come before it.
fn columns_of(kinds: &[Kind]) -> Vec<usize> {
    let mut columns = Vec::with_capacity(kinds.len());
    let mut before = 0;
    for kind in kinds {
        columns.push(before);
        if *kind == Kind::Ejection {
            before += 1;
        }
    }
    columns
}

impl Network {
    fn is(&self, x: usize, kind: Kind) -> bool {
        self.kinds.get(x) == Some(&kind)
    }

    /// A channel below the number of channels, which is given.
    pub fn channel(&self, x: u32) -> Result<usize, Fault> {
        if self.kinds.is_empty() {
            return Err("F5");
        }
        if x as usize >= self.kinds.len() {
            return Err("F6");
        }
        Ok(x as usize)
    }

    fn take_channels(&mut self, count: u32) -> Result<(), Fault> {
        if !self.kinds.is_empty() {
            return Err("F5");
        }
        if !(1..=16384).contains(&count) {
            return Err("F6");
        }
        self.kinds = vec![Kind::Hop; count as usize];
        Ok(())
    }

    fn take_kind(&mut self, x: u32, kind: Kind) -> Result<(), Fault> {
        let x = self.channel(x)?;
        if kind == Kind::Ejection && self.begun || self.kinds[x] != Kind::Hop {
            return Err("F5");
        }
        if kind == Kind::Ejection {
            if self.ejections >= 1024 {
                return Err("F9");
            }
            self.ejections += 1;
        }
        self.kinds[x] = kind;
        Ok(())
    }

    fn take_join(&mut self, from: u32, to: u32) -> Result<(), Fault> {
        let (from, to) = (self.channel(from)?, self.channel(to)?);
        if self.joins.len() >= 1 << 20 {
            return Err("F9");
        }
        self.joins.push(Pair { from, to });
        Ok(())
    }

    pub fn begin(&mut self) {
        if !self.begun {
            self.columns = columns_of(&self.kinds);
            self.choices = vec![self.kinds.len() as u32; self.kinds.len() * self.ejections];
            self.begun = true;
        }
    }

    fn take_next(&mut self, x: u32, j: u32, y: u32) -> Result<(), Fault> {
        let x = self.channel(x)?;
        if !self.is(j as usize, Kind::Ejection) {
            return Err("F6");
        }
        self.channel(y)?;
        self.begin();
        let cell = x * self.ejections + self.columns[j as usize];
        if self.choices[cell] as usize != self.kinds.len() {
            return Err("F5");
        }
        self.choices[cell] = y;
        Ok(())
    }

    fn take_reply(&mut self, x: u32, y: u32) -> Result<(), Fault> {
        if self.kinds.is_empty() {
            return Err("F5");
        }
        let (from, to) = (x as usize, y as usize);
        if !self.is(from, Kind::Ejection) || !self.is(to, Kind::Injection) {
            return Err("F6");
        }
        if self.replies.iter().any(|it| it.from == from && it.to == to) {
            return Err("F5");
        }
        self.replies.push(Pair { from, to });
        Ok(())
    }

    pub fn take(&mut self, words: &[&[u8]]) -> Result<(), Fault> {
        match words {
            [] => Ok(()),
            [[b'#', ..], ..] => Ok(()),
            [b"channels", a] => self.take_channels(index(a)?),
            [b"inject", a] => self.take_kind(index(a)?, Kind::Injection),
            [b"eject", a] => self.take_kind(index(a)?, Kind::Ejection),
            [b"join", a, b] => self.take_join(index(a)?, index(b)?),
            [b"next", a, b, c] => self.take_next(index(a)?, index(b)?, index(c)?),
            [b"reply", a, b] => self.take_reply(index(a)?, index(b)?),
            _ => Err("F4"),
        }
    }
}

/// A network of which nothing is given yet.
pub fn nothing() -> Network {
    Network {
        kinds: Vec::new(),
        joins: Vec::new(),
        replies: Vec::new(),
        ejections: 0,
        begun: false,
        columns: Vec::new(),
        choices: Vec::new(),
    }
}

/// The network of a text, or the first fault and its line.
fn read(text: &[u8]) -> Result<Network, (Fault, u64)> {
    let mut network = nothing();
    let mut number = 1;
    let mut rest = text;
    while let Some((line, after)) = next_line(rest) {
        let (words, count) = first_words(line);
        network.take(&words[..count]).map_err(|fault| (fault, number))?;
        number += 1;
        rest = after;
    }
    if network.kinds.is_empty() {
        return Err(("F5", number));
    }
    network.begin();
    Ok(network)
}

// Judging.

/// Walks between a pair, and marks each channel that packets go on from.
fn trace(net: &Network, columns: &[usize], width: usize, used: &mut [bool], pair: Pair) -> Result<(), Why> {
    if !net.is(pair.from, Kind::Injection) {
        return Err(Why::NoSender);
    }
    if !net.is(pair.to, Kind::Ejection) {
        return Err(Why::NoReceiver);
    }
    let column = columns[pair.to];
    let mut at = pair.from;
    for step in 0..net.kinds.len() {
        let here = at * width + column;
        used[here] = true;
        let after = net.choices[here] as usize;
        match net.kinds.get(after) {
            None => return Err(Why::Leaves(step + 1)),
            Some(Kind::Injection) => return Err(Why::Injects(step + 1)),
            Some(Kind::Ejection) if after == pair.to => return Ok(()),
            Some(Kind::Ejection) => return Err(Why::Ejects(step + 1)),
            Some(Kind::Hop) => at = after,
        }
    }
    Err(Why::Round)
}

fn judge(net: &Network) -> Verdict {
    let columns = columns_of(&net.kinds);
    let ends: Vec<usize> = (0..net.kinds.len()).filter(|x| net.kinds[*x] == Kind::Ejection).collect();
    let width = ends.len();
    let mut used = vec![false; net.choices.len()];
    for pair in &net.joins {
        if let Err(why) = trace(net, &columns, width, &mut used, *pair) {
            return Verdict::NoRoute(*pair, why);
        }
    }
    let all = width + net.replies.len();
    let leads = |x: usize, k: usize| if k < width { used[x * width + k] } else { net.replies[k - width].from == x };
    let from = |x: usize, k: usize| (k..all).find(|k| leads(x, *k)).unwrap_or(all);
    let to = |x: usize, k: usize| if k < width { net.choices[x * width + k] as usize } else { net.replies[k - width].to };
    let by = |k: usize| if k < width { By::To(ends[k]) } else { By::Replied };
    match find(net.kinds.len(), all, |x| from(x, 0), |x, k| from(x, k + 1), to) {
        Err(around) => Verdict::Cycle(around.iter().map(|&(x, k)| (x, by(k))).collect()),
        Ok(numbers) => Verdict::Rising(numbers),
    }
}

// Telling.

fn why_text(why: Why) -> String {
    match why {
        Why::NoSender => "the first is no injection channel".to_string(),
        Why::NoReceiver => "the second is no ejection channel".to_string(),
        Why::Leaves(step) => format!("no channel at step {step}"),
        Why::Ejects(step) => format!("another ejection channel at step {step}"),
        Why::Injects(step) => format!("an injection channel at step {step}"),
        Why::Round => "round for ever".to_string(),
    }
}

fn verdict_text(verdict: &Verdict) -> String {
    let mut text = String::new();
    match verdict {
        Verdict::Rising(numbers) => {
            for (x, number) in numbers.iter().enumerate() {
                text += &format!("number {x} {number}\n");
            }
            text += "rising\n";
        }
        Verdict::NoRoute(pair, why) => {
            text += &format!("no route {} {}: {}\n", pair.from, pair.to, why_text(*why));
        }
        Verdict::Cycle(links) => {
            text += "cycle\n";
            for (k, (channel, by)) in links.iter().enumerate() {
                text += &match by {
                    By::To(j) => format!("{channel} to {j}\n"),
                    By::Replied => format!("{channel} replies {}\n", links[(k + 1) % links.len()].0),
                };
            }
        }
    }
    text
}

/// A number that tells rows of numbers apart.
pub fn sum_of(row: impl Iterator<Item = usize>) -> u64 {
    row.zip(1..).map(|(it, place): (usize, u64)| place.wrapping_mul(it as u64)).fold(0, u64::wrapping_add)
}

/// A verdict as a kind and a sum over what it names.
fn sums(verdict: &Verdict) -> (u64, u64) {
    match verdict {
        Verdict::Rising(numbers) => (0, sum_of(numbers.iter().copied())),
        Verdict::NoRoute(pair, _) => (1, pair.from as u64 * 65536 + pair.to as u64),
        Verdict::Cycle(links) => (2, sum_of(links.iter().map(|link| link.0))),
    }
}

pub fn refused(fault: (Fault, u64)) -> ! {
    eprintln!("fault {} at line {}", fault.0, fault.1);
    exit(1)
}

fn main() {
    let words: Vec<String> = env::args().collect();
    let text = fs::read(&words[1]).expect("the file can't be read");
    if words.len() < 3 {
        let verdict = judge(&read(&text).unwrap_or_else(|fault| refused(fault)));
        print!("{}", verdict_text(&verdict));
        exit(!matches!(verdict, Verdict::Rising(_)) as i32);
    }
    for _ in 0..words[2].parse().expect("ROUNDS is a number") {
        let start = Instant::now();
        let network = read(&text).unwrap_or_else(|fault| refused(fault));
        println!("read {}", start.elapsed().as_nanos());
        let start = Instant::now();
        let verdict = judge(&network);
        println!("judge {}", start.elapsed().as_nanos());
        let (kind, sum) = sums(&verdict);
        println!("kind {kind}\nsum {sum}\nchannels {}\npairs {}", network.kinds.len(), network.joins.len());
    }
}
