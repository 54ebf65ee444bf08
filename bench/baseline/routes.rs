//! The routes and the check of channel numbers in plain Rust, of the same design as the crates
//! `torus`, `dateline_route` and `channel_number`: `routes RADIX DIMS ROUNDS` prints a line
//! `NAME NANOSECONDS` for each time.
use std::env;
use std::time::Instant;

#[derive(Clone, Copy, PartialEq, Eq)]
enum Dir {
    Plus,
    Minus,
}

#[derive(Clone, Copy, PartialEq, Eq)]
enum Class {
    Request,
    Reply,
}

#[derive(Clone, Copy)]
enum Input {
    Inject,
    #[allow(dead_code)] // no router looks at the direction
    Hop { dim: u32, dir: Dir, bit: bool },
}

#[derive(Clone, Copy)]
enum Output {
    Eject,
    Hop { dim: u32, dir: Dir, bit: bool },
}

#[derive(Clone, Copy)]
enum Kind {
    Injection,
    Hop { dim: u32, dir: Dir, bit: bool },
    Ejection,
}

#[derive(Clone, Copy)]
struct Channel {
    tile: u32,
    class: Class,
    kind: Kind,
}

struct Torus {
    dims: usize,
    radices: [u32; 3],
    datelines: [u32; 3],
}

impl Torus {
    fn new(radix: u32, dims: u32) -> Option<Torus> {
        if !(2..=8).contains(&radix) || !(1..=3).contains(&dims) || radix.pow(dims) > 64 {
            return None;
        }
        let mut radices = [1; 3];
        let mut datelines = [0; 3];
        for dim in 0..dims as usize {
            radices[dim] = radix;
            datelines[dim] = radix - 1;
        }
        Some(Torus { dims: dims as usize, radices, datelines })
    }

    fn tiles(&self) -> u32 {
        self.radices[0] * self.radices[1] * self.radices[2]
    }

    fn dims(&self) -> u32 {
        self.dims as u32
    }

    fn radix_of(&self, dim: u32) -> u32 {
        self.radices[dim as usize]
    }

    fn dateline_of(&self, dim: u32) -> u32 {
        self.datelines[dim as usize]
    }

    fn stride(&self, dim: u32) -> u32 {
        match dim {
            0 => 1,
            1 => self.radices[0],
            _ => self.radices[0] * self.radices[1],
        }
    }

    fn digit(&self, tile: u32, dim: u32) -> u32 {
        tile / self.stride(dim) % self.radix_of(dim)
    }

    fn neighbour(&self, tile: u32, dim: u32, dir: Dir) -> u32 {
        let radix = self.radix_of(dim);
        let stride = self.stride(dim);
        let here = self.digit(tile, dim);
        let there = match dir {
            Dir::Plus => (here + 1) % radix,
            Dir::Minus => (here + (radix - 1)) % radix,
        };
        tile - here * stride + there * stride
    }
}

fn hops_by(dir: Dir, radix: u32, from: u32, to: u32) -> u32 {
    match dir {
        Dir::Plus => (to + (radix - from)) % radix,
        Dir::Minus => (from + (radix - to)) % radix,
    }
}

fn shorter_way(radix: u32, from: u32, to: u32) -> Dir {
    if hops_by(Dir::Plus, radix, from, to) <= hops_by(Dir::Minus, radix, from, to) {
        Dir::Plus
    } else {
        Dir::Minus
    }
}

fn is_dateline_hop(torus: &Torus, at: u32, dim: u32, dir: Dir) -> bool {
    let dateline = torus.dateline_of(dim);
    let out_of = match dir {
        Dir::Plus => dateline,
        Dir::Minus => (dateline + 1) % torus.radix_of(dim),
    };
    torus.digit(at, dim) == out_of
}

fn came_on_one(came: Input, dim: u32) -> bool {
    match came {
        Input::Inject => false,
        Input::Hop { dim: came, bit, .. } => came == dim && bit,
    }
}

fn next(torus: &Torus, at: u32, came: Input, dst: u32, _class: Class) -> Output {
    for dim in 0..torus.dims() {
        let here = torus.digit(at, dim);
        let there = torus.digit(dst, dim);
        if here != there {
            let dir = shorter_way(torus.radix_of(dim), here, there);
            let bit = is_dateline_hop(torus, at, dim, dir) || came_on_one(came, dim);
            return Output::Hop { dim, dir, bit };
        }
    }
    Output::Eject
}

/// A list of at most 14 channels, kept in place.
struct Channels {
    items: [Channel; 14],
    len: usize,
}

impl Channels {
    fn push(&mut self, channel: Channel) {
        self.items[self.len] = channel;
        self.len += 1;
    }
}

fn route(torus: &Torus, src: u32, dst: u32, class: Class) -> Channels {
    let first = Channel { tile: src, class, kind: Kind::Injection };
    let mut channels = Channels { items: [first; 14], len: 1 };
    let mut at = src;
    for dim in 0..torus.dims() {
        at = push_run(torus, at, dst, dim, class, &mut channels);
    }
    channels.push(Channel { tile: dst, class, kind: Kind::Ejection });
    channels
}

fn push_run(torus: &Torus, start: u32, dst: u32, dim: u32, class: Class, channels: &mut Channels) -> u32 {
    let radix = torus.radix_of(dim);
    let here = torus.digit(start, dim);
    let there = torus.digit(dst, dim);
    let dir = shorter_way(radix, here, there);
    let mut at = start;
    let mut bit = false;
    for _ in 0..hops_by(dir, radix, here, there) {
        bit |= is_dateline_hop(torus, at, dim, dir);
        channels.push(Channel { tile: at, class, kind: Kind::Hop { dim, dir, bit } });
        at = torus.neighbour(at, dim, dir);
    }
    at
}

fn channels_at_tile(torus: &Torus) -> u32 {
    8 * torus.dims() + 4
}

fn channel_count(torus: &Torus) -> u32 {
    torus.tiles() * channels_at_tile(torus)
}

fn channel_index(torus: &Torus, channel: Channel) -> u32 {
    let class = (channel.class == Class::Reply) as u32;
    let place = match channel.kind {
        Kind::Hop { dim, dir, bit } => 8 * dim + 4 * (dir == Dir::Minus) as u32 + 2 * class + bit as u32,
        Kind::Injection => 8 * torus.dims() + class,
        Kind::Ejection => 8 * torus.dims() + 2 + class,
    };
    channel.tile * channels_at_tile(torus) + place
}

/// The first case where numbers do not rise: class, source, destination, hop.
fn check(torus: &Torus, numbers: &[u32]) -> Result<(), (Class, u32, u32, u32)> {
    for class in [Class::Request, Class::Reply] {
        for src in 0..torus.tiles() {
            for dst in 0..torus.tiles() {
                if let Some(hop) = falling_hop(torus, numbers, class, src, dst) {
                    return Err((class, src, dst, hop));
                }
            }
        }
    }
    Ok(())
}

fn falling_hop(torus: &Torus, numbers: &[u32], class: Class, src: u32, dst: u32) -> Option<u32> {
    let channels = route(torus, src, dst, class);
    let channels = &channels.items[..channels.len];
    let mut before = numbers[channel_index(torus, channels[0]) as usize];
    for hop in 1..channels.len() {
        let here = numbers[channel_index(torus, channels[hop]) as usize];
        if here <= before {
            return Some(hop as u32 - 1);
        }
        before = here;
    }
    None
}

/// The number of each channel, in channel order.
fn numbers(torus: &Torus) -> Vec<u32> {
    let all: u32 = (0..torus.dims()).map(|dim| torus.radix_of(dim)).sum();
    let mut numbers = vec![0; channel_count(torus) as usize];
    for tile in 0..torus.tiles() {
        for class in [Class::Request, Class::Reply] {
            let first = if class == Class::Request { 0 } else { 2 + 2 * all };
            let mut put = |kind, number| {
                numbers[channel_index(torus, Channel { tile, class, kind }) as usize] = number;
            };
            put(Kind::Injection, first);
            put(Kind::Ejection, first + 1 + 2 * all);
            for (dim, dir, bit) in ways(torus) {
                let below: u32 = (0..dim).map(|dim| torus.radix_of(dim)).sum();
                let rank = rank_of(torus, tile, dim, dir, bit);
                put(Kind::Hop { dim, dir, bit }, first + 1 + 2 * below + rank);
            }
        }
    }
    numbers
}

fn rank_of(torus: &Torus, tile: u32, dim: u32, dir: Dir, bit: bool) -> u32 {
    let radix = torus.radix_of(dim);
    let past = match dir {
        Dir::Plus => (torus.digit(tile, dim) + radix - torus.dateline_of(dim) - 1) % radix,
        Dir::Minus => (torus.dateline_of(dim) + radix - torus.digit(tile, dim)) % radix,
    };
    if bit { radix + (past + 1) % radix } else { past }
}

/// Each dimension, direction and bit.
fn ways(torus: &Torus) -> Vec<(u32, Dir, bool)> {
    let mut ways = Vec::new();
    for dim in 0..torus.dims() {
        for dir in [Dir::Plus, Dir::Minus] {
            for bit in [false, true] {
                ways.push((dim, dir, bit));
            }
        }
    }
    ways
}

struct Query {
    at: u32,
    came: Input,
    dst: u32,
}

fn queries(torus: &Torus) -> Vec<Query> {
    let mut queries = Vec::new();
    for at in 0..torus.tiles() {
        for dst in 0..torus.tiles() {
            queries.push(Query { at, came: Input::Inject, dst });
            for (dim, dir, bit) in ways(torus) {
                queries.push(Query { at, came: Input::Hop { dim, dir, bit }, dst });
            }
        }
    }
    queries
}

fn code_of(output: Output) -> u64 {
    match output {
        Output::Eject => 0,
        Output::Hop { dim, dir, bit } => {
            let dir = if dir == Dir::Plus { 0 } else { 2 };
            1 + 4 * u64::from(dim) + dir + u64::from(bit)
        }
    }
}

fn asked(torus: &Torus, queries: &[Query], before: u64) -> u64 {
    let tiles = torus.tiles();
    let mut sum = before;
    for query in queries {
        if query.at < tiles && query.dst < tiles {
            let output = next(torus, query.at, query.came, query.dst, Class::Request);
            sum = sum.wrapping_mul(31).wrapping_add(code_of(output));
        }
    }
    sum
}

fn main() {
    let given: Vec<u32> = env::args().skip(1).map(|word| word.parse().expect("a number")).collect();
    let [radix, dims, rounds] = given[..] else {
        panic!("give RADIX DIMS ROUNDS");
    };
    let torus = Torus::new(radix, dims).expect("a torus");
    let queries = queries(&torus);
    let mut numbers = numbers(&torus);
    let mut sum = 0;
    for round in 0..rounds {
        let start = Instant::now();
        sum = asked(&torus, &queries, sum);
        println!("next {}", start.elapsed().as_nanos());
        let start = Instant::now();
        let last = numbers.len() - 1;
        numbers[last] = 100 + round % 2;
        let rising = check(&torus, &numbers).is_ok();
        println!("check {}", start.elapsed().as_nanos());
        assert!(rising);
    }
    println!("queries {}", queries.len());
    println!("sum {sum}");
}
