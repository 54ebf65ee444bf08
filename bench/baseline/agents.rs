//! Choices of routers, processors and banks in plain Rust, by the turns of `tile`, of the same design as the
//! crates `flit_buffer`, `router`, `net_interface` and `home_bank`, and those on which these stand:
//!
//!     agents ROUNDS
//!
//! prints a line `NAME NANOSECONDS` for each time.
#[allow(dead_code)]
mod packets;
mod row;
mod script;
#[allow(dead_code)]
mod tile;
mod torus;

use script::{Line, Value};
use std::env;
use std::time::Instant;
use tile::turns::Agent;
use tile::Tile;
use torus::{Choice, Torus};

const SHORT: u64 = 0xE008_0000_0000_0000;
const LONG: [u64; 5] = [
    0xA008_0000_0000_0000,
    0x2000_0000_0000_0000,
    0x2000_0000_0000_0007,
    0x2000_0000_0000_0000,
    0x6000_0000_0000_0007,
];
const TORUS: Torus = Torus { radix: 4, dims: 3 };
const WORDS: usize = 64;
const PORTS: u32 = 26;
const INJECTION: u32 = 24;

/// A tile whose processor has one tag.
fn tile_at(tile: u32, depth: usize, lines: &[Line], room: usize) -> Tile {
    Tile::new(&TORUS, WORDS, tile, depth, 1, lines.to_vec(), room)
}

fn tiles(depth: usize, lines: &[Line], room: usize) -> Vec<Tile> {
    (0..TORUS.tiles()).map(|tile| tile_at(tile, depth, lines, room)).collect()
}

/// 1 if a choice of a tile's agent moved, else 0.
#[inline(always)]
fn tried(tile: &mut Tile, agent: Agent, row: &mut [u64], choice: Choice) -> u64 {
    u64::from(tile.turn(agent, choice, row))
}

/// Tries a choice of each router for each of its ports.
#[inline(never)]
fn ports(all: &mut [Tile], row: &mut [u64], choice: impl Fn(u32) -> Choice) -> u64 {
    let mut moves = 0;
    for tile in all {
        for port in 0..PORTS {
            moves += tried(tile, Agent::Router, row, choice(port));
        }
    }
    moves
}

#[inline(never)]
fn again(router: &mut Tile, row: &mut [u64], choice: Choice, times: u32) -> u64 {
    (0..times).map(|_| tried(router, Agent::Router, row, choice)).sum()
}

fn fill(router: &mut Tile, row: &mut [u64]) -> u64 {
    let mut moves = 0;
    for _ in 0..2 {
        row[96..100].fill(SHORT);
        for _ in 0..4 {
            moves += tried(router, Agent::Router, row, Choice::TakeFrom(INJECTION));
            moves += tried(router, Agent::Router, row, Choice::Put(INJECTION));
        }
    }
    moves
}

#[inline(never)]
fn pass(router: &mut Tile, row: &mut [u64], packet: &[u64]) -> u64 {
    let mut moves = 0;
    for &flit in packet {
        row[24] = flit;
        moves += tried(router, Agent::Router, row, Choice::TakeFrom(INJECTION));
        moves += tried(router, Agent::Router, row, Choice::Put(INJECTION));
        row[0] = 0;
        moves += tried(router, Agent::Router, row, Choice::CreditOf(0));
    }
    moves
}

/// Prints what a piece of work took, and gives what it gave.
fn timed(name: &str, work: impl FnOnce() -> u64) -> u64 {
    let start = Instant::now();
    let gave = work();
    println!("{name} {}", start.elapsed().as_nanos());
    gave
}

fn idle(rounds: u32) {
    let mut all = tiles(4, &[], 0);
    let mut row = vec![0u64; 7168];
    let mut moves = timed("puts", || (0..rounds).map(|_| ports(&mut all, &mut row, Choice::Put)).sum());
    moves += timed("credits", || (0..rounds).map(|_| ports(&mut all, &mut row, Choice::CreditOf)).sum());
    moves += timed("takes", || (0..rounds).map(|_| ports(&mut all, &mut row, Choice::TakeFrom)).sum());
    assert!(moves == 0, "an empty router moved");
}

fn stuck(times: u32) {
    let mut router = tile_at(0, 4, &[], 0);
    let mut row = vec![0u64; 7168];
    assert!(fill(&mut router, &mut row) == 9, "the output isn't full");
    let mut moves = timed("blocked", || again(&mut router, &mut row, Choice::Put(INJECTION), times));
    moves += timed("waiting", || again(&mut router, &mut row, Choice::CreditOf(0), times));
    assert!(moves == 0, "a full output moved");
}

fn stream(packets: u32) {
    let mut router = tile_at(0, 1, &[], 0);
    let mut row = vec![0u64; 7168];
    let mut moves = timed("short", || (0..packets).map(|_| pass(&mut router, &mut row, &[SHORT])).sum());
    moves += timed("long", || (0..packets).map(|_| pass(&mut router, &mut row, &LONG)).sum());
    assert!(moves == u64::from(packets) * 18, "a flit didn't move");
}

const LOADED: [u64; 3] = [0xA200_0000_0000_0000, 0x2000_0000_0000_0000, 0x6000_0000_0000_0007];
const STORED: [u64; 1] = [0xE600_0000_0000_0000];
const LOAD: [u64; 1] = [0xE000_0000_0000_0000];
const STORE: [u64; 3] = [0xA400_0000_0000_0000, 0x2000_0000_0000_0000, 0x6000_0000_0000_0007];

const CHANNELS: usize = 28;
const ASKED: usize = 24;
const TOLD: usize = 27;
const REPLIED: usize = 25;
const REQUESTED: usize = 26;

#[inline(never)]
fn each(all: &mut [Tile], agent: Agent, row: &mut [u64], choice: Choice) -> u64 {
    all.iter_mut().map(|tile| tried(tile, agent, row, choice)).sum()
}

/// Puts a flit that is to be sent, takes it from its place, and has the credit back.
fn send(tile: &mut Tile, agent: Agent, row: &mut [u64], place: usize) -> u64 {
    let put = tried(tile, agent, row, Choice::Send);
    row[place] = 0;
    put + tried(tile, agent, row, Choice::Credit)
}

/// Has flits come in one after the other.
fn take(tile: &mut Tile, agent: Agent, row: &mut [u64], place: usize, flits: &[u64]) -> u64 {
    let mut moves = 0;
    for &flit in flits {
        row[place] = flit;
        moves += tried(tile, agent, row, Choice::Take);
    }
    moves
}

#[inline(never)]
fn ask(all: &mut [Tile], row: &mut [u64], sent: u32, reply: &[u64]) -> u64 {
    let mut moves = 0;
    for (at, tile) in all.iter_mut().enumerate() {
        for _ in 0..16 {
            for _ in 0..sent {
                moves += send(tile, Agent::Processor, row, at * CHANNELS + ASKED);
            }
            moves += take(tile, Agent::Processor, row, at * CHANNELS + TOLD, reply);
        }
    }
    moves
}

#[inline(never)]
fn serve(all: &mut [Tile], row: &mut [u64], request: &[u64], sent: u32) -> u64 {
    let mut moves = 0;
    for (at, tile) in all.iter_mut().enumerate() {
        for _ in 0..16 {
            moves += take(tile, Agent::Bank, row, at * CHANNELS + REQUESTED, request);
            moves += tried(tile, Agent::Bank, row, Choice::Serve);
            for _ in 0..sent {
                moves += send(tile, Agent::Bank, row, at * CHANNELS + REPLIED);
            }
        }
    }
    moves
}

fn waiting(times: u32) {
    let mut row = vec![0u64; 7233];
    let mut all = tiles(4, &[Line::Store(0, Value::Number(7)), Line::Fence, Line::Load(0)], 0);
    let sent: u64 = (0..3).map(|_| each(&mut all, Agent::Processor, &mut row, Choice::Send)).sum();
    assert!(sent == 192, "a store wasn't sent");
    let mut finished = tiles(4, &[], 0);
    assert!(each(&mut finished, Agent::Processor, &mut row, Choice::Done) == 64, "a processor didn't report");
    row[7232] = 0;
    let mut try_all = |name: &str, all: &mut [Tile], choice: Choice| {
        timed(name, || (0..times).map(|_| each(all, Agent::Processor, &mut row, choice)).sum())
    };
    let mut moves = try_all("processor-send", &mut all, Choice::Send);
    moves += try_all("processor-done", &mut all, Choice::Done);
    moves += try_all("processor-credit", &mut all, Choice::Credit);
    moves += try_all("processor-take", &mut all, Choice::Take);
    moves += try_all("processor-look", &mut finished, Choice::Look);
    assert!(moves == 0, "a processor moved that waits");
}

fn unasked(times: u32) {
    let mut row = vec![0u64; 7233];
    let mut all = tiles(4, &[], 16);
    let mut try_all = |name: &str, choice: Choice| {
        timed(name, || (0..times).map(|_| each(&mut all, Agent::Bank, &mut row, choice)).sum())
    };
    let mut moves = try_all("bank-serve", Choice::Serve);
    moves += try_all("bank-send", Choice::Send);
    moves += try_all("bank-credit", Choice::Credit);
    moves += try_all("bank-take", Choice::Take);
    assert!(moves == 0, "a bank moved that nobody asked");
}

fn asking(rounds: u32) {
    let mut row = vec![0u64; 1857];
    let (mut loads, mut stores, mut moves) = (0, 0, 0);
    for _ in 0..rounds {
        let mut all = tiles(1, &[Line::Load(0); 16], 0);
        let start = Instant::now();
        moves += ask(&mut all, &mut row, 1, &LOADED);
        loads += start.elapsed().as_nanos();
        let mut all = tiles(1, &[Line::Store(0, Value::Number(7)); 16], 0);
        let start = Instant::now();
        moves += ask(&mut all, &mut row, 3, &STORED);
        stores += start.elapsed().as_nanos();
    }
    println!("processor-load {loads}\nprocessor-store {stores}");
    assert!(moves == u64::from(rounds) * 12288, "a processor didn't move");
}

fn serving(rounds: u32) {
    let mut row = vec![0u64; 1857];
    let (mut loads, mut stores, mut moves) = (0, 0, 0);
    for _ in 0..rounds {
        let mut all = tiles(1, &[], 17);
        let start = Instant::now();
        moves += serve(&mut all, &mut row, &LOAD, 3);
        loads += start.elapsed().as_nanos();
        let mut all = tiles(1, &[], 17);
        let start = Instant::now();
        moves += serve(&mut all, &mut row, &STORE, 1);
        stores += start.elapsed().as_nanos();
    }
    println!("bank-load {loads}\nbank-store {stores}");
    assert!(moves == u64::from(rounds) * 14336, "a bank didn't move");
}

fn main() {
    let rounds: u32 = env::args().nth(1).and_then(|word| word.parse().ok()).expect("give the number of rounds");
    for _ in 0..5 {
        idle(rounds);
        stuck(rounds * 1664);
        stream(rounds * 64);
        waiting(rounds * 26);
        unasked(rounds * 26);
        asking(rounds);
        serving(rounds);
    }
}
