//! A machine of 64 tiles whose workers, each with its tiles in a thread of its own, share one row of atomic
//! words, in plain Rust, of the same design as the crates `fabric` and `worker_run`:
//!
//!     threads EACH WORKERS
//!
//! does the dense load, of so many operations of each processor, by 1 to 64 workers, and prints how many
//! nanoseconds the run alone took, from the start of the first thread to the end of the last: with the choices
//! of each agent in loops (`loops`), and with a turn as those crates make it (`turns`).
mod dense;
mod packets;
mod row;
mod script;
#[allow(dead_code)]
mod tile;
mod torus;
mod workers;

use script::Line;
use std::env;
use std::sync::atomic::{AtomicU64, Ordering::SeqCst};
use std::thread;
use std::time::Instant;
use tile::turns::Agent;
use tile::Tile;
use torus::{Choice, Torus};
use workers::{in_loops, run, BANK, PROCESSOR};

const PORTS: u32 = 18;
/// The tiles before any step, with all the room that their steps will need.
fn load(torus: &Torus, scripts: &[Vec<Line>]) -> Vec<Tile> {
    let tiles = torus.tiles();
    let mut entries = vec![0; tiles as usize];
    for (address, count) in scripts.iter().flatten().map(|line| line.operations()) {
        entries[(address % tiles) as usize] += count;
    }
    let tile = |at: u32| {
        let script = scripts[at as usize].clone();
        Tile::new(torus, dense::WORDS, at, dense::DEPTH, dense::TAGS, script, entries[at as usize])
    };
    (0..tiles).map(tile).collect()
}

/// Where a worker is in its rounds: at a tile, at one of the choices of the tile's agents.
#[derive(Clone, Copy)]
struct Place {
    tile: usize,
    at: u32,
}

impl Place {
    fn choice(self) -> (Agent, Choice) {
        let at = self.at;
        if at < 5 {
            (Agent::Processor, PROCESSOR[at as usize])
        } else if at < 5 + PORTS {
            (Agent::Router, Choice::TakeFrom(at - 5))
        } else if at < 5 + 2 * PORTS {
            (Agent::Router, Choice::Put(at - 5 - PORTS))
        } else if at < 5 + 3 * PORTS {
            (Agent::Router, Choice::CreditOf(at - 5 - 2 * PORTS))
        } else {
            (Agent::Bank, BANK[(at - 5 - 3 * PORTS) as usize])
        }
    }

    fn after(self, tiles: usize) -> Place {
        if self.at + 1 < 9 + 3 * PORTS {
            Place { at: self.at + 1, ..self }
        } else {
            Place { tile: if self.tile + 1 < tiles { self.tile + 1 } else { 0 }, at: 0 }
        }
    }
}

/// The same worker by turns.
#[inline(never)]
fn by_turns(tiles: &mut [Tile], mut row: &[AtomicU64]) {
    let mut unseen = tiles.len();
    let mut place = Place { tile: 0, at: 0 };
    let mut moved = false;
    loop {
        let (agent, choice) = place.choice();
        let is_moved = tiles[place.tile].turn(agent, choice, &mut row);
        if is_moved && choice == Choice::Look {
            unseen -= 1;
            if unseen == 0 {
                return;
            }
        }
        moved |= is_moved;
        place = place.after(tiles.len());
        if place.tile == 0 && place.at == 0 {
            if !moved {
                thread::yield_now();
            }
            moved = false;
        }
    }
}

/// Prints what the run of a new machine took, after which all operations must have been answered.
fn measure(name: &str, each: u32, workers: usize, work: fn(&mut [Tile], &[AtomicU64])) {
    let torus = Torus { radix: 8, dims: 2 };
    let mut tiles = load(&torus, &dense::scripts(each));
    let words = torus.channels() * dense::DEPTH + dense::WORDS + 1;
    let row: Vec<AtomicU64> = (0..words).map(|_| AtomicU64::new(0)).collect();
    let start = Instant::now();
    run(&mut tiles, &row, workers, work);
    println!("{name} {}", start.elapsed().as_nanos());
    let is_answered = |tile: &Tile| tile.processor.is_finished() && tile.processor.answers().len() == each as usize;
    assert!(tiles.iter().all(is_answered), "an operation was not answered");
    let done = row[words - 1].load(SeqCst);
    assert_eq!(done, u64::from(torus.tiles()), "not all processors reported");
}

fn main() {
    let words: Vec<u32> = env::args().skip(1).map(|word| word.parse().expect("give numbers")).collect();
    let [each, workers @ 1..=64] = words[..] else {
        panic!("give the operations of each processor, and how many workers there are, 1 to 64");
    };
    measure("loops", each, workers as usize, in_loops);
    measure("turns", each, workers as usize, by_turns);
}
