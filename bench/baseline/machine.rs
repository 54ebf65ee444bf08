//! A machine of tiles over one row of words in plain Rust, of the same design as the crates
//! `tile`, `order_book` and `machine_core`:
//!
//!     machine TIMES LOADS EACH
//!
//! prints lines `NAME NUMBER`: what a piece of work took in nanoseconds, and what came of it.
mod dense;
mod packets;
mod rounds;
mod row;
mod script;
mod tile;
mod torus;

use packets::Reply;
use rounds::{Machine, Ordered, Step};
use script::Line;
use std::env;
use std::time::Instant;
use tile::Answer;
use torus::{Choice, Torus};

const PORTS: u32 = 18;
const KEPT: usize = 1048576;

/// What is measured: the machine and the scripts.
struct Work {
    name: &'static str,
    depth: usize,
    tags: usize,
    opening: Vec<u64>,
    scripts: Vec<Vec<Line>>,
}

fn sparse(loads: usize) -> Work {
    let mut opening = vec![0; 64];
    opening[36] = 5;
    let mut scripts = vec![Vec::new(); 64];
    scripts[0] = vec![Line::Load(36); loads];
    Work { name: "sparse", depth: 1, tags: 1, opening, scripts }
}

fn dense(each: u32) -> Work {
    let opening = vec![0; dense::WORDS];
    Work { name: "dense", depth: dense::DEPTH, tags: dense::TAGS, opening, scripts: dense::scripts(each) }
}

/// The attempts of a round of 64 tiles.
fn round_steps() -> Vec<Step> {
    let mut steps = Vec::new();
    for agent in (0..192).step_by(3) {
        let mut push = |agent, choice| steps.push(Step { agent, choice });
        for choice in [Choice::Send, Choice::Take, Choice::Credit, Choice::Done, Choice::Look] {
            push(agent, choice);
        }
        (0..PORTS).for_each(|input| push(agent + 1, Choice::TakeFrom(input)));
        (0..PORTS).for_each(|input| push(agent + 1, Choice::Put(input)));
        (0..PORTS).for_each(|output| push(agent + 1, Choice::CreditOf(output)));
        for choice in [Choice::Take, Choice::Serve, Choice::Send, Choice::Credit] {
            push(agent + 2, choice);
        }
    }
    steps
}

/// Counts the moves, and keeps the first steps that move.
fn count(machine: &mut Machine, steps: &[Step], times: u64) -> (u64, Vec<Step>) {
    let mut moves = 0;
    let mut kept = Vec::with_capacity(KEPT);
    for _ in 0..times {
        for &step in steps {
            if machine.step(step) {
                moves += 1;
                if kept.len() < KEPT {
                    kept.push(step);
                }
            }
        }
    }
    (moves, kept)
}

/// A number that tells lists apart: this one, with more numbers at its end.
fn with(sum: u64, numbers: &[u64]) -> u64 {
    numbers.iter().fold(sum, |sum, number| sum.wrapping_mul(31).wrapping_add(*number))
}

fn with_answer(sum: u64, answer: &Answer) -> u64 {
    let reply = match answer.reply {
        Reply::Ok => 0,
        Reply::Old(word) => word.wrapping_add(1),
    };
    with(sum, &[answer.index.into(), reply, answer.bank.into(), answer.place.into()])
}

fn with_row(sum: u64, row: &Ordered) -> u64 {
    let Ordered { bank, place, source, index, issued, served, answered } = *row;
    with(sum, &[bank, place, source, index, issued, served, answered.unwrap_or(0)].map(u64::from))
}

fn tell(name: &str, machine: &Machine) {
    let lists = machine.tiles.iter().map(|tile| tile.processor.answers());
    println!("{name}-answers {}", lists.flatten().fold(0, with_answer));
    println!("{name}-order {}", machine.book.rows.iter().fold(0, with_row));
    println!("{name}-last {}", machine.book.rows.last().map_or(0, |row| with_row(0, row)));
}

/// Prints what a piece of work took, and gives what it gave.
fn timed<T>(name: &str, work: impl FnOnce() -> T) -> T {
    let start = Instant::now();
    let gave = work();
    println!("{name} {}", start.elapsed().as_nanos());
    gave
}

/// By rounds until all scripts are finished, by as many times the list of a round's steps, and by the
/// first steps that move alone.
fn measure(torus: &Torus, work: &Work) {
    let name = work.name;
    let load = || Machine::load(torus, work.depth, work.tags, &work.opening, &work.scripts);
    let steps = round_steps();
    let (mut by_rounds, mut by_list, mut counted, mut moving) = (load(), load(), load(), load());
    let rounds = timed(name, || by_rounds.finish());
    timed(&format!("{name}-list"), || (0..rounds).for_each(|_| by_list.run(&steps)));
    let (moves, kept) = count(&mut counted, &steps, rounds);
    timed(&format!("{name}-moving"), || moving.run(&kept));
    println!("{name}-rounds {rounds}\n{name}-moves {moves}\n{name}-kept {}", kept.len());
    for machine in [&by_rounds, &by_list, &counted] {
        tell(name, machine);
    }
    tell(&format!("{name}-moved"), &moving);
}

fn main() {
    let words: Vec<u32> = env::args().skip(1).map(|word| word.parse().expect("give numbers")).collect();
    let [times, loads, each] = words[..] else {
        panic!("give how often, of how many loads, and of how many operations each");
    };
    let torus = Torus { radix: 8, dims: 2 };
    let works = [sparse(loads as usize), dense(each)];
    for _ in 0..times {
        works.iter().for_each(|work| measure(&torus, work));
    }
}
