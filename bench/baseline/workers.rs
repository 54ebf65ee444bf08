//! Workers in threads of their own, each with its tiles, that share one row of atomic words, of the same design as
//! the crates `fabric` and `worker_run`; but the choices of each agent are attempted in loops.
use crate::tile::Tile;
use crate::torus::Choice;
use std::sync::atomic::AtomicU64;
use std::thread;

pub const PROCESSOR: [Choice; 5] = [Choice::Send, Choice::Take, Choice::Credit, Choice::Done, Choice::Look];
pub const BANK: [Choice; 4] = [Choice::Take, Choice::Serve, Choice::Send, Choice::Credit];

/// One worker: it attempts each choice of its tiles' agents, round after round, until all its processors
/// have seen the end. Where a whole round was quiet it lets others run.
#[inline(never)]
pub fn in_loops(tiles: &mut [Tile], mut row: &[AtomicU64]) {
    let mut unseen = tiles.len();
    loop {
        let mut moved = false;
        for tile in tiles.iter_mut() {
            for choice in PROCESSOR {
                let is_moved = tile.processor.attempt(choice, &mut row).is_some();
                if is_moved && choice == Choice::Look {
                    unseen -= 1;
                    if unseen == 0 {
                        return;
                    }
                }
                moved |= is_moved;
            }
            for input in 0..tile.router.ports() {
                moved |= tile.router.attempt(Choice::TakeFrom(input), &mut row);
            }
            for input in 0..tile.router.ports() {
                moved |= tile.router.attempt(Choice::Put(input), &mut row);
            }
            for output in 0..tile.router.ports() {
                moved |= tile.router.attempt(Choice::CreditOf(output), &mut row);
            }
            for choice in BANK {
                moved |= tile.bank.attempt(choice, &mut row).is_some();
            }
        }
        if !moved {
            thread::yield_now();
        }
    }
}

/// Worker j of w has the tiles from j·N div w on, below (j + 1)·N div w. The last one runs in this thread.
pub fn run(tiles: &mut [Tile], row: &[AtomicU64], workers: usize, work: fn(&mut [Tile], &[AtomicU64])) {
    thread::scope(|scope| {
        let (count, mut rest) = (tiles.len(), tiles);
        for worker in 0..workers - 1 {
            let held = (worker + 1) * count / workers - worker * count / workers;
            let (mine, others) = rest.split_at_mut(held);
            rest = others;
            scope.spawn(move || work(mine, row));
        }
        work(rest, row);
    });
}
