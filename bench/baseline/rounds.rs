//! A machine of tiles over one row of words, which makes steps and rounds, of the same design as the crates
//! `order_book` and `machine_core`; but a round attempts each choice of each agent.
use crate::script::Line;
use crate::tile::{Moved, Tile};
use crate::torus::{Choice, Torus};

#[derive(Clone, Copy)]
#[allow(dead_code)]
pub struct Step {
    pub agent: u32,
    pub choice: Choice,
}

#[derive(Clone, Copy)]
#[allow(dead_code)]
pub struct Ordered {
    pub bank: u32,
    pub place: u32,
    pub source: u32,
    pub index: u32,
    pub issued: u32,
    pub served: u32,
    pub answered: Option<u32>,
}

/// The events so far.
pub struct Book {
    events: u32,
    issues: Vec<Vec<u32>>,
    positions: Vec<Vec<u32>>,
    pub rows: Vec<Ordered>,
}

pub struct Machine {
    pub tiles: Vec<Tile>,
    pub row: Vec<u64>,
    pub book: Book,
}

impl Book {
    fn new(issue_rooms: &[usize], position_rooms: &[usize]) -> Book {
        let lists = |rooms: &[usize]| rooms.iter().map(|&room| Vec::with_capacity(room)).collect();
        Book {
            events: 0,
            issues: lists(issue_rooms),
            positions: lists(position_rooms),
            rows: Vec::with_capacity(issue_rooms.iter().sum()),
        }
    }

    fn note_issue(&mut self, processor: usize) {
        self.events += 1;
        self.issues[processor].push(self.events);
    }

    fn note_service(&mut self, bank: usize, source: u32, index: u32) {
        self.events += 1;
        let positions = &mut self.positions[bank];
        let place = positions.len() as u32;
        positions.push(self.rows.len() as u32);
        self.rows.push(Ordered {
            bank: bank as u32,
            place,
            source,
            index,
            issued: self.issues[source as usize][index as usize],
            served: self.events,
            answered: None,
        });
    }

    fn note_answer(&mut self, bank: u32, place: u32) {
        self.events += 1;
        let position = self.positions[bank as usize][place as usize];
        self.rows[position as usize].answered = Some(self.events);
    }
}

impl Machine {
    /// A machine that has made no step, with all the room that its steps will need.
    pub fn load(torus: &Torus, depth: usize, tags: usize, opening: &[u64], scripts: &[Vec<Line>]) -> Machine {
        let tiles = torus.tiles();
        let mut issues = vec![0; tiles as usize];
        let mut entries = vec![0; tiles as usize];
        for (processor, script) in scripts.iter().enumerate() {
            for line in script {
                let (address, count) = line.operations();
                issues[processor] += count;
                entries[(address % tiles) as usize] += count;
            }
        }
        let mut row = vec![0; torus.channels() * depth];
        row.extend_from_slice(opening);
        row.push(0);
        let tile = |at: u32| {
            let script = scripts[at as usize].clone();
            Tile::new(torus, opening.len(), at, depth, tags, script, entries[at as usize])
        };
        Machine { tiles: (0..tiles).map(tile).collect(), row, book: Book::new(&issues, &entries) }
    }

    #[inline]
    fn note(&mut self, tile: usize, moved: Moved) {
        match moved {
            Moved::Quietly => {}
            Moved::Issued => self.book.note_issue(tile),
            Moved::Answered { bank, place } => self.book.note_answer(bank, place),
            Moved::Served { source, tag } => {
                let index = self.tiles[source as usize].processor.holder(tag).unwrap_or(0);
                self.book.note_service(tile, source, index);
            }
        }
    }

    #[inline]
    fn attempt_processor(&mut self, tile: usize, choice: Choice) -> bool {
        let moved = self.tiles[tile].processor.attempt(choice, self.row.as_mut_slice());
        if let Some(moved) = moved {
            self.note(tile, moved);
        }
        moved.is_some()
    }

    #[inline]
    fn attempt_bank(&mut self, tile: usize, choice: Choice) -> bool {
        let moved = self.tiles[tile].bank.attempt(choice, self.row.as_mut_slice());
        if let Some(moved) = moved {
            self.note(tile, moved);
        }
        moved.is_some()
    }

    /// Attempts one choice of one agent, and answers whether it moved.
    #[allow(dead_code)]
    pub fn step(&mut self, step: Step) -> bool {
        let tile = (step.agent / 3) as usize;
        if tile >= self.tiles.len() {
            return false;
        }
        match step.agent % 3 {
            0 => self.attempt_processor(tile, step.choice),
            1 => self.tiles[tile].router.attempt(step.choice, self.row.as_mut_slice()),
            _ => self.attempt_bank(tile, step.choice),
        }
    }

    #[allow(dead_code)]
    #[inline(never)]
    pub fn run(&mut self, steps: &[Step]) {
        for &step in steps {
            self.step(step);
        }
    }

    /// Attempts each choice of each agent once.
    fn round(&mut self) {
        for tile in 0..self.tiles.len() {
            for choice in [Choice::Send, Choice::Take, Choice::Credit, Choice::Done, Choice::Look] {
                self.attempt_processor(tile, choice);
            }
            let router = &mut self.tiles[tile].router;
            for input in 0..router.ports() {
                router.attempt(Choice::TakeFrom(input), self.row.as_mut_slice());
            }
            for input in 0..router.ports() {
                router.attempt(Choice::Put(input), self.row.as_mut_slice());
            }
            for output in 0..router.ports() {
                router.attempt(Choice::CreditOf(output), self.row.as_mut_slice());
            }
            for choice in [Choice::Take, Choice::Serve, Choice::Send, Choice::Credit] {
                self.attempt_bank(tile, choice);
            }
        }
    }

    fn is_finished(&self) -> bool {
        self.tiles.iter().all(|tile| tile.processor.is_finished())
    }

    /// Makes rounds until every script is finished, and answers how many.
    #[inline(never)]
    pub fn finish(&mut self) -> u64 {
        let mut rounds = 0;
        while !self.is_finished() {
            self.round();
            rounds += 1;
        }
        rounds
    }
}

