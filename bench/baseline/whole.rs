//! The program `torusmem` in plain Rust, as far as its rounds and its workers go: the readers of its texts, the run,
//! and the report of it.
//!
//!     whole round MACHINE SCRIPT
//!     whole run MACHINE SCRIPT [--workers W]
//!
//! writes the report of `torusmem round MACHINE SCRIPT`, byte for byte, and one of `torusmem run`. The torus has one
//! radix, and the texts have no fault: at one it stops.
mod packets;
mod rounds;
mod row;
mod script;
#[allow(dead_code)]
mod tile;
mod torus;
mod workers;

use packets::{Op, Reply};
use rounds::{Machine, Ordered};
use script::{Line, Value};
use std::io::{self, BufWriter, Write};
use std::sync::atomic::AtomicU64;
use std::sync::atomic::Ordering::SeqCst;
use std::{env, fs};
use tile::{Entry, Tile};
use torus::Torus;

/// What a machine text says.
struct Shape {
    torus: Torus,
    depth: usize,
    tags: usize,
    opening: Vec<u64>,
}

// Reading.

/// The words of the lines that aren't comments or empty.
fn lines(text: &[u8]) -> impl Iterator<Item = Vec<&[u8]>> {
    let is_blank = |byte: &u8| matches!(byte, b' ' | b'\t' | b'\r');
    let words = move |line: &'_ [u8]| -> bool { line.iter().any(|byte| !is_blank(byte)) && !line.starts_with(b"#") };
    let split = move |line| -> Vec<&[u8]> { <[u8]>::split(line, is_blank).filter(|word| !word.is_empty()).collect() };
    text.split(|&byte| byte == b'\n').filter(move |line| words(line)).map(split)
}

fn number(word: &[u8]) -> u64 {
    let digit = |sum: u64, &byte: &u8| {
        assert!(byte.is_ascii_digit(), "a number has digits alone");
        sum.checked_mul(10).and_then(|sum| sum.checked_add(u64::from(byte - b'0'))).expect("a number below 2^64")
    };
    word.iter().fold(0, digit)
}

fn read_machine(text: &[u8]) -> Shape {
    let (mut torus, mut depth, mut tags) = (Torus { radix: 0, dims: 0 }, 0, 0);
    let mut opening = Vec::new();
    for line in lines(text) {
        match line[..] {
            [b"radix", radix] => torus.radix = number(radix) as u32,
            [b"dims", dims] => torus.dims = number(dims) as u32,
            [b"depth", count] => depth = number(count) as usize,
            [b"tags", count] => tags = number(count) as usize,
            [b"words", count] => opening = vec![0; number(count) as usize],
            [b"init", address, value] => opening[number(address) as usize] = number(value),
            _ => panic!("a line of a machine text that isn't known here"),
        }
    }
    Shape { torus, depth, tags, opening }
}

fn value(word: &[u8]) -> Value {
    if word == b"last" { Value::Last } else { Value::Number(number(word)) }
}

fn read_scripts(text: &[u8], tiles: u32) -> Vec<Vec<Line>> {
    let mut scripts = vec![Vec::new(); tiles as usize];
    for line in lines(text) {
        let at = |address| number(address) as u32;
        let read = match line[1..] {
            [b"load", a] => Line::Load(at(a)),
            [b"store", a, v] => Line::Store(at(a), value(v)),
            [b"swap", a, v] => Line::Swap(at(a), value(v)),
            [b"cas", a, e, n] => Line::Cas(at(a), value(e), value(n)),
            [b"add", a, v] => Line::Add(at(a), value(v)),
            [b"and", a, v] => Line::And(at(a), value(v)),
            [b"or", a, v] => Line::Or(at(a), value(v)),
            [b"xor", a, v] => Line::Xor(at(a), value(v)),
            [b"max", a, v] => Line::Max(at(a), value(v)),
            [b"min", a, v] => Line::Min(at(a), value(v)),
            [b"fence"] => Line::Fence,
            [b"spin", a, v, most] => Line::Spin(at(a), number(v), number(most) as u32),
            _ => panic!("a line of a script that isn't known here"),
        };
        scripts[number(line[0]) as usize].push(read);
    }
    scripts
}

// Writing.

struct Report<W: Write> {
    out: W,
    line: Vec<u8>,
}

impl<W: Write> Report<W> {
    fn word(&mut self, word: &str) -> &mut Self {
        if !self.line.is_empty() {
            self.line.push(b' ');
        }
        self.line.extend_from_slice(word.as_bytes());
        self
    }

    fn number(&mut self, number: impl Into<u64>) -> &mut Self {
        let (mut digits, mut at, mut left) = ([0; 20], 20, number.into());
        loop {
            at -= 1;
            digits[at] = b'0' + (left % 10) as u8;
            left /= 10;
            if left == 0 {
                break;
            }
        }
        self.line.push(b' ');
        self.line.extend_from_slice(&digits[at..]);
        self
    }

    fn op(&mut self, op: Op, address: u32) -> &mut Self {
        let (name, values) = match op {
            Op::Load => ("load", [None; 2]),
            Op::Store(v) => ("store", [Some(v), None]),
            Op::Swap(v) => ("swap", [Some(v), None]),
            Op::Cas(e, n) => ("cas", [Some(e), Some(n)]),
            Op::Add(v) => ("add", [Some(v), None]),
            Op::And(v) => ("and", [Some(v), None]),
            Op::Or(v) => ("or", [Some(v), None]),
            Op::Xor(v) => ("xor", [Some(v), None]),
            Op::Max(v) => ("max", [Some(v), None]),
            Op::Min(v) => ("min", [Some(v), None]),
        };
        self.word(name).number(address);
        values.into_iter().flatten().fold(self, |line, value| line.number(value))
    }

    fn reply(&mut self, reply: Reply) -> &mut Self {
        match reply {
            Reply::Ok => self.word("ok"),
            Reply::Old(word) => self.number(word),
        }
    }

    fn end(&mut self) -> io::Result<()> {
        self.line.push(b'\n');
        self.out.write_all(&self.line)?;
        self.line.clear();
        Ok(())
    }

    fn words(&mut self, name: &str, words: &[u64]) -> io::Result<()> {
        for (address, &word) in words.iter().enumerate().filter(|(_, &word)| word != 0) {
            self.word(name).number(address as u64).number(word).end()?;
        }
        Ok(())
    }

    fn entry(&mut self, bank: usize, place: usize, entry: &Entry) -> io::Result<()> {
        self.word("entry").number(bank as u64).number(place as u64).number(entry.source).number(entry.tag);
        self.op(entry.op, entry.address).reply(entry.reply).end()
    }

    fn order(&mut self, row: &Ordered) -> io::Result<()> {
        self.word("order").number(row.bank).number(row.place).number(row.issued).number(row.served);
        match row.answered {
            Some(answered) => self.number(answered),
            None => self.word("-"),
        };
        self.end()
    }
}

fn is_newer(entry: &Entry) -> bool {
    matches!(entry.op, Op::And(_) | Op::Or(_) | Op::Xor(_) | Op::Max(_) | Op::Min(_))
}

/// The answers of a processor are in the order of answering; a report has them by index.
fn write_answers<W: Write>(report: &mut Report<W>, processor: usize, tile: &Tile) -> io::Result<()> {
    let mut answers: Vec<_> = tile.processor.answers().iter().collect();
    answers.sort_by_key(|answer| answer.index);
    for answer in answers {
        report.word("answer").number(processor as u64).number(answer.index).number(answer.bank).number(answer.place);
        report.reply(answer.reply).end()?;
    }
    Ok(())
}

fn write_report(shape: &Shape, tiles: &[Tile], words: &[u64], order: &[Ordered]) -> io::Result<()> {
    let mut report = Report { out: BufWriter::with_capacity(1 << 16, io::stdout().lock()), line: Vec::with_capacity(128) };
    let newer = tiles.iter().any(|tile| tile.bank.entries().iter().any(is_newer));
    report.word("torusmem").number(1 + u64::from(newer)).end()?;
    report.word("shape").number(shape.torus.radix).number(shape.torus.dims).number(words.len() as u64).end()?;
    report.words("init", &shape.opening)?;
    for (bank, tile) in tiles.iter().enumerate() {
        for (place, entry) in tile.bank.entries().iter().enumerate() {
            report.entry(bank, place, entry)?;
        }
    }
    for (processor, tile) in tiles.iter().enumerate() {
        write_answers(&mut report, processor, tile)?;
    }
    report.words("word", words)?;
    for row in order {
        report.order(row)?;
    }
    let finished = tiles.iter().all(|tile| tile.processor.is_finished());
    report.word("end").word(if finished { "complete" } else { "incomplete" }).end()?;
    report.out.flush()
}

fn main() -> io::Result<()> {
    let given: Vec<String> = env::args().skip(1).collect();
    let given: Vec<&str> = given.iter().map(String::as_str).collect();
    let (machine, script, workers) = match given[..] {
        ["round", machine, script] => (machine, script, None),
        ["run", machine, script] => (machine, script, Some(1)),
        ["run", machine, script, "--workers", workers] => (machine, script, Some(workers.parse().expect("a number"))),
        _ => panic!("give round MACHINE SCRIPT, or run MACHINE SCRIPT [--workers W]"),
    };
    let shape = read_machine(&fs::read(machine)?);
    let scripts = read_scripts(&fs::read(script)?, shape.torus.tiles());
    let mut loaded = Machine::load(&shape.torus, shape.depth, shape.tags, &shape.opening, &scripts);
    let first = shape.torus.channels() * shape.depth;
    let places = first..first + shape.opening.len();
    match workers {
        None => {
            loaded.finish();
            write_report(&shape, &loaded.tiles, &loaded.row[places], &loaded.book.rows)
        }
        Some(workers) => {
            let row: Vec<AtomicU64> = loaded.row.iter().map(|&word| AtomicU64::new(word)).collect();
            let workers = loaded.tiles.len().min(workers);
            workers::run(&mut loaded.tiles, &row, workers, workers::in_loops);
            let words: Vec<u64> = row[places].iter().map(|word| word.load(SeqCst)).collect();
            write_report(&shape, &loaded.tiles, &words, &[])
        }
    }
}
