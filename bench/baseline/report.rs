//! The report's writer, its checker and the reader of scripts in plain Rust, of the same design as
//! the crates `report_lines`, `report_check` and `script`:
//!
//!     report REPORT SCRIPT ROUNDS
//!
//! prints a line `NAME NANOSECONDS` for each time. REPORT is a good report, SCRIPT a script of 64
//! processors and 65,536 words.
#[allow(dead_code)]
mod packets;

use packets::{Op, Reply};
use std::env;
use std::fs;
use std::time::Instant;

#[derive(Clone, Copy)]
struct EntryLine {
    bank: u32,
    place: u32,
    source: u32,
    tag: u32,
    address: u32,
    op: Op,
    reply: Reply,
}

#[derive(Clone, Copy)]
struct AnswerLine {
    processor: u32,
    index: u32,
    bank: u32,
    place: u32,
    reply: Reply,
}

#[derive(Clone, Copy)]
struct OrderLine {
    bank: u32,
    place: u32,
    issued: u32,
    served: u32,
    answered: Option<u32>,
}

#[derive(Clone, Copy)]
enum ReportLine {
    Header(u32),
    /// The radix of all dimensions, their number, and the number of words.
    Shape(u32, u32, u32),
    Init(u32, u64),
    Entry(EntryLine),
    Answer(AnswerLine),
    Word(u32, u64),
    Order(OrderLine),
    End(bool),
}

fn is_newer(op: Op) -> bool {
    matches!(op, Op::And(_) | Op::Or(_) | Op::Xor(_) | Op::Max(_) | Op::Min(_))
}

// Writing.

/// The end of a line, in place: each word goes in front of those that stand.
struct Text {
    bytes: [u8; 128],
    start: usize,
}

impl Text {
    fn of_line_feed() -> Text {
        let mut text = Text { bytes: [0; 128], start: 128 };
        text.byte(b'\n');
        text
    }

    fn byte(&mut self, byte: u8) {
        self.start -= 1;
        self.bytes[self.start] = byte;
    }

    fn put(&mut self, word: &str) {
        let start = self.start - word.len();
        self.bytes[start..self.start].copy_from_slice(word.as_bytes());
        self.start = start;
    }

    fn word(&mut self, word: &str) {
        self.put(word);
        self.byte(b' ');
    }

    fn number(&mut self, number: u64) {
        let mut at = self.start;
        let mut left = number;
        while left >= 100 {
            let pair = (left % 100) as usize * 2;
            left /= 100;
            at -= 2;
            self.bytes[at..at + 2].copy_from_slice(&PAIRS[pair..pair + 2]);
        }
        if left >= 10 {
            let pair = left as usize * 2;
            at -= 2;
            self.bytes[at..at + 2].copy_from_slice(&PAIRS[pair..pair + 2]);
        } else {
            at -= 1;
            self.bytes[at] = b'0' + left as u8;
        }
        self.start = at;
        self.byte(b' ');
    }

    fn numbers<const N: usize>(&mut self, numbers: [u32; N]) {
        for number in numbers.into_iter().rev() {
            self.number(u64::from(number));
        }
    }

    fn change(&mut self, name: &str, address: u32, value: u64) {
        self.number(value);
        self.number(u64::from(address));
        self.word(name);
    }

    fn op(&mut self, op: Op, address: u32) {
        match op {
            Op::Load => {
                self.number(u64::from(address));
                self.word("load");
            }
            Op::Cas(expected, new) => {
                self.number(new);
                self.change("cas", address, expected);
            }
            Op::Store(value) => self.change("store", address, value),
            Op::Swap(value) => self.change("swap", address, value),
            Op::Add(value) => self.change("add", address, value),
            Op::And(value) => self.change("and", address, value),
            Op::Or(value) => self.change("or", address, value),
            Op::Xor(value) => self.change("xor", address, value),
            Op::Max(value) => self.change("max", address, value),
            Op::Min(value) => self.change("min", address, value),
        }
    }

    fn reply(&mut self, reply: Reply) {
        match reply {
            Reply::Ok => self.word("ok"),
            Reply::Old(word) => self.number(word),
        }
    }

    fn pair(&mut self, word: &str, address: u32, value: u64) {
        self.number(value);
        self.numbers([address]);
        self.put(word);
    }

    fn line(&mut self, line: &ReportLine) {
        match *line {
            ReportLine::Header(version) => {
                self.numbers([version]);
                self.put("torusmem");
            }
            ReportLine::Shape(radix, dims, words) => {
                self.numbers([radix, dims, words]);
                self.put("shape");
            }
            ReportLine::Init(address, value) => self.pair("init", address, value),
            ReportLine::Word(address, value) => self.pair("word", address, value),
            ReportLine::Entry(entry) => {
                self.reply(entry.reply);
                self.op(entry.op, entry.address);
                self.numbers([entry.bank, entry.place, entry.source, entry.tag]);
                self.put("entry");
            }
            ReportLine::Answer(answer) => {
                self.reply(answer.reply);
                self.numbers([answer.processor, answer.index, answer.bank, answer.place]);
                self.put("answer");
            }
            ReportLine::Order(order) => {
                match order.answered {
                    Some(answered) => self.numbers([answered]),
                    None => self.word("-"),
                }
                self.numbers([order.bank, order.place, order.issued, order.served]);
                self.put("order");
            }
            ReportLine::End(true) => self.put("end complete"),
            ReportLine::End(false) => self.put("end incomplete"),
        }
    }
}

const PAIRS: &[u8; 200] = b"00010203040506070809101112131415161718192021222324252627282930313233343536373839404142434445464748495051525354555657585960616263646566676869707172737475767778798081828384858687888990919293949596979899";

fn write_report(out: &mut Vec<u8>, lines: &[ReportLine]) {
    for line in lines {
        let mut text = Text::of_line_feed();
        text.line(line);
        out.extend_from_slice(&text.bytes[text.start..]);
    }
}

// Reading a report: each byte once.

fn number(text: &[u8], end: u8) -> Option<(u64, &[u8])> {
    let (&first, rest) = text.split_first()?;
    if first == b'0' {
        let (&byte, rest) = rest.split_first()?;
        return (byte == end).then_some((0, rest));
    }
    if !first.is_ascii_digit() {
        return None;
    }
    let mut number = u64::from(first - b'0');
    for (at, &byte) in rest.iter().enumerate() {
        if !byte.is_ascii_digit() {
            return (byte == end).then(|| (number, &rest[at + 1..]));
        }
        number = number.checked_mul(10)?.checked_add(u64::from(byte - b'0'))?;
    }
    None
}

fn index(text: &[u8], end: u8) -> Option<(u32, &[u8])> {
    let (number, rest) = number(text, end)?;
    Some((u32::try_from(number).ok()?, rest))
}

fn read_pair(text: &[u8], end: u8) -> Option<(u32, u64, &[u8])> {
    let (address, rest) = index(text, b' ')?;
    let (value, rest) = number(rest, end)?;
    Some((address, value, rest))
}

fn read_reply(text: &[u8]) -> Option<(Reply, &[u8])> {
    if let Some(rest) = text.strip_prefix(b"ok\n") {
        return Some((Reply::Ok, rest));
    }
    let (old, rest) = number(text, b'\n')?;
    Some((Reply::Old(old), rest))
}

fn read_op(text: &[u8]) -> Option<(Op, u32, &[u8])> {
    if let Some(rest) = text.strip_prefix(b"load ") {
        let (address, rest) = index(rest, b' ')?;
        return Some((Op::Load, address, rest));
    }
    if let Some(rest) = text.strip_prefix(b"cas ") {
        let (address, expected, rest) = read_pair(rest, b' ')?;
        let (new, rest) = number(rest, b' ')?;
        return Some((Op::Cas(expected, new), address, rest));
    }
    let changes: [(&[u8], fn(u64) -> Op); 8] = [
        (b"store ", Op::Store),
        (b"swap ", Op::Swap),
        (b"add ", Op::Add),
        (b"and ", Op::And),
        (b"or ", Op::Or),
        (b"xor ", Op::Xor),
        (b"max ", Op::Max),
        (b"min ", Op::Min),
    ];
    for (name, op) in changes {
        if let Some(rest) = text.strip_prefix(name) {
            let (address, value, rest) = read_pair(rest, b' ')?;
            return Some((op(value), address, rest));
        }
    }
    None
}

fn four(text: &[u8]) -> Option<([u32; 4], &[u8])> {
    let (a, rest) = index(text, b' ')?;
    let (b, rest) = index(rest, b' ')?;
    let (c, rest) = index(rest, b' ')?;
    let (d, rest) = index(rest, b' ')?;
    Some(([a, b, c, d], rest))
}

fn read_line(text: &[u8]) -> Option<(ReportLine, &[u8])> {
    if let Some(rest) = text.strip_prefix(b"entry ") {
        let ([bank, place, source, tag], rest) = four(rest)?;
        let (op, address, rest) = read_op(rest)?;
        let (reply, rest) = read_reply(rest)?;
        let entry = EntryLine { bank, place, source, tag, address, op, reply };
        return Some((ReportLine::Entry(entry), rest));
    }
    if let Some(rest) = text.strip_prefix(b"answer ") {
        let ([processor, index, bank, place], rest) = four(rest)?;
        let (reply, rest) = read_reply(rest)?;
        let answer = AnswerLine { processor, index, bank, place, reply };
        return Some((ReportLine::Answer(answer), rest));
    }
    if let Some(rest) = text.strip_prefix(b"order ") {
        let ([bank, place, issued, served], rest) = four(rest)?;
        let (answered, rest) = match rest.strip_prefix(b"-\n") {
            Some(rest) => (None, rest),
            None => {
                let (answered, rest) = index(rest, b'\n')?;
                (Some(answered), rest)
            }
        };
        let order = OrderLine { bank, place, issued, served, answered };
        return Some((ReportLine::Order(order), rest));
    }
    if let Some(rest) = text.strip_prefix(b"word ") {
        let (address, value, rest) = read_pair(rest, b'\n')?;
        return Some((ReportLine::Word(address, value), rest));
    }
    if let Some(rest) = text.strip_prefix(b"init ") {
        let (address, value, rest) = read_pair(rest, b'\n')?;
        return Some((ReportLine::Init(address, value), rest));
    }
    if let Some(rest) = text.strip_prefix(b"end ") {
        if let Some(rest) = rest.strip_prefix(b"complete\n") {
            return Some((ReportLine::End(true), rest));
        }
        return Some((ReportLine::End(false), rest.strip_prefix(b"incomplete\n")?));
    }
    if let Some(rest) = text.strip_prefix(b"shape ") {
        let (radix, rest) = index(rest, b' ')?;
        let (dims, rest) = index(rest, b' ')?;
        let (words, rest) = index(rest, b'\n')?;
        return Some((ReportLine::Shape(radix, dims, words), rest));
    }
    let (version, rest) = index(text.strip_prefix(b"torusmem ")?, b'\n')?;
    Some((ReportLine::Header(version), rest))
}

// Checking.

const EVENTS: u32 = 196608;

#[derive(Clone, Copy)]
struct Served {
    source: u32,
    reply: Reply,
    answered: bool,
}

#[derive(Default)]
struct Checker {
    section: u8,
    version: u32,
    tiles: u32,
    words: u32,
    memory: Vec<u64>,
    next_init: u32,
    last_bank: u32,
    entry_count: u32,
    has_newer: bool,
    banks: Vec<Vec<Served>>,
    next_answer: u64,
    next_word: u32,
    next_served: u32,
    ordered: Vec<u32>,
    used: Vec<bool>,
}

impl Checker {
    fn is_in_section(&self, latest: u8) -> bool {
        2 <= self.section && self.section <= latest
    }

    fn is_behind_entries(&self, latest: u8) -> bool {
        self.is_in_section(latest) && (self.version != 2 || self.has_newer)
    }

    fn kept_at(&self, bank: u32, place: u32) -> Option<Served> {
        self.banks.get(bank as usize)?.get(place as usize).copied()
    }

    fn take(&mut self, line: &ReportLine) -> bool {
        match line {
            ReportLine::Header(version) => {
                let may = self.section == 0 && (*version == 1 || *version == 2);
                self.section = 1;
                self.version = *version;
                may
            }
            ReportLine::Shape(radix, dims, words) => self.take_shape(*radix, *dims, *words),
            ReportLine::Init(address, value) => {
                if !self.is_in_section(3) || *address < self.next_init || self.words <= *address || *value == 0 {
                    return false;
                }
                self.section = 3;
                self.next_init = address + 1;
                self.memory[*address as usize] = *value;
                true
            }
            ReportLine::Entry(entry) => self.take_entry(entry),
            ReportLine::Answer(answer) => self.take_answer(answer),
            ReportLine::Word(address, value) => {
                if !self.is_behind_entries(6) || *address < self.next_word || self.words <= *address || *value == 0 {
                    return false;
                }
                if self.memory[*address as usize] != *value || !self.is_told_below(*address) {
                    return false;
                }
                self.section = 6;
                self.next_word = address + 1;
                true
            }
            ReportLine::Order(order) => self.take_order(order),
            ReportLine::End(complete) => self.take_end(*complete),
        }
    }

    fn take_shape(&mut self, radix: u32, dims: u32, words: u32) -> bool {
        if self.section != 1 || !(1..=65536).contains(&words) {
            return false;
        }
        if !(2..=8).contains(&radix) || !(1..=3).contains(&dims) || radix.pow(dims) > 64 {
            return false;
        }
        self.section = 2;
        self.tiles = radix.pow(dims);
        self.words = words;
        self.memory = vec![0; words as usize];
        self.banks = vec![Vec::new(); self.tiles as usize];
        self.ordered = vec![0; self.tiles as usize];
        self.used = vec![false; EVENTS as usize + 1];
        true
    }

    fn take_entry(&mut self, entry: &EntryLine) -> bool {
        let is_next = self.is_in_section(4)
            && entry.bank < self.tiles
            && self.last_bank <= entry.bank
            && entry.place as usize == self.banks[entry.bank as usize].len()
            && entry.source < self.tiles
            && entry.tag < 16
            && self.entry_count < 65536;
        if !is_next || self.words <= entry.address || entry.address % self.tiles != entry.bank {
            return false;
        }
        if is_newer(entry.op) && self.version != 2 {
            return false;
        }
        let before = self.memory[entry.address as usize];
        if entry.op.reply(before) != entry.reply {
            return false;
        }
        self.banks[entry.bank as usize].push(Served { source: entry.source, reply: entry.reply, answered: false });
        self.memory[entry.address as usize] = entry.op.apply(before);
        self.section = 4;
        self.last_bank = entry.bank;
        self.entry_count += 1;
        self.has_newer |= is_newer(entry.op);
        true
    }

    fn take_answer(&mut self, answer: &AnswerLine) -> bool {
        let key = 4096 * u64::from(answer.processor) + u64::from(answer.index);
        if !self.is_behind_entries(5) || 4096 <= answer.index || key < self.next_answer {
            return false;
        }
        match self.kept_at(answer.bank, answer.place) {
            Some(kept) if !kept.answered && kept.source == answer.processor && kept.reply == answer.reply => {}
            _ => return false,
        }
        self.banks[answer.bank as usize][answer.place as usize].answered = true;
        self.section = 5;
        self.next_answer = key + 1;
        true
    }

    fn is_told_below(&self, end: u32) -> bool {
        (self.next_word..end).all(|address| self.memory[address as usize] == 0)
    }

    fn is_told(&self) -> bool {
        self.section == 7 || self.is_told_below(self.words)
    }

    fn is_new(&self, event: u32) -> bool {
        (1..=EVENTS).contains(&event) && !self.used[event as usize]
    }

    fn has_new_events(&self, order: &OrderLine) -> bool {
        if !self.is_new(order.issued) || !self.is_new(order.served) || order.served <= order.issued {
            return false;
        }
        match order.answered {
            None => true,
            Some(answered) => order.served < answered && self.is_new(answered),
        }
    }

    fn take_order(&mut self, order: &OrderLine) -> bool {
        if !self.is_behind_entries(7) || !self.is_told() || order.served < self.next_served {
            return false;
        }
        match self.kept_at(order.bank, order.place) {
            Some(kept)
                if order.place == self.ordered[order.bank as usize] && kept.answered == order.answered.is_some() => {}
            _ => return false,
        }
        if !self.has_new_events(order) {
            return false;
        }
        self.section = 7;
        self.next_served = order.served + 1;
        self.ordered[order.bank as usize] = order.place + 1;
        for event in [Some(order.issued), Some(order.served), order.answered].into_iter().flatten() {
            self.used[event as usize] = true;
        }
        true
    }

    fn take_end(&mut self, complete: bool) -> bool {
        if !self.is_behind_entries(7) || !self.is_told() {
            return false;
        }
        let mut each = self.banks.iter().zip(&self.ordered);
        if self.section == 7 && !each.all(|(bank, ordered)| bank.len() == *ordered as usize) {
            return false;
        }
        if complete && !self.banks.iter().all(|bank| bank.iter().all(|served| served.answered)) {
            return false;
        }
        self.section = 8;
        true
    }
}

/// Checks a report, or answers its first bad line.
fn check_report(text: &[u8]) -> Result<(), u64> {
    let mut checker = Checker::default();
    let mut rest = text;
    let mut number = 1;
    while let Some((line, after)) = read_line(rest) {
        if !checker.take(&line) {
            return Err(number);
        }
        rest = after;
        number += 1;
    }
    if checker.section == 8 && rest.is_empty() { Ok(()) } else { Err(number) }
}

fn lines_of(text: &[u8]) -> Vec<ReportLine> {
    let mut lines = Vec::new();
    let mut rest = text;
    while let Some((line, after)) = read_line(rest) {
        lines.push(line);
        rest = after;
    }
    lines
}

// Reading a script. (No `last`, `fence` and `spin`: the benchmark's scripts have none.)

/// The number that a word spells, where it is below a limit.
fn spelled(word: &[u8]) -> Option<u64> {
    if word.is_empty() {
        return None;
    }
    let mut number = 0u64;
    for &digit in word {
        if !digit.is_ascii_digit() {
            return None;
        }
        number = number.checked_mul(10)?.checked_add(u64::from(digit - b'0'))?;
    }
    Some(number)
}

fn small(word: &[u8], limit: u32) -> Option<u32> {
    u32::try_from(spelled(word)?).ok().filter(|&number| number < limit)
}

/// The words of a line: at most five, and how many there are.
fn words_of(line: &[u8]) -> ([&[u8]; 6], usize) {
    let mut words = [b"".as_slice(); 6];
    let mut count = 0;
    for word in line.split(|&byte| byte == b' ' || byte == b'\t').filter(|word| !word.is_empty()) {
        if count == 6 {
            break;
        }
        words[count] = word;
        count += 1;
    }
    (words, count)
}

fn read_asked(words: &[&[u8]]) -> Option<(u32, u32, Op)> {
    let (processor, rest) = words.split_first()?;
    let (op, address) = match rest {
        [b"load", address] => (Op::Load, *address),
        [b"cas", address, expected, new] => (Op::Cas(spelled(expected)?, spelled(new)?), *address),
        [name, address, value] => {
            let value = spelled(value)?;
            let op = match *name {
                b"store" => Op::Store(value),
                b"swap" => Op::Swap(value),
                b"add" => Op::Add(value),
                b"and" => Op::And(value),
                b"or" => Op::Or(value),
                b"xor" => Op::Xor(value),
                b"max" => Op::Max(value),
                b"min" => Op::Min(value),
                _ => return None,
            };
            (op, *address)
        }
        _ => return None,
    };
    Some((small(processor, 64)?, small(address, 65536)?, op))
}

fn read_scripts(text: &[u8]) -> Result<Vec<Vec<(u32, Op)>>, usize> {
    let mut scripts = vec![Vec::new(); 64];
    let mut total = 0;
    for (at, line) in text.split(|&byte| byte == b'\n').enumerate() {
        let (words, count) = words_of(line.strip_suffix(b"\r").unwrap_or(line));
        if count == 0 || words[0].starts_with(b"#") {
            continue;
        }
        let (processor, address, op) = read_asked(&words[..count]).ok_or(at + 1)?;
        let script = &mut scripts[processor as usize];
        total += 1;
        if script.len() == 4096 || total > 65536 {
            return Err(at + 1);
        }
        script.push((address, op));
    }
    Ok(scripts)
}

fn main() {
    let given: Vec<String> = env::args().collect();
    let [_, report, script, rounds] = &given[..] else {
        panic!("give REPORT SCRIPT ROUNDS");
    };
    let report = fs::read(report).expect("a report");
    let script = fs::read(script).expect("a script");
    let lines = lines_of(&report);
    let mut bytes = Vec::with_capacity(1 << 25);
    for _ in 0..rounds.parse().expect("a number") {
        bytes.clear();
        let start = Instant::now();
        write_report(&mut bytes, &lines);
        println!("write {}", start.elapsed().as_nanos());
        assert!(bytes == report);
        let start = Instant::now();
        let verdict = check_report(&bytes);
        println!("check {}", start.elapsed().as_nanos());
        assert!(verdict.is_ok());
        let start = Instant::now();
        let scripts = read_scripts(&script);
        println!("script {}", start.elapsed().as_nanos());
        assert!(scripts.is_ok_and(|scripts| scripts.iter().map(Vec::len).sum::<usize>() == 65536));
    }
}
