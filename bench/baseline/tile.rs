//! The processor, the router and the bank of a tile in plain Rust, of the same design as the crates
//! `flit_buffer`, `router`, `tag_table`, `net_interface`, `home_bank` and `tile`.
use crate::packets::{flits, head, is_tail, Assembler, Flits, Offered, Op, Packet, Reply, Request, Response};
use crate::row::Row;
use crate::script::{Follower, Line, Operation};
use crate::torus::{Choice, Dir, Torus, Way};

#[allow(dead_code)]
pub mod turns;

/// What a move was: an event that the book notes, or none.
#[derive(Clone, Copy)]
pub enum Moved {
    Quietly,
    Issued,
    Served { source: u32, tag: u32 },
    Answered { bank: u32, place: u32 },
}

/// The place behind another one of a ring, by so many.
fn place_after(place: usize, count: usize, depth: usize) -> usize {
    let sum = place + count;
    if sum < depth { sum } else { sum - depth }
}

struct Receiver {
    base: usize,
    depth: usize,
    next: usize,
}

struct Sender {
    base: usize,
    depth: usize,
    next: usize,
    credits: usize,
}

impl Receiver {
    fn new(channel: usize, depth: usize) -> Receiver {
        Receiver { base: channel * depth, depth, next: 0 }
    }

    #[inline]
    fn take<R: Row + ?Sized>(&mut self, row: &mut R) -> Option<u64> {
        let flit = row.take(self.base + self.next);
        if flit == 0 {
            return None;
        }
        self.next = place_after(self.next, 1, self.depth);
        Some(flit)
    }
}

impl Sender {
    fn new(channel: usize, depth: usize) -> Sender {
        Sender { base: channel * depth, depth, next: 0, credits: depth }
    }

    #[inline]
    fn put<R: Row + ?Sized>(&mut self, flit: u64, row: &mut R) -> bool {
        if self.credits == 0 {
            return false;
        }
        row.store(self.base + self.next, flit);
        self.next = place_after(self.next, 1, self.depth);
        self.credits -= 1;
        true
    }

    #[inline]
    fn credit<R: Row + ?Sized>(&mut self, row: &R) -> bool {
        if self.credits == self.depth {
            return false;
        }
        let is_back = row.load(self.base + place_after(self.next, self.credits, self.depth)) == 0;
        self.credits += usize::from(is_back);
        is_back
    }
}

#[derive(Clone, Copy)]
#[allow(dead_code)]
pub struct Answer {
    pub index: u32,
    pub op: Op,
    pub reply: Reply,
    pub bank: u32,
    pub place: u32,
}

pub struct Processor {
    tiles: u32,
    done: usize,
    tile: u32,
    follower: Follower,
    tags: Vec<Option<u32>>,
    issued: Vec<Operation>,
    answers: Vec<Answer>,
    /// With no request in course: the operation that is ready, and the tag that it would take.
    next: Option<(u32, Operation)>,
    flits: Flits,
    put: usize,
    assembler: Assembler,
    reported: bool,
    seen: bool,
    input: Receiver,
    output: Sender,
}

impl Processor {
    fn new(torus: &Torus, done: usize, tile: u32, depth: usize, tags: usize, lines: Vec<Line>) -> Processor {
        let room = lines.iter().map(|line| line.operations().1).sum();
        let channels = torus.channels_of(tile);
        let hops = torus.hops();
        let mut processor = Processor {
            tiles: torus.tiles(),
            done,
            tile,
            follower: Follower::new(lines),
            tags: vec![None; tags],
            issued: Vec::with_capacity(room),
            answers: Vec::with_capacity(room),
            next: None,
            flits: Flits::none(),
            put: 0,
            assembler: Assembler::new(),
            reported: false,
            seen: false,
            input: Receiver::new(channels + hops + 3, depth),
            output: Sender::new(channels + hops, depth),
        };
        processor.prepare();
        processor
    }

    /// Makes the flits of the operation that is ready.
    fn prepare(&mut self) {
        let free = self.tags.iter().position(|holder| holder.is_none());
        self.next = free.zip(self.follower.next_operation()).map(|(tag, operation)| (tag as u32, operation));
        self.flits = match self.next {
            None => Flits::none(),
            Some((tag, Operation { address, op })) => flits(&Packet::Request(Request {
                destination: address % self.tiles,
                source: self.tile,
                tag,
                word: address / self.tiles,
                op,
            })),
        };
    }

    #[inline]
    pub fn attempt<R: Row + ?Sized>(&mut self, choice: Choice, row: &mut R) -> Option<Moved> {
        match choice {
            Choice::Send => {
                let flit = self.flits.get(self.put)?;
                if self.output.put(flit, row) { Some(self.sent()) } else { None }
            }
            Choice::Take => {
                let flit = self.input.take(row)?;
                Some(self.taken(flit))
            }
            Choice::Credit => self.output.credit(row).then_some(Moved::Quietly),
            Choice::Done => {
                if !self.follower.is_finished() || self.reported {
                    return None;
                }
                row.perform(self.done, Op::Add(1));
                self.reported = true;
                Some(Moved::Quietly)
            }
            Choice::Look => {
                if !self.reported || self.seen || row.load(self.done) != u64::from(self.tiles) {
                    return None;
                }
                self.seen = true;
                Some(Moved::Quietly)
            }
            _ => None,
        }
    }

    fn sent(&mut self) -> Moved {
        let mut moved = Moved::Quietly;
        if let (0, Some((tag, operation))) = (self.put, self.next) {
            self.tags[tag as usize] = Some(self.follower.issue());
            self.issued.push(operation);
            moved = Moved::Issued;
        }
        self.put += 1;
        if self.put == self.flits.len() {
            self.put = 0;
            self.prepare();
        }
        moved
    }

    fn taken(&mut self, flit: u64) -> Moved {
        let Offered::Whole(Packet::Response(response)) = self.assembler.offer(flit) else {
            return Moved::Quietly;
        };
        let Some(index) = self.tags[response.tag as usize].take() else {
            return Moved::Quietly;
        };
        let Response { source: bank, place, reply, .. } = response;
        self.answers.push(Answer { index, op: self.issued[index as usize].op, reply, bank, place });
        self.follower.answer(index, reply);
        if self.put == 0 {
            self.prepare();
        }
        Moved::Answered { bank, place }
    }

    pub fn answers(&self) -> &[Answer] {
        &self.answers
    }

    /// The operation that holds a tag.
    pub fn holder(&self, tag: u32) -> Option<u32> {
        self.tags[tag as usize]
    }

    pub fn is_finished(&self) -> bool {
        self.follower.is_finished()
    }
}

pub struct Router {
    dims: u32,
    latches: Vec<Option<u64>>,
    owned: Vec<Option<u32>>,
    owner: Vec<Option<u32>>,
    ways: Vec<Way>,
    inputs: Vec<Receiver>,
    outputs: Vec<Sender>,
}

impl Router {
    fn new(torus: &Torus, tile: u32, depth: usize) -> Router {
        let hops = torus.hops();
        let ports = hops + 2;
        let source = |input: usize| {
            let back = if input / 4 % 2 == 0 { Dir::Minus } else { Dir::Plus };
            if input < hops { torus.neighbour(tile, input as u32 / 8, back) } else { tile }
        };
        let output = |output: usize| torus.channels_of(tile) + if output < hops { output } else { output + 2 };
        Router {
            dims: torus.dims,
            latches: vec![None; ports],
            owned: vec![None; ports],
            owner: vec![None; ports],
            ways: (0..torus.tiles()).map(|destination| torus.way(tile, destination)).collect(),
            inputs: (0..ports).map(|i| Receiver::new(torus.channels_of(source(i)) + i, depth)).collect(),
            outputs: (0..ports).map(|o| Sender::new(output(o), depth)).collect(),
        }
    }

    /// The number of the inputs, and of the outputs.
    pub fn ports(&self) -> u32 {
        self.latches.len() as u32
    }

    fn output_for(&self, input: u32, flit: u64) -> Option<u32> {
        let Some(head) = head(flit) else {
            return self.owned[input as usize];
        };
        let way = self.ways[head.destination as usize].onward(input);
        let output = way.output(self.dims, head.class);
        if self.owner[output as usize].is_some() { None } else { Some(output) }
    }

    #[inline]
    pub fn attempt<R: Row + ?Sized>(&mut self, choice: Choice, row: &mut R) -> bool {
        match choice {
            Choice::TakeFrom(input) => self.take(input, row),
            Choice::Put(input) => self.put(input, row),
            Choice::CreditOf(output) => self.outputs.get_mut(output as usize).is_some_and(|end| end.credit(row)),
            _ => false,
        }
    }

    #[inline]
    fn take<R: Row + ?Sized>(&mut self, input: u32, row: &mut R) -> bool {
        let Some(latch @ None) = self.latches.get_mut(input as usize) else {
            return false;
        };
        *latch = self.inputs[input as usize].take(row);
        latch.is_some()
    }

    #[inline]
    fn put<R: Row + ?Sized>(&mut self, input: u32, row: &mut R) -> bool {
        let Some(&Some(flit)) = self.latches.get(input as usize) else {
            return false;
        };
        let Some(output) = self.output_for(input, flit) else {
            return false;
        };
        if !self.outputs[output as usize].put(flit, row) {
            return false;
        }
        self.latches[input as usize] = None;
        self.pass(input, output, is_tail(flit));
        true
    }

    /// A tail frees the output of its input, any other flit makes the input its owner.
    fn pass(&mut self, input: u32, output: u32, is_last: bool) {
        if is_last {
            self.free(input);
        } else if self.owned[input as usize] != Some(output) {
            self.free(input);
            self.owner[output as usize] = Some(input);
            self.owned[input as usize] = Some(output);
        }
    }

    fn free(&mut self, input: u32) {
        if let Some(output) = self.owned[input as usize].take() {
            self.owner[output as usize] = None;
        }
    }
}

#[allow(dead_code)]
pub struct Entry {
    pub source: u32,
    pub tag: u32,
    pub address: u32,
    pub op: Op,
    pub reply: Reply,
}

pub struct Bank {
    tile: u32,
    tiles: u32,
    words: usize,
    entries: Vec<Entry>,
    assembler: Assembler,
    waiting: Option<Request>,
    flits: Flits,
    put: usize,
    input: Receiver,
    output: Sender,
}

impl Bank {
    fn new(torus: &Torus, words: usize, tile: u32, depth: usize, room: usize) -> Bank {
        let channels = torus.channels_of(tile);
        let hops = torus.hops();
        Bank {
            tile,
            tiles: torus.tiles(),
            words,
            entries: Vec::with_capacity(room),
            assembler: Assembler::new(),
            waiting: None,
            flits: Flits::none(),
            put: 0,
            input: Receiver::new(channels + hops + 2, depth),
            output: Sender::new(channels + hops + 1, depth),
        }
    }

    #[inline]
    pub fn attempt<R: Row + ?Sized>(&mut self, choice: Choice, row: &mut R) -> Option<Moved> {
        match choice {
            Choice::Take => {
                if self.waiting.is_some() || self.put < self.flits.len() {
                    return None;
                }
                let flit = self.input.take(row)?;
                self.taken(flit);
                Some(Moved::Quietly)
            }
            Choice::Serve => {
                let request = self.waiting.take()?;
                let found = row.perform(self.word_of(&request), request.op);
                Some(self.served(request, found))
            }
            Choice::Send => {
                let flit = self.flits.get(self.put)?;
                let is_put = self.output.put(flit, row);
                self.put += usize::from(is_put);
                is_put.then_some(Moved::Quietly)
            }
            Choice::Credit => self.output.credit(row).then_some(Moved::Quietly),
            _ => None,
        }
    }

    /// The entries, in the order of the services.
    #[allow(dead_code)]
    pub fn entries(&self) -> &[Entry] {
        &self.entries
    }

    fn taken(&mut self, flit: u64) {
        if let Offered::Whole(Packet::Request(request)) = self.assembler.offer(flit) {
            self.waiting = Some(request);
        }
    }

    fn address_of(&self, request: &Request) -> u32 {
        request.word * self.tiles + self.tile
    }

    /// The place in the row of the word that a request is for.
    fn word_of(&self, request: &Request) -> usize {
        self.words + self.address_of(request) as usize
    }

    fn served(&mut self, request: Request, found: u64) -> Moved {
        let Request { source, tag, op, .. } = request;
        let address = self.address_of(&request);
        let reply = op.reply(found);
        let place = self.entries.len() as u32;
        self.entries.push(Entry { source, tag, address, op, reply });
        let code = op.code();
        let response = Response { destination: source, source: self.tile, tag, place, code, reply };
        self.flits = flits(&Packet::Response(response));
        self.put = 0;
        Moved::Served { source, tag }
    }
}

pub struct Tile {
    pub processor: Processor,
    pub router: Router,
    pub bank: Bank,
}

impl Tile {
    /// A tile with so many words in the memory, and room for so many entries in its bank.
    pub fn new(
        torus: &Torus,
        words: usize,
        tile: u32,
        depth: usize,
        tags: usize,
        lines: Vec<Line>,
        room: usize,
    ) -> Tile {
        let first = torus.channels() * depth;
        Tile {
            processor: Processor::new(torus, first + words, tile, depth, tags, lines),
            router: Router::new(torus, tile, depth),
            bank: Bank::new(torus, first, tile, depth, room),
        }
    }
}
