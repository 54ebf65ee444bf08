//! A torus of one radix in plain Rust, of the same design as the crates `torus`, `dateline_route` and
//! `channel_number`; and the choices of agents.
use crate::packets::Class;

#[derive(Clone, Copy, PartialEq, Eq)]
pub enum Dir {
    Plus,
    Minus,
}

/// Where a packet goes from a tile.
#[derive(Clone, Copy, PartialEq, Eq)]
pub enum Way {
    Eject,
    Hop { dim: u32, dir: Dir, bit: bool },
}

/// What an agent can be asked for.
#[derive(Clone, Copy, PartialEq, Eq)]
#[allow(dead_code)]
pub enum Choice {
    Send,
    Take,
    TakeFrom(u32),
    Put(u32),
    Credit,
    CreditOf(u32),
    Serve,
    Done,
    Look,
}

impl Way {
    /// The number of the output of this way for a class.
    pub fn output(self, dims: u32, class: Class) -> u32 {
        match self {
            Way::Eject => 8 * dims + class as u32,
            Way::Hop { dim, dir, bit } => 8 * dim + 4 * dir as u32 + 2 * class as u32 + bit as u32,
        }
    }

    /// The way of a packet that came by an input, by this one of a packet that is injected.
    pub fn onward(self, input: u32) -> Way {
        match self {
            Way::Eject => Way::Eject,
            Way::Hop { dim, dir, bit } => Way::Hop { dim, dir, bit: bit || (input / 8 == dim && input % 2 == 1) },
        }
    }
}

pub struct Torus {
    pub radix: u32,
    pub dims: u32,
}

impl Torus {
    pub fn tiles(&self) -> u32 {
        self.radix.pow(self.dims)
    }

    /// The hops out of a tile.
    pub fn hops(&self) -> usize {
        8 * self.dims as usize
    }

    pub fn channels(&self) -> usize {
        self.channels_of(self.tiles())
    }

    /// The first channel of a tile.
    pub fn channels_of(&self, tile: u32) -> usize {
        tile as usize * (self.hops() + 4)
    }

    fn digit(&self, tile: u32, dim: u32) -> u32 {
        tile / self.radix.pow(dim) % self.radix
    }

    pub fn neighbour(&self, tile: u32, dim: u32, dir: Dir) -> u32 {
        let digit = self.digit(tile, dim);
        let there = match dir {
            Dir::Plus => (digit + 1) % self.radix,
            Dir::Minus => (digit + self.radix - 1) % self.radix,
        };
        tile - digit * self.radix.pow(dim) + there * self.radix.pow(dim)
    }

    /// The way of a packet that is injected at a tile.
    pub fn way(&self, tile: u32, destination: u32) -> Way {
        for dim in 0..self.dims {
            let (here, there) = (self.digit(tile, dim), self.digit(destination, dim));
            let forth = (there + self.radix - here) % self.radix;
            if forth > 0 && forth <= self.radix - forth {
                return Way::Hop { dim, dir: Dir::Plus, bit: here == self.radix - 1 };
            }
            if forth > 0 {
                return Way::Hop { dim, dir: Dir::Minus, bit: here == 0 };
            }
        }
        Way::Eject
    }
}
