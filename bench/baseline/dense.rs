//! The dense load: 64 processors that all ask, of 4,096 words.
use crate::script::{Line, Value};

pub const DEPTH: usize = 4;
pub const TAGS: usize = 8;
pub const WORDS: usize = 4096;

/// Kinds, addresses and values come from a product with an odd number.
fn line(number: u32) -> Line {
    let mixed = number.wrapping_mul(2654435761);
    let address = mixed / 256 % WORDS as u32;
    let value = Value::Number(u64::from(mixed));
    match mixed / 1048576 % 5 {
        0 => Line::Load(address),
        1 => Line::Store(address, value),
        2 => Line::Add(address, value),
        3 => Line::Swap(address, value),
        _ => Line::Cas(address, Value::Number(0), value),
    }
}

/// The scripts of 64 processors, each of so many operations.
pub fn scripts(each: u32) -> Vec<Vec<Line>> {
    let script = |processor: u32| (0..each).map(|at| line(processor * each + at)).collect();
    (0..64).map(script).collect()
}
