//! Damage that knows nothing of what a message means.

use crate::compose::{get32, set32};
use crate::rng::Rng;

/// Limits of 01, values one off from them, and words whose sums or products
/// wrap in 32 bits.
pub const WORDS: [u32; 48] = [
    0,
    1,
    2,
    3,
    4,
    5,
    7,
    8,
    9,
    10,
    11,
    12,
    13,
    15,
    16,
    17,
    20,
    24,
    27,
    28,
    29,
    30,
    31,
    32,
    33,
    512,
    513,
    1024,
    1025,
    0x100,
    0x101,
    0x102,
    0x104,
    0x3FFF_FFFF,
    0x4000_0000,
    0x4000_0004,
    0x5555_5555,
    0x7FFF_FFFF,
    0x8000_0000,
    0x8000_0007,
    0x8007_007A,
    0xC000_0001,
    0xFFFF_FFEB,
    0xFFFF_FFEC,
    0xFFFF_FFF0,
    0xFFFF_FFF8,
    0xFFFF_FFFC,
    0xFFFF_FFFF,
];

const MOST: usize = 65_535;

pub fn flip_bits(rng: &mut Rng, message: &mut [u8], count: usize) {
    if message.is_empty() {
        return;
    }
    for _ in 0..count {
        let at = rng.below(message.len());
        message[at] ^= 1 << rng.below(8);
    }
}

pub fn cut(message: &mut Vec<u8>, count: usize) {
    let keep = message.len().saturating_sub(count);
    message.truncate(keep);
}

pub fn stretch(rng: &mut Rng, message: &mut Vec<u8>, count: usize) {
    let room = MOST - message.len().min(MOST);
    let more = rng.bytes(count.min(room));
    message.extend(more);
}

fn some_word(rng: &mut Rng, message: &[u8]) -> Option<usize> {
    let words = message.len() / 4;
    (words > 0).then(|| 4 * rng.below(words))
}

/// One damage of a random sort.
pub fn any(rng: &mut Rng, message: &mut Vec<u8>) {
    match rng.below(12) {
        0 | 1 => {
            let count = rng.between(1, 3);
            flip_bits(rng, message, count);
        }
        2 => cut(message, 1),
        3 => stretch(rng, message, 1),
        4 => {
            let count = rng.between(1, 16);
            cut(message, count);
        }
        5 => {
            let count = rng.between(1, 16);
            stretch(rng, message, count);
        }
        6 | 7 => {
            if let Some(at) = some_word(rng, message) {
                let word = rng.pick(&WORDS);
                set32(message, at, word);
            }
        }
        8 => {
            if let Some(at) = some_word(rng, message) {
                let step = rng.pick(&[1, u32::MAX, 12, 0x4000_0000, 0x8000_0000, 0x1_0000]);
                let word = get32(message, at).wrapping_add(step);
                set32(message, at, word);
            }
        }
        9 => {
            let pair = (some_word(rng, message), some_word(rng, message));
            if let (Some(one), Some(other)) = pair {
                let (a, b) = (get32(message, one), get32(message, other));
                set32(message, one, b);
                set32(message, other, a);
            }
        }
        10 => {
            if let Some(at) = some_word(rng, message) {
                if message.len() + 4 <= MOST {
                    let word = get32(message, at).to_le_bytes();
                    message.splice(at..at, word);
                }
            }
        }
        _ => {
            if let Some(at) = some_word(rng, message) {
                message.drain(at..at + 4);
            }
        }
    }
}
