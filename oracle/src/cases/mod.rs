//! The generated inputs: case number `i` of a function is a boundary where the boundaries
//! last, every input where they are few, else a random one.

mod alignment;
mod candidates;
mod core;
mod crowds;
mod ends;
mod finders;
mod geometry;
mod image;
mod preview;
mod runs;
mod scenes;
mod unanswered;
mod walls;

use crate::record::Record;
use crate::rng::Rng;

pub use crowds::{a_limit, about_form_one, about_limit, crowd};
pub use image::{ChainCase, chain_case, exposed, exposure_case};
pub use preview::frame_case;
pub use scenes::scene;
pub use unanswered::{is_unanswered, unanswered};
pub use walls::{false_plate, full_table, walls};

/// How far a run reaches.
#[derive(Copy, Clone, PartialEq, Eq)]
pub enum Reach {
    /// The stored sample: small pictures.
    Sample,
    /// The comparison: pictures as large as a record holds.
    Full,
}

impl Reach {
    /// Cases of a function: 1.6 million in all, beside the five runs of 36.
    pub fn cases(self, function: u8) -> u64 {
        if self == Reach::Sample {
            return 1024;
        }
        match function {
            1..=3 => 1024,
            4 => 65_536,
            5..=8 => 50_000,
            16 => 30_000,
            17 | 18 => 65_536 + 14_464,
            32 => 12_000,
            33 | 34 => 30_000,
            36 => runs::ALL + 10_400_000,
            37 => ends::ALL + 250_000,
            48 | 49 => 30_000,
            50 | 51 => 40_000,
            52 => 90_000,
            53..=55 => 30_000,
            56..=58 => 50_000,
            59 => 30_000,
            64 => 30_000,
            65..=67 => 5_000,
            80 => 8_000,
            81 | 82 => 3_000,
            96 => 3_000,
            _ => preview::BOUNDARIES + 100_000,
        }
    }

    /// The most pixels of a picture handed over as bits, and as gray or colour bytes.
    pub fn pixels(self, rng: &mut Rng, bits: bool) -> usize {
        match (self, bits) {
            (Reach::Sample, true) => rng.pick(&[400, 2_304, 2_304, 9_216]),
            (Reach::Sample, false) => rng.pick(&[16, 64, 400, 400, 1_600]),
            (Reach::Full, true) => rng.pick(&[900, 2_304, 10_000, 10_000, 40_000, 40_000, 250_000]),
            (Reach::Full, false) => rng.pick(&[900, 2_304, 10_000, 40_000, 40_000, 200_000]),
        }
    }
}

/// Case number `i` of a function.
pub fn case(function: u8, i: u64, rng: &mut Rng, reach: Reach) -> Record {
    match function {
        1..=8 => core::case(function, i, rng, reach),
        16..=18 => image::case(function, i, rng, reach),
        32..=34 => finders::case(function, i, rng, reach),
        36 => runs::case(i, rng, reach),
        37 => ends::case(i, rng, reach),
        48..=59 => geometry::case(function, i, rng),
        64..=67 => alignment::case(function, i, rng, reach),
        80..=82 => candidates::case(function, i, rng, reach),
        96 => image::chain_record(i, rng, reach),
        _ => preview::preview_record(i, rng, reach),
    }
}

/// Sides at the boundaries of the refusals 1 and 2.
pub const SIDES: [(u32, u32); 16] = [
    (0, 0),
    (0, 1),
    (1, 0),
    (0, 4097),
    (4097, 0),
    (4097, 1),
    (1, 4097),
    (4096, 1),
    (1, 4096),
    (4096, 2),
    (4097, 4097),
    (4096, 4096),
    (65_536, 65_536),
    (u32::MAX, 1),
    (1, u32::MAX),
    (u32::MAX, u32::MAX),
];

/// A length about the one that is needed, mostly that one.
pub fn about(rng: &mut Rng, need: usize) -> usize {
    match rng.below(12) {
        0 => need.saturating_sub(1),
        1 => need + 1,
        2 => need + rng.whole(0, 9) as usize,
        3 => rng.below(need as u64 + 1) as usize,
        4 => 0,
        _ => need,
    }
    .min(crate::record::LONGEST)
}

/// The bytes cut or grown to a length.
pub fn resized(rng: &mut Rng, mut bytes: Vec<u8>, length: usize) -> Vec<u8> {
    bytes.truncate(length);
    while bytes.len() < length {
        bytes.push(rng.byte());
    }
    bytes
}

/// A picture as bits that a record holds: its sides and its bytes. Now and then the sides
/// are at a boundary or the bytes too few; unused bits may be set.
pub fn bit_picture(rng: &mut Rng, reach: Reach, spoilt: bool) -> ((u32, u32), Vec<u8>) {
    let limit = reach.pixels(rng, true);
    let gray = scene(rng, limit);
    let mut bits = scenes::black_and_white(rng, &gray);
    if let Some(last) = bits.last_mut() {
        let unused = (8 - gray.pixels.len() % 8) % 8;
        *last |= rng.byte() & ((1u16 << unused) - 1) as u8;
    }
    let mut sides = (gray.width, gray.height);
    if spoilt && rng.one_in(2) {
        sides = rng.pick(&SIDES);
    } else if spoilt || rng.one_in(16) {
        let need = bits.len();
        let length = about(rng, need);
        bits = resized(rng, bits, length);
    }
    (sides, bits)
}
