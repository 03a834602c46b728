//! Versions and colours.

use super::Reach;
use crate::record::Record;
use crate::rng::Rng;

pub fn case(function: u8, i: u64, rng: &mut Rng, reach: Reach) -> Record {
    let record = Record::new(function);
    match function {
        1..=3 => record.with(|b| {
            b.u8(i as u8);
        }),
        4 => {
            let side = if reach == Reach::Full || i < 512 { i as u16 } else { rng.next() as u16 };
            record.with(|b| {
                b.u16(side);
            })
        }
        6 => {
            let hex = match i {
                0..=31 => 1 << i,
                32 => 0,
                33 => u32::MAX,
                _ => rng.next() as u32,
            };
            record.with(|b| {
                b.u32(hex);
            })
        }
        _ => {
            let colour = colour(i, rng);
            record.with(|b| {
                b.raw(&colour);
            })
        }
    }
}

/// Each channel alone from 0 to 255, then pairs of edges, then any.
fn colour(i: u64, rng: &mut Rng) -> [u8; 3] {
    let mut one = [0u8; 3];
    if i < 768 {
        one[i as usize / 256] = i as u8;
        return one;
    }
    ::core::array::from_fn(|_| match rng.below(3) {
        0 => rng.pick(&[0, 1, 2, 127, 128, 254, 255]),
        _ => rng.byte(),
    })
}
