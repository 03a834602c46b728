//! Ranking, and detections of lent finders and of pictures.

use super::crowds::around_a_plate;
use super::finders::{any_finder, search_picture};
use super::scenes::clear_plate;
use super::unanswered::MOST_LENT;
use super::{Reach, about_form_one, about_limit, bit_picture, crowd, false_plate};
use crate::record::Record;
use crate::rng::Rng;
use crate::rules::{FORM_ONE_MOST, MAX_FINDERS};
use lcr_decode::detect::{Finder, find_finders};
use lcr_decode::image::{binarize, bits_of};

pub fn case(function: u8, i: u64, rng: &mut Rng, reach: Reach) -> Record {
    if function == 80 {
        return lent_case(i, rng, reach);
    }
    let full = reach == Reach::Full;
    let ((width, height), bits) = match i % 12 {
        5 if i % 24 == 5 && full || i % 96 == 5 => {
            let count = about_limit(i / if full { 24 } else { 96 });
            let gray = match rng.one_in(2) {
                true => around_a_plate(rng, count, 1),
                false => crowd(rng, count, 1, if full { 500_000 } else { 40_000 }),
            };
            ((gray.width, gray.height), gray.bits(128))
        }
        0 | 3 | 6 | 9 => search_picture(i / 3, rng, reach),
        1 => {
            let gray = false_plate(rng, 1, full);
            ((gray.width, gray.height), gray.bits(128))
        }
        _ => plate_bits(i, rng, reach),
    };
    Record::new(function).with(|b| {
        b.u32(width).u32(height).raw(&bits);
    })
}

/// A plate that is likely to be found, by the published stages.
fn plate_bits(i: u64, rng: &mut Rng, reach: Reach) -> ((u32, u32), Vec<u8>) {
    let gray = match (reach, i % 4) {
        (Reach::Sample, _) => clear_plate(rng, 3, 3.0),
        (Reach::Full, 0) => clear_plate(rng, 32, 3.5),
        (Reach::Full, _) => clear_plate(rng, 10, 7.0),
    };
    let clean = binarize(&gray.pixels, gray.width, gray.height).denoised();
    ((gray.width, gray.height), bits_of(&clean).to_vec())
}

fn lent_case(i: u64, rng: &mut Rng, reach: Reach) -> Record {
    let (sides, bits) = match i % 4 {
        0 | 1 => plate_bits(i, rng, reach),
        _ => bit_picture(rng, reach, i % 16 == 2),
    };
    let mut list = match i % 4 {
        0 | 1 => {
            let bin = lcr_decode::image::binary_of(sides.0, sides.1, &bits);
            find_finders(&bin)
        }
        2 => corners(rng),
        _ => (0..rng.whole(0, 11)).map(|_| any_finder(rng)).collect(),
    };
    match rng.below(10) {
        0 => list.truncate(rng.below(4) as usize),
        1 if !list.is_empty() => {
            // Equal records at two places.
            let (a, b) = (rng.below(list.len() as u64) as usize, rng.below(list.len() as u64 + 1) as usize);
            list.insert(b, list[a]);
        }
        2 => {
            let at = rng.below(list.len() as u64 + 1) as usize;
            list.insert(at, any_finder(rng));
        }
        3 if rng.one_in(if reach == Reach::Full { 2 } else { 4 }) => {
            let (turn, any) = (rng.next(), rng.whole(100, MOST_LENT));
            let full = rng.pick(&[MAX_FINDERS - 1, MAX_FINDERS, MAX_FINDERS + 1]);
            let (one, most) = (about_form_one(turn), about_limit(turn));
            let length = rng.pick(&[full, full, most, any, one, FORM_ONE_MOST]);
            list.resize_with(length as usize, || any_finder(rng));
        }
        4 if !list.is_empty() => {
            let at = rng.below(list.len() as u64) as usize;
            let odd = rng.any_f32();
            match rng.below(3) {
                0 => list[at].x = odd,
                1 => list[at].y = odd,
                _ => list[at].module = odd,
            }
        }
        5 => list.reverse(),
        6 if !list.is_empty() => {
            // A triple with a module that is no number passes the pitch rule, also where nothing is built of it.
            let first = list.len().min(8) as u64;
            list[rng.below(first) as usize].module = rng.pick(&[0.0, -0.0, -1.0, 2.0]);
            list[rng.below(first) as usize].module = f32::NAN;
        }
        7 => {
            // Three places twice: nothing is built of those that rank first.
            let dead: Vec<Finder> = list.iter().take(3).map(|f| Finder { module: 0.0, ..*f }).collect();
            list.splice(0..0, dead);
        }
        _ => (),
    }
    Record::new(80).with(|b| {
        b.u32(sides.0).u32(sides.1).u32(list.len() as u32).finders(&list).raw(&bits);
    })
}

/// Finders on a lattice, so that many triples have one score, at and about the bounds of
/// pitch, leg, angle and ratio.
fn corners(rng: &mut Rng) -> Vec<Finder> {
    let step = rng.pick(&[0.5, 1.0, 7.0, 40.0]);
    let module = rng.pick(&[1.0, 2.0, 3.0]);
    let mut out: Vec<Finder> = (0..rng.whole(3, 8))
        .map(|_| Finder {
            x: rng.whole(0, 8) as f32 * step,
            y: rng.whole(0, 8) as f32 * step,
            module,
            confirmations: rng.whole(2, 9),
        })
        .collect();
    for f in out.iter_mut() {
        match rng.below(6) {
            0 | 1 => f.module *= rng.pick(&[0.5, 1.5, 2.0, 2.5, 1.6, 4.0, 0.25]),
            2 | 3 => f.module *= rng.real(0.8, 1.25) as f32,
            _ => (),
        }
    }
    out
}
