//! Five runs for the rule of the finders: all with a small total, then drawn ones.

use super::{Reach, scenes};
use crate::record::Record;
use crate::rng::Rng;

/// Up to this total all five runs are compared.
const TOTAL: u64 = 60;

/// How many that are.
pub const ALL: u64 = lists(TOTAL, 5);

/// How many lists of so many runs have a total up to `total`: total + places over places.
const fn lists(total: u64, places: u64) -> u64 {
    let (mut count, mut k) = (1, 1);
    while k <= places {
        count = count * (total + k) / k;
        k += 1;
    }
    count
}

/// The longest side just reached and just passed, no outer run, the longest runs.
const KNOWN: [[u32; 5]; 10] = [
    [585, 585, 1756, 585, 585],
    [585, 585, 1757, 585, 585],
    [586, 585, 1755, 585, 585],
    [586, 585, 1756, 585, 585],
    [0, 0, 7, 0, 0],
    [0, 0, 4096, 0, 0],
    [4096, 0, 0, 0, 0],
    [0, 0, 65_535, 0, 0],
    [9_362, 9_362, 28_086, 9_362, 9_362],
    [65_535; 5],
];

pub fn case(i: u64, rng: &mut Rng, reach: Reach) -> Record {
    let all = if reach == Reach::Full { ALL } else { 0 };
    let runs = match i.checked_sub(all) {
        None => numbered(i),
        Some(k) => KNOWN.get(k as usize).copied().unwrap_or_else(|| drawn(rng)),
    };
    Record::new(36).with(|b| {
        runs.iter().for_each(|r| {
            b.u16(*r as u16);
        })
    })
}

/// The i-th of all five runs with a small total, by the first run, then the second and so on.
fn numbered(mut i: u64) -> [u32; 5] {
    let mut left = TOTAL;
    core::array::from_fn(|place| {
        let mut run = 0;
        while i >= lists(left - run, 4 - place as u64) {
            i -= lists(left - run, 4 - place as u64);
            run += 1;
        }
        left -= run;
        run as u32
    })
}

/// Mostly with a total up to 4,096; one in 64 is about it, or has runs of any 16 bits.
fn drawn(rng: &mut Rng) -> [u32; 5] {
    if rng.one_in(64) {
        return long(rng);
    }
    loop {
        let runs = match rng.below(8) {
            0 => scenes::runs(rng),
            1 => parts(rng),
            2 | 3 => about(rng),
            _ => at_a_limit(rng),
        };
        if runs.iter().sum::<u32>() <= 4096 {
            return runs;
        }
    }
}

/// A total up to 4,096 in five parts.
fn parts(rng: &mut Rng) -> [u32; 5] {
    let mut left = rng.whole(0, 4096);
    let mut runs = [0; 5];
    for k in 0..4 {
        runs[k] = rng.whole(0, left);
        left -= runs[k];
    }
    runs[4] = left;
    let turn = rng.below(5) as usize;
    runs.rotate_left(turn);
    runs
}

/// About 1 : 1 : 3 : 1 : 1, up to the tolerance and past it, in modules of 1 to 585 pixels.
fn about(rng: &mut Rng) -> [u32; 5] {
    let module = 585f64.powf(rng.real(0.0, 1.0));
    let spread = rng.real(0.0, 0.7);
    [1.0, 1.0, 3.0, 1.0, 1.0].map(|k| (module * k * rng.real(1.0 - spread, 1.0 + spread)).round() as u32)
}

/// One run at a limit of the rule, or one or two pixels beside it. Half of them have outer runs with a sum of 80 k, so that
/// a limit can be met exactly: 9 k and 31 k for one of these, 27 k and 93 k for the centre.
fn at_a_limit(rng: &mut Rng) -> [u32; 5] {
    let mut runs = about(rng);
    let at = rng.below(5) as usize;
    if rng.one_in(2) {
        let k = rng.whole(1, 38);
        let some = |rng: &mut Rng| 20 * k + rng.whole(0, 8 * k) - 4 * k;
        let (a, b) = (some(rng), some(rng));
        runs = match at {
            2 => [a, b, 60 * k, 40 * k - a, 40 * k - b],
            _ => {
                let limit = rng.pick(&[9 * k, 31 * k]);
                let mut outer = [limit, a, b, 80 * k - limit - a - b];
                outer.rotate_right(at - at / 3);
                [outer[0], outer[1], rng.whole(27 * k, 93 * k), outer[2], outer[3]]
            }
        };
    }
    let others: u32 = [0, 1, 3, 4].into_iter().filter(|k| *k != at).map(|k| runs[k]).sum();
    // With S the others' sum and the run r itself, 80 r = 9 S is 71 r = 9 (S - r), and 80 r = 31 S is 49 r = 31 (S - r).
    let limit = match at {
        2 => rng.pick(&[27, 93]) * others / 80,
        _ => rng.pick(&[9 * others / 71, 31 * others / 49]),
    };
    runs[at] = (limit + rng.whole(0, 4)).saturating_sub(2);
    runs
}

/// Runs about the longest side of a picture that pass but for it, or any.
fn long(rng: &mut Rng) -> [u32; 5] {
    match rng.below(4) {
        0 => core::array::from_fn(|_| rng.whole(0, 65_535)),
        1 => core::array::from_fn(|_| rng.pick(&[0, 1, 4096, 32_768, 65_534, 65_535])),
        2 => {
            let module = rng.whole(1, 21_845);
            [module, module, 3 * module, module, module]
        }
        _ => {
            let mut runs = [585, 585, 1755, 585, 585];
            for _ in 0..rng.whole(0, 3) {
                runs[rng.below(5) as usize] += 1;
            }
            runs
        }
    }
}
