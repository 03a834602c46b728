//! The preview (document 02, N2): frames at its limit and beside it with every other fault, lengths at their
//! boundaries, and pictures, small ones for records and whole frames for the C entry.

use super::image::{ChainCase, FORMATS, called, coloured, few_finders, lendable, needs, recorded, uneven};
use super::scenes::{self, clear_plate};
use super::{Reach, a_limit, about_form_one, about_limit, crowd, false_plate, full_table, scene, walls};
use crate::picture::{Gray, finder_grid, ringed};
use crate::record::{LONGEST, Record};
use crate::rng::Rng;

/// Sides at the limit and beside it, and at the boundaries of the refusals 1 and 2.
const FRAMES: [(u32, u32); 42] = [
    (640, 480),
    (640, 1),
    (1, 480),
    (480, 1),
    (481, 1),
    (1, 1),
    (640, 7),
    (7, 480),
    (0, 0),
    (0, 1),
    (1, 0),
    (0, 480),
    (640, 0),
    (0, 481),
    (641, 0),
    (0, 4097),
    (4097, 0),
    (0, u32::MAX),
    (u32::MAX, 0),
    (641, 480),
    (640, 481),
    (641, 481),
    (641, 1),
    (1, 481),
    (480, 640),
    (1, 640),
    (481, 481),
    (4096, 1),
    (1, 4096),
    (4096, 4096),
    (4097, 1),
    (1, 4097),
    (4097, 4097),
    (5000, 1),
    (1, 5000),
    (5000, 5000),
    (65_536 + 640, 1),
    (1, 65_536 + 480),
    (65_536, 65_536),
    (u32::MAX, 1),
    (1, u32::MAX),
    (u32::MAX, u32::MAX),
];

/// Those in three formats, each with a known format or not, bytes enough or too few, a slice too short or none.
const FAULTY: u64 = FRAMES.len() as u64 * 24;

/// Each of the eight lengths 0, one short, exact and one over, the picture's and the stride, in three formats.
const LENGTHS: u64 = 38 * 3;

/// The largest frames whose pixels a record holds, one side at the limit, and those with that side one over it.
const LARGEST: [(u32, u32); 4] = [(640, 409), (546, 480), (641, 408), (544, 481)];

/// Pictures with as many finders as the table holds or as form 1 holds, or about as many.
const FULL: u64 = 12;

/// Cases before those by chance: the four above.
pub const BOUNDARIES: u64 = FAULTY + LENGTHS + FULL + 4 * LARGEST.len() as u64;

/// The stored sample has a third of the faults and lengths and none of the largest frames.
pub fn preview_record(i: u64, rng: &mut Rng, reach: Reach) -> Record {
    let sample = reach == Reach::Sample;
    let step = if sample { 3 } else { 1 };
    let (faults, lengths) = (FAULTY / step, (FAULTY + LENGTHS) / step);
    let case = match i {
        _ if i < faults => faulty(step * i, rng, if sample { 8_000 } else { LONGEST - 45 }),
        _ if i < lengths => about_lengths(step * (i - faults), rng),
        _ if i < lengths + FULL / 3 => exact(finder_grid(about_form_one(i - lengths), 12, 2, 2)),
        _ if i < lengths + FULL => {
            let count = about_limit(i - lengths - FULL / 3);
            let most = if sample { 40_000 } else { 240_000 };
            exact(framed(rng, |rng| crowd(rng, count, 2, most)))
        }
        _ if !sample && i < BOUNDARIES => {
            let (width, height) = LARGEST[(i % 4) as usize];
            exact(filled(i / 4, rng, width, height))
        }
        _ => {
            let gray = small(i, rng, reach);
            let most = if sample { 500 } else { 4_000 };
            let spoilt = rng.one_in(8);
            let mut c = called(i, rng, &gray, most, spoilt);
            if rng.one_in(16) {
                c.sides = rng.pick(&FRAMES);
            }
            c
        }
    };
    recorded(97, &case)
}

/// A frame with some of the faults 3, 4 and 5. One of more than `most` bytes has few, so that 4 is behind it.
fn faulty(k: u64, rng: &mut Rng, most: usize) -> ChainCase {
    let (width, height) = FRAMES[(k / 24) as usize];
    let [unknown, few, short] = [1, 2, 4].map(|fault| k % 8 & fault != 0);
    let channels = FORMATS[(k / 8 % 3) as usize];
    let row = width.saturating_mul(channels as u32);
    let stride = row.saturating_add(rng.pick(&[0, 0, 1, 9]));
    let need = (height as u128).saturating_sub(1) * stride as u128 + row as u128;
    let bytes = if need > most as u128 { 64 } else { (need as usize).saturating_sub(few as usize) };
    let mut room = needs(width, height).map(lendable);
    if short {
        let at = rng.below(8) as usize;
        room[at] = room[at].saturating_sub(1);
    }
    let format = if unknown { rng.pick(&[0, 2, 5, 255]) } else { channels };
    ChainCase { sides: (width, height), stride, format, picture: rng.bytes(bytes), room }
}

/// A finder, with a length about its boundary.
fn about_lengths(k: u64, rng: &mut Rng) -> ChainCase {
    let gray = ringed([2, 2, 6, 2, 2], [2, 2, 6, 2, 2], 2);
    let (which, format) = (k % 38, FORMATS[(k / 38) as usize]);
    let row = gray.width * format as u32;
    let mut room = needs(gray.width, gray.height).map(|need| need as usize);
    let stride = if which < 35 { row } else { row + which as u32 - 36 };
    let mut picture = gray.bytes(rng, format as usize, stride.max(row) as usize);
    match which {
        0..32 => {
            let need = &mut room[(which / 4) as usize];
            *need = [0, *need - 1, *need, *need + 1][(which % 4) as usize];
        }
        32 => picture.truncate(picture.len() - 1),
        34 => picture.push(rng.byte()),
        _ => (),
    }
    ChainCase { sides: (gray.width, gray.height), stride, format, picture, room }
}

/// A gray picture with all lengths exact.
fn exact(gray: Gray) -> ChainCase {
    let room = needs(gray.width, gray.height).map(|need| need as usize);
    let sides = (gray.width, gray.height);
    ChainCase { sides, stride: gray.width, format: 1, picture: gray.pixels, room }
}

/// A picture that a frame of 640 × 480 holds.
fn framed(rng: &mut Rng, picture: impl Fn(&mut Rng) -> Gray) -> Gray {
    loop {
        let gray = picture(rng);
        if gray.width <= 640 && gray.height <= 480 {
            return gray;
        }
    }
}

/// A small picture, mostly with finders that outlast denoising; a few fill the table and are larger.
fn small(i: u64, rng: &mut Rng, reach: Reach) -> Gray {
    let limit = match reach {
        Reach::Sample => rng.pick(&[64, 400, 900, 1_600]),
        Reach::Full if rng.one_in(100) => 40_000,
        Reach::Full => rng.pick(&[400, 900, 1_600, 2_304, 4_000]),
    };
    match i % 16 {
        0 if i % 512 == 0 => finder_grid(about_form_one(i / 512), 12, 2, rng.whole(2, 5)),
        0 if i % 512 == 256 => framed(rng, |rng| crowd(rng, about_limit(i / 512), 2, 60_000)),
        0 if i % 256 == 128 => framed(rng, |rng| full_table(rng, a_limit(i / 256), 2, 60_000)),
        0 if i % 64 == 16 => few_finders(rng),
        0 => {
            let (width, height) = (rng.whole(1, 40), rng.whole(1, 40));
            Gray::filled(width, height, rng.byte())
        }
        1 => {
            let (width, height) = (rng.whole(1, 40), rng.whole(1, 40));
            Gray::random(rng, width, height)
        }
        2 => uneven(rng),
        3..=5 | 13 if i % 64 != 13 => scene(rng, limit),
        6..=9 => {
            let (width, height) = (rng.whole(20, 60), rng.whole(20, 60));
            scenes::finders(rng, width, height)
        }
        10..=12 => walls(rng, 2, false),
        13 => false_plate(rng, 2, false),
        _ => clear_plate(rng, 1, 2.4),
    }
}

/// For the C entry: frames of 640 × 480, frames about that and over it, and small pictures.
pub fn frame_case(i: u64, rng: &mut Rng) -> ChainCase {
    let gray = frame(i, rng);
    let spoilt = rng.one_in(12);
    let (width, height, stride, format, picture) = coloured(rng, &gray, usize::MAX, spoilt);
    let mut room = needs(width, height).map(|need| if need > 1 << 20 { 64 } else { need as usize });
    if rng.one_in(6) {
        let need = &mut room[rng.below(8) as usize];
        *need = rng.pick(&[0, need.saturating_sub(1), *need + 1, *need + 9]);
    }
    ChainCase { sides: (width, height), stride, format, picture, room }
}

fn frame(i: u64, rng: &mut Rng) -> Gray {
    let (width, height) = match i % 16 {
        0 | 8 => (640, 480),
        1 => rng.pick(&[(641, 480), (640, 481), (641, 481), (480, 640), (481, 481), (640, 640)]),
        2 => (640, rng.whole(1, 480)),
        3 => (rng.whole(1, 640), 480),
        4 => return framed(rng, |rng| crowd(rng, about_limit(i / 16), 2, 640 * 480)),
        _ => return small(rng.below(1024), rng, Reach::Full),
    };
    filled(i / 16 + i % 16, rng, width, height)
}

/// A frame of the given sides with noise, squares, finders, or other pictures on light ground.
fn filled(k: u64, rng: &mut Rng, width: u32, height: u32) -> Gray {
    let others = match k % 8 {
        0 => return Gray::random(rng, width, height),
        1 => {
            let side = rng.whole(1, 40);
            return Gray::squares(rng, width, height, side, &[0, 10, 60, 128, 250]);
        }
        2 => return scenes::finders(rng, width, height),
        3 if k % 32 == 3 => vec![finder_grid(about_form_one(k / 32), 12, rng.whole(2, 3), rng.whole(3, 5))],
        3 => vec![framed(rng, |rng| crowd(rng, about_limit(k / 8), 2, 640 * 480))],
        4 => vec![scene(rng, 640 * 480)],
        5 => (0..4).map(|_| walls(rng, 2, true)).collect(),
        _ => (0..rng.whole(2, 20)).map(|_| clear_plate(rng, 4, 3.5)).collect(),
    };
    let mut out = Gray::filled(width, height, rng.pick(&[190, 230, 255]));
    for other in others {
        let part = other.part(0, 0, other.width.min(width), other.height.min(height));
        // At the edges too.
        let mut place = |room: u32| rng.pick(&[0, room, room / 2, room / 3]);
        let (x, y) = (place(width - part.width), place(height - part.height));
        out.paste(&part, x, y);
    }
    out
}
