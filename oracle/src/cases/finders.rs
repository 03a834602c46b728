//! The finder search and the stored list.

use super::crowds::{a_limit, about_form_one, about_limit, crowd};
use super::walls::{full_table, smallest, walls};
use super::{Reach, about, bit_picture, resized, scenes};
use crate::picture::{Gray, finder_grid, ringed};
use crate::record::{LONGEST, Record};
use crate::rng::Rng;
use crate::rules::{FORM_ONE_MOST, MAX_FINDERS, list_in, list_length};
use lcr_decode::detect::Finder;

pub fn case(function: u8, i: u64, rng: &mut Rng, reach: Reach) -> Record {
    match function {
        32 => {
            let ((width, height), bits) = search_picture(i, rng, reach);
            Record::new(32).with(|b| {
                b.u32(width).u32(height).raw(&bits);
            })
        }
        33 => read_case(i, rng, reach),
        _ => write_case(i, rng, reach),
    }
}

/// A picture for the search, also with as many finders as the table holds. The first are the smallest with a cut hit.
pub fn search_picture(i: u64, rng: &mut Rng, reach: Reach) -> ((u32, u32), Vec<u8>) {
    if let Some(gray) = smallest(i) {
        return ((gray.width, gray.height), gray.bits(128));
    }
    let gray = match i % 8 {
        0 if i % 32 == 0 => crowded(i / 32, rng, reach),
        0 if i % 64 == 40 && reach == Reach::Full => crowd(rng, about_limit(i / 64), 1, CROWDED),
        0 if i % 128 == 8 => scenes::longest(rng),
        0 if i % 128 == 16 => full_table(rng, a_limit(i / 128), 1, CROWDED / 8),
        1 => {
            let across = scenes::runs(rng);
            let down = if rng.one_in(2) { across } else { scenes::runs(rng) };
            ringed(across, down, rng.whole(1, 3))
        }
        2 => {
            let least = rng.pick(&[1, 1, 2]);
            walls(rng, least, reach == Reach::Full)
        }
        3 if i == 19 => ringed([3, 3, 9, 3, 3], [3, 3, 9, 3, 3], 0),
        // More hits than a byte counts.
        3 if i == 27 && reach == Reach::Full => ringed([90, 90, 270, 90, 90], [90, 90, 270, 90, 90], 2),
        3 | 4 => {
            let (w, h) = (rng.whole(14, 60), rng.whole(14, 60));
            scenes::finders(rng, w, h)
        }
        5 => scenes::clear_plate(rng, if reach == Reach::Full { 32 } else { 3 }, 3.5),
        _ => return bit_picture(rng, reach, i % 8 == 7),
    };
    let bits = gray.bits(128);
    ((gray.width, gray.height), bits)
}

/// The most pixels of a picture with as many finders as the table holds.
const CROWDED: usize = 400_000;

/// As many finders as the table holds or form 1, or about as many, or a few. The stored sample has fewer large ones.
fn crowded(turn: u64, rng: &mut Rng, reach: Reach) -> Gray {
    match (reach, turn % 4) {
        (Reach::Full, 1..) => crowd(rng, about_limit(turn), 1, CROWDED),
        (Reach::Sample, 2) => crowd(rng, about_limit(turn / 4), 1, 40_000),
        _ => {
            let count = if rng.one_in(4) { rng.whole(1, 3) } else { about_form_one(turn / 4) };
            finder_grid(count, 12, rng.whole(1, 2), rng.whole(1, 3))
        }
    }
}

/// A finder at a place of a picture, or of any floats.
pub fn any_finder(rng: &mut Rng) -> Finder {
    if rng.one_in(3) {
        return Finder {
            x: rng.any_f32(),
            y: rng.any_f32(),
            module: rng.any_f32(),
            confirmations: rng.next() as u32,
        };
    }
    Finder {
        x: rng.real(0.0, 600.0) as f32,
        y: rng.real(0.0, 600.0) as f32,
        module: rng.real(1.0, 12.0) as f32,
        confirmations: rng.whole(2, 40),
    }
}

/// Finders for a list of a form, now and then one more than it holds; fewer long lists in the stored sample.
fn any_list(rng: &mut Rng, form: u8, reach: Reach) -> Vec<Finder> {
    let most = if form == 1 { FORM_ONE_MOST } else { MAX_FINDERS };
    let rare = if form == 1 || reach == Reach::Full { 2 } else { 16 };
    let count = match rng.below(16 * rare) {
        0 => rng.pick(&[most - 1, most, most + 1]),
        1 => rng.whole(0, most),
        2..=4 => rng.whole(FORM_ONE_MOST - 2, 2 * FORM_ONE_MOST + 2).min(most),
        _ => rng.whole(0, 9),
    };
    any_finders(rng, count)
}

fn any_finders(rng: &mut Rng, count: u32) -> Vec<Finder> {
    (0..count).map(|_| any_finder(rng)).collect()
}

fn any_sides(rng: &mut Rng) -> (u32, u32) {
    let side = |rng: &mut Rng| match rng.below(6) {
        0 => rng.pick(&[0, 1, 4095, 4096, 4097, 65_535]),
        _ => rng.whole(1, 4096),
    };
    (side(rng), side(rng))
}

/// Counts of lists: few, about both forms' limits, and about the largest of a byte.
fn counts() -> Vec<u32> {
    let about = |limit: u32| limit - 1..=limit + 2;
    (0..10).chain(about(FORM_ONE_MOST)).chain(about(256)).chain(about(MAX_FINDERS)).collect()
}

/// Larger ones: that of the longest list in a record, the largest of two bytes, and such as two bytes would lose.
const LARGE: [u32; 7] =
    [1024, (LONGEST as u32 - 7) / 16, 65_535, 65_536, 65_541, 65_536 + MAX_FINDERS, u32::MAX];

/// The first bytes of lists that are cut.
const FORMS: [u8; 5] = [1, 2, 0, 3, 255];

/// Lists of form 1 with every count, in the stored sample with those above, and of form 2 with those, each a byte short,
/// whole, and with one over; then cut ones; then any.
fn read_case(i: u64, rng: &mut Rng, reach: Reach) -> Record {
    let ones = if reach == Reach::Full { (0..256).collect() } else { counts() };
    let ones = ones.into_iter().filter(|n| *n < 256).map(|n| (1, n));
    let twos = counts().into_iter().chain(LARGE).filter(|n| *n < 65_536).map(|n| (2, n));
    let counts: Vec<(u8, u32)> = ones.chain(twos).collect();
    let counted = 3 * counts.len() as u64;
    let bytes = match i.checked_sub(counted) {
        None => {
            let (form, count) = counts[i as usize / 3];
            whole_list(form, count, i % 3, rng, reach)
        }
        Some(k) if k < 9 * 3 * FORMS.len() as u64 => cut_list(k),
        Some(_) => any_bytes(rng, reach),
    };
    Record::new(33).with(|b| {
        b.raw(&bytes);
    })
}

/// A list with the bytes for its count, as far as a record holds them, or a byte fewer or more.
fn whole_list(form: u8, count: u32, way: u64, rng: &mut Rng, reach: Reach) -> Vec<u8> {
    let bytes = list_in(form, rng.whole(1, 4096), rng.whole(1, 4096), &any_finders(rng, count));
    let most = if reach == Reach::Full { LONGEST } else { 20_000 };
    let length = (bytes.len() + way as usize - 1).min(most);
    resized(rng, bytes, length)
}

/// The first 0 to 8 bytes of a list without finders, with a side of 0, one over the limit, or none of these.
fn cut_list(k: u64) -> Vec<u8> {
    let width = [0, 4097, 9][(k / 9 % 3) as usize];
    let mut bytes = list_in(FORMS[(k / 27) as usize], width, 9, &[]);
    bytes.resize((k % 9) as usize, 0);
    bytes
}

fn any_bytes(rng: &mut Rng, reach: Reach) -> Vec<u8> {
    let (width, height) = any_sides(rng);
    let form = rng.pick(&[1, 2]);
    let mut bytes = list_in(form, width, height, &any_list(rng, form, reach));
    match rng.below(10) {
        0 => bytes[0] = rng.byte(),
        1 => {
            let count = rng.pick(&counts()).to_le_bytes();
            let wide = form as usize;
            bytes[5..5 + wide].copy_from_slice(&count[..wide]);
        }
        2 if form == 2 => bytes[6] = rng.byte(),
        3 => {
            let length = about(rng, bytes.len());
            bytes = resized(rng, bytes, length);
        }
        4 => bytes.truncate(rng.below(8) as usize),
        5 => {
            let at = rng.below(bytes.len() as u64) as usize;
            bytes[at] ^= 1 << rng.below(8);
        }
        6 => {
            // The other form's byte, mostly with that form's length.
            bytes[0] = 3 - form;
            let length = if form == 1 { bytes.len() + 1 } else { bytes.len() - 1 };
            if !rng.one_in(4) {
                bytes = resized(rng, bytes, length);
            }
        }
        _ => (),
    }
    bytes
}

/// Each count with room for a byte less than it needs, for all bytes and for one over, then any.
fn write_case(i: u64, rng: &mut Rng, reach: Reach) -> Record {
    let (mut width, mut height) = any_sides(rng);
    if rng.one_in(16) {
        (width, height) = rng.pick(&super::SIDES);
    }
    let mut count = any_list(rng, 2, reach).len() as u32;
    let mut room = about(rng, list_length(2, count as u64) as usize);
    if let Some(written) = counts().into_iter().chain(LARGE).nth(i as usize / 3) {
        (width, height) = (rng.whole(1, 4096), rng.whole(1, 4096));
        count = written;
        room = list_length(2, count.min(MAX_FINDERS) as u64) as usize + (i % 3) as usize - 1;
    } else if rng.one_in(if reach == Reach::Full { 16 } else { 64 }) {
        let large = rng.pick(&LARGE);
        count = rng.pick(&[MAX_FINDERS + 1, MAX_FINDERS + 2, large]);
    }
    // For a count over the limit the record still has the whole table.
    let held = any_finders(rng, count.min(MAX_FINDERS));
    Record::new(34).with(|b| {
        b.u32(width).u32(height).u32(room as u32).u32(count).finders(&held);
    })
}

/// A picture of a marker of 5 × 5 modules, and one with finders, for other cases.
pub fn marker(pitch: u32, x: u32, y: u32, width: u32, height: u32) -> Gray {
    let mut out = Gray::filled(width, height, 255);
    for (dy, dx) in (0..5 * pitch).flat_map(|dy| (0..5 * pitch).map(move |dx| (dy, dx))) {
        let ring = (dx / pitch).abs_diff(2).max((dy / pitch).abs_diff(2));
        if x + dx < width && y + dy < height && ring != 1 {
            out.pixels[((y + dy) * width + x + dx) as usize] = 0;
        }
    }
    out
}
