//! Stretched finders and tyre walls (document 02, N7): an outer dark run of a confirmation is about the limit or far
//! over it, and the others are long enough for the five to pass as they are counted.

use super::crowds::crowd;
use super::finders::marker;
use super::scenes::clear_plate;
use crate::picture::{Gray, ringed};
use crate::rng::Rng;
use crate::search::limit_of;
use core::ops::RangeInclusive;
use lcr_decode::detect::match_of;

/// A dark thing that a search may take for a finder, and the pixel in which its core has its centre.
struct Wall {
    gray: Gray,
    centre: (u32, u32),
}

impl Wall {
    fn transposed(self) -> Wall {
        Wall { gray: self.gray.transposed(), centre: (self.centre.1, self.centre.0) }
    }
}

/// What the walls of a picture have in common.
#[derive(Copy, Clone)]
struct Size {
    /// The least run of a finder that is not stretched. Two pixels or more outlast denoising.
    least: u32,
    /// The least module and the greatest, about.
    modules: (f64, f64),
    /// Pictures may have far more than a few thousand pixels.
    large: bool,
}

impl Size {
    fn new(rng: &mut Rng, least: u32, large: bool) -> Size {
        let low = least as f64;
        let more = if large && rng.one_in(4) { 5.0 } else { 0.6 };
        Size { least, modules: (low, low + more), large }
    }

    /// Five runs that pass, about 1 : 1 : 3 : 1 : 1.
    fn passing(self, rng: &mut Rng) -> [u32; 5] {
        let module = rng.real(self.modules.0, self.modules.1);
        let spread = rng.pick(&[0.0, 0.2, 0.5]);
        loop {
            let near = |k: f64| (module * k * rng.real(1.0 - spread, 1.0 + spread)).round() as u32;
            let runs = [1.0, 1.0, 3.0, 1.0, 1.0].map(near).map(|r| r.max(self.least));
            if match_of(runs).is_some() {
                return runs;
            }
        }
    }
}

/// The limit in the confirmations of a line with these runs.
fn limit_for(runs: [u32; 5]) -> u32 {
    match_of(runs).map(limit_of).expect("five runs that pass")
}

/// Where the core starts, and the pixel of its centre.
fn core_of(runs: [u32; 5]) -> (u32, u32) {
    let start = runs[0] + runs[1];
    (start, start + runs[2] / 2)
}

/// Five runs that pass as they are counted, one outer dark run or both about the limit, or `far` over it.
fn stretched(rng: &mut Rng, limit: u32, far: bool) -> [u32; 5] {
    let most = if far { limit } else { limit * 3 / 4 };
    loop {
        let long = |rng: &mut Rng| match rng.below(if far { 8 } else { 6 }) {
            0 => limit - 1,
            1 | 2 => limit,
            3 | 4 => limit + 1,
            5 => limit + 2,
            6 => limit + rng.whole(1, limit),
            _ => 3 * limit + rng.whole(0, 9),
        };
        let some = |rng: &mut Rng| rng.whole(limit / 3, most);
        let both = rng.one_in(4);
        let end = if both { long(rng) } else { some(rng) };
        let mut runs = [long(rng), some(rng), rng.whole(limit * 4 / 5, 2 * most), some(rng), end];
        let [a, b, c, d, e] = runs;
        if match_of([a.min(limit), b, c, d, e.min(limit)]).is_some() {
            if rng.one_in(2) {
                runs.reverse();
            }
            return runs;
        }
    }
}

/// A finder far longer down than across. What goes over the limit may be no more than a bar on the centre's column.
fn tall(rng: &mut Rng, size: Size, far: bool) -> Wall {
    let across = size.passing(rng);
    let limit = limit_for(across);
    let down = stretched(rng, limit, far);
    let (x, y) = (core_of(across).1, core_of(down).1);
    let mut gray = ringed(across, down, 0);
    if rng.one_in(3) {
        let (over, under) = (down[0].saturating_sub(limit), down[4].saturating_sub(limit));
        let width = size.least - 1 + rng.whole(0, 1);
        let kept = over..gray.height - under;
        for (i, v) in gray.pixels.iter_mut().enumerate() {
            let (column, row) = (i as u32 % gray.width, i as u32 / gray.width);
            if !kept.contains(&row) && column.abs_diff(x) > width {
                *v = 255;
            }
        }
    }
    Wall { gray, centre: (x, y) }
}

/// A finder with a line of other runs over it, on the rows given; pixel `at` of the line is on the finder's centre.
fn crossed(across: [u32; 5], down: [u32; 5], line: [u32; 5], at: u32, rows: RangeInclusive<u32>) -> Wall {
    let total = |runs: [u32; 5]| runs.iter().sum::<u32>();
    let (x, y) = (core_of(across).1, core_of(down).1);
    let (left, right) = (at.max(x), (total(line) - at).max(total(across) - x));
    let mut gray = Gray::filled(left + right, total(down), 255);
    gray.paste(&ringed(across, down, 0), left - x, 0);
    let line = ringed(line, [0, 0, 1, 0, 0], 0);
    rows.for_each(|row| gray.paste(&line, left - at, row));
    Wall { gray, centre: (left, y) }
}

/// A finder whose row through the centre, or the rows about it, have the long runs: those of the second confirmation.
fn banded(rng: &mut Rng, size: Size, far: bool) -> Wall {
    let (across, mut down) = (size.passing(rng), size.passing(rng));
    // So that rows are left beside the band.
    down[2] += size.least - 1;
    let line = stretched(rng, limit_for(across), far);
    let at = core_of(line).1 + rng.whole(0, 2) - 1;
    let (y, more) = (core_of(down).1, size.least - 1);
    crossed(across, down, line, at, y - more..=y + rng.whole(0, more))
}

/// A finder that is not stretched.
fn even(rng: &mut Rng, size: Size) -> Wall {
    let runs = size.passing(rng);
    let middle = core_of(runs).1;
    Wall { gray: ringed(runs, runs, 0), centre: (middle, middle) }
}

fn wall(rng: &mut Rng, size: Size, far: bool) -> Wall {
    let wall = if rng.one_in(3) { banded(rng, size, far) } else { tall(rng, size, far) };
    if rng.one_in(2) { wall.transposed() } else { wall }
}

/// A picture with walls. The finders' runs have at least so many pixels; large ones may have modules of several more.
pub fn walls(rng: &mut Rng, least: u32, large: bool) -> Gray {
    let size = Size::new(rng, least, large);
    match rng.below(8) {
        0..=3 => alone(rng, size),
        4 => in_a_row(rng, size),
        5 | 6 => in_a_right_angle(rng, size),
        _ => beside_a_plate(rng, size),
    }
}

/// One in which walls may be taken for a plate's finders.
pub fn false_plate(rng: &mut Rng, least: u32, large: bool) -> Gray {
    let size = Size::new(rng, least, large);
    if rng.one_in(4) { beside_a_plate(rng, size) } else { in_a_right_angle(rng, size) }
}

/// The picture's edge or light pixels on every side.
fn alone(rng: &mut Rng, size: Size) -> Gray {
    let border = |rng: &mut Rng| [rng.pick(&[0, 0, 1, 2]), rng.pick(&[0, 0, 1, 2])];
    let (x, y) = (border(rng), border(rng));
    wall(rng, size, true).gray.framed(x, y)
}

/// Side by side, with finders that are not stretched between them.
fn in_a_row(rng: &mut Rng, size: Size) -> Gray {
    let count = rng.whole(2, 4);
    let some = |_| if rng.one_in(3) { even(rng, size) } else { wall(rng, size, size.large) };
    let walls: Vec<Wall> = (0..count).map(some).collect();
    let gap = rng.whole(1, 3);
    let height = walls.iter().map(|w| w.gray.height).max().unwrap();
    let mut out = Gray::filled(walls.iter().map(|w| w.gray.width + gap).sum(), height + rng.whole(0, 2), 255);
    let mut x = 0;
    for w in &walls {
        out.paste(&w.gray, x, rng.whole(0, out.height - w.gray.height));
        x += w.gray.width + gap;
    }
    out
}

/// The centres as those of a plate's finders: of a triple that is cut, of one that is not, or mixed.
fn in_a_right_angle(rng: &mut Rng, size: Size) -> Gray {
    let evens = rng.pick(&[0, 0, 1, 2]);
    let walls = [0, 1, 2].map(|k| match k < evens {
        true => even(rng, size),
        false if rng.one_in(4) => banded(rng, size, size.large).transposed(),
        false => tall(rng, size, size.large),
    });
    // Any of them is at the corner.
    let corner = rng.below(3) as usize;
    let [a, b, c] = [0, 1, 2].map(|k| &walls[(k + corner) % 3]);
    let most = |of: fn(&Wall) -> u32| walls.iter().map(of).max().unwrap();
    let (left, top) = (most(|w| w.centre.0), most(|w| w.centre.1));
    let (right, under) = (most(|w| w.gray.width - w.centre.0), most(|w| w.gray.height - w.centre.1));
    let upright = top + under + rng.whole(2, 5);
    let level = (left + right + 2).max((upright as f64 / rng.real(1.0, 1.5)) as u32);
    let mut out = Gray::filled(left + level + right, top + upright + under, 255);
    for (w, x, y) in [(a, left, top), (b, left + level, top), (c, left, top + upright)] {
        out.paste(&w.gray, x - w.centre.0, y - w.centre.1);
    }
    if rng.one_in(2) {
        let side = 5 * size.least;
        out.paste(&marker(size.least, 0, 0, side, side), left + level - side, top + upright - side);
    }
    if rng.one_in(2) { out.transposed() } else { out }
}

/// Right of a plate or under it.
fn beside_a_plate(rng: &mut Rng, size: Size) -> Gray {
    let plate = if size.large { clear_plate(rng, 3, 4.0) } else { clear_plate(rng, 1, 2.4) };
    let wall = wall(rng, size, size.large).gray;
    let gap = rng.whole(2, 6);
    let mut out = plate.framed([0, wall.width + gap], [0, wall.height.saturating_sub(plate.height)]);
    out.paste(&wall, plate.width + gap, rng.whole(0, out.height - wall.height));
    if rng.one_in(2) { out.transposed() } else { out }
}

/// About so many finders, in at most so many pixels, beside walls of which some count and some are cut.
pub fn full_table(rng: &mut Rng, full: u32, least: u32, most: usize) -> Gray {
    let size = Size { least, modules: (least as f64, least as f64), large: false };
    let count = rng.whole(full - 2, full + 2);
    let table = crowd(rng, count, least, most);
    let mut out = table.framed([0, 9 * least], [0, 0]);
    let mut y = 0;
    for _ in 0..rng.whole(1, 3) {
        let wall = tall(rng, size, false).gray;
        if wall.width <= 7 * least && y + wall.height <= out.height {
            out.paste(&wall, table.width + least, y);
            y += wall.height + 2;
        }
    }
    match rng.one_in(2) {
        _ if out.pixels.len() > most => full_table(rng, full, least, most),
        true => out.transposed(),
        false => out,
    }
}

/// The smallest pictures in which a hit is cut, 7 × 34 and 34 × 7, in the first confirmation and in the second: a run of
/// ten is counted as nine. Then those with one dark pixel fewer, so that it ends by a light pixel or by the edge.
pub fn smallest(i: u64) -> Option<Gray> {
    let (one, ten, nine) = ([1, 1, 3, 1, 1], [10, 5, 9, 5, 5], [9, 5, 9, 5, 5]);
    let across = |line: [u32; 5]| crossed(one, one, line, core_of(line).1, 3..=3).gray;
    let gray = match i / 2 {
        0 => ringed(one, ten, 0),
        1 => ringed(one, nine, 0).framed([0, 0], [1, 0]),
        2 => ringed(one, nine, 0),
        3 => across(ten),
        4 => across(nine).framed([1, 0], [0, 0]),
        5 => across(nine),
        _ => return None,
    };
    Some(if i % 2 == 0 { gray } else { gray.transposed() })
}
