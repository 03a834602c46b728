//! Pictures with about as many finders as the table holds (document 02, N9): grids of drawn ones, lattices in which every
//! square is one, and lines by chance. In some of them many hits join.

use super::scenes::clear_plate;
use crate::picture::{Gray, finder_grid, grid_of, ringed};
use crate::rng::Rng;
use crate::rules::{FORM_ONE_MOST, MAX_FINDERS};
use lcr_decode::detect::all_held;
use lcr_decode::image::{binarize, binary_of};

/// A number of finders at the limit or beside it, each in its turn.
pub fn about_limit(turn: u64) -> u32 {
    const BESIDE: [i32; 11] = [0, 1, -1, 2, 0, 1, -1, 2, -2, 26, 200];
    MAX_FINDERS.saturating_add_signed(BESIDE[turn as usize % BESIDE.len()])
}

/// The same for form 1's limit, and about the largest of a byte.
pub fn about_form_one(turn: u64) -> u32 {
    const MORE: [i32; 10] = [0, 1, -1, 2, 0, 1, -2, 127, 128, 129];
    FORM_ONE_MOST.saturating_add_signed(MORE[turn as usize % MORE.len()])
}

/// The limit, or form 1's in every fourth turn.
pub fn a_limit(turn: u64) -> u32 {
    if turn % 4 == 3 { FORM_ONE_MOST } else { MAX_FINDERS }
}

/// Fewer pixels are left to the lattices with the fewest.
const FEW: usize = 60_000;

/// So many finders in a picture of at most so many pixels, for a search that follows denoising where `least` is 2.
pub fn crowd(rng: &mut Rng, count: u32, least: u32, most: usize) -> Gray {
    let kind = if most < FEW { rng.whole(9, 11) } else { rng.whole(0, 11) };
    let gray = match kind {
        0..=2 => grid(rng, count, least),
        3..=5 => lattice(rng, count, least),
        6 | 7 => by_chance(rng, count, least),
        8 => joining(rng, count, least),
        9 => around_a_plate(rng, count, least),
        _ => narrowest(rng, count, least),
    };
    match gray.pixels.len() <= most {
        true if rng.one_in(4) => gray.transposed(),
        true => gray,
        false => crowd(rng, count, least, most),
    }
}

/// Drawn finders in rows.
fn grid(rng: &mut Rng, count: u32, least: u32) -> Gray {
    let columns = rng.whole(12, 50);
    if rng.one_in(2) {
        let small = ringed([2, 2, 4, 2, 2], [2, 2, 4, 2, 2], 0);
        return grid_of(&small, count, columns, 2);
    }
    finder_grid(count, columns, rng.whole(least, least + 1), rng.whole(least, least + 2))
}

/// Dark squares, two to three times as wide as their gaps: with the runs of its neighbours each is a finder, but for
/// those at the rim.
fn squares(columns: u32, rows: u32, dark: u32, light: u32) -> Gray {
    grid_of(&Gray::filled(dark, dark, 0), (columns + 2) * (rows + 2), columns + 2, light)
}

/// Lines a pixel wide, four pixels apart. Denoising leaves a square of three pixels at each crossing.
fn net(columns: u32, rows: u32) -> Gray {
    let lines = |n: u32| (0..4 * (n + 4) - 3).map(|at| at % 4 == 0).collect::<Vec<bool>>();
    crossing(&lines(columns), &lines(rows), |x, y| x || y)
}

/// A picture by a line across and one down.
fn crossing(across: &[bool], down: &[bool], dark: impl Fn(bool, bool) -> bool) -> Gray {
    let pixel = |y: bool| across.iter().map(move |x| (*x, y));
    let pixels = down.iter().flat_map(|y| pixel(*y)).map(|(x, y)| if dark(x, y) { 0 } else { 255 });
    Gray { width: across.len() as u32, height: down.len() as u32, pixels: pixels.collect() }
}

fn lattice(rng: &mut Rng, count: u32, least: u32) -> Gray {
    let (dark, light) = rng.pick(&[(3, 1), (5, 2), (6, 2), (7, 3)]);
    if light < least {
        return lattice(rng, count, least);
    }
    in_rows(rng, count, least, |columns, rows| squares(columns, rows, dark, light))
}

/// The lattice with the fewest pixels.
fn narrowest(rng: &mut Rng, count: u32, least: u32) -> Gray {
    match least {
        1 => in_rows(rng, count, least, |columns, rows| squares(columns, rows, 3, 1)),
        _ => in_rows(rng, count, least, net),
    }
}

/// Whole rows of a lattice, and drawn finders under them for those that are left.
fn in_rows(rng: &mut Rng, count: u32, least: u32, lattice: impl Fn(u32, u32) -> Gray) -> Gray {
    let columns = rng.whole(4, 40).min(count);
    with_more(rng, &lattice(columns, count / columns), count % columns, least)
}

/// Drawn finders under a picture. Without denoising some are crosses at places where they are found just once.
fn with_more(rng: &mut Rng, gray: &Gray, count: u32, least: u32) -> Gray {
    if count == 0 {
        return gray.clone();
    }
    let columns = (gray.width / (8 * least)).clamp(1, count);
    if least == 1 && rng.one_in(2) {
        let odd = gray.height % 2;
        return over(gray, &grid_of(&cross(), count, columns, 1), 9 - odd);
    }
    over(gray, &finder_grid(count, columns, least, least), 8 * least)
}

/// A finder on one row and on one column.
fn cross() -> Gray {
    let mut out = Gray::filled(7, 7, 255);
    out.paste(&Gray::filled(3, 3, 0), 2, 2);
    for (x, y) in [(0, 3), (6, 3), (3, 0), (3, 6)] {
        out.paste(&Gray::filled(1, 1, 0), x, y);
    }
    out
}

/// One picture over another, light between them.
fn over(a: &Gray, b: &Gray, gap: u32) -> Gray {
    let mut out = Gray::filled(a.width.max(b.width), a.height + gap + b.height, 255);
    out.paste(a, 0, 0);
    out.paste(b, 0, a.height + gap);
    out
}

/// The finders that a search adds to its list.
fn held(gray: &Gray, least: u32) -> u32 {
    let bin = match least {
        1 => binary_of(gray.width, gray.height, &gray.bits(128)),
        _ => binarize(&gray.pixels, gray.width, gray.height).denoised(),
    };
    all_held(&bin).len() as u32
}

/// As much of a picture's left part as has no more finders, and drawn ones under it for those that are left.
fn trimmed(rng: &mut Rng, gray: &Gray, count: u32, least: u32) -> Gray {
    let part = |width: u32| gray.part(0, 0, width, gray.height);
    let (mut low, mut high) = (1, gray.width + 1);
    while high - low > 1 {
        let middle = (low + high) / 2;
        if held(&part(middle), least) <= count {
            low = middle;
        } else {
            high = middle;
        }
    }
    let left = part(low);
    let missing = count.saturating_sub(held(&left, least));
    with_more(rng, &left, missing.min(64), least)
}

/// Lines whose runs mostly fit a lattice, with specks.
fn by_chance(rng: &mut Rng, count: u32, least: u32) -> Gray {
    // Squares, or lines that denoising makes squares of.
    let (dark, light, long) = match least {
        1 => ([3, 3, 3, 3, 3, 3, 3, 4], [1, 1, 1, 1, 1, 1, 1, 2], rng.whole(240, 300)),
        _ => ([1; 8], [3, 3, 3, 3, 3, 3, 3, 4], rng.whole(220, 280)),
    };
    let line = |rng: &mut Rng| {
        let mut out: Vec<bool> = Vec::new();
        while out.len() < long as usize {
            let next = out.last() == Some(&false);
            let run: u32 = rng.pick(if next { &dark } else { &light });
            out.extend(vec![next; run as usize]);
        }
        out
    };
    let (across, down) = (line(rng), line(rng));
    let mut out = crossing(&across, &down, |x, y| if least == 1 { x && y } else { x || y });
    for _ in 0..rng.pick(&[0, 10, 100]) {
        let at = rng.below(out.pixels.len() as u64) as usize;
        out.pixels[at] ^= 255;
    }
    trimmed(rng, &out, count, least)
}

/// A lattice with large finders over it. In the corners of their cores is a lattice again, whose hits join to the large
/// ones, until these have shrunk.
fn joining(rng: &mut Rng, count: u32, least: u32) -> Gray {
    let small = |columns, rows| if least == 1 { squares(columns, rows, 3, 1) } else { net(columns, rows) };
    let mut out = small(140, 54);
    for _ in 0..rng.whole(1, 2) {
        let pitch = rng.whole(12, 24);
        let runs = [1, 1, 3, 1, 1].map(|k| k * pitch);
        let mut large = ringed(runs, runs, pitch);
        let corner = small(6, 6).part(0, 0, pitch, pitch);
        for (x, y) in [(3, 3), (5, 3), (3, 5), (5, 5)] {
            if !rng.one_in(4) {
                large.paste(&corner, x * pitch, y * pitch);
            }
        }
        let (x, y) = (rng.whole(0, 100), rng.whole(0, out.height - large.height));
        out.paste(&large, x, y);
    }
    trimmed(rng, &out, count, least)
}

/// A plate that is likely to be found, and a lattice for the rest of the table.
pub fn around_a_plate(rng: &mut Rng, count: u32, least: u32) -> Gray {
    let plate = clear_plate(rng, 2, 3.0);
    let rest = count.saturating_sub(held(&plate, least)).max(1);
    let lattice = narrowest(rng, rest, least);
    over(&lattice, &plate, 8 * least)
}
