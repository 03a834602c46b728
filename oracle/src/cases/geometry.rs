//! Linear systems, transforms, and the geometry of three finders.

use super::finders::any_finder;
use crate::record::{Bytes, Record};
use crate::rng::Rng;
use lcr_decode::detect::Finder;
use lcr_decode::transform::transform_of;

pub fn case(function: u8, i: u64, rng: &mut Rng) -> Record {
    let mut out = Bytes::default();
    match function {
        48 => system(i, 6, rng, &mut out),
        49 => system(i, 8, rng, &mut out),
        50 => correspondences(4, rng, &mut out),
        51 => correspondences(3, rng, &mut out),
        52..=55 => through_lens(function, i, rng, &mut out),
        56 => {
            out.finders(&any_three(rng));
        }
        57 => {
            out.finders(&edges(i, rng));
        }
        58 => {
            out.finders(&any_three(rng)).u8(rng.whole(0, 1) as u8);
            out.point(any_point(rng));
            out.u8(any_version(i, rng));
        }
        _ => {
            out.numbers(&any_transform(rng));
            (0..3).for_each(|_| {
                out.u32(any_term(rng).to_bits());
            });
        }
    }
    Record { function, payload: out.0 }
}

pub fn any_version(i: u64, rng: &mut Rng) -> u8 {
    match i % 16 {
        0 => rng.pick(&[0, 1, 64, 65, 255]),
        1 => 1,
        _ => rng.whole(2, 64) as u8,
    }
}

fn any_module(rng: &mut Rng) -> u16 {
    match rng.below(6) {
        0 => rng.pick(&[0, 1, 2, 3, 21, 65_534, 65_535]),
        1 => rng.next() as u16,
        _ => rng.whole(0, 145) as u16,
    }
}

pub fn any_point(rng: &mut Rng) -> (f32, f32) {
    match rng.below(6) {
        0 => (rng.any_f32(), rng.any_f32()),
        1 => (rng.whole(0, 20) as f32 - 4.0, rng.whole(0, 20) as f32 - 4.0),
        _ => (rng.real(-20.0, 700.0) as f32, rng.real(-20.0, 700.0) as f32),
    }
}

/// A square system and its right-hand side: regular, singular or nearly so, any floats.
fn system(i: u64, n: usize, rng: &mut Rng, out: &mut Bytes) {
    let kind = i % 8;
    let mut a: Vec<f64> = (0..n * n)
        .map(|_| match kind {
            0 | 1 => rng.real(-10.0, 10.0),
            2 | 3 => rng.whole(0, 4) as f64 - 2.0,
            4 => rng.pick(&[0.0, 0.0, 0.0, 1.0, -1.0, 1e-12, 1e-13]),
            5 => rng.any_f64(),
            _ => 0.0,
        })
        .collect();
    let mut b: Vec<f64> =
        (0..n).map(|_| if kind == 5 { rng.any_f64() } else { rng.real(-500.0, 500.0) }).collect();
    match kind {
        1 => {
            // Two rows that are equal, or nearly.
            let (r, s) = (rng.below(n as u64) as usize, rng.below(n as u64) as usize);
            let by = rng.pick(&[0.0, 0.0, 1e-13, 1e-12, 2e-12, 1e-11]);
            for k in 0..n {
                a[r * n + k] = a[s * n + k];
            }
            a[r * n + rng.below(n as u64) as usize] += by;
        }
        6 => {
            // A permutation, scaled about the bound of a pivot.
            for r in 0..n {
                let scale = rng.pick(&[1.0, 1e-12, 0.999e-12, 1.001e-12, -1e-12, 1e300, f64::MIN_POSITIVE]);
                a[r * n + (r * 5 + i as usize) % n] = scale;
            }
        }
        7 => {
            // The system of a transform.
            let points = 3 + (n == 8) as usize;
            for k in 0..points {
                let (u, v) = (any_point(rng).0 as f64, any_point(rng).1 as f64);
                let (x, y) = (any_point(rng).0 as f64, any_point(rng).1 as f64);
                let rows =
                    [[u, v, 1.0, 0.0, 0.0, 0.0, -x * u, -x * v], [0.0, 0.0, 0.0, u, v, 1.0, -y * u, -y * v]];
                for (r, row) in rows.iter().enumerate() {
                    let at = (2 * k + r) * n;
                    a[at..at + n].copy_from_slice(&row[..n]);
                    b[2 * k + r] = [x, y][r];
                }
            }
        }
        _ => (),
    }
    out.numbers(&a).numbers(&b);
}

/// Module places and the pixels they go to: of a plate, degenerate, or any.
fn correspondences(n: usize, rng: &mut Rng, out: &mut Bytes) {
    let side = (17 + 4 * rng.whole(1, 64)) as f32;
    let mut src = vec![(3.5, 3.5), (side - 3.5, 3.5), (3.5, side - 3.5), (side - 6.5, side - 6.5)];
    let (x, y) = any_point(rng);
    let m = rng.real(0.5, 12.0) as f32;
    let jitter = |rng: &mut Rng| rng.real(-3.0, 3.0) as f32;
    let mut dst: Vec<(f32, f32)> =
        src.iter().map(|s| (x + s.0 * m + jitter(rng), y + s.1 * m + jitter(rng))).collect();
    match rng.below(6) {
        0 => src.iter_mut().for_each(|p| *p = any_point(rng)),
        1 => dst.iter_mut().for_each(|p| *p = any_point(rng)),
        2 => {
            // Two that coincide, in one of both.
            let (i, j) = (rng.below(n as u64) as usize, rng.below(n as u64) as usize);
            if rng.one_in(2) { src[i] = src[j] } else { dst[i] = dst[j] }
        }
        3 => {
            // On one line.
            let line = |k: usize, d: (f32, f32)| (k as f32 * d.0 + 3.5, k as f32 * d.1 + 3.5);
            let d = (rng.whole(0, 3) as f32, rng.whole(0, 3) as f32);
            let list = if rng.one_in(2) { &mut src } else { &mut dst };
            list.iter_mut().enumerate().for_each(|(k, p)| *p = line(k, d));
        }
        _ => (),
    }
    for list in [src, dst] {
        list.iter().take(n).for_each(|p| {
            out.point(*p);
        });
    }
}

/// Eight numbers: of a plate's view, affine, or any.
pub fn any_transform(rng: &mut Rng) -> [f64; 8] {
    if rng.one_in(5) {
        return core::array::from_fn(|_| rng.any_f64());
    }
    let (p, turn) = (rng.real(0.5, 12.0), rng.real(-3.2, 3.2));
    let turn = if rng.one_in(2) { 0.0 } else { turn };
    let (x, y) = (rng.real(-20.0, 600.0), rng.real(-20.0, 600.0));
    let bend = |rng: &mut Rng| match rng.below(4) {
        0 => rng.real(-0.004, 0.004),
        1 => rng.pick(&[-0.5, -0.25, -0.125, 1e-9, -1e-9]),
        _ => 0.0,
    };
    let mut m = [p * turn.cos(), -p * turn.sin(), x, p * turn.sin(), p * turn.cos(), y, bend(rng), bend(rng)];
    if rng.one_in(12) {
        m[rng.below(8) as usize] = rng.any_f64();
    }
    m
}

/// A transform with lens terms and the modules that it is asked for.
fn through_lens(function: u8, i: u64, rng: &mut Rng, out: &mut Bytes) {
    let (x, y) = (any_module(rng), any_module(rng));
    let far = x.saturating_sub(2);
    let centre = |x: u16, y: u16| (x as f32 + 0.5, y as f32 + 0.5);
    let (mut m, mut at) = match function {
        52 => applied(rng),
        55 => (any_transform(rng), centre(rng.pick(&[0, far]), rng.pick(&[0, far]))),
        _ => (any_transform(rng), centre(x, y)),
    };
    if i % LENSES == ZERO_DIVISOR {
        // Even numbers put the centre of a module at a whole pixel.
        m = core::array::from_fn(|k| if k < 6 { 2.0 * rng.whole(0, 20) as f64 - 20.0 } else { 0.0 });
        at = if function == 52 { centre(rng.whole(0, 145) as u16, rng.whole(0, 145) as u16) } else { at };
    }
    let lens = any_lens(i, rng, pixel_of(m, at));
    out.numbers(&m).bits(&lens);
    match function {
        52 => out.point(at),
        55 => out.u16(x),
        _ => out.u16(x).u16(y),
    };
}

/// Where a transform without lens terms puts a module place.
pub fn pixel_of(m: [f64; 8], at: (f32, f32)) -> (f64, f64) {
    let (x, y) = transform_of(m).apply(at.0, at.1);
    (x as f64, y as f64)
}

/// How many kinds of lens terms there are, and the one with a divisor of exactly 0.
const LENSES: u64 = 16;
const ZERO_DIVISOR: u64 = 7;

/// Lens terms of a kind: centre x, centre y, strength. Everyday and strong ones, and a divisor of 0, are made for the
/// pixel that the transform reaches without them, a whole one for the divisor.
pub fn any_lens(kind: u64, rng: &mut Rng, pixel: (f64, f64)) -> [f64; 3] {
    let [cx, cy] = any_centre(rng, pixel);
    match kind % LENSES {
        0 => [cx, cy, 0.0],
        1 => [cx, cy, -0.0],
        2 => [cx, cy, f64::from_bits(rng.pick(&[0x7ff8 << 48, 0xfff8 << 48, (0x7ff0 << 48) + 1]))],
        3 => [cx, cy, rng.pick(&[f64::INFINITY, f64::NEG_INFINITY])],
        4 => [cx, cy, f64::from_bits(rng.next() & 0x800f_ffff_ffff_ffff)],
        5 => core::array::from_fn(|_| f64::from_bits(rng.next())),
        6 => core::array::from_fn(|_| rng.any_f64()),
        ZERO_DIVISOR => {
            // An offset whose square is a power of two.
            let (a, b) = rng.pick(&[(1.0, 0.0), (0.0, -1.0), (1.0, 1.0), (-1.0, 1.0)]);
            let d = 2f64.powi(rng.whole(0, 10) as i32);
            [pixel.0 - a * d, pixel.1 - b * d, -1.0 / (a * a * d * d + b * b * d * d)]
        }
        8 | 9 => bent_lens(rng, pixel, 1.0, 100.0),
        _ => bent_lens(rng, pixel, 0.001, 0.5),
    }
}

/// A centre about a pixel, in a picture, at 0, or of any floats.
pub fn any_centre(rng: &mut Rng, pixel: (f64, f64)) -> [f64; 2] {
    match rng.below(6) {
        0 => [0.0; 2],
        1 => [rng.real(0.0, 600.0), rng.real(0.0, 600.0)],
        2 => core::array::from_fn(|_| rng.pick(&[f64::NAN, f64::INFINITY, -1e300, 1e160, -0.0, 250.0])),
        3 => core::array::from_fn(|_| rng.any_f64()),
        _ => [pixel.0 + rng.real(-400.0, 400.0), pixel.1 + rng.real(-400.0, 400.0)],
    }
}

/// Lens terms with a strength × offset² of this size at a pixel, of either sign; every second time of f32.
fn bent_lens(rng: &mut Rng, pixel: (f64, f64), least: f64, most: f64) -> [f64; 3] {
    let bend = rng.pick(&[-1.0, 1.0]) * least * (most / least).powf(rng.real(0.0, 1.0));
    let (dx, dy) = (rng.real(-400.0, 400.0), rng.real(-400.0, 400.0));
    let lens = [pixel.0 - dx, pixel.1 - dy, bend / (dx * dx + dy * dy)];
    if rng.one_in(2) { lens.map(|v| v as f32 as f64) } else { lens }
}

/// A lens term as it is handed over: of a picture, a weak strength, subnormal, no number or infinite, any float.
fn any_term(rng: &mut Rng) -> f32 {
    const ODD: [u32; 6] = [0x7fc0_0000, 0xffc0_0001, 0x7f80_0001, 0x7f80_0000, 0xff80_0000, 1 << 31];
    match rng.below(8) {
        0..=2 => rng.real(-100.0, 4200.0) as f32,
        3 => rng.real(-1e-5, 1e-5) as f32,
        4 => f32::from_bits(rng.next() as u32 & 0x807f_ffff),
        5 => f32::from_bits(rng.pick(&ODD)),
        _ => rng.any_f32(),
    }
}

/// A transform and a point, now and then on its horizon.
fn applied(rng: &mut Rng) -> ([f64; 8], (f32, f32)) {
    let mut m = any_transform(rng);
    let (mut u, mut v) = (rng.real(-4.0, 150.0) as f32, rng.real(-4.0, 150.0) as f32);
    match rng.below(5) {
        0 => (u, v) = any_point(rng),
        1 => {
            u = rng.whole(1, 64) as f32;
            v = 0.0;
            let off = rng.pick(&[0.0, 1e-9, -1e-9, 0.9e-9, 1.1e-9, 1e-12]);
            m[6] = (off - 1.0) / u as f64;
        }
        _ => (),
    }
    (m, (u, v))
}

/// Three finders: corners of a plate in any order, ties, on one line, any.
pub fn any_three(rng: &mut Rng) -> [Finder; 3] {
    let kind = rng.below(6);
    let mut f: [Finder; 3] = core::array::from_fn(|_| any_finder(rng));
    let places: [(f32, f32); 3] = match kind {
        0 => return f,
        1 => core::array::from_fn(|_| (rng.whole(0, 4) as f32, rng.whole(0, 4) as f32)),
        2 => {
            let d = (rng.whole(0, 9) as f32, rng.whole(0, 9) as f32);
            core::array::from_fn(|k| (k as f32 * d.0, k as f32 * d.1))
        }
        _ => plate_corners(rng),
    };
    for (f, p) in f.iter_mut().zip(places) {
        *f = Finder { x: p.0, y: p.1, module: rng.real(1.0, 9.0) as f32, confirmations: rng.whole(2, 30) };
    }
    f
}

/// Centres of a plate's three finders, turned, tilted a little, in any order.
fn plate_corners(rng: &mut Rng) -> [(f32, f32); 3] {
    let (x, y, leg) = (rng.real(0.0, 400.0), rng.real(0.0, 400.0), rng.real(10.0, 500.0));
    let (sin, cos) = rng.real(-3.2, 3.2).sin_cos();
    let other = leg * rng.real(0.6, 1.7);
    let bend = rng.real(-0.3, 0.3) * leg;
    let mut out = [
        (x, y),
        (x + leg * cos, y + leg * sin),
        (x - other * sin + bend * cos, y + other * cos + bend * sin),
    ]
    .map(|p| (p.0 as f32, p.1 as f32));
    out.rotate_left(rng.below(3) as usize);
    if rng.one_in(2) {
        out.swap(0, 1);
    }
    out
}

/// Three finders whose legs are about a whole number of modules: the version's boundaries.
fn edges(i: u64, rng: &mut Rng) -> [Finder; 3] {
    if i % 8 == 0 {
        return any_three(rng);
    }
    let m = if rng.one_in(2) { rng.whole(1, 12) as f32 } else { rng.real(0.5, 12.0) as f32 };
    // Document 01's sides 19 and 23 are halves between versions.
    let side = match rng.below(4) {
        0 => rng.pick(&[19.0, 23.0, 27.0, 17.0, 15.0, 7.0, 143.0, 147.0, 151.0]),
        1 => rng.whole(0, 200) as f32,
        2 => rng.whole(0, 60) as f32 * 4.0 + 19.0 + rng.pick(&[0.0, -1e-5, 1e-5, -1e-3, 1e-3]),
        _ => 7.0 + 2f64.powf(rng.real(0.0, 34.0)) as f32,
    };
    let leg = (side - 7.0) * m;
    let at = |x: f32, y: f32| Finder { x, y, module: m, confirmations: 5 };
    let mut f = [at(0.0, 0.0), at(leg, 0.0), at(0.0, leg)];
    match i % 8 {
        1 => f[rng.below(3) as usize].module = rng.any_f32(),
        2 => {
            f[rng.below(3) as usize].module =
                rng.pick(&[0.0, -0.0, -1.0, 1e-45, 1e-38, f32::NAN, f32::INFINITY])
        }
        3 => f[rng.below(3) as usize].x = rng.any_f32(),
        4 if rng.one_in(4) => {
            // About 4 × the top of i32, in modules.
            let far = rng.pick(&[8.5e9f32, 8.589_934e9, 8.6e9, 8.589_935e9, 1e12, 1e38]);
            f.iter_mut().for_each(|f| f.module = 1.0);
            f[1].x = far;
            f[2].y = far;
        }
        _ => (),
    }
    f
}
