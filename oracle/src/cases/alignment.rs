//! The search for the alignment marker.

use super::finders::marker;
use super::geometry::{any_centre, any_lens, any_point, any_three, any_transform, any_version, pixel_of};
use super::{Reach, bit_picture, resized};
use crate::picture::Gray;
use crate::plate::{View, render};
use crate::record::Record;
use crate::rng::Rng;
use lcr_decode::detect::{Finder, build_transform};
use lcr_decode::transform::numbers_of;

pub fn case(function: u8, i: u64, rng: &mut Rng, reach: Reach) -> Record {
    match function {
        64 => row_case(i, rng, reach),
        _ => pattern_case(function, i, rng, reach),
    }
}

/// A module length about the given one, or any float.
fn about_module(rng: &mut Rng, m: f32) -> f32 {
    match rng.below(10) {
        0 => rng.any_f32(),
        1 => rng.pick(&[0.0, 1.0, 1.2, 1e3, 1e4, 2e5, -1.0, f32::NAN]),
        2 => m * rng.pick(&[0.5, 1.7, 1.0 / 1.7, 1.0 / 0.3]),
        _ => m * rng.real(0.7, 1.4) as f32,
    }
}

fn row_case(i: u64, rng: &mut Rng, reach: Reach) -> Record {
    let (sides, bits, place, pitch) = match i % 4 {
        0 | 1 => {
            let pitch = rng.whole(1, 5);
            let (w, h) = (rng.whole(5 * pitch, 48), rng.whole(5 * pitch, 48));
            let (x, y) = (rng.whole(0, w - 1), rng.whole(0, h - 1));
            let mut gray = marker(pitch, x, y, w, h);
            if rng.one_in(3) {
                gray = gray.damaged(rng);
            }
            let middle = pitch as f32 * 2.5;
            ((w, h), gray.bits(128), (x as f32 + middle, y as f32 + middle), pitch as f32)
        }
        2 => {
            // Rows of light and dark runs of about one length, confirmed down everywhere.
            let (w, h, p) = (rng.whole(3, 48), rng.whole(3, 48), rng.whole(1, 4));
            let gray = Gray::squares(rng, w, h, p, &[0, 255, 255]);
            ((w, h), gray.bits(128), (w as f32 / 2.0, h as f32 / 2.0), p as f32)
        }
        _ => {
            let spoilt = i % 16 == 3;
            let (sides, bits) = bit_picture(rng, reach, spoilt);
            let place = (sides.0.min(999) as f32 * 0.7, sides.1.min(999) as f32 * 0.7);
            (sides, bits, place, 2.0)
        }
    };
    let predicted = match rng.below(6) {
        0 => any_point(rng),
        1 => (rng.real(-40.0, 90.0) as f32, rng.real(-40.0, 90.0) as f32),
        2 => (rng.pick(&[-1e9, -2147483648.0, 2147483600.0, 3e9, f32::NAN]), place.1),
        _ => (place.0 + rng.real(-4.0, 4.0) as f32, place.1 + rng.real(-4.0, 4.0) as f32),
    };
    let module = about_module(rng, pitch);
    Record::new(64).with(|b| {
        b.u32(sides.0).u32(sides.1).point(predicted).f32(module).raw(&bits);
    })
}

/// A plate with the finders that its view puts where they are, shifted a little.
struct Seen {
    sides: (u32, u32),
    bits: Vec<u8>,
    three: [Finder; 3],
    version: u8,
    pitch: f32,
}

/// Swaps dark and light in up to four modules of the marker: two may be wrong.
fn flip_modules(rng: &mut Rng, gray: &mut Gray, version: u8, pitch: u32) {
    let corner = 17 + 4 * version as u32 - 9;
    for _ in 0..rng.whole(1, 4) {
        let (x, y) = ((corner + rng.whole(0, 4)) * pitch, (corner + rng.whole(0, 4)) * pitch);
        for (dy, dx) in (0..pitch).flat_map(|dy| (0..pitch).map(move |dx| (dy, dx))) {
            let at = (y + dy) * gray.width + x + dx;
            gray.pixels[at as usize] = 255 - gray.pixels[at as usize];
        }
    }
}

fn seen(rng: &mut Rng, reach: Reach) -> Seen {
    let version = rng.whole(1, if reach == Reach::Full { 32 } else { 6 }) as u8;
    let widest = if version > 12 { 3 } else { 5 };
    let pitch = if reach == Reach::Full { rng.whole(2, widest) } else { rng.whole(1, 2) };
    let noise = rng.pick(&[0.0, 0.0, 60.0]);
    let view = View { pitch: pitch as f64, noise, margin: 0.0, ..View::PLAIN };
    let mut gray = render(rng, version, &view);
    if rng.one_in(2) {
        flip_modules(rng, &mut gray, version, pitch);
    }
    if rng.one_in(6) {
        gray = gray.damaged(rng);
    }
    let p = pitch as f32;
    let last = (17 + 4 * version as u32) as f32 - 3.5;
    let shift = rng.pick(&[0.0, 0.2, 1.5]) * p as f64;
    let mut at = |x: f32, y: f32| {
        let (dx, dy) = (rng.real(-shift, shift + 1e-9) as f32, rng.real(-shift, shift + 1e-9) as f32);
        Finder { x: x * p + dx, y: y * p + dy, module: p, confirmations: 9 }
    };
    let three = [at(3.5, 3.5), at(last, 3.5), at(3.5, last)];
    Seen { sides: (gray.width, gray.height), bits: gray.bits(128), three, version, pitch: p }
}

/// Lens terms for a scene: a third without strength, a third that moves the marker by some modules, the rest of any
/// kind. For two in five of those that move it the transform is moved against them, so that it goes to the marker
/// through the lens and misses it without.
fn scene_lens(rng: &mut Rng, m: &mut [f64; 8], version: u8, pitch: f64) -> [f64; 3] {
    let corner = (17 + 4 * version as u32) as f32 - 6.5;
    let marker = pixel_of(*m, (corner, corner));
    match rng.below(3) {
        0 => {
            let [cx, cy] = if rng.one_in(2) { [0.0; 2] } else { any_centre(rng, marker) };
            [cx, cy, rng.pick(&[0.0, -0.0])]
        }
        1 => {
            let against = rng.below(5) < 2;
            // Modules from the centre to the marker, and those that the lens moves it by.
            let (far, by) = match rng.below(3) {
                _ if against => (rng.real(100.0, 300.0), rng.real(3.5, 9.0)),
                0 => (rng.real(50.0, 200.0), rng.real(2.5, 7.0)),
                _ => (rng.real(20.0, 100.0), rng.real(0.05, 2.0)),
            };
            let (sin, cos) = rng.real(-3.2, 3.2).sin_cos();
            let (dx, dy) = (far * pitch * cos, far * pitch * sin);
            let bend = rng.pick(&[-1.0, 1.0]) * by / far;
            if against {
                m[2] += dx * bend;
                m[5] += dy * bend;
            }
            [marker.0 - dx, marker.1 - dy, bend / (dx * dx + dy * dy)]
        }
        _ => any_lens(rng.next(), rng, marker),
    }
}

fn pattern_case(function: u8, i: u64, rng: &mut Rng, reach: Reach) -> Record {
    let mut s = seen(rng, reach);
    let version = lcr_core::Version::new(s.version).unwrap();
    let fit = build_transform(&s.three, None, version).map(|t| numbers_of(&t));
    let mut m = fit.unwrap_or([0.0; 8]);
    match i % 8 {
        0 => m = any_transform(rng),
        1 => s.version = any_version(rng.below(6), rng),
        // Finders at one place and a marker give no homography: the three alone are taken.
        2 => s.three = if rng.one_in(3) { [s.three[0]; 3] } else { any_three(rng) },
        3 => (s.sides, s.bits) = bit_picture(rng, reach, i % 16 == 3),
        4 => {
            let at = rng.below(8) as usize;
            m[at] += rng.pick(&[1e-3, -1e-3, 0.5, 1e-9]);
        }
        _ => (),
    }
    if i % 128 == 7 {
        m[rng.below(8) as usize] = rng.any_f64();
    }
    if i % 64 == 6 {
        let length = s.bits.len().saturating_sub(1);
        s.bits = resized(rng, s.bits, length);
    }
    let lens = scene_lens(rng, &mut m, s.version, s.pitch as f64);
    let module = about_module(rng, s.pitch);
    Record::new(function).with(|b| {
        b.u32(s.sides.0).u32(s.sides.1);
        match function {
            65 => b.numbers(&m).bits(&lens).u8(s.version),
            66 => b.numbers(&m).bits(&lens).u8(s.version).f32(module),
            _ => b.finders(&s.three).u8(s.version).numbers(&m).bits(&lens).f32(module),
        };
        b.raw(&s.bits);
    })
}
