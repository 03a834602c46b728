//! Pictures for every stage that takes one.

use crate::picture::{Gray, ringed};
use crate::plate::{View, render};
use crate::rng::Rng;
use lcr_decode::image::{binarize, bits_of};

/// A picture of at most `limit` pixels.
pub fn scene(rng: &mut Rng, limit: usize) -> Gray {
    let side = (limit as f64).sqrt() as u32;
    let gray = match rng.below(16) {
        0..=5 => plate(rng, limit),
        6 | 7 => plate(rng, limit).damaged(rng),
        8 => crop(rng, limit),
        9 => {
            let (w, h) = (rng.whole(7, side.max(8)), rng.whole(7, side.max(8)));
            finders(rng, w, h)
        }
        10 => {
            let (w, h) = (rng.whole(1, side), rng.whole(1, side));
            Gray::random(rng, w, h)
        }
        11 => {
            let (w, h, s) = (rng.whole(1, side), rng.whole(1, side), rng.whole(1, 9));
            Gray::squares(rng, w, h, s, &[0, 10, 60, 128, 250])
        }
        12 => Gray::filled(rng.whole(1, side), rng.whole(1, side), rng.pick(&[0, 1, 127, 254, 255])),
        13 => tiny(rng),
        14 => ringed_at_random(rng),
        _ => two_plates(rng, limit),
    };
    within(gray, limit)
}

/// The top left part that has no more pixels than the limit.
fn within(gray: Gray, limit: usize) -> Gray {
    let height = (limit as u32 / gray.width).min(gray.height);
    if height == 0 {
        return gray.part(0, 0, limit as u32, 1);
    }
    gray.part(0, 0, gray.width, height)
}

/// A plate of any version that fits at a pitch of 1.5 pixels or more.
pub fn plate(rng: &mut Rng, limit: usize) -> Gray {
    let room = (limit as f64).sqrt() * 0.95;
    let most = (((room / 1.6 - 21.0) / 4.0).max(0.0) as u32 + 1).min(32);
    let version = rng.whole(1, most);
    let side = (17 + 4 * version) as f64;
    let widest = (room / side).clamp(1.0, 12.0);
    let pitch = if rng.one_in(3) { widest.floor() } else { rng.real(widest.min(1.5), widest) };
    let mut view = View::random(rng, pitch);
    if side * pitch + 2.0 * view.margin * pitch > room {
        view.margin = 0.0;
    }
    if rng.one_in(4) {
        view = View { pitch: view.pitch.floor(), margin: view.margin, ..View::PLAIN };
    }
    render(rng, version as u8, &view)
}

/// A plate that is likely to be found: of a version up to the given one, at least two pixels
/// a module, with enough contrast.
pub fn clear_plate(rng: &mut Rng, most: u32, widest: f64) -> Gray {
    let version = rng.whole(1, most) as u8;
    let pitch = rng.real(2.0, widest);
    if rng.one_in(2) {
        let margin = rng.whole(0, 2) as f64;
        return render(rng, version, &View { pitch: pitch.round(), margin, ..View::PLAIN });
    }
    let mut view = View::random(rng, pitch.max(2.5));
    view.levels = (20.0, 220.0);
    let gray = render(rng, version, &view);
    if rng.one_in(8) { gray.damaged(rng) } else { gray }
}

/// A part of a plate, so that finders touch the picture's edge or are cut by it.
fn crop(rng: &mut Rng, limit: usize) -> Gray {
    let whole = plate(rng, limit);
    let (x, y) = (rng.whole(0, whole.width / 2), rng.whole(0, whole.height / 2));
    let (w, h) = (rng.whole(1, whole.width - x), rng.whole(1, whole.height - y));
    whole.part(x, y, w, h)
}

/// Finders of several sizes anywhere.
pub fn finders(rng: &mut Rng, width: u32, height: u32) -> Gray {
    let mut out = Gray::filled(width, height, 230);
    for _ in 0..rng.whole(1, 9) {
        let (x, y) = (rng.whole(0, width - 1), rng.whole(0, height - 1));
        out.draw_finder(x, y, rng.whole(1, 1 + width.min(height) / 20));
    }
    out
}

fn two_plates(rng: &mut Rng, limit: usize) -> Gray {
    let (a, b) = (plate(rng, limit / 2), plate(rng, limit / 2));
    let (width, height) = (a.width + b.width, a.height.max(b.height));
    let mut out = Gray::filled(width, height, 240);
    out.paste(&a, 0, 0);
    out.paste(&b, a.width, 0);
    out
}

/// A picture whose one side is 4,096, the other from 1 to 3.
pub fn longest(rng: &mut Rng) -> Gray {
    let short = rng.whole(1, 3);
    let (w, h) = if rng.one_in(2) { (4096, short) } else { (short, 4096) };
    let side = rng.whole(1, 20);
    Gray::squares(rng, w, h, side, &[0, 20, 200, 255])
}

/// From 1 × 1 up to 9 × 9.
fn tiny(rng: &mut Rng) -> Gray {
    let (w, h) = (rng.whole(1, 9), rng.whole(1, 9));
    if rng.one_in(2) { Gray::random(rng, w, h) } else { Gray::squares(rng, w, h, 1, &[0, 255]) }
}

/// Runs at the boundaries of the five-run rule: those of document 01 and random ones.
pub fn runs(rng: &mut Rng) -> [u32; 5] {
    const KNOWN: [[u32; 5]; 12] = [
        [1, 1, 3, 1, 1],
        [20, 20, 60, 31, 9],
        [20, 20, 27, 20, 20],
        [20, 20, 93, 20, 20],
        [7, 3, 7, 3, 7],
        [1, 1, 2, 1, 1],
        [20, 20, 60, 32, 8],
        [20, 20, 26, 20, 20],
        [20, 20, 94, 20, 20],
        [2, 1, 2, 1, 2],
        [0, 2, 3, 2, 2],
        [3, 3, 9, 3, 3],
    ];
    match rng.below(4) {
        0 => rng.pick(&KNOWN),
        1 => core::array::from_fn(|_| rng.whole(1, 4)),
        _ => {
            // About 1 : 1 : 3 : 1 : 1, up to the tolerance and past it.
            let m = rng.real(1.0, 6.0);
            let near = |rng: &mut Rng, k: f64| (m * k * rng.real(0.4, 1.6)).round() as u32;
            [near(rng, 1.0), near(rng, 1.0), near(rng, 3.0), near(rng, 1.0), near(rng, 1.0)]
        }
    }
}

fn ringed_at_random(rng: &mut Rng) -> Gray {
    let across = runs(rng);
    let down = if rng.one_in(2) { across } else { runs(rng) };
    let empty = across.iter().sum::<u32>() == 0 || down.iter().sum::<u32>() == 0;
    ringed(across, down, rng.whole(empty as u32, 3))
}

/// The picture in black and white: by the published stages, or by a plain level, which also
/// gives pictures that no stage would.
pub fn black_and_white(rng: &mut Rng, gray: &Gray) -> Vec<u8> {
    if rng.one_in(3) {
        return gray.bits(rng.pick(&[128, 128, 1, 255, 200]));
    }
    let bin = binarize(&gray.pixels, gray.width, gray.height);
    let bits = if rng.one_in(3) { bits_of(&bin).to_vec() } else { bits_of(&bin.denoised()).to_vec() };
    bits
}
