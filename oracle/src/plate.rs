//! Plates as a camera sees them.

use crate::picture::Gray;
use crate::rng::Rng;
use lcr_core::Version;
use lcr_core::layout::alignment_centers;

/// How a plate is seen.
#[derive(Clone)]
pub struct View {
    /// Pixels a module.
    pub pitch: f64,
    /// Turn in degrees.
    pub turn: f64,
    /// Perspective: how much the scale changes across the plate, along x and y.
    pub tilt: (f64, f64),
    /// Radius of a box blur in pixels.
    pub blur: usize,
    /// How much the light changes across the picture, along x and y.
    pub gradient: (f64, f64),
    /// Largest change of a pixel by noise.
    pub noise: f64,
    /// Share of pixels that become black or white.
    pub specks: f64,
    /// Gray of dark and light modules.
    pub levels: (f64, f64),
    /// Light modules around the plate.
    pub margin: f64,
}

impl View {
    pub const PLAIN: View = View {
        pitch: 4.0,
        turn: 0.0,
        tilt: (0.0, 0.0),
        blur: 0,
        gradient: (0.0, 0.0),
        noise: 0.0,
        specks: 0.0,
        levels: (20.0, 235.0),
        margin: 4.0,
    };

    /// Any view at about this pitch.
    pub fn random(rng: &mut Rng, pitch: f64) -> View {
        let few = |rng: &mut Rng, v: f64| if rng.one_in(2) { 0.0 } else { v };
        let turn = if rng.one_in(3) { rng.real(-180.0, 180.0) } else { rng.real(-6.0, 6.0) };
        let tilt = (rng.real(-0.35, 0.35), rng.real(-0.35, 0.35));
        let gradient = (rng.real(-0.6, 0.6), rng.real(-0.6, 0.6));
        let dark = rng.real(0.0, 90.0);
        View {
            pitch,
            turn: few(rng, turn),
            tilt: (few(rng, tilt.0), few(rng, tilt.1)),
            blur: rng.pick(&[0, 0, 0, 1, 1, 2]),
            gradient: (few(rng, gradient.0), few(rng, gradient.1)),
            noise: rng.pick(&[0.0, 0.0, 4.0, 12.0, 30.0]),
            specks: rng.pick(&[0.0, 0.0, 0.0, 0.002, 0.02]),
            levels: (dark, dark + rng.real(15.0, 160.0)),
            margin: rng.pick(&[0.0, 1.0, 4.0]),
        }
    }
}

/// Whether each module of a plate is dark: finders, markers, and chance elsewhere.
fn modules(rng: &mut Rng, version: Version) -> Vec<bool> {
    let side = version.side() as i32;
    let mut dark: Vec<bool> = (0..side * side).map(|_| rng.one_in(2)).collect();
    let mut draw = |cx: i32, cy: i32, reach: i32, light: &[i32]| {
        for y in (cy - reach).max(0)..=(cy + reach).min(side - 1) {
            for x in (cx - reach).max(0)..=(cx + reach).min(side - 1) {
                let ring = (x - cx).abs().max((y - cy).abs());
                dark[(y * side + x) as usize] = !light.contains(&ring);
            }
        }
    };
    for (x, y) in alignment_centers(version) {
        draw(x as i32, y as i32, 2, &[1]);
    }
    for (x, y) in [(3, 3), (side - 4, 3), (3, side - 4)] {
        draw(x, y, 4, &[2, 4]);
    }
    dark
}

/// The product of two 3 × 3 matrices.
fn times(a: [f64; 9], b: [f64; 9]) -> [f64; 9] {
    core::array::from_fn(|i| (0..3).map(|k| a[i / 3 * 3 + k] * b[k * 3 + i % 3]).sum())
}

/// The inverse of a 3 × 3 matrix, up to a factor.
fn adjugate(m: [f64; 9]) -> [f64; 9] {
    let minor = |r: [usize; 2], c: [usize; 2]| {
        m[r[0] * 3 + c[0]] * m[r[1] * 3 + c[1]] - m[r[0] * 3 + c[1]] * m[r[1] * 3 + c[0]]
    };
    const OTHERS: [[usize; 2]; 3] = [[1, 2], [2, 0], [0, 1]];
    core::array::from_fn(|i| minor(OTHERS[i % 3], OTHERS[i / 3]))
}

fn at(m: [f64; 9], x: f64, y: f64) -> (f64, f64) {
    let w = m[6] * x + m[7] * y + m[8];
    ((m[0] * x + m[1] * y + m[2]) / w, (m[3] * x + m[4] * y + m[5]) / w)
}

/// A plate of the given version as the view shows it.
pub fn render(rng: &mut Rng, version: u8, view: &View) -> Gray {
    let version = Version::new(version).unwrap();
    let side = version.side() as f64;
    let dark = modules(rng, version);
    let (sin, cos) = view.turn.to_radians().sin_cos();
    let p = view.pitch;
    // Module coordinates about the plate's centre, turned, scaled, then tilted.
    let turned = [p * cos, -p * sin, 0.0, p * sin, p * cos, 0.0, 0.0, 0.0, 1.0];
    let half = side * p;
    let tilted = [1.0, 0.0, 0.0, 0.0, 1.0, 0.0, view.tilt.0 / half, view.tilt.1 / half, 1.0];
    let map = times(tilted, times(turned, [1.0, 0.0, -side / 2.0, 0.0, 1.0, -side / 2.0, 0.0, 0.0, 1.0]));
    // The picture just holds the plate with its margin.
    let (lo, hi) = (-view.margin, side + view.margin);
    let corners = [(lo, lo), (hi, lo), (lo, hi), (hi, hi)].map(|(x, y)| at(map, x, y));
    let least = |f: fn(&(f64, f64)) -> f64| corners.iter().map(f).fold(f64::INFINITY, f64::min).floor();
    let greatest = |f: fn(&(f64, f64)) -> f64| corners.iter().map(f).fold(f64::NEG_INFINITY, f64::max).ceil();
    let (x0, y0) = (least(|c| c.0), least(|c| c.1));
    let width = (greatest(|c| c.0) - x0).clamp(1.0, 4096.0) as usize;
    let height = (greatest(|c| c.1) - y0).clamp(1.0, 4096.0) as usize;
    let back = adjugate(map);
    // One tap a pixel where pixels lie within modules, else four.
    let upright = view.turn == 0.0 && view.tilt == (0.0, 0.0) && p.fract() == 0.0;
    let taps: &[(f64, f64)] =
        if upright { &[(0.5, 0.5)] } else { &[(0.25, 0.25), (0.75, 0.25), (0.25, 0.75), (0.75, 0.75)] };
    let step = (view.levels.0 - view.levels.1) / taps.len() as f64;
    let mut light = Vec::with_capacity(width * height);
    for (y, x) in (0..height).flat_map(|y| (0..width).map(move |x| (y, x))) {
        let is_dark = |tap: &&(f64, f64)| {
            let (u, v) = at(back, x as f64 + x0 + tap.0, y as f64 + y0 + tap.1);
            let inside = u >= 0.0 && v >= 0.0 && u < side && v < side;
            inside && dark[v as usize * side as usize + u as usize]
        };
        light.push(view.levels.1 + step * taps.iter().filter(is_dark).count() as f64);
    }
    blurred(&mut light, width, height, view.blur);
    let pixels = expose(rng, &light, width, height, view);
    Gray { width: width as u32, height: height as u32, pixels }
}

fn blurred(light: &mut [f64], width: usize, height: usize, radius: usize) {
    let mean = |at: usize, len: usize, step: usize, base: usize, of: &[f64]| {
        let (a, e) = (at.saturating_sub(radius), (at + radius).min(len - 1));
        (a..=e).map(|k| of[base + k * step]).sum::<f64>() / (e - a + 1) as f64
    };
    if radius == 0 {
        return;
    }
    let old = light.to_vec();
    for (i, v) in light.iter_mut().enumerate() {
        *v = mean(i % width, width, 1, i / width * width, &old);
    }
    let old = light.to_vec();
    for (i, v) in light.iter_mut().enumerate() {
        *v = mean(i / width, height, width, i % width, &old);
    }
}

fn expose(rng: &mut Rng, light: &[f64], width: usize, height: usize, view: &View) -> Vec<u8> {
    let (gx, gy) = view.gradient;
    let mut out = Vec::with_capacity(light.len());
    for (i, v) in light.iter().enumerate() {
        let (x, y) = ((i % width) as f64 / width as f64 - 0.5, (i / width) as f64 / height as f64 - 0.5);
        let mut v = v * (1.0 + gx * x + gy * y);
        if view.noise > 0.0 {
            v += rng.real(-view.noise, view.noise);
        }
        if view.specks > 0.0 && rng.real(0.0, 1.0) < view.specks {
            v = rng.pick(&[0.0, 255.0]);
        }
        out.push(v.clamp(0.0, 255.0) as u8);
    }
    out
}
