//! Times each stage, the whole chain and the preview beside the Rust of oracle/build, in one run: the two take
//! turns on the same picture, and the least time of each counts. Time is the processor time
//! of this thread. Slices are lent and not cleared between calls; the Rust allocates its
//! results at each call, as its functions do. See bench/run.

#[path = "../../oracle/src/limits.rs"]
#[allow(dead_code)]
mod limits;
#[path = "../../oracle/src/picture.rs"]
#[allow(dead_code)]
mod picture;
#[path = "../../oracle/src/plate.rs"]
#[allow(dead_code)]
mod plate;
#[path = "../../oracle/src/rng.rs"]
#[allow(dead_code)]
mod rng;
mod stages;

use lcr_decode::detect::{detect_candidates, find_finders};
use lcr_decode::image::{ImageView, PixelFormat, binarize, bits_of};
use picture::Gray;
use plate::{View, render};
use rng::Rng;
use stages::{Lent, Picture, Stage};
use std::hint::black_box;

/// The largest frame of the preview, which the other sizes are over.
const FRAME: (u32, u32) = (640, 480);

const SIZES: [(u32, u32); 5] = [FRAME, (512, 512), (1024, 1024), (2048, 2048), (4096, 4096)];

/// The lines that stand side by side at the end.
const CHAIN: &str = "whole chain, Rgb8";
const PREVIEW: &str = "preview, Rgb8";

/// Processor time of this thread, in milliseconds.
fn now() -> f64 {
    #[repr(C)]
    struct Timespec(i64, i64);
    unsafe extern "C" {
        fn clock_gettime(clock: i32, time: *mut Timespec) -> i32;
    }
    const THREAD: i32 = 3;
    let mut t = Timespec(0, 0);
    unsafe { clock_gettime(THREAD, &mut t) };
    t.0 as f64 * 1e3 + t.1 as f64 / 1e6
}

fn timed<T>(call: impl FnOnce() -> T) -> f64 {
    let start = now();
    black_box(call());
    now() - start
}

/// Puts a plate into a picture, its top left corner at x0, y0.
fn paste(out: &mut Gray, plate: &Gray, x0: u32, y0: u32) {
    for (i, v) in plate.pixels.iter().enumerate() {
        let (x, y) = (x0 + i as u32 % plate.width, y0 + i as u32 / plate.width);
        if x < out.width && y < out.height {
            out.pixels[(y * out.width + x) as usize] = *v;
        }
    }
}

/// Paper alone.
fn blank(rng: &mut Rng, width: u32, height: u32) -> Gray {
    let pixels = (0..width * height).map(|_| 190 + rng.below(13) as u8).collect();
    Gray { width, height, pixels }
}

/// Paper with three plates on it.
fn scene(rng: &mut Rng, width: u32, height: u32) -> Gray {
    let mut out = blank(rng, width, height);
    let pitch = (width.min(height) as f64 / 160.0).clamp(3.0, 12.0);
    for (k, (version, turn)) in [(2, 0.0), (4, 5.0), (7, -12.0)].into_iter().enumerate() {
        let view = View { pitch, turn, tilt: (0.05, 0.03), blur: 1, noise: 6.0, ..View::PLAIN };
        let plate = render(rng, version, &view);
        let (x0, y0) = (width / 24 + (k as u32 % 2) * width / 2, height / 24 + (k as u32 / 2) * height / 2);
        paste(&mut out, &plate, x0, y0);
    }
    out
}

/// Squares of three pixels, dark and light by turns, with noise: as many runs as a scan can
/// meet, and no finder.
fn texture(rng: &mut Rng, width: u32, height: u32) -> Gray {
    let level = |x: u32, y: u32| if (x / 3 + y / 3) % 2 == 0 { 40 } else { 200 };
    let pixels = (0..width * height).map(|i| level(i % width, i / width) + rng.below(20) as u8).collect();
    Gray { width, height, pixels }
}

/// A plate at an angle, which the template match has to look for.
fn turned(rng: &mut Rng, width: u32, height: u32) -> Gray {
    let mut out = Gray::filled(width, height, 230);
    let pitch = (width.min(height) as f64 / 80.0).clamp(3.0, 12.0);
    let view = View { pitch, turn: 40.0, tilt: (0.3, 0.2), blur: 1, noise: 6.0, ..View::PLAIN };
    paste(&mut out, &render(rng, 6, &view), 0, 0);
    out
}

/// Paper with 30 × 30 finders on it.
fn crowded(rng: &mut Rng, width: u32, height: u32) -> Gray {
    let mut out = blank(rng, width, height);
    for k in 0..30 * 30 {
        out.draw_finder(k % 30 * width / 30, k / 30 * height / 30, 2);
    }
    out
}

/// A stage's times: the Rust's, ours, both in milliseconds.
struct Line {
    name: &'static str,
    rust: f64,
    ours: f64,
}

/// Runs both by turns.
fn line(name: &'static str, turns: usize, rust: &dyn Fn(), ours: Stage, p: &Picture, l: &mut Lent) -> Line {
    let mut out = Line { name, rust: f64::INFINITY, ours: f64::INFINITY };
    for _ in 0..turns {
        out.rust = out.rust.min(timed(rust));
        out.ours = out.ours.min(timed(|| assert_eq!(ours(p, l), 0, "{name} refused")));
    }
    out
}

fn measure(gray: &Gray, rng: &mut Rng) -> Vec<Line> {
    let (width, height) = (gray.width, gray.height);
    let turns = if width > 1024 { 7 } else { 25 };
    let colour = gray.bytes(rng, 3, 3 * width as usize);
    let rgb = Picture { bytes: &colour, width, height, stride: 3 * width, format: 3 };
    let plain = Picture { bytes: &gray.pixels, width, height, stride: width, format: 1 };
    let view = ImageView::new(&colour, width, height, 3 * width, PixelFormat::Rgb8).unwrap();
    let plain_view = ImageView::new(&gray.pixels, width, height, width, PixelFormat::Gray8).unwrap();
    // What each stage starts from.
    let luma = view.gray_buffer();
    let bin = binarize(&luma, width, height);
    let clean = bin.denoised();
    let mut l = Lent::new(width, height);
    let mut lines = Vec::new();
    lines.push(line("gray, Gray8", turns, &|| drop(plain_view.gray_buffer()), stages::GRAY, &plain, &mut l));
    lines.push(line("gray, Rgb8", turns, &|| drop(view.gray_buffer()), stages::GRAY, &rgb, &mut l));
    assert!(l.gray == luma, "gray differs");
    lines.push(line(
        "binarize",
        turns,
        &|| drop(binarize(&luma, width, height)),
        stages::BINARIZE,
        &rgb,
        &mut l,
    ));
    assert!(l.bits == bits_of(&bin), "bits differ");
    lines.push(line("denoised", turns, &|| drop(bin.denoised()), stages::DENOISED, &rgb, &mut l));
    assert!(l.denoised == bits_of(&clean), "denoised bits differ");
    lines.push(line("find_finders", turns, &|| drop(find_finders(&clean)), stages::FINDERS, &rgb, &mut l));
    lines.push(line(
        "detect_candidates",
        turns,
        &|| drop(detect_candidates(&clean)),
        stages::CANDIDATES,
        &rgb,
        &mut l,
    ));
    let whole = || {
        let bin = binarize(&view.gray_buffer(), width, height);
        drop(detect_candidates(&bin.denoised()));
    };
    lines.push(line(CHAIN, turns, &whole, stages::CHAIN, &rgb, &mut l));
    if (width, height) == FRAME {
        let preview = || {
            let bin = binarize(&view.gray_buffer(), width, height);
            drop(find_finders(&bin.denoised()));
        };
        // So that the list below is the preview's.
        l.list.fill(0);
        lines.push(line(PREVIEW, turns, &preview, stages::PREVIEW, &rgb, &mut l));
    }
    let (finders, detections) = (find_finders(&clean).len(), detect_candidates(&clean).len());
    assert!(l.listed() == finders && l.detections[0] as usize == detections, "finders or detections differ");
    println!("{width} x {height}: {finders} finders, {detections} detections");
    lines
}

fn print(lines: &[Line]) {
    println!("  {:20}{:>12}{:>12}{:>16}", "stage", "Rust ms", "Rattle ms", "times as fast");
    for l in lines {
        println!("  {:20}{:>12.3}{:>12.3}{:>16.2}", l.name, l.rust, l.ours, l.rust / l.ours);
    }
    println!();
}

/// This side's preview of a frame beside its whole chain, for each picture.
fn print_frames(frames: &[(&str, Vec<Line>)]) {
    println!("{} x {}, Rattle ms", FRAME.0, FRAME.1);
    println!("  {:40}{:>12}{:>14}", "picture", "preview", "whole chain");
    for (name, lines) in frames {
        let ours = |name| lines.iter().find(|l| l.name == name).map_or(f64::NAN, |l| l.ours);
        println!("  {:40}{:>12.3}{:>14.3}", name, ours(PREVIEW), ours(CHAIN));
    }
}

/// How time grows with the side: the exponent between two sizes, 2 where it grows as the
/// number of pixels.
fn print_growth(sizes: &[(u32, Vec<Line>)]) {
    println!("exponent of the side, Rust / Rattle (2: as the pixels)");
    let steps: Vec<String> = sizes.windows(2).map(|w| format!("{} to {}", w[0].0, w[1].0)).collect();
    println!("  {:20}{}", "stage", steps.iter().map(|s| format!("{s:>16}")).collect::<String>());
    for k in 0..sizes[0].1.len() {
        let step = |w: &[(u32, Vec<Line>)]| {
            let (a, b) = (&w[0].1[k], &w[1].1[k]);
            let by = (w[1].0 as f64 / w[0].0 as f64).ln();
            format!(
                "{:>16}",
                format!("{:.2} / {:.2}", (b.rust / a.rust).ln() / by, (b.ours / a.ours).ln() / by)
            )
        };
        println!("  {:20}{}", sizes[0].1[k].name, sizes.windows(2).map(step).collect::<String>());
    }
    println!();
}

fn main() {
    let pictures: [(&str, fn(&mut Rng, u32, u32) -> Gray); 4] = [
        ("Paper with three plates", scene),
        ("A plate at an angle", turned),
        ("Squares of three pixels, with noise", texture),
        ("Paper", blank),
    ];
    let mut frames = Vec::new();
    for (name, picture) in pictures {
        println!("{name}\n");
        let mut squares = Vec::new();
        for (width, height) in SIZES {
            let mut rng = Rng::new(7);
            let gray = picture(&mut rng, width, height);
            let lines = measure(&gray, &mut rng);
            print(&lines);
            if width == height {
                squares.push((width, lines));
            } else {
                frames.push((name, lines));
            }
        }
        print_growth(&squares);
    }
    println!("900 finders\n");
    let mut rng = Rng::new(7);
    let gray = crowded(&mut rng, FRAME.0, FRAME.1);
    print(&measure(&gray, &mut rng));
    print_frames(&frames);
}
