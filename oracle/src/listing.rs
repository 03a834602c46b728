//! The listing program: what it prints on a picture, against document 01's format.

use crate::answers::{Source, detections_in, finders_of};
use crate::cases::{a_limit, about_form_one, about_limit, crowd, false_plate, full_table, scene, walls};
use crate::compare::Row;
use crate::picture::{finder_grid, ringed};
use crate::record::built_numbers;
use crate::rng::Rng;
use crate::rules::graded;
use lcr_decode::detect::{Detection, Finder};
use lcr_decode::image::binarize;
use std::fmt::Write as _;
use std::io::Write as _;
use std::process::{Command, Stdio};

pub const PROGRAM: &str = "crates/listing/out/listing";

/// The most pixels of a picture that it takes, and the most drawn finders of two pixels a module in rows of twelve.
const MOST_PIXELS: usize = 40_000;
const MOST_DRAWN: u32 = 144;

fn digits32(v: f32) -> String {
    format!("{:08x}", if v.is_nan() { 0x7fc0_0000 } else { v.to_bits() })
}

fn digits64(v: f64) -> String {
    format!("{:016x}", if v.is_nan() { 0x7ff8_0000_0000_0000 } else { v.to_bits() })
}

fn finder_line(f: &Finder) -> String {
    format!("{} {} {} {}\n", digits32(f.x), digits32(f.y), digits32(f.module), f.confirmations)
}

fn detection_line(d: &Detection) -> String {
    let marker = match d.alignment {
        Some((x, y)) => format!("{} {}", digits32(x), digits32(y)),
        None => "-".to_string(),
    };
    let numbers: Vec<String> = built_numbers(&d.transform).iter().map(|v| digits64(*v)).collect();
    let (score, mean) = graded(d);
    format!("{} {marker} {} {} {}\n", d.version.get(), numbers.join(" "), digits32(score), digits32(mean))
}

/// What the program is to print, and whose answer that is.
pub fn expected(input: &[u8]) -> (String, Source) {
    let refused = |n: u8| (format!("refused {n}\n"), Source::Rust);
    if input.len() < 4 {
        return refused(4);
    }
    let width = u16::from_le_bytes([input[0], input[1]]) as u32;
    let height = u16::from_le_bytes([input[2], input[3]]) as u32;
    let pixels = (width * height) as usize;
    match () {
        _ if width == 0 || height == 0 => return refused(1),
        _ if width > 4096 || height > 4096 => return refused(2),
        _ if pixels > MOST_PIXELS => return refused(5),
        _ if input.len() - 4 < pixels => return refused(4),
        _ => (),
    }
    let clean = binarize(&input[4..4 + pixels], width, height).denoised();
    let (finders, source) = finders_of(&clean);
    let Some(finders) = finders else {
        return (refused(6).0, source);
    };
    let found = detections_in(&clean, &finders, source);
    let mut out = String::new();
    let _ = writeln!(out, "{width} {height} {} {}", finders.len(), found.len());
    finders.iter().for_each(|f| out += &finder_line(f));
    found.iter().for_each(|d| out += &detection_line(d));
    (out, source)
}

fn input(i: u64, rng: &mut Rng) -> Vec<u8> {
    let gray = match i {
        0 => ringed([3, 3, 9, 3, 3], [3, 3, 9, 3, 3], 0),
        _ if i % 40 == 1 => finder_grid(about_form_one(i / 40).min(MOST_DRAWN), 12, 2, 2),
        _ if i % 20 == 11 => crowd(rng, about_limit(i / 20), 2, MOST_PIXELS),
        _ if i % 40 == 21 => full_table(rng, a_limit(i / 40), 2, MOST_PIXELS),
        _ if i % 16 == 2 => walls(rng, 2, false),
        _ if i % 16 == 10 => false_plate(rng, 2, false),
        _ => {
            let limit = rng.pick(&[900, 10_000, 40_000, 40_000]);
            scene(rng, limit)
        }
    };
    let (mut width, mut height, mut pixels) = (gray.width as u16, gray.height as u16, gray.pixels);
    if i % 8 == 7 {
        match rng.below(4) {
            0 => {
                (width, height) = rng.pick(&[
                    (0, 0),
                    (0, 9),
                    (9, 0),
                    (4097, 1),
                    (1, 4097),
                    (4096, 9),
                    (4096, 10),
                    (201, 200),
                    (200, 200),
                    (65535, 65535),
                ])
            }
            1 => pixels.truncate(pixels.len() - 1),
            2 => pixels.extend(rng.bytes(3)),
            _ => {
                let length = rng.below(4) as usize;
                return rng.bytes(length);
            }
        }
    }
    let mut out = width.to_le_bytes().to_vec();
    out.extend(height.to_le_bytes());
    out.extend(pixels);
    out
}

/// What it prints.
pub fn printed(input: &[u8]) -> Option<String> {
    let mut child = Command::new(PROGRAM).stdin(Stdio::piped()).stdout(Stdio::piped()).spawn().ok()?;
    let mut stdin = child.stdin.take()?;
    let bytes = input.to_vec();
    let writer = std::thread::spawn(move || {
        let _ = stdin.write_all(&bytes);
    });
    let out = child.wait_with_output().ok()?;
    let _ = writer.join();
    String::from_utf8(out.stdout).ok()
}

pub fn compared(seed: u64, cases: u64) -> Row {
    let mut row = Row::new("listing program");
    let mut rng = Rng::new(seed ^ 98 << 32);
    if !std::path::Path::new(PROGRAM).exists() {
        row.unanswered = cases;
        return row;
    }
    for i in 0..cases {
        let input = input(i, &mut rng);
        let (text, source) = expected(&input);
        row.count(source);
        let got = printed(&input);
        if got.as_deref() != Some(&text) {
            row.mismatches += 1;
            let path = format!("target/oracle/mismatch-listing-{}", row.mismatches);
            let _ = std::fs::write(&path, &input);
            println!("listing: mismatch, input in {path}\n{text}{}", got.unwrap_or_default());
        }
    }
    row
}
