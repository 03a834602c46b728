//! What documents 01 and 02 add to the published source, in the comparison's own lines: refusals,
//! how a run ended, block values, the stored list, a detection's score and mean module, and the firmware's bytes.

pub use crate::limits::{FORM_ONE_MOST, MAX_FINDERS, list_length};
use crate::record::{Bytes, Fields};
use lcr_decode::detect::{Detection, Finder, module_of, score_of};

// ---- refusals

/// The first number whose check fails, or 0.
pub fn refusal(checks: &[(u8, bool)]) -> u8 {
    checks.iter().find(|c| c.1).map_or(0, |c| c.0)
}

pub fn zero_side(width: u32, height: u32) -> (u8, bool) {
    (1, width == 0 || height == 0)
}

pub fn large_side(width: u32, height: u32) -> (u8, bool) {
    (2, width > 4096 || height > 4096)
}

/// The preview's limit (document 02, N2).
pub fn large_frame(width: u32, height: u32) -> (u8, bool) {
    (10, width > 640 || height > 480)
}

/// The two entries, which differ in their limit and in what they answer.
#[derive(Copy, Clone, PartialEq, Eq)]
pub enum Entry {
    /// The whole chain: up to three detections.
    Chain,
    /// The preview: the finders.
    Preview,
}

impl Entry {
    pub fn limit(self, width: u32, height: u32) -> (u8, bool) {
        match self {
            Entry::Chain => large_side(width, height),
            Entry::Preview => large_frame(width, height),
        }
    }

    /// The least bytes that C lends for the answer: the firmware's, or the longest stored list.
    pub fn room(self) -> u32 {
        match self {
            Entry::Chain => 367,
            Entry::Preview => list_length(2, MAX_FINDERS as u64) as u32,
        }
    }
}

pub fn bad_version(version: u8) -> (u8, bool) {
    (7, version == 0 || version > 64)
}

pub fn pixels(width: u32, height: u32) -> u64 {
    width as u64 * height as u64
}

pub fn bit_bytes(width: u32, height: u32) -> u64 {
    (pixels(width, height) + 7) / 8
}

pub fn blocks(width: u32, height: u32) -> u64 {
    (width as u64 + 7) / 8 * ((height as u64 + 7) / 8)
}

/// Bytes a pixel by format byte.
pub fn channels(format: u8) -> Option<u64> {
    matches!(format, 1 | 3 | 4).then_some(format as u64)
}

/// The checks of gray conversion on the picture's side, 3 and 4.
pub fn picture_checks(length: usize, width: u32, height: u32, stride: u32, format: u8) -> [(u8, bool); 2] {
    let row = width as u64 * channels(format).unwrap_or(0);
    let need = (height as u128).saturating_sub(1) * stride as u128 + row as u128;
    [(3, channels(format).is_none()), (4, (stride as u64) < row || (length as u128) < need)]
}

/// 1, 2 and 4 of an operation on bits.
pub fn bits_refusal(width: u32, height: u32, length: usize) -> u8 {
    let short = (length as u64) < bit_bytes(width, height);
    refusal(&[zero_side(width, height), large_side(width, height), (4, short)])
}

/// Runs that no line of a picture has: `matches_finder` answers none.
pub fn long_runs(runs: &[u32; 5]) -> bool {
    runs.iter().sum::<u32>() > 4096
}

// ---- how a run ended (document 02, N7)

#[derive(Copy, Clone, PartialEq, Eq, Debug)]
pub enum End {
    Change,
    Edge,
    Limit,
}

/// A run as it was counted.
#[derive(Copy, Clone, PartialEq, Eq, Debug)]
pub struct Run {
    pub length: u32,
    pub end: End,
}

/// The run of one colour that starts at pixel `from` on a line of `len` pixels, counted up to the limit.
pub fn run_on(len: u32, from: u32, want: bool, limit: u32, dark: impl Fn(u32) -> bool) -> Run {
    let left = len.saturating_sub(from);
    counted(left, limit, |k| dark(from + k) == want)
}

/// The one that ends before pixel `from`.
pub fn run_back(from: u32, want: bool, limit: u32, dark: impl Fn(u32) -> bool) -> Run {
    counted(from, limit, |k| dark(from - 1 - k) == want)
}

/// A run over `left` pixels up to the picture's edge; only a pixel behind it tells colour change from limit.
fn counted(left: u32, limit: u32, same: impl Fn(u32) -> bool) -> Run {
    let length = (0..left.min(limit)).take_while(|k| same(*k)).count() as u32;
    let end = match () {
        _ if length == left => End::Edge,
        _ if same(length) => End::Limit,
        _ => End::Change,
    };
    Run { length, end }
}

// ---- block values

/// Means, least, greatest, edge marks, near marks of the blocks of 8 × 8.
pub fn block_values(gray: &[u8], width: u32, height: u32) -> [Vec<u8>; 5] {
    let (across, down) = (width.div_ceil(8) as i64, height.div_ceil(8) as i64);
    let all: Vec<(i64, i64)> = (0..down).flat_map(|y| (0..across).map(move |x| (x, y))).collect();
    let of_block = |(bx, by): (i64, i64)| -> Vec<u8> {
        let inside = |v: i64, end: u32| v * 8..(v * 8 + 8).min(end as i64);
        let pixel = |x: i64, y: i64| gray[(y * width as i64 + x) as usize];
        inside(by, height).flat_map(|y| inside(bx, width).map(move |x| pixel(x, y))).collect()
    };
    let pixels: Vec<Vec<u8>> = all.iter().map(|b| of_block(*b)).collect();
    let mean = |p: &Vec<u8>| (p.iter().map(|v| *v as u64).sum::<u64>() / p.len() as u64) as u8;
    let least: Vec<u8> = pixels.iter().map(|p| *p.iter().min().unwrap()).collect();
    let greatest: Vec<u8> = pixels.iter().map(|p| *p.iter().max().unwrap()).collect();
    let around = |(bx, by): (i64, i64)| -> Vec<usize> {
        let near = |v: i64, end: i64| (v - 1).max(0)..(v + 2).min(end);
        near(by, down).flat_map(|y| near(bx, across).map(move |x| (y * across + x) as usize)).collect()
    };
    let spread = |ids: &[usize]| {
        let low = ids.iter().map(|i| least[*i]).min().unwrap();
        ids.iter().map(|i| greatest[*i]).max().unwrap() - low
    };
    let edges = (0..all.len()).map(|i| (spread(&[i]) > 24) as u8).collect();
    let nears = all.iter().map(|b| (spread(&around(*b)) > 24) as u8).collect();
    [pixels.iter().map(mean).collect(), least, greatest, edges, nears]
}

// ---- the stored list, score and mean module, the firmware's bytes

pub struct List {
    pub width: u32,
    pub height: u32,
    pub finders: Vec<Finder>,
}

/// 8 for another form byte and for a list shorter than its form's without finders, then 1, 2, then 8 for a count over
/// the form's most or for another length.
pub fn read_list(bytes: &[u8]) -> Result<List, u8> {
    let (form, most) = match bytes.first() {
        Some(1) => (1, FORM_ONE_MOST),
        Some(2) => (2, MAX_FINDERS),
        _ => return Err(8),
    };
    let length = bytes.len() as u64;
    if length < list_length(form, 0) {
        return Err(8);
    }
    let mut fields = Fields(&bytes[1..]);
    let (width, height) = (fields.u16() as u32, fields.u16() as u32);
    let count = if form == 1 { fields.u8() as u32 } else { fields.u16() as u32 };
    let bad = count > most || length != list_length(form, count as u64);
    match refusal(&[zero_side(width, height), large_side(width, height), (8, bad)]) {
        0 => {
            let places: Vec<(f32, f32)> = (0..count).map(|_| fields.point()).collect();
            let finder =
                |p: (f32, f32)| Finder { x: p.0, y: p.1, module: fields.f32(), confirmations: fields.u32() };
            Ok(List { width, height, finders: places.into_iter().map(finder).collect() })
        }
        number => Err(number),
    }
}

/// The list that the writer makes.
pub fn written_list(width: u32, height: u32, finders: &[Finder]) -> Vec<u8> {
    list_in(2, width, height, finders)
}

/// A list in a form: the form's byte, the sides, the count, the places, then the modules with the confirmations.
pub fn list_in(form: u8, width: u32, height: u32, finders: &[Finder]) -> Vec<u8> {
    let mut out = Bytes::default();
    out.u8(form).u16(width as u16).u16(height as u16);
    match form {
        1 => out.u8(finders.len() as u8),
        _ => out.u16(finders.len() as u16),
    };
    finders.iter().for_each(|f| {
        out.f32(f.x).f32(f.y);
    });
    finders.iter().for_each(|f| {
        out.f32(f.module).u32(f.confirmations);
    });
    out.0
}

/// Score and mean module of a detection (document 02, N8), by `right_angle_score` and the line of `build_detection`.
pub fn graded(d: &Detection) -> (f32, f32) {
    (score_of(&d.finders).unwrap(), module_of(d.finders))
}

/// The firmware's 367 bytes.
pub fn detection_bytes(list: &[Detection]) -> Vec<u8> {
    let mut out = Bytes::default();
    out.detections(list);
    out.0.resize(367, 0);
    out.0
}
