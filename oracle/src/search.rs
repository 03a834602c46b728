//! The finder search of documents 01 and 02, in the comparison's own lines: every hit that the
//! published rule confirms, and how the runs of its confirmations ended (N7).

use crate::differences::runs;
use crate::rules::{End, MAX_FINDERS, Run, run_back, run_on};
use lcr_decode::detect::{Finder, join, match_of};
use lcr_decode::image::Binary;

/// A hit that both confirmations pass.
pub struct Hit {
    pub x: f32,
    pub y: f32,
    pub module: f32,
    /// Whether the line scanned is a row.
    pub row: bool,
    /// The first confirmation and the second.
    pub runs: [[Run; 6]; 2],
}

impl Hit {
    /// Whether a run of the first confirmation, or of the second, ended by the limit.
    pub fn cut(&self, place: usize) -> bool {
        self.runs[place].iter().any(|r| r.end == End::Limit)
    }

    /// The amended rule drops it.
    pub fn dropped(&self) -> bool {
        self.cut(0) || self.cut(1)
    }
}

/// The most pixels of a run in a confirmation.
pub fn limit_of(module: f32) -> u32 {
    (module * 5.0) as u32 + 4
}

/// The hits of a line: five runs that pass, as the centre's place and the module.
fn hits_of_line(len: u32, dark: impl Fn(u32) -> bool) -> Vec<(f32, f32)> {
    let line = runs(0, len as i64, |at| dark(at as u32));
    let five = |w: &[(i64, i64, bool)]| {
        let module = match_of(core::array::from_fn(|k| w[k].1 as u32))?;
        Some((w[2].0 as f32 + w[2].1 as f32 / 2.0, module))
    };
    line.windows(5).filter(|w| w[0].2).filter_map(five).collect()
}

/// The confirmation along a line about a pixel of it: the core's centre, and the six runs: core, light and dark
/// before the pixel and after it. None unless they pass.
fn confirmed(len: u32, at: u32, limit: u32, dark: impl Fn(u32) -> bool) -> Option<(f32, [Run; 6])> {
    if !dark(at) {
        return None;
    }
    let back = |from: u32, want: bool| run_back(from, want, limit, &dark);
    let on = |from: u32, want: bool| run_on(len, from, want, limit, &dark);
    let cores = [back(at, true), on(at + 1, true)];
    let (start, end) = (at - cores[0].length, at + 1 + cores[1].length);
    let lights = [back(start, false), on(end, false)];
    let darks = [back(start - lights[0].length, true), on(end + lights[1].length, true)];
    let core = end - start;
    match_of([darks[0].length, lights[0].length, core, lights[1].length, darks[1].length])?;
    let six = [cores[0], lights[0], darks[0], cores[1], lights[1], darks[1]];
    Some((start as f32 + core as f32 / 2.0, six))
}

fn down(bin: &Binary, x: u32, y: u32, module: f32) -> Option<(f32, [Run; 6])> {
    confirmed(bin.height, y, limit_of(module), |y| bin.dark(x, y))
}

fn across(bin: &Binary, x: u32, y: u32, module: f32) -> Option<(f32, [Run; 6])> {
    confirmed(bin.width, x, limit_of(module), |x| bin.dark(x, y))
}

/// The confirmed hits of a picture, in order, cut or not.
pub fn hits(bin: &Binary) -> Vec<Hit> {
    let on_row = |row: u32, (at, module): (f32, f32)| {
        let (y, first) = down(bin, at as u32, row, module)?;
        let (x, second) = across(bin, at as u32, y as u32, module)?;
        Some(Hit { x, y, module, row: true, runs: [first, second] })
    };
    let on_column = |column: u32, (at, module): (f32, f32)| {
        let (x, first) = across(bin, column, at as u32, module)?;
        let (y, second) = down(bin, x as u32, at as u32, module)?;
        Some(Hit { x, y, module, row: false, runs: [first, second] })
    };
    let mut out = Vec::new();
    for row in (0..bin.height).step_by(2) {
        let line = hits_of_line(bin.width, |x| bin.dark(x, row));
        out.extend(line.into_iter().filter_map(|hit| on_row(row, hit)));
    }
    for column in (0..bin.width).step_by(2) {
        let line = hits_of_line(bin.height, |y| bin.dark(column, y));
        out.extend(line.into_iter().filter_map(|hit| on_column(column, hit)));
    }
    out
}

/// The finders that the hits make, those with one confirmation too, in the order of discovery. Joining is the Rust's.
pub fn held<'a>(hits: impl IntoIterator<Item = &'a Hit>) -> Vec<Finder> {
    let mut out = Vec::new();
    hits.into_iter().for_each(|h| join(&mut out, h.x, h.y, h.module));
    out
}

/// Those that stay, most confirmations first.
pub fn staying(mut held: Vec<Finder>) -> Vec<Finder> {
    held.retain(|f| f.confirmations >= 2);
    held.sort_by_key(|f| core::cmp::Reverse(f.confirmations));
    held
}

/// The answer of a search that holds these finders: those that stay, or none where a 1,001st is held.
pub fn answer_of(held: Vec<Finder>) -> Option<Vec<Finder>> {
    (held.len() as u32 <= MAX_FINDERS).then(|| staying(held))
}
