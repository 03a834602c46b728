//! The answer that is expected to a record: the published Rust's wherever it can be asked.

mod detections;
mod geometry;
mod pictures;

use crate::record::{Bytes, Fields, Record};
use crate::rules::{End, Entry, long_runs, run_back, run_on};
use lcr_core::Version;
use lcr_core::color::Srgb8;
use lcr_decode::detect::{length_of, match_of};
use lcr_decode::image::binary_of;

pub use detections::detections_in;
pub use pictures::{chain_of, finders_of};

/// Where an answer comes from.
#[derive(Copy, Clone, PartialEq, Eq, Debug)]
pub enum Source {
    /// The published Rust.
    Rust,
    /// The comparison's own lines, since the checked Rust panics.
    Panicked,
    /// The comparison's own lines, since a score is not a number.
    NoNumber,
    /// The comparison's own lines, since the Rust would take seconds.
    Slow,
    /// The comparison's own lines, since five runs are longer than any line.
    Long,
    /// The comparison's own lines, since a run ended by the limit in a hit that the Rust confirms.
    Cut,
}

pub struct Answer {
    pub bytes: Vec<u8>,
    pub source: Source,
}

/// The answer to a record.
pub fn answer(record: &Record) -> Answer {
    let mut out = Bytes::default();
    let f = &mut Fields(&record.payload);
    let source = match record.function {
        1..=8 => core_answer(record.function, f, &mut out),
        16..=18 => pictures::answer(record.function, f, &mut out),
        32..=34 => pictures::finders_answer(record.function, f, &mut out),
        36 => runs_answer(f, &mut out),
        37 => end_answer(f, &mut out),
        48..=59 => geometry::answer(record.function, f, &mut out),
        64..=67 => detections::alignment_answer(record.function, f, &mut out),
        80..=82 => detections::candidates_answer(record.function, f, &mut out),
        96 => pictures::chain_answer(Entry::Chain, f, &mut out),
        97 => pictures::chain_answer(Entry::Preview, f, &mut out),
        n => panic!("no function {n}"),
    };
    Answer { bytes: out.0, source }
}

fn core_answer(function: u8, f: &mut Fields, out: &mut Bytes) -> Source {
    let colour = |f: &mut Fields| Srgb8::new(f.u8(), f.u8(), f.u8());
    let put = |c: Srgb8, out: &mut Bytes| {
        out.u8(c.r).u8(c.g).u8(c.b);
    };
    match function {
        1..=3 => {
            let version = Version::new(f.u8()).ok();
            out.u8(if version.is_some() { 0 } else { 7 });
            match function {
                1 => out.u8(version.map_or(0, |v| v.get())),
                2 => out.u16(version.map_or(0, |v| v.side())),
                _ => out.u32(version.map_or(0, |v| v.modules() as u32)),
            };
        }
        4 => put_version(Version::from_side(f.u16()), out),
        5 => put(colour(f), out),
        6 => put(Srgb8::from_hex(f.u32()), out),
        7 => {
            out.u32(colour(f).to_hex());
        }
        _ => {
            out.f32(colour(f).rec709_luma());
        }
    }
    Source::Rust
}

fn runs_answer(f: &mut Fields, out: &mut Bytes) -> Source {
    let runs: [u32; 5] = core::array::from_fn(|_| f.u16() as u32);
    let long = long_runs(&runs);
    let module = if long { None } else { match_of(runs) };
    out.u8(module.is_some() as u8).f32(module.unwrap_or(0.0));
    if long { Source::Long } else { Source::Rust }
}

/// The count is held to the Rust's on a column.
fn end_answer(f: &mut Fields, out: &mut Bytes) -> Source {
    let (len, from, limit) = (f.u16() as u32, f.u16() as u32, f.u32());
    let (backwards, want) = (f.u8() == 1, f.u8() == 1);
    let height = if backwards { from } else { len };
    let mut bits = f.rest().to_vec();
    bits.resize(bits.len().max(height.div_ceil(8) as usize), 0);
    let column = binary_of(1, height, &bits);
    let dark = |y: u32| column.dark(0, y);
    let run =
        if backwards { run_back(from, want, limit, dark) } else { run_on(len, from, want, limit, dark) };
    // The Rust counts from the pixel beside the run: -1 for a run that starts at 0.
    let (beside, step) = if backwards { (from, -1) } else { (from.wrapping_sub(1), 1) };
    assert_eq!(run.length, length_of(&column, 0, beside, step, want, limit), "the count of a run");
    let end = match run.end {
        End::Change => 0,
        End::Edge => 1,
        End::Limit => 2,
    };
    out.u16(run.length as u16).u8(end);
    Source::Rust
}

fn put_version(v: Option<Version>, out: &mut Bytes) {
    out.u8(v.is_some() as u8).u8(v.map_or(0, |v| v.get()));
}
