//! The alignment marker, and detections of lent finders and of pictures.

use super::{Source, finders_of};
use crate::coverage;
use crate::differences::*;
use crate::record::{Bytes, Fields};
use crate::rules::{bad_version, bits_refusal, detection_bytes, refusal};
use lcr_core::Version;
use lcr_decode::detect::*;
use lcr_decode::image::{Binary, binary_of};
use lcr_decode::transform::lens_of;

/// The Rust's answer, or that of the own lines where it panics or takes too long.
fn asked<T>(slow: bool, rust: impl FnOnce() -> T, own: impl FnOnce() -> T) -> (T, Source) {
    if slow {
        return (own(), Source::Slow);
    }
    match unless_panic(rust) {
        Some(v) => (v, Source::Rust),
        None => (own(), Source::Panicked),
    }
}

pub fn alignment_answer(function: u8, f: &mut Fields, out: &mut Bytes) -> Source {
    let (width, height) = (f.u32(), f.u32());
    match function {
        64 => {
            let (predicted, module) = (f.point(), f.f32());
            let bits = f.rest();
            let number = bits_refusal(width, height, bits.len());
            if number != 0 {
                out.u8(number).maybe_point(None);
                return Source::Rust;
            }
            let bin = binary_of(width, height, bits);
            let own = || find_alignment_of(&bin, predicted, module);
            let (found, source) = asked(slow(module), || find_alignment(&bin, predicted, module), own);
            assert!(same_point(found, own()), "the row search");
            out.u8(0).maybe_point(found);
            source
        }
        65 | 66 => {
            let (t, version) = (f.lens_transform(), f.u8());
            let module = if function == 66 { f.f32() } else { 0.0 };
            let bits = f.rest();
            let number = bits_refusal(width, height, bits.len());
            let number = if number == 0 { refusal(&[bad_version(version)]) } else { number };
            if number != 0 {
                out.u8(number).maybe_point(None);
                return Source::Rust;
            }
            let bin = binary_of(width, height, bits);
            let version = Version::new(version).unwrap();
            let rust = || match function {
                65 => match_alignment(&bin, &t, version),
                _ => locate_alignment(&bin, &t, version, module),
            };
            let own = || locate_alignment_of(&bin, &t, version, module);
            let (found, source) = asked(slow(module), rust, own);
            out.u8(0).maybe_point(found);
            source
        }
        _ => {
            let (three, version, t, module) = (f.three(), f.u8(), f.lens_transform(), f.f32());
            let bits = f.rest();
            let number = bits_refusal(width, height, bits.len());
            let number = if number == 0 { refusal(&[bad_version(version)]) } else { number };
            if number != 0 {
                out.u8(number).numbers(&[0.0; 11]).maybe_point(None);
                return Source::Rust;
            }
            let bin = binary_of(width, height, bits);
            let version = Version::new(version).unwrap();
            let rust = || refine_alignment(&bin, &three, version, t, module);
            let own = || refine_alignment_of(&bin, &three, version, t, module);
            let ((refined, found), source) = asked(slow(module), rust, own);
            let rebuilt = found.and_then(|_| build_transform(&three, found, version));
            let lens = rebuilt.map_or(lens_of(&t), |_| [0.0; 3]).map(f64::to_bits);
            assert_eq!(lens_of(&refined).map(f64::to_bits), lens, "the lens terms after the refinement");
            out.u8(0).lens_transform(&refined).maybe_point(found);
            source
        }
    }
}

fn same_point(a: Maybe, b: Maybe) -> bool {
    let bits = |p: Maybe| {
        let mut out = Bytes::default();
        out.maybe_point(p);
        out.0
    };
    bits(a) == bits(b)
}

/// The detections of a list of finders, held to its ranking.
fn detections_of(bin: &Binary, list: &[Finder]) -> (Vec<Detection>, Source) {
    let (triples, odd) = ranked(list);
    let slow = triples.iter().any(|t| slow_triple(&t.finders));
    let own = || -> Vec<Detection> {
        let one = |t: &Triple| {
            let rust = || detection_of(bin, t.finders);
            asked(slow_triple(&t.finders), rust, || detection_by_rules(bin, t.finders)).0
        };
        triples.iter().filter_map(one).collect()
    };
    let (found, source) = match odd {
        true => (own(), Source::NoNumber),
        false => asked(slow, || candidates_from(bin, list.to_vec()), own),
    };
    triples_of(list, &found);
    (found, source)
}

/// The detections of a picture whose finders are known: those of the list where it is not the Rust's.
pub fn detections_in(bin: &Binary, list: &[Finder], source: Source) -> Vec<Detection> {
    let rust = detect_candidates(bin);
    if source != Source::Cut {
        triples_of(list, &rust);
        return rust;
    }
    let found = detections_of(bin, list).0;
    coverage::note_detections(detection_bytes(&found) == detection_bytes(&rust));
    found
}

pub fn candidates_answer(function: u8, f: &mut Fields, out: &mut Bytes) -> Source {
    let (width, height) = (f.u32(), f.u32());
    let count = if function == 80 { f.u32() } else { 0 };
    let list: Vec<Finder> = (0..count).map(|_| f.finder()).collect();
    let bits = f.rest();
    let number = bits_refusal(width, height, bits.len());
    if number != 0 {
        out.u8(number).detections(&[]).grades(&[]);
        return Source::Rust;
    }
    let bin = binary_of(width, height, bits);
    if function == 80 {
        let (found, source) = detections_of(&bin, &list);
        coverage::note_grades(&list, &found);
        out.u8(0).detections(&found).grades(&found);
        return source;
    }
    let (finders, source) = finders_of(&bin);
    let Some(list) = finders else {
        out.u8(6).detections(&[]).grades(&[]);
        return source;
    };
    let found = match (function, source) {
        (81, _) => detections_in(&bin, &list, source),
        (_, Source::Cut) => detections_in(&bin, &list, source).into_iter().take(1).collect(),
        _ => detect(&bin).into_iter().collect(),
    };
    coverage::note_grades(&list, &found);
    out.u8(0).detections(&found).grades(&found);
    source
}
