//! Linear systems, transforms and the geometry of three finders.

use super::{Source, put_version};
use crate::differences::{estimate_version_of, unless_panic};
use crate::record::{Bytes, Fields};
use crate::rules::{bad_version, refusal};
use lcr_core::Version;
use lcr_decode::detect::{build_transform, estimate_version, order_finders};
use lcr_decode::math::solve;
use lcr_decode::transform::Transform;

pub fn answer(function: u8, f: &mut Fields, out: &mut Bytes) -> Source {
    match function {
        48 | 49 => {
            let n = if function == 48 { 6 } else { 8 };
            let mut a: Vec<f64> = (0..n * n).map(|_| f.f64()).collect();
            let mut b: Vec<f64> = (0..n).map(|_| f.f64()).collect();
            out.maybe_numbers(solve(&mut a, &mut b, n), n);
        }
        50 => {
            out.maybe_transform(Transform::from_quad(f.points(), f.points()));
        }
        51 => {
            out.maybe_transform(Transform::from_triangle(f.points(), f.points()));
        }
        52 => {
            out.point(f.lens_transform().apply(f.f32(), f.f32()));
        }
        53 => {
            out.point(f.lens_transform().module_center(f.u16(), f.u16()));
        }
        54 => {
            out.f32(f.lens_transform().local_pitch(f.u16(), f.u16()));
        }
        55 => {
            out.point(f.lens_transform().pitch_range(f.u16()));
        }
        56 => {
            let [a, b, c] = f.three();
            out.finders(&order_finders(a, b, c));
        }
        57 => {
            let three = f.three();
            let asked = unless_panic(|| estimate_version(&three));
            put_version(asked.unwrap_or_else(|| estimate_version_of(&three)), out);
            return if asked.is_some() { Source::Rust } else { Source::Panicked };
        }
        58 => {
            let three = f.three();
            let (flag, marker, version) = (f.u8(), f.point(), f.u8());
            let number = refusal(&[bad_version(version)]);
            let built = (number == 0).then(|| {
                let version = Version::new(version).unwrap();
                build_transform(&three, (flag == 1).then_some(marker), version)
            });
            out.u8(number).maybe_transform(built.flatten());
        }
        _ => {
            out.lens_transform(&f.transform().with_radial(f.f32(), f.f32(), f.f32()));
        }
    }
    Source::Rust
}
