//! Records for the replay program and the bytes of its answers, as docs/REPLAY.md has them.

use crate::rules::graded;
use lcr_decode::detect::{Detection, Finder};
use lcr_decode::transform::{Transform, lens_of, lens_transform_of, numbers_of, transform_of};

/// The functions by number, with their group.
pub const FUNCTIONS: [(u8, &str, &str); 37] = [
    (1, "Version::new", "core"),
    (2, "Version::side", "core"),
    (3, "Version::modules", "core"),
    (4, "Version::from_side", "core"),
    (5, "Srgb8::new", "core"),
    (6, "Srgb8::from_hex", "core"),
    (7, "Srgb8::to_hex", "core"),
    (8, "Srgb8::rec709_luma", "core"),
    (16, "gray_buffer", "image"),
    (17, "binarize", "image"),
    (18, "denoised", "image"),
    (32, "find_finders", "finders"),
    (33, "stored list, read", "finders"),
    (34, "stored list, written", "finders"),
    (36, "matches_finder", "finders"),
    (37, "how a run ended", "finders"),
    (48, "solve, size 6", "geometry"),
    (49, "solve, size 8", "geometry"),
    (50, "Transform::from_quad", "geometry"),
    (51, "Transform::from_triangle", "geometry"),
    (52, "Transform::apply", "geometry"),
    (53, "Transform::module_center", "geometry"),
    (54, "Transform::local_pitch", "geometry"),
    (55, "Transform::pitch_range", "geometry"),
    (56, "order_finders", "geometry"),
    (57, "estimate_version", "geometry"),
    (58, "build_transform", "geometry"),
    (59, "Transform::with_radial", "geometry"),
    (64, "find_alignment", "alignment"),
    (65, "match_alignment", "alignment"),
    (66, "locate_alignment", "alignment"),
    (67, "refine_alignment", "alignment"),
    (80, "candidates_from", "candidates"),
    (81, "detect_candidates", "candidates"),
    (82, "detect", "candidates"),
    (96, "whole chain", "chain"),
    (97, "preview", "chain"),
];

/// The program that replays a group's records (docs/REPLAY.md).
pub fn program_of(group: &str) -> &'static str {
    match group {
        "image" => "replay_image",
        "alignment" | "candidates" => "replay_candidates",
        "chain" => "replay_chain",
        _ => "replay",
    }
}

/// Calls of the C entries have no record: the static library is linked.
pub const CHAIN_FROM_C: &str = "whole chain, C entry";
pub const PREVIEW_FROM_C: &str = "preview, C entry";

/// No payload and no lent slice of a record is longer.
pub const LONGEST: usize = 262_144;

/// A call: the function's number and its arguments.
#[derive(Clone)]
pub struct Record {
    pub function: u8,
    pub payload: Vec<u8>,
}

impl Record {
    pub fn new(function: u8) -> Record {
        Record { function, payload: Vec::new() }
    }

    pub fn encoded(&self) -> Vec<u8> {
        assert!(self.payload.len() <= LONGEST);
        let mut out = vec![self.function];
        out.extend((self.payload.len() as u32).to_le_bytes());
        out.extend(&self.payload);
        out
    }

    pub fn with(mut self, put: impl FnOnce(&mut Bytes)) -> Record {
        let mut bytes = Bytes(self.payload);
        put(&mut bytes);
        self.payload = bytes.0;
        self
    }
}

/// Bytes that grow by a value at a time, little-endian, a not-a-number as one pattern.
#[derive(Default)]
pub struct Bytes(pub Vec<u8>);

impl Bytes {
    pub fn u8(&mut self, v: u8) -> &mut Bytes {
        self.0.push(v);
        self
    }

    pub fn u16(&mut self, v: u16) -> &mut Bytes {
        self.raw(&v.to_le_bytes())
    }

    pub fn u32(&mut self, v: u32) -> &mut Bytes {
        self.raw(&v.to_le_bytes())
    }

    pub fn u64(&mut self, v: u64) -> &mut Bytes {
        self.raw(&v.to_le_bytes())
    }

    pub fn f32(&mut self, v: f32) -> &mut Bytes {
        self.u32(if v.is_nan() { 0x7fc0_0000 } else { v.to_bits() })
    }

    pub fn f64(&mut self, v: f64) -> &mut Bytes {
        self.u64(if v.is_nan() { 0x7ff8_0000_0000_0000 } else { v.to_bits() })
    }

    pub fn raw(&mut self, bytes: &[u8]) -> &mut Bytes {
        self.0.extend(bytes);
        self
    }

    pub fn point(&mut self, p: (f32, f32)) -> &mut Bytes {
        self.f32(p.0).f32(p.1)
    }

    pub fn finder(&mut self, f: &Finder) -> &mut Bytes {
        self.f32(f.x).f32(f.y).f32(f.module).u32(f.confirmations)
    }

    pub fn finders(&mut self, list: &[Finder]) -> &mut Bytes {
        list.iter().fold(self, |out, f| out.finder(f))
    }

    /// A count of two bytes, and the finders.
    pub fn table(&mut self, list: &[Finder]) -> &mut Bytes {
        self.u16(list.len() as u16).finders(list)
    }

    pub fn numbers(&mut self, m: &[f64]) -> &mut Bytes {
        m.iter().fold(self, |out, v| out.f64(*v))
    }

    /// Floats of a payload by their bits, a not-a-number as it is.
    pub fn bits(&mut self, m: &[f64]) -> &mut Bytes {
        m.iter().fold(self, |out, v| out.u64(v.to_bits()))
    }

    /// A flag and a value, zero where there is none.
    pub fn maybe_point(&mut self, p: Option<(f32, f32)>) -> &mut Bytes {
        self.u8(p.is_some() as u8).point(p.unwrap_or((0.0, 0.0)))
    }

    pub fn maybe_numbers(&mut self, m: Option<Vec<f64>>, n: usize) -> &mut Bytes {
        self.u8(m.is_some() as u8).numbers(&m.unwrap_or(vec![0.0; n]))
    }

    /// A flag and the 64 bytes of a transform built from points.
    pub fn maybe_transform(&mut self, t: Option<Transform>) -> &mut Bytes {
        self.maybe_numbers(t.map(|t| built_numbers(&t).to_vec()), 8)
    }

    /// 88 bytes: the eight numbers and the lens terms.
    pub fn lens_transform(&mut self, t: &Transform) -> &mut Bytes {
        self.numbers(&numbers_of(t)).numbers(&lens_of(t))
    }

    /// 122 bytes: three finders, version, marker, transform.
    pub fn detection(&mut self, d: &Detection) -> &mut Bytes {
        self.finders(&d.finders).u8(d.version.get()).maybe_point(d.alignment);
        self.numbers(&built_numbers(&d.transform))
    }

    pub fn detections(&mut self, list: &[Detection]) -> &mut Bytes {
        self.u8(list.len() as u8);
        list.iter().fold(self, |out, d| out.detection(d))
    }

    /// 24 bytes behind the detections: score and mean module of three places, 0 beyond the list.
    pub fn grades(&mut self, list: &[Detection]) -> &mut Bytes {
        (0..3).fold(self, |out, k| out.point(list.get(k).map_or((0.0, 0.0), graded)))
    }

    /// A lent slice as the call left it: its length and FNV-1a of its bytes.
    pub fn slice(&mut self, bytes: &[u8]) -> &mut Bytes {
        let hash =
            bytes.iter().fold(0xcbf2_9ce4_8422_2325u64, |h, b| (h ^ *b as u64).wrapping_mul(0x100_0000_01b3));
        self.u32(bytes.len() as u32).u64(hash)
    }
}

/// The eight numbers of a transform built from points. They don't show its lens terms, which are held to 0 here.
pub fn built_numbers(t: &Transform) -> [f64; 8] {
    assert_eq!(lens_of(t).map(f64::to_bits), [0; 3], "the lens terms of a transform built from points");
    numbers_of(t)
}

/// The bytes of finders, by which they are held to others.
pub fn bytes_of(list: &[Finder]) -> Vec<u8> {
    let mut out = Bytes::default();
    out.finders(list);
    out.0
}

/// A lent slice as the replay program hands it over.
pub fn lent(length: u32) -> Vec<u8> {
    (0..length).map(|i| (i % 251) as u8).collect()
}

/// The values of a payload, taken from its start.
pub struct Fields<'a>(pub &'a [u8]);

impl<'a> Fields<'a> {
    pub fn bytes(&mut self, n: usize) -> &'a [u8] {
        let (head, tail) = self.0.split_at(n);
        self.0 = tail;
        head
    }

    pub fn rest(&mut self) -> &'a [u8] {
        self.bytes(self.0.len())
    }

    pub fn u8(&mut self) -> u8 {
        self.bytes(1)[0]
    }

    pub fn u16(&mut self) -> u16 {
        u16::from_le_bytes(self.bytes(2).try_into().unwrap())
    }

    pub fn u32(&mut self) -> u32 {
        u32::from_le_bytes(self.bytes(4).try_into().unwrap())
    }

    pub fn f32(&mut self) -> f32 {
        f32::from_bits(self.u32())
    }

    pub fn f64(&mut self) -> f64 {
        f64::from_bits(u64::from_le_bytes(self.bytes(8).try_into().unwrap()))
    }

    pub fn point(&mut self) -> (f32, f32) {
        (self.f32(), self.f32())
    }

    pub fn points<const N: usize>(&mut self) -> [(f32, f32); N] {
        core::array::from_fn(|_| self.point())
    }

    pub fn finder(&mut self) -> Finder {
        Finder { x: self.f32(), y: self.f32(), module: self.f32(), confirmations: self.u32() }
    }

    pub fn three(&mut self) -> [Finder; 3] {
        core::array::from_fn(|_| self.finder())
    }

    pub fn numbers<const N: usize>(&mut self) -> [f64; N] {
        core::array::from_fn(|_| self.f64())
    }

    pub fn transform(&mut self) -> Transform {
        transform_of(self.numbers())
    }

    pub fn lens_transform(&mut self) -> Transform {
        lens_transform_of(self.numbers(), self.numbers())
    }
}
