//! The C entries of the static libraries, as include/sirvoltha.h (`plate_chain` and `plate_preview`, in libchain.a) and
//! include/sirvoltha_stages.h (the stages alone, in libbench_entries.a) declare them for C. Numbers go as themselves, a byte
//! slice as its pointer and its length.

use crate::limits::{MAX_FINDERS, list_length};

unsafe extern "C" {
    fn plate_gray(
        picture: *const u8,
        picture_len: usize,
        width: u32,
        height: u32,
        stride: u32,
        format: u8,
        gray: *mut u8,
        gray_len: usize,
    ) -> u8;
    fn plate_binarize(
        gray: *const u8,
        gray_len: usize,
        width: u32,
        height: u32,
        means: *mut u8,
        means_len: usize,
        least: *mut u8,
        least_len: usize,
        greatest: *mut u8,
        greatest_len: usize,
        edges: *mut u8,
        edges_len: usize,
        nears: *mut u8,
        nears_len: usize,
        bits: *mut u8,
        bits_len: usize,
    ) -> u8;
    fn plate_denoised(
        bits: *const u8,
        bits_len: usize,
        width: u32,
        height: u32,
        denoised: *mut u8,
        denoised_len: usize,
    ) -> u8;
    /// Leaves the stored list.
    fn plate_finders(
        bits: *const u8,
        bits_len: usize,
        width: u32,
        height: u32,
        list: *mut u8,
        list_len: usize,
    ) -> u8;
    /// Leaves the firmware's bytes.
    fn plate_candidates(
        bits: *const u8,
        bits_len: usize,
        width: u32,
        height: u32,
        detections: *mut u8,
        detections_len: usize,
    ) -> u8;
    fn plate_chain(
        picture: *const u8,
        picture_len: usize,
        width: u32,
        height: u32,
        stride: u32,
        format: u8,
        gray: *mut u8,
        gray_len: usize,
        bits: *mut u8,
        bits_len: usize,
        denoised: *mut u8,
        denoised_len: usize,
        means: *mut u8,
        means_len: usize,
        least: *mut u8,
        least_len: usize,
        greatest: *mut u8,
        greatest_len: usize,
        edges: *mut u8,
        edges_len: usize,
        nears: *mut u8,
        nears_len: usize,
        detections: *mut u8,
        detections_len: usize,
    ) -> u8;
    /// Leaves the stored list.
    fn plate_preview(
        picture: *const u8,
        picture_len: usize,
        width: u32,
        height: u32,
        stride: u32,
        format: u8,
        gray: *mut u8,
        gray_len: usize,
        bits: *mut u8,
        bits_len: usize,
        denoised: *mut u8,
        denoised_len: usize,
        means: *mut u8,
        means_len: usize,
        least: *mut u8,
        least_len: usize,
        greatest: *mut u8,
        greatest_len: usize,
        edges: *mut u8,
        edges_len: usize,
        nears: *mut u8,
        nears_len: usize,
        list: *mut u8,
        list_len: usize,
    ) -> u8;
}

/// Slices lent to the stages.
pub struct Lent {
    pub gray: Vec<u8>,
    pub bits: Vec<u8>,
    pub denoised: Vec<u8>,
    pub means: Vec<u8>,
    pub least: Vec<u8>,
    pub greatest: Vec<u8>,
    pub edges: Vec<u8>,
    pub nears: Vec<u8>,
    /// The stored list.
    pub list: Vec<u8>,
    /// The detections: their count and 122 bytes for each of up to 3.
    pub detections: Vec<u8>,
}

impl Lent {
    pub fn new(width: u32, height: u32) -> Lent {
        let pixels = width as usize * height as usize;
        let blocks = vec![0; (width.div_ceil(8) * height.div_ceil(8)) as usize];
        Lent {
            gray: vec![0; pixels],
            bits: vec![0; pixels.div_ceil(8)],
            denoised: vec![0; pixels.div_ceil(8)],
            means: blocks.clone(),
            least: blocks.clone(),
            greatest: blocks.clone(),
            edges: blocks.clone(),
            nears: blocks,
            list: vec![0; list_length(2, MAX_FINDERS as u64) as usize],
            detections: vec![0; 367],
        }
    }

    /// How many finders the stored list has.
    pub fn listed(&self) -> usize {
        u16::from_le_bytes([self.list[5], self.list[6]]) as usize
    }
}

/// A picture of the caller.
pub struct Picture<'a> {
    pub bytes: &'a [u8],
    pub width: u32,
    pub height: u32,
    pub stride: u32,
    pub format: u8,
}

/// A stage: takes what the earlier ones left and gives the refusal number.
pub type Stage = fn(&Picture, &mut Lent) -> u8;

pub const GRAY: Stage = |p, l| unsafe {
    plate_gray(
        p.bytes.as_ptr(),
        p.bytes.len(),
        p.width,
        p.height,
        p.stride,
        p.format,
        l.gray.as_mut_ptr(),
        l.gray.len(),
    )
};

pub const BINARIZE: Stage = |p, l| unsafe {
    plate_binarize(
        l.gray.as_ptr(),
        l.gray.len(),
        p.width,
        p.height,
        l.means.as_mut_ptr(),
        l.means.len(),
        l.least.as_mut_ptr(),
        l.least.len(),
        l.greatest.as_mut_ptr(),
        l.greatest.len(),
        l.edges.as_mut_ptr(),
        l.edges.len(),
        l.nears.as_mut_ptr(),
        l.nears.len(),
        l.bits.as_mut_ptr(),
        l.bits.len(),
    )
};

pub const DENOISED: Stage = |p, l| unsafe {
    plate_denoised(
        l.bits.as_ptr(),
        l.bits.len(),
        p.width,
        p.height,
        l.denoised.as_mut_ptr(),
        l.denoised.len(),
    )
};

pub const FINDERS: Stage = |p, l| unsafe {
    plate_finders(l.denoised.as_ptr(), l.denoised.len(), p.width, p.height, l.list.as_mut_ptr(), l.list.len())
};

pub const CANDIDATES: Stage = |p, l| unsafe {
    plate_candidates(
        l.denoised.as_ptr(),
        l.denoised.len(),
        p.width,
        p.height,
        l.detections.as_mut_ptr(),
        l.detections.len(),
    )
};

pub const CHAIN: Stage = |p, l| unsafe {
    plate_chain(
        p.bytes.as_ptr(),
        p.bytes.len(),
        p.width,
        p.height,
        p.stride,
        p.format,
        l.gray.as_mut_ptr(),
        l.gray.len(),
        l.bits.as_mut_ptr(),
        l.bits.len(),
        l.denoised.as_mut_ptr(),
        l.denoised.len(),
        l.means.as_mut_ptr(),
        l.means.len(),
        l.least.as_mut_ptr(),
        l.least.len(),
        l.greatest.as_mut_ptr(),
        l.greatest.len(),
        l.edges.as_mut_ptr(),
        l.edges.len(),
        l.nears.as_mut_ptr(),
        l.nears.len(),
        l.detections.as_mut_ptr(),
        l.detections.len(),
    )
};

pub const PREVIEW: Stage = |p, l| unsafe {
    plate_preview(
        p.bytes.as_ptr(),
        p.bytes.len(),
        p.width,
        p.height,
        p.stride,
        p.format,
        l.gray.as_mut_ptr(),
        l.gray.len(),
        l.bits.as_mut_ptr(),
        l.bits.len(),
        l.denoised.as_mut_ptr(),
        l.denoised.len(),
        l.means.as_mut_ptr(),
        l.means.len(),
        l.least.as_mut_ptr(),
        l.least.len(),
        l.greatest.as_mut_ptr(),
        l.greatest.len(),
        l.edges.as_mut_ptr(),
        l.edges.len(),
        l.nears.as_mut_ptr(),
        l.nears.len(),
        l.list.as_mut_ptr(),
        l.list.len(),
    )
};
