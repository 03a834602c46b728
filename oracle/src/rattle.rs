//! The C entries of the whole chain and of the preview, from the static library. Nothing checks these declarations
//! against the Rattle source: they are written here once.

use crate::picture::Picture;
use crate::rules::Entry;

#[cfg(linked)]
unsafe extern "C" {
    fn plate_chain(
        picture: *const u8,
        picture_len: usize,
        width: u32,
        height: u32,
        stride: u32,
        format: u8,
        gray: *mut u8,
        gray_len: usize,
        bits: *mut u8,
        bits_len: usize,
        denoised: *mut u8,
        denoised_len: usize,
        means: *mut u8,
        means_len: usize,
        least: *mut u8,
        least_len: usize,
        greatest: *mut u8,
        greatest_len: usize,
        edges: *mut u8,
        edges_len: usize,
        nears: *mut u8,
        nears_len: usize,
        detections: *mut u8,
        detections_len: usize,
    ) -> u8;

    fn plate_preview(
        picture: *const u8,
        picture_len: usize,
        width: u32,
        height: u32,
        stride: u32,
        format: u8,
        gray: *mut u8,
        gray_len: usize,
        bits: *mut u8,
        bits_len: usize,
        denoised: *mut u8,
        denoised_len: usize,
        means: *mut u8,
        means_len: usize,
        least: *mut u8,
        least_len: usize,
        greatest: *mut u8,
        greatest_len: usize,
        edges: *mut u8,
        edges_len: usize,
        nears: *mut u8,
        nears_len: usize,
        list: *mut u8,
        list_len: usize,
    ) -> u8;
}

/// Calls an entry on a picture and nine slices: gray, bits, denoised, means, least, greatest, edge marks, near marks,
/// and the detections or the list. None where the library is not linked.
#[cfg(linked)]
pub fn call(entry: Entry, picture: Picture, lent: &mut [Vec<u8>; 9]) -> Option<u8> {
    let symbol = match entry {
        Entry::Chain => plate_chain,
        Entry::Preview => plate_preview,
    };
    let [g, b, d, m, l, h, e, n, out] = lent;
    let number = unsafe {
        symbol(
            picture.bytes.as_ptr(),
            picture.bytes.len(),
            picture.sides.0,
            picture.sides.1,
            picture.stride,
            picture.format,
            g.as_mut_ptr(),
            g.len(),
            b.as_mut_ptr(),
            b.len(),
            d.as_mut_ptr(),
            d.len(),
            m.as_mut_ptr(),
            m.len(),
            l.as_mut_ptr(),
            l.len(),
            h.as_mut_ptr(),
            h.len(),
            e.as_mut_ptr(),
            e.len(),
            n.as_mut_ptr(),
            n.len(),
            out.as_mut_ptr(),
            out.len(),
        )
    };
    Some(number)
}

#[cfg(not(linked))]
pub fn call(_: Entry, _: Picture, _: &mut [Vec<u8>; 9]) -> Option<u8> {
    None
}
