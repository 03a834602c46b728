//! Gray conversion, black and white conversion, denoising, the finder search, the stored
//! list, the whole chain and the preview.

use super::{Source, detections_in};
use crate::coverage;
use crate::picture::Picture;
use crate::record::{Bytes, Fields, bytes_of, lent};
use crate::rules::*;
use crate::search::{answer_of, held, hits, staying};
use lcr_decode::detect::{Detection, Finder, all_held, find_finders};
use lcr_decode::image::{Binary, ImageView, PixelFormat, binarize, binary_of, bits_of};

fn format_of(format: u8) -> PixelFormat {
    match format {
        1 => PixelFormat::Gray8,
        3 => PixelFormat::Rgb8,
        _ => PixelFormat::Rgba8,
    }
}

/// Writes over the start of a lent slice.
fn write(slice: &mut [u8], bytes: &[u8]) {
    slice[..bytes.len()].copy_from_slice(bytes);
}

pub fn answer(function: u8, f: &mut Fields, out: &mut Bytes) -> Source {
    let (width, height) = (f.u32(), f.u32());
    let sides = [zero_side(width, height), large_side(width, height)];
    match function {
        16 => {
            let (stride, format) = (f.u32(), f.u8());
            let mut gray = lent(f.u32());
            let picture = f.rest();
            let [bad, short] = picture_checks(picture.len(), width, height, stride, format);
            let room = (5, (gray.len() as u64) < pixels(width, height));
            let number = refusal(&[sides[0], sides[1], bad, short, room]);
            if channels(format).is_some() {
                let view = ImageView::new(picture, width, height, stride, format_of(format));
                assert_eq!(view.is_err(), sides[0].1 || short.1, "the reach of a picture");
                if number == 0 {
                    write(&mut gray, &view.unwrap().gray_buffer());
                }
            }
            out.u8(number).slice(&gray);
        }
        17 => {
            let mut slices: Vec<Vec<u8>> = (0..6).map(|_| lent(f.u32())).collect();
            let gray = f.rest();
            let short = (4, (gray.len() as u64) < pixels(width, height));
            let work = slices[1..].iter().any(|s| (s.len() as u64) < blocks(width, height));
            let room = (5, (slices[0].len() as u64) < bit_bytes(width, height) || work);
            let number = refusal(&[sides[0], sides[1], short, room]);
            if number == 0 {
                write(&mut slices[0], bits_of(&binarize(gray, width, height)));
                for (slice, values) in slices[1..].iter_mut().zip(block_values(gray, width, height)) {
                    write(slice, &values);
                }
            }
            out.u8(number);
            slices.iter().for_each(|s| {
                out.slice(s);
            });
        }
        _ => {
            let mut clean = lent(f.u32());
            let bits = f.rest();
            let need = bit_bytes(width, height);
            let short = [(4, (bits.len() as u64) < need), (5, (clean.len() as u64) < need)];
            let number = refusal(&[sides[0], sides[1], short[0], short[1]]);
            if number == 0 {
                write(&mut clean, bits_of(&binary_of(width, height, bits).denoised()));
            }
            out.u8(number).slice(&clean);
        }
    }
    Source::Rust
}

/// The finders of a picture, or none where a 1,001st is added: the Rust's, unless a hit that it confirms is cut.
pub fn finders_of(bin: &Binary) -> (Option<Vec<Finder>>, Source) {
    let (hits, added, found) = (hits(bin), all_held(bin), find_finders(bin));
    assert_eq!(bytes_of(&held(&hits)), bytes_of(&added), "the hits that the search confirms");
    let full = added.len() as u32 > MAX_FINDERS;
    assert_eq!(bytes_of(&staying(added)), bytes_of(&found), "the list that the search keeps");
    coverage::note_search(&hits);
    if hits.iter().any(|h| h.dropped()) {
        return (answer_of(held(hits.iter().filter(|h| !h.dropped()))), Source::Cut);
    }
    ((!full).then_some(found), Source::Rust)
}

pub fn finders_answer(function: u8, f: &mut Fields, out: &mut Bytes) -> Source {
    match function {
        32 => {
            let (width, height) = (f.u32(), f.u32());
            let bits = f.rest();
            let number = bits_refusal(width, height, bits.len());
            if number != 0 {
                out.u8(number).table(&[]);
                return Source::Rust;
            }
            let (found, source) = finders_of(&binary_of(width, height, bits));
            match found {
                Some(list) => out.u8(0).table(&list),
                None => out.u8(6).table(&[]),
            };
            return source;
        }
        33 => {
            match read_list(f.rest()) {
                Ok(list) => {
                    out.u8(0).u32(list.width).u32(list.height).table(&list.finders);
                }
                Err(number) => {
                    out.u8(number).u32(0).u32(0).table(&[]);
                }
            };
        }
        _ => {
            let (width, height) = (f.u32(), f.u32());
            let mut bytes = lent(f.u32());
            let count = f.u32();
            let many = (8, count > MAX_FINDERS);
            let room = (5, (bytes.len() as u64) < list_length(2, count as u64));
            let number = refusal(&[zero_side(width, height), large_side(width, height), many, room]);
            if number == 0 {
                let finders: Vec<Finder> = (0..count).map(|_| f.finder()).collect();
                write(&mut bytes, &written_list(width, height, &finders));
            }
            out.u8(number).slice(&bytes);
        }
    }
    Source::Rust
}

/// What an entry leaves: its number, its finders, the whole chain's detections, and the eight slices.
pub struct Chained {
    pub number: u8,
    pub source: Source,
    pub finders: Vec<Finder>,
    pub detections: Vec<Detection>,
    /// Gray, bits, denoised, means, least, greatest, edge marks, near marks.
    pub slices: [Vec<u8>; 8],
}

/// The whole chain, or the preview, on a picture and eight slices as they are lent. Only the limit and the detections
/// tell them apart.
pub fn chain_of(entry: Entry, picture: Picture, lent: [Vec<u8>; 8], room: bool) -> Chained {
    let Picture { bytes, sides: (width, height), stride, format } = picture;
    let mut slices = lent;
    let shorter = |s: &Vec<u8>, need: u64| (s.len() as u64) < need;
    let short_bits = slices[1..3].iter().any(|s| shorter(s, bit_bytes(width, height)));
    let short_work = slices[3..].iter().any(|s| shorter(s, blocks(width, height)));
    let short = shorter(&slices[0], pixels(width, height)) || short_bits || short_work || !room;
    let [bad, few] = picture_checks(bytes.len(), width, height, stride, format);
    let large = [entry.limit(width, height), large_side(width, height)];
    let number = refusal(&[zero_side(width, height), large[0], large[1], bad, few, (5, short)]);
    if number != 0 {
        return Chained { number, source: Source::Rust, finders: Vec::new(), detections: Vec::new(), slices };
    }
    let view = ImageView::new(bytes, width, height, stride, format_of(format)).unwrap();
    let gray = view.gray_buffer();
    let bin = binarize(&gray, width, height);
    let clean = bin.denoised();
    write(&mut slices[0], &gray);
    write(&mut slices[1], bits_of(&bin));
    write(&mut slices[2], bits_of(&clean));
    for (slice, values) in slices[3..].iter_mut().zip(block_values(&gray, width, height)) {
        write(slice, &values);
    }
    let (found, source) = finders_of(&clean);
    let number = if found.is_some() { 0 } else { 6 };
    let detections = match (entry, &found) {
        (Entry::Chain, Some(list)) => detections_in(&clean, list, source),
        _ => Vec::new(),
    };
    Chained { number, source, finders: found.unwrap_or_default(), detections, slices }
}

pub fn chain_answer(entry: Entry, f: &mut Fields, out: &mut Bytes) -> Source {
    let (sides, stride, format) = ((f.u32(), f.u32()), f.u32(), f.u8());
    let slices = core::array::from_fn(|_| lent(f.u32()));
    let done = chain_of(entry, Picture { bytes: f.rest(), sides, stride, format }, slices, true);
    out.u8(done.number);
    match entry {
        Entry::Chain => {
            coverage::note_grades(&done.finders, &done.detections);
            out.detections(&done.detections).grades(&done.detections)
        }
        Entry::Preview => out.table(&done.finders),
    };
    done.slices.iter().for_each(|s| {
        out.slice(s);
    });
    done.source
}
