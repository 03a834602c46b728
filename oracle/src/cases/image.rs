//! Gray conversion, black and white conversion, denoising, and the whole chain.

use super::scenes::{clear_plate, longest};
use super::{
    Reach, SIDES, a_limit, about, about_form_one, about_limit, crowd, false_plate, full_table, resized,
    scene, walls,
};
use crate::picture::{Gray, Picture, finder_grid};
use crate::record::{LONGEST, Record, lent};
use crate::rng::Rng;
use crate::rules::{FORM_ONE_MOST, MAX_FINDERS, bit_bytes, blocks, pixels};

pub fn case(function: u8, i: u64, rng: &mut Rng, reach: Reach) -> Record {
    match function {
        16 => gray_case(i, rng, reach),
        17 => binarize_case(i, rng, reach),
        _ => denoised_case(i, rng, reach),
    }
}

pub const FORMATS: [u8; 3] = [1, 3, 4];

/// The most pixels of a picture that a record holds at four bytes a pixel.
const COLOURED: usize = 64_000;

/// The most pixels of a colour picture: few in the stored sample.
fn most_coloured(rng: &mut Rng, reach: Reach) -> usize {
    if reach == Reach::Full || rng.one_in(16) { COLOURED } else { 500 }
}

/// A length that can be lent: the one needed, or a short one where that is too long.
pub fn lendable(need: u64) -> usize {
    if need > LONGEST as u64 { 64 } else { need as usize }
}

/// A picture in a format: sides, stride, format byte and bytes. Some are refused. One of more
/// than `most` pixels is gray.
pub fn coloured(rng: &mut Rng, gray: &Gray, most: usize, spoilt: bool) -> (u32, u32, u32, u8, Vec<u8>) {
    let format = if gray.pixels.len() > most { 1 } else { rng.pick(&FORMATS) };
    let row = gray.width as usize * format as usize;
    let stride = row + if rng.one_in(2) { 0 } else { rng.whole(1, 9) as usize };
    let mut bytes = gray.bytes(rng, format as usize, stride);
    let (mut width, mut height, mut stride, mut kind) = (gray.width, gray.height, stride as u32, format);
    for _ in 0..if spoilt { rng.whole(1, 2) } else { 0 } {
        match rng.below(4) {
            0 => (width, height) = rng.pick(&SIDES),
            1 => kind = rng.pick(&[0, 2, 5, 255, 1, 3, 4]),
            2 => {
                let row = row as u32;
                stride = rng.pick(&[0, 1, row - 1, row, row + 1, 1 << 31, u32::MAX]);
            }
            _ => {
                let length = about(rng, bytes.len());
                bytes = resized(rng, bytes, length);
            }
        }
    }
    (width, height, stride, kind, bytes)
}

/// A picture of any content and at most 64 × 64 or so; long thin ones too.
fn plain(rng: &mut Rng, reach: Reach, most: usize) -> Gray {
    match rng.below(4) {
        0 => {
            let (w, h) = (rng.whole(1, 24), rng.whole(1, 24));
            Gray::random(rng, w, h)
        }
        1 => uneven(rng),
        _ => {
            let limit = reach.pixels(rng, false).min(most);
            scene(rng, limit)
        }
    }
}

/// Levels by squares, so that some blocks have an edge and others only neighbours with one,
/// with wide level parts; spreads of 24 and 25 are common.
pub fn uneven(rng: &mut Rng) -> Gray {
    let (w, h) = if rng.one_in(2) {
        (rng.whole(60, 200), rng.whole(1, 12))
    } else {
        (rng.whole(1, 12), rng.whole(60, 200))
    };
    let low = rng.whole(0, 200) as u8;
    let step = rng.pick(&[1, 23, 24, 25, 26, 55]);
    let square = rng.pick(&[8, 8, 16, 40, 5]);
    let mut out = Gray::squares(rng, w, h, square, &[low, low, low + step]);
    for _ in 0..rng.below(3) {
        let at = rng.below(out.pixels.len() as u64) as usize;
        out.pixels[at] = low.saturating_add(rng.pick(&[24, 25, 50]));
    }
    out
}

fn gray_case(i: u64, rng: &mut Rng, reach: Reach) -> Record {
    if i % 1024 >= 768 {
        // Every format byte, with bytes for four a pixel.
        let picture = rng.bytes(16);
        return Record::new(16).with(|b| {
            b.u32(2).u32(2).u32(8).u8(i as u8).u32(4).raw(&picture);
        });
    }
    if i % 8 == 7 && i >= SIDES.len() as u64 {
        return halves_case(rng);
    }
    let gray = if i % 128 == 64 { longest(rng) } else { plain(rng, reach, COLOURED) };
    let spoilt = rng.one_in(3);
    let most = most_coloured(rng, reach);
    let (mut width, mut height, stride, format, bytes) = coloured(rng, &gray, most, spoilt);
    if i < SIDES.len() as u64 {
        (width, height) = SIDES[i as usize];
    }
    let room = about(rng, lendable(width as u64 * height as u64));
    Record::new(16).with(|b| {
        b.u32(width).u32(height).u32(stride).u8(format).u32(room as u32).raw(&bytes);
    })
}

/// Any colours, each so that the weighted sum is half a gray value past a whole one, or 1 from that.
fn halves_case(rng: &mut Rng) -> Record {
    let (width, height) = (rng.whole(1, 24), rng.whole(1, 24));
    let (format, gap) = (rng.pick(&FORMATS[1..]), rng.whole(0, 9));
    let (row, stride) = ((width * format as u32) as usize, width * format as u32 + gap);
    let mut picture = rng.bytes((stride * height) as usize);
    for pixel in picture.chunks_mut(stride as usize).flat_map(|line| line[..row].chunks_mut(format as usize))
    {
        let past = rng.pick(&[127u8, 128, 129]);
        let without_green = pixel[0].wrapping_mul(54).wrapping_add(pixel[2].wrapping_mul(19));
        // 183 times 7 is 5 times 256 and 1.
        pixel[1] = past.wrapping_sub(without_green).wrapping_mul(7);
    }
    Record::new(16).with(|b| {
        b.u32(width).u32(height).u32(stride).u8(format).u32(width * height + gap).raw(&picture);
    })
}

fn binarize_case(i: u64, rng: &mut Rng, reach: Reach) -> Record {
    if reach == Reach::Full && i < 65_536 {
        // Every picture of two pixels.
        return Record::new(17).with(|b| {
            b.u32(2).u32(1);
            (0..6).for_each(|_| {
                b.u32(1);
            });
            b.raw(&[i as u8, (i / 256) as u8]);
        });
    }
    let gray = if i % 128 == 64 { longest(rng) } else { plain(rng, reach, LONGEST) };
    let (mut width, mut height, mut bytes) = (gray.width, gray.height, gray.pixels);
    if i % 16 < 3 {
        (width, height) = SIDES[(i / 16 % 16) as usize];
    } else if i % 16 == 3 {
        let length = about(rng, bytes.len());
        bytes = resized(rng, bytes, length);
    }
    let blocks = lendable(blocks(width, height));
    let mut room = [blocks; 6];
    room[0] = lendable(bit_bytes(width, height));
    if rng.one_in(3) {
        let k = rng.below(6) as usize;
        room[k] = about(rng, room[k]);
    }
    Record::new(17).with(|b| {
        b.u32(width).u32(height);
        room.iter().for_each(|n| {
            b.u32(*n as u32);
        });
        b.raw(&bytes);
    })
}

fn denoised_case(i: u64, rng: &mut Rng, reach: Reach) -> Record {
    let every = if reach == Reach::Full { 65_536 } else { 512 };
    let side = if reach == Reach::Full { 4 } else { 3 };
    let record = Record::new(18);
    if i < every {
        // Every picture of 4 × 4, or of 3 × 3; unused bits are set in the latter.
        let bits = if side == 4 { (i as u16).to_be_bytes() } else { ((i as u16) << 7 | 0x55).to_be_bytes() };
        return record.with(|b| {
            b.u32(side).u32(side).u32(2).raw(&bits);
        });
    }
    let spoilt = rng.one_in(4);
    let ((width, height), bits) = if i % 128 == 64 {
        let gray = longest(rng);
        ((gray.width, gray.height), gray.bits(128))
    } else if rng.one_in(2) {
        super::bit_picture(rng, reach, spoilt)
    } else {
        let (w, h) = (rng.whole(1, 40), rng.whole(1, 40));
        ((w, h), rng.bytes((w * h).div_ceil(8) as usize))
    };
    let room = about(rng, lendable(bit_bytes(width, height)));
    record.with(|b| {
        b.u32(width).u32(height).u32(room as u32).raw(&bits);
    })
}

/// Arguments of the whole chain: sides, stride, format, picture and the eight lengths lent.
pub struct ChainCase {
    pub sides: (u32, u32),
    pub stride: u32,
    pub format: u8,
    pub picture: Vec<u8>,
    pub room: [usize; 8],
}

impl ChainCase {
    pub fn lent(&self) -> Picture<'_> {
        Picture { bytes: &self.picture, sides: self.sides, stride: self.stride, format: self.format }
    }

    pub fn slices(&self) -> [Vec<u8>; 8] {
        self.room.map(|n| lent(n as u32))
    }

    /// With the slices that C lends where a record holds none so long, up to those of the longest sides.
    pub fn whole(mut self) -> ChainCase {
        for (room, need) in self.room.iter_mut().zip(needs(self.sides.0, self.sides.1)) {
            if need > LONGEST as u64 && need <= 1 << 24 {
                *room = need as usize;
            }
        }
        self
    }
}

/// Finders in a square, so that several triples make a plate.
pub fn few_finders(rng: &mut Rng) -> Gray {
    finder_grid(rng.pick(&[3, 4, 4, 6, 9]), rng.whole(2, 3), 2, rng.whole(14, 22))
}

pub fn chain_case(i: u64, rng: &mut Rng, limit: usize, most: usize) -> ChainCase {
    // Fewer and smaller in the stored sample, which has the small limits.
    let (every, pixels) = if limit < 2_000 { (128, 40_000) } else { (16, 240_000) };
    let (grid, crowded) = (i % 128 == 2, i % every == 12);
    let gray = match i % 4 {
        _ if grid => finder_grid(about_form_one(i / 128), 12, 2, rng.whole(3, 5)),
        _ if crowded => crowd(rng, about_limit(i / every), 2, pixels),
        _ if i % 64 == 10 => few_finders(rng),
        _ if i % 256 == 4 => longest(rng),
        _ if i % 128 == 66 => full_table(rng, a_limit(i / 128), 2, pixels),
        _ if i % 32 == 6 => walls(rng, 2, limit > 2_000),
        _ if i % 32 == 22 || i % 16 == 14 && limit > 2_000 => false_plate(rng, 2, limit > 2_000),
        1 | 3 if limit < 2_000 => clear_plate(rng, 1, 2.4),
        1 | 3 => clear_plate(rng, limit as u32 / 9_000 + 1, 3.5),
        _ => scene(rng, limit),
    };
    let spoilt = i % 6 == 0 && !grid && !crowded;
    called(i, rng, &gray, most, spoilt)
}

/// The lengths that the eight slices must have.
pub fn needs(width: u32, height: u32) -> [u64; 8] {
    let (bits, blocks) = (bit_bytes(width, height), blocks(width, height));
    [pixels(width, height), bits, bits, blocks, blocks, blocks, blocks, blocks]
}

/// A picture that is lent with its slices, of which now and then one is about as long as it must be.
pub fn called(i: u64, rng: &mut Rng, gray: &Gray, most: usize, spoilt: bool) -> ChainCase {
    let (width, height, stride, format, picture) = coloured(rng, gray, most, spoilt);
    let mut room = needs(width, height).map(lendable);
    if i % 6 == 1 {
        let k = rng.below(8) as usize;
        room[k] = about(rng, room[k]);
    }
    ChainCase { sides: (width, height), stride, format, picture, room }
}

/// A gray picture whose values leave room for other exposures; some have near marks only, or no mark.
pub fn exposed(i: u64, rng: &mut Rng, limit: usize) -> Gray {
    let gray = match i % 16 {
        0 => Gray::random(rng, 1, 1),
        1 => Gray::filled(rng.whole(1, 99), rng.whole(1, 99), rng.byte()),
        2..=5 => return uneven(rng),
        6 if i % 256 == 6 => crowd(rng, about_limit(i / 256), 2, 40_000),
        6 if i % 256 == 22 => full_table(rng, MAX_FINDERS, 2, 40_000),
        6 if i % 32 == 6 => finder_grid(about_form_one(i / 32), 12, 2, 2),
        6 => full_table(rng, FORM_ONE_MOST, 2, 40_000),
        7 => few_finders(rng),
        8 => longest(rng),
        9..=12 => clear_plate(rng, limit as u32 / 9_000 + 1, 3.5),
        13 if rng.one_in(2) => walls(rng, 2, limit > 10_000),
        13 => false_plate(rng, 2, limit > 10_000),
        _ => scene(rng, limit),
    };
    let spread = rng.pick(&[0, 24, 25, 26, 60, 60, 120, 120, 200, 254]);
    gray.narrowed(rng.whole(0, 255 - spread) as u8, spread as u8)
}

/// The whole chain on such a picture.
pub fn exposure_case(i: u64, rng: &mut Rng) -> ChainCase {
    let limit = rng.pick(&[900, 2_304, 10_000, 40_000]);
    let gray = exposed(i, rng, limit);
    called(i, rng, &gray, 0, i % 12 == 3)
}

pub fn chain_record(i: u64, rng: &mut Rng, reach: Reach) -> Record {
    let limit = reach.pixels(rng, false).min(COLOURED);
    let most = most_coloured(rng, reach);
    recorded(96, &chain_case(i, rng, limit, most))
}

/// A record of the whole chain, or of the preview.
pub fn recorded(function: u8, c: &ChainCase) -> Record {
    Record::new(function).with(|b| {
        b.u32(c.sides.0).u32(c.sides.1).u32(c.stride).u8(c.format);
        c.room.iter().for_each(|n| {
            b.u32(*n as u32);
        });
        b.raw(&c.picture);
    })
}
