//! Gray pictures: finders drawn into them, noise, damage, formats.

use crate::rng::Rng;

/// A gray picture, row after row.
#[derive(Clone)]
pub struct Gray {
    pub width: u32,
    pub height: u32,
    pub pixels: Vec<u8>,
}

/// A picture as it is lent to an entry.
#[derive(Copy, Clone)]
pub struct Picture<'a> {
    pub bytes: &'a [u8],
    pub sides: (u32, u32),
    pub stride: u32,
    pub format: u8,
}

/// A picture that is dark within a finder whose five runs along x and along y are given,
/// with light borders.
pub fn ringed(across: [u32; 5], down: [u32; 5], border: u32) -> Gray {
    let segments = |runs: [u32; 5]| -> Vec<i32> {
        let light = vec![9; border as usize];
        let inner = runs.iter().enumerate().flat_map(|(k, n)| vec![k as i32 - 2; *n as usize]);
        light.iter().copied().chain(inner).chain(light.iter().copied()).collect()
    };
    let (xs, ys) = (segments(across), segments(down));
    let pixel = |x: i32, y: i32| {
        let ring = x.abs().max(y.abs());
        if ring == 1 || ring > 2 { 255 } else { 0 }
    };
    let pixels = ys.iter().flat_map(|y| xs.iter().map(|x| pixel(*x, *y))).collect();
    Gray { width: xs.len() as u32, height: ys.len() as u32, pixels }
}

/// Upright finders in a grid, `count` of them, row after row.
pub fn finder_grid(count: u32, columns: u32, pitch: u32, gap: u32) -> Gray {
    grid_of(
        &ringed([1, 1, 3, 1, 1].map(|k| k * pitch), [1, 1, 3, 1, 1].map(|k| k * pitch), 0),
        count,
        columns,
        gap,
    )
}

/// A small picture `count` times in a grid, row after row, light between them and around.
pub fn grid_of(cell: &Gray, count: u32, columns: u32, gap: u32) -> Gray {
    let (across, down) = (cell.width + gap, cell.height + gap);
    let mut out = Gray::filled(columns * across + gap, count.div_ceil(columns) * down + gap, 255);
    for n in 0..count {
        out.paste(cell, n % columns * across + gap, n / columns * down + gap);
    }
    out
}

impl Gray {
    pub fn filled(width: u32, height: u32, value: u8) -> Gray {
        Gray { width, height, pixels: vec![value; (width * height) as usize] }
    }

    pub fn random(rng: &mut Rng, width: u32, height: u32) -> Gray {
        Gray { width, height, pixels: rng.bytes((width * height) as usize) }
    }

    /// Squares of the given side, each of one random level out of a few.
    pub fn squares(rng: &mut Rng, width: u32, height: u32, side: u32, levels: &[u8]) -> Gray {
        let across = width.div_ceil(side);
        let values: Vec<u8> = (0..across * height.div_ceil(side)).map(|_| rng.pick(levels)).collect();
        let pixel = |i: u32| values[(i / width / side * across + i % width / side) as usize];
        Gray { width, height, pixels: (0..width * height).map(pixel).collect() }
    }

    /// An upright finder, its top left corner at x, y; what lies outside is left out.
    pub fn draw_finder(&mut self, x: u32, y: u32, pitch: u32) {
        for (dy, dx) in (0..7 * pitch).flat_map(|dy| (0..7 * pitch).map(move |dx| (dy, dx))) {
            let ring = (dx / pitch).abs_diff(3).max((dy / pitch).abs_diff(3));
            if x + dx < self.width && y + dy < self.height {
                self.pixels[((y + dy) * self.width + x + dx) as usize] = if ring == 2 { 255 } else { 0 };
            }
        }
    }

    /// The picture with so many light pixels before and behind it along x and y.
    pub fn framed(&self, x: [u32; 2], y: [u32; 2]) -> Gray {
        let mut out = Gray::filled(self.width + x[0] + x[1], self.height + y[0] + y[1], 255);
        out.paste(self, x[0], y[0]);
        out
    }

    /// Another picture over this one, its top left corner at x, y.
    pub fn paste(&mut self, other: &Gray, x: u32, y: u32) {
        for (i, v) in other.pixels.iter().enumerate() {
            let (dx, dy) = (i as u32 % other.width, i as u32 / other.width);
            self.pixels[((y + dy) * self.width + x + dx) as usize] = *v;
        }
    }

    /// Rows and columns exchanged.
    pub fn transposed(&self) -> Gray {
        let pixel = |i: u32| self.pixels[(i % self.height * self.width + i / self.height) as usize];
        Gray {
            width: self.height,
            height: self.width,
            pixels: (0..self.width * self.height).map(pixel).collect(),
        }
    }

    /// The part with its corner at x, y.
    pub fn part(&self, x: u32, y: u32, width: u32, height: u32) -> Gray {
        let row = |r: u32| (x + (y + r) * self.width) as usize;
        let pixels =
            (0..height).flat_map(|r| &self.pixels[row(r)..row(r) + width as usize]).copied().collect();
        Gray { width, height, pixels }
    }

    /// The values 0 to 255 brought into a narrower range, from `low` on.
    pub fn narrowed(mut self, low: u8, spread: u8) -> Gray {
        self.pixels.iter_mut().for_each(|v| *v = low + (*v as u32 * spread as u32 / 255) as u8);
        self
    }

    /// A copy with blots, scratches, specks or a swap of dark and light.
    pub fn damaged(&self, rng: &mut Rng) -> Gray {
        let mut out = self.clone();
        match rng.below(4) {
            0 => out.blot(rng),
            1 => out.scratch(rng),
            2 => {
                for _ in 0..1 + out.pixels.len() / 50 {
                    let i = rng.below(out.pixels.len() as u64) as usize;
                    out.pixels[i] = rng.byte();
                }
            }
            _ => out.pixels.iter_mut().for_each(|v| *v = 255 - *v),
        }
        out
    }

    fn blot(&mut self, rng: &mut Rng) {
        let (cx, cy) = (rng.below(self.width as u64) as i64, rng.below(self.height as u64) as i64);
        let radius = 1 + rng.below(1 + self.width.min(self.height) as u64 / 4) as i64;
        let value = rng.byte();
        for (i, v) in self.pixels.iter_mut().enumerate() {
            let (x, y) = (i as i64 % self.width as i64, i as i64 / self.width as i64);
            if (x - cx).pow(2) + (y - cy).pow(2) <= radius * radius {
                *v = value;
            }
        }
    }

    fn scratch(&mut self, rng: &mut Rng) {
        let value = rng.byte();
        let upright = rng.one_in(2);
        let place = rng.below(if upright { self.width } else { self.height } as u64) as u32;
        for (i, v) in self.pixels.iter_mut().enumerate() {
            let i = i as u32;
            if place == if upright { i % self.width } else { i / self.width } {
                *v = value;
            }
        }
    }

    /// The picture in a format of `channels` bytes a pixel, rows `stride` bytes apart; the
    /// colours have about the gray values, padding and fourth bytes are random.
    pub fn bytes(&self, rng: &mut Rng, channels: usize, stride: usize) -> Vec<u8> {
        let row = self.width as usize * channels;
        let mut out = rng.bytes((self.height as usize - 1) * stride + row);
        for (i, v) in self.pixels.iter().enumerate() {
            let at = i / self.width as usize * stride + i % self.width as usize * channels;
            if channels == 1 {
                out[at] = *v;
            } else {
                let tint = rng.below(9) as i32 - 4;
                for (k, c) in out[at..at + 3].iter_mut().enumerate() {
                    *c = (*v as i32 + tint * (k as i32 - 1)).clamp(0, 255) as u8;
                }
            }
        }
        out
    }

    /// One bit a pixel, 1 for those below the level.
    pub fn bits(&self, level: u8) -> Vec<u8> {
        let mut out = vec![0u8; self.pixels.len().div_ceil(8)];
        for (i, v) in self.pixels.iter().enumerate() {
            out[i / 8] |= ((*v < level) as u8) << (7 - i % 8);
        }
        out
    }
}
