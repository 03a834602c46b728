//! Other exposures of gray pictures (document 02, N6): one whole number added to every byte,
//! down to 0, up to 255 and between. Each answer is held to the Rust's for the same bytes, and
//! what may not change to that of the picture itself.

use crate::cases::{ChainCase, exposed, exposure_case};
use crate::compare::{Row, compare_entry};
use crate::listing::{PROGRAM, expected, printed};
use crate::picture::Picture;
use crate::rng::Rng;
use crate::rules::Entry;

/// The numbers that can be added to the bytes: those to both ends, and one between.
fn shifts(rng: &mut Rng, bytes: &[u8]) -> [i32; 3] {
    let down = bytes.iter().min().map_or(0, |v| *v as i32);
    let up = 255 - bytes.iter().max().map_or(255, |v| *v as i32);
    [-down, up, rng.whole(0, (down + up) as u32) as i32 - down]
}

fn shifted(byte: u8, by: i32) -> u8 {
    u8::try_from(byte as i32 + by).expect("a byte")
}

/// The slices of a call that are the same at every exposure: bits, denoised bits, edge and near marks, detections.
const SAME: [usize; 5] = [1, 2, 6, 7, 8];

/// What the pictures were.
#[derive(Default)]
struct Met {
    numbers: [u64; 7],
    unmarked: u64,
    near_only: u64,
    found: u64,
    moved: u64,
}

impl Met {
    fn note(&mut self, number: u8, left: &[Vec<u8>; 9]) {
        self.numbers[number as usize] += 1;
        if number == 0 || number == 6 {
            let [edges, nears] = [&left[6], &left[7]].map(|marks| marks.contains(&1));
            self.unmarked += !(edges || nears) as u64;
            self.near_only += (nears && !edges) as u64;
            self.found += (number == 0 && left[8][0] > 0) as u64;
        }
    }

    fn print(&self) {
        let numbers: Vec<String> = (0..7).map(|k| format!("{k}: {}", self.numbers[k])).collect();
        println!(
            "exposures of pictures with the numbers {}; {} without marks, {} with near marks only, {} with detections; {} shifts are not by 0",
            numbers.join(", "),
            self.unmarked,
            self.near_only,
            self.found,
            self.moved
        );
    }
}

/// The chain's C entry. In every second picture the bytes between and behind the rows are
/// not shifted with the others but are any.
pub fn by_c_entry(seed: u64, pictures: u64) -> Row {
    let mut row = Row::new("exposures, C entry");
    let mut rng = Rng::new(seed ^ 99 << 32);
    let mut met = Met::default();
    for i in 0..pictures {
        let mut c = exposure_case(i, &mut rng);
        let room = if i % 7 == 0 { rng.pick(&[0, 366, 367, 368]) } else { 367 };
        let all = i % 2 == 0;
        let inside = pixel_bytes(&c);
        let pixels: Vec<u8> = (0..c.picture.len()).filter(|k| inside[*k]).map(|k| c.picture[k]).collect();
        if all && let (Some(low), Some(high)) = (pixels.iter().min(), pixels.iter().max()) {
            c.picture.iter_mut().for_each(|v| *v = (*v).clamp(*low, *high));
        }
        let call = |row: &mut Row, bytes: &[u8]| {
            compare_entry(row, Entry::Chain, Picture { bytes, ..c.lent() }, c.slices(), room)
        };
        let Some((number, left)) = call(&mut row, &c.picture) else { return row };
        met.note(number, &left);
        for by in shifts(&mut rng, if all { &c.picture } else { &pixels }) {
            let other = |(v, inside): (&u8, &bool)| if all || *inside { shifted(*v, by) } else { rng.byte() };
            let other: Vec<u8> = c.picture.iter().zip(&inside).map(other).collect();
            met.moved += (by != 0) as u64;
            let Some((again, slices)) = call(&mut row, &other) else { return row };
            let same = again == number && SAME.iter().all(|k| slices[*k] == left[*k]);
            row.mismatches += !same as u64;
            if !same && row.mismatches <= 3 {
                println!("{}: picture {i} shifted by {by}: {again} after {number}, or other bits", row.name);
            }
        }
    }
    met.print();
    row
}

/// Which bytes belong to a pixel.
fn pixel_bytes(c: &ChainCase) -> Vec<bool> {
    let (width, height, stride) = (c.sides.0 as usize, c.sides.1 as usize, c.stride as usize);
    (0..c.picture.len()).map(|k| stride > 0 && k % stride < width && k / stride < height).collect()
}

/// The listing program.
pub fn listed(seed: u64, pictures: u64) -> Row {
    let mut row = Row::new("exposures, listing");
    let mut rng = Rng::new(seed ^ 100 << 32);
    if !std::path::Path::new(PROGRAM).exists() {
        row.unanswered = pictures;
        return row;
    }
    for i in 0..pictures {
        let limit = rng.pick(&[900, 10_000, 40_000]);
        let gray = exposed(i, &mut rng, limit);
        let sides = [gray.width as u16, gray.height as u16].map(u16::to_le_bytes).concat();
        let shifts = shifts(&mut rng, &gray.pixels);
        let texts = [0].into_iter().chain(shifts).map(|by| {
            let pixels = gray.pixels.iter().map(|v| shifted(*v, by));
            let input: Vec<u8> = sides.iter().copied().chain(pixels).collect();
            let (text, source) = expected(&input);
            let got = printed(&input);
            row.count(source);
            row.mismatches += (got.as_deref() != Some(&text)) as u64;
            got
        });
        let texts: Vec<_> = texts.collect();
        let same = texts.iter().all(|t| *t == texts[0]);
        row.mismatches += !same as u64;
        if !same && row.mismatches <= 3 {
            println!("{}: picture {i} has another listing shifted by one of {shifts:?}", row.name);
        }
    }
    row
}
