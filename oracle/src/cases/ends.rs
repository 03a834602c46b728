//! Lines for the way a run ended: all short ones, then drawn ones.

use super::Reach;
use crate::record::Record;
use crate::rng::Rng;
use core::ops::Range;

/// A run to be counted.
struct Counted {
    len: u32,
    from: u32,
    limit: u32,
    backwards: u8,
    dark: u8,
    bits: Vec<u8>,
}

/// All lines of seven pixels, of which 0 to 6 are the picture's, from each pixel and one past the last, with limits of
/// 0 to 7, both ways, of both colours.
pub const ALL: u64 = 128 * 7 * 8 * 8 * 4;

pub fn case(i: u64, rng: &mut Rng, reach: Reach) -> Record {
    let c = match reach {
        Reach::Full if i < ALL => numbered(i, rng),
        Reach::Sample if i % 4 == 0 => numbered(rng.below(ALL), rng),
        _ => drawn(rng, reach),
    };
    Record::new(37).with(|b| {
        b.u16(c.len as u16).u16(c.from as u16).u32(c.limit).u8(c.backwards).u8(c.dark).raw(&c.bits);
    })
}

fn numbered(i: u64, rng: &mut Rng) -> Counted {
    let mut rest = i;
    let mut next = |n: u64| {
        let v = rest % n;
        rest /= n;
        v as u32
    };
    let (backwards, dark) = (next(2) as u8, next(2) as u8);
    let (limit, from, len) = (next(8), next(8), next(7));
    let bits = vec![(next(128) * 2) as u8 | rng.byte() & 1];
    Counted { len, from, limit, backwards, dark, bits }
}

/// A run of known length on a line, mostly counted from its start or its end, with a limit about its length.
fn drawn(rng: &mut Rng, reach: Reach) -> Counted {
    let long = rng.one_in(if reach == Reach::Full { 16 } else { 64 });
    let most = if long { 65_535 } else { rng.pick(&[9, 40, 300]) };
    let any = rng.whole(0, most);
    let len = if long { rng.pick(&[65_534, 65_535]) } else { rng.pick(&[0, 1, most, any, any, any]) };
    let (backwards, dark) = (rng.one_in(2), rng.one_in(2));
    // Up to an edge, one or two pixels short of it, or anywhere.
    let some = rng.whole(0, len);
    let end = match rng.below(4) {
        0 => rng.whole(some, len),
        1 => len.saturating_sub(rng.whole(1, 2)).max(some),
        _ => len,
    };
    let start = if rng.one_in(4) { rng.whole(0, 2).min(some) } else { some };
    let mut bits = run_bits(rng, start..end, len, dark);
    let run = end - start;
    let from = match rng.below(16) {
        0 => len + rng.whole(0, 9),
        1 => rng.pick(&[0, 1, 65_534, 65_535]),
        2 => rng.whole(0, most),
        _ if backwards => end,
        _ => start,
    };
    let limit = match rng.below(12) {
        0 => 0,
        1 => rng.pick(&[u32::MAX, u32::MAX - 1, 65_535, 65_536, 1 << 31]),
        2 => rng.whole(0, 2 * run + 4),
        3..=5 => run.saturating_sub(1),
        6..=8 => run,
        _ => run + 1,
    };
    if rng.one_in(8) {
        bits.truncate(rng.below(bits.len() as u64 + 1) as usize);
    }
    let flag = |rng: &mut Rng, set: bool| if set { 1 } else { rng.pick(&[0, 0, 0, 2, 255]) };
    Counted {
        len,
        from: from.min(65_535),
        limit,
        backwards: flag(rng, backwards),
        dark: flag(rng, dark),
        bits,
    }
}

/// The bytes of a line with a run: the pixels beside it have the other colour, those farther off any, or the run's own.
/// Behind the line's end the run may go on.
fn run_bits(rng: &mut Rng, run: Range<u32>, len: u32, dark: bool) -> Vec<u8> {
    let more = rng.pick(&[0, 1, 2]);
    let mut bits = rng.bytes(run.end.div_ceil(8) as usize + more);
    if rng.one_in(2) {
        bits.fill(if dark { 255 } else { 0 });
    }
    let goes_on = run.end == len && rng.one_in(2);
    let mut set = |at: u32, dark: bool| {
        if let Some(byte) = bits.get_mut(at as usize / 8) {
            let mask = 0x80 >> (at % 8);
            *byte = if dark { *byte | mask } else { *byte & !mask };
        }
    };
    set(run.end, dark == goes_on);
    if run.start > 0 {
        set(run.start - 1, !dark);
    }
    run.for_each(|at| set(at, dark));
    bits
}
