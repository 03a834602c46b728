//! What the cases with lens terms reached (document 02, N12), by the records and the expected answers.

use crate::record::{Fields, Record};

#[derive(Default)]
pub struct Lenses {
    /// Records 52 to 55: strength 0 with a centre that is not 0, strength -0.0, not a number, any other but 0.
    strengths: [u64; 4],
    /// Those with a divisor of exactly 0.
    divided_by_0: u64,
    /// Records 65 to 67 with a strength that is not 0: those with a marker.
    markers: [u64; 3],
    /// Records 67 with a strength that is not 0: refused, rebuilt, with lens terms kept.
    refined: [u64; 3],
}

impl Lenses {
    pub fn note(&mut self, record: &Record, answer: &[u8]) {
        let f = &mut Fields(&record.payload);
        match record.function {
            52..=55 => self.note_strength(record.function, f),
            65..=67 => {
                f.bytes(if record.function == 67 { 8 + 3 * 16 + 1 + 64 } else { 8 + 64 });
                let [_, _, strength] = f.numbers();
                if strength != 0.0 {
                    self.note_marker(record.function, answer);
                }
            }
            _ => (),
        }
    }

    fn note_strength(&mut self, function: u8, f: &mut Fields) {
        let (m, lens) = (f.numbers(), f.numbers());
        let [cx, cy, strength] = lens;
        let kind = match () {
            _ if strength.is_nan() => 2,
            _ if strength != 0.0 => 3,
            _ if strength.is_sign_negative() => 1,
            _ if cx != 0.0 || cy != 0.0 => 0,
            _ => return,
        };
        self.strengths[kind] += 1;
        let met = |at: &(f32, f32)| divisors(m, lens, *at).contains(&0.0);
        self.divided_by_0 += (kind == 3 && places(function, f).iter().any(met)) as u64;
    }

    /// An answer has its marker's flag before the point, that of 67 the lens terms before the flag.
    fn note_marker(&mut self, function: u8, answer: &[u8]) {
        let flag = answer.len() - 9;
        self.markers[function as usize - 65] += answer[flag] as u64;
        if function == 67 {
            let kept = answer[flag - 24..flag] != [0; 24];
            self.refined[if answer[0] != 0 { 0 } else { 1 + kept as usize }] += 1;
        }
    }

    pub fn print(&self) {
        let [centre, negative, odd, other] = self.strengths;
        let zeros = format!("0 with a centre not 0: {centre}, -0.0: {negative}");
        println!("lens strengths of 52 to 55: {zeros}, not a number: {odd}, other: {other}");
        println!("records of 52 to 55 with a divisor of exactly 0: {}", self.divided_by_0);
        let [matched, located, refined] = self.markers;
        println!("markers found with a lens strength not 0: 65: {matched}, 66: {located}, 67: {refined}");
        let [refused, rebuilt, kept] = self.refined;
        println!(
            "such lens terms after 67: kept: {kept}, 0 by a rebuild: {rebuilt}, by a refusal: {refused}"
        );
    }
}

/// The module places at which a record's transform is applied.
fn places(function: u8, f: &mut Fields) -> Vec<(f32, f32)> {
    let centre = |x: u16, y: u16| (x as f32 + 0.5, y as f32 + 0.5);
    let pitch = |x: u16, y: u16| {
        let (u, v) = centre(x, y);
        [(u, v), (u + 1.0, v), (u, v + 1.0)]
    };
    match function {
        52 => vec![f.point()],
        53 => vec![centre(f.u16(), f.u16())],
        54 => pitch(f.u16(), f.u16()).to_vec(),
        _ => {
            let far = f.u16().saturating_sub(2);
            [(0, 0), (far, 0), (0, far), (far, far)].iter().flat_map(|c| pitch(c.0, c.1)).collect()
        }
    }
}

/// The divisors of the four rounds at a module place.
fn divisors(m: [f64; 8], lens: [f64; 3], at: (f32, f32)) -> [f64; 4] {
    let (u, v) = (at.0 as f64, at.1 as f64);
    let w = m[6] * u + m[7] * v + 1.0;
    let w = if w.abs() < 1e-9 { 1e-9 } else { w };
    let ux = (m[0] * u + m[1] * v + m[2]) / w - lens[0];
    let uy = (m[3] * u + m[4] * v + m[5]) / w - lens[1];
    let (mut dx, mut dy) = (ux, uy);
    core::array::from_fn(|_| {
        let s = 1.0 + lens[2] * (dx * dx + dy * dy);
        (dx, dy) = (ux / s, uy / s);
        s
    })
}
