//! Pseudo-random numbers by seed (splitmix64), and floats of every kind.

pub struct Rng(u64);

impl Rng {
    pub fn new(seed: u64) -> Rng {
        Rng(seed)
    }

    pub fn next(&mut self) -> u64 {
        self.0 = self.0.wrapping_add(0x9e37_79b9_7f4a_7c15);
        let mut z = self.0;
        z = (z ^ (z >> 30)).wrapping_mul(0xbf58_476d_1ce4_e5b9);
        z = (z ^ (z >> 27)).wrapping_mul(0x94d0_49bb_1331_11eb);
        z ^ (z >> 31)
    }

    /// A number below `n`.
    pub fn below(&mut self, n: u64) -> u64 {
        self.next() % n
    }

    /// A number from `a` to `b`, both included.
    pub fn whole(&mut self, a: u32, b: u32) -> u32 {
        a + self.below((b - a) as u64 + 1) as u32
    }

    /// Once in `n`.
    pub fn one_in(&mut self, n: u64) -> bool {
        self.below(n) == 0
    }

    pub fn byte(&mut self) -> u8 {
        self.next() as u8
    }

    pub fn bytes(&mut self, n: usize) -> Vec<u8> {
        (0..n).map(|_| self.byte()).collect()
    }

    pub fn pick<T: Copy>(&mut self, items: &[T]) -> T {
        items[self.below(items.len() as u64) as usize]
    }

    /// A real from `a` to below `b`.
    pub fn real(&mut self, a: f64, b: f64) -> f64 {
        a + (b - a) * ((self.next() >> 11) as f64 / (1u64 << 53) as f64)
    }

    /// Not-a-numbers, infinities, zeros, the largest, the least, halves, powers, any bits.
    pub fn any_f32(&mut self) -> f32 {
        const KNOWN: [f32; 18] = [
            0.0,
            -0.0,
            1.0,
            -1.0,
            0.5,
            -0.5,
            f32::NAN,
            f32::INFINITY,
            f32::NEG_INFINITY,
            f32::MAX,
            f32::MIN,
            f32::MIN_POSITIVE,
            1e-45,
            -1e-45,
            16_777_216.0,
            2_147_483_648.0,
            4_294_967_296.0,
            -2_147_483_648.0,
        ];
        match self.below(6) {
            0 | 1 => self.pick(&KNOWN),
            2 => f32::from_bits(self.next() as u32),
            3 => self.whole(0, 8192) as f32 / 2.0 - 1024.0,
            4 => (self.real(-1.0, 1.0) * 2f64.powi(self.whole(0, 200) as i32 - 100)) as f32,
            _ => f32::from_bits(self.pick(&KNOWN).to_bits().wrapping_add(self.whole(0, 4)).wrapping_sub(2)),
        }
    }

    pub fn any_f64(&mut self) -> f64 {
        const KNOWN: [f64; 14] = [
            0.0,
            -0.0,
            1.0,
            -1.0,
            f64::NAN,
            f64::INFINITY,
            f64::NEG_INFINITY,
            f64::MAX,
            f64::MIN_POSITIVE,
            5e-324,
            1e-12,
            -1e-12,
            1e-9,
            -1e-9,
        ];
        match self.below(6) {
            0 => self.pick(&KNOWN),
            1 => f64::from_bits(self.next()),
            2 => self.any_f32() as f64,
            3 => self.whole(0, 512) as f64 / 2.0 - 64.0,
            4 => self.real(-1.0, 1.0) * 2f64.powi(self.whole(0, 200) as i32 - 100),
            _ => {
                let by = self.below(5);
                f64::from_bits(self.pick(&KNOWN).to_bits().wrapping_add(by).wrapping_sub(2))
            }
        }
    }
}
