//! Random numbers from a seed (xoshiro256**, seeded by splitmix64).

#[derive(Clone, Debug)]
pub struct Rng {
    state: [u64; 4],
}

impl Rng {
    pub fn new(seed: u64) -> Rng {
        let mut mix = seed;
        let state = [(); 4].map(|()| {
            mix = mix.wrapping_add(0x9E37_79B9_7F4A_7C15);
            let z = (mix ^ mix >> 30).wrapping_mul(0xBF58_476D_1CE4_E5B9);
            let z = (z ^ z >> 27).wrapping_mul(0x94D0_49BB_1331_11EB);
            z ^ z >> 31
        });
        Rng { state }
    }

    pub fn number(&mut self) -> u64 {
        let [a, b, c, d] = &mut self.state;
        let number = b.wrapping_mul(5).rotate_left(7).wrapping_mul(9);
        let shifted = *b << 17;
        *c ^= *a;
        *d ^= *b;
        *b ^= *c;
        *a ^= *d;
        *c ^= shifted;
        *d = d.rotate_left(45);
        number
    }

    /// A number below `bound`, which is not 0.
    pub fn below(&mut self, bound: usize) -> usize {
        (self.number() % bound as u64) as usize
    }

    /// A number from `least` to `greatest`, both included.
    pub fn from_to(&mut self, least: usize, greatest: usize) -> usize {
        least + self.below(greatest - least + 1)
    }

    /// True once in `times`.
    pub fn once_in(&mut self, times: usize) -> bool {
        self.below(times) == 0
    }

    /// True with `percent` of 100.
    pub fn percent(&mut self, percent: usize) -> bool {
        self.below(100) < percent
    }

    pub fn pick<'x, X>(&mut self, from: &'x [X]) -> &'x X {
        &from[self.below(from.len())]
    }

    pub fn shuffle<X>(&mut self, row: &mut [X]) {
        for i in (1..row.len()).rev() {
            row.swap(i, self.below(i + 1));
        }
    }

    /// A set in which each of the bits is there with `percent` of 100.
    pub fn set(&mut self, bits: u64, percent: usize) -> u64 {
        (0..64)
            .filter(|t| bits >> t & 1 == 1 && self.percent(percent))
            .fold(0, |set, t| set | 1 << t)
    }
}
