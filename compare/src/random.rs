//! Random numbers that a seed determines (xoshiro256**, seeded by splitmix64).

#[derive(Clone)]
pub struct Random([u64; 4]);

impl Random {
    pub fn new(seed: u64) -> Random {
        let mut x = seed;
        Random([(); 4].map(|()| {
            x = x.wrapping_add(0x9e37_79b9_7f4a_7c15);
            let y = (x ^ (x >> 30)).wrapping_mul(0xbf58_476d_1ce4_e5b9);
            let z = (y ^ (y >> 27)).wrapping_mul(0x94d0_49bb_1331_11eb);
            z ^ (z >> 31)
        }))
    }

    /// The numbers of one history among many: they depend on all three.
    pub fn of_history(seed: u64, shape: &str, number: u64) -> Random {
        let name = shape.bytes().fold(0xcbf2_9ce4_8422_2325, |h, b| (h ^ u64::from(b)).wrapping_mul(0x0100_0000_01b3));
        Random::new(seed ^ name ^ number.wrapping_mul(0xd134_2543_de82_ef95))
    }

    pub fn any(&mut self) -> u64 {
        let s = &mut self.0;
        let result = s[1].wrapping_mul(5).rotate_left(7).wrapping_mul(9);
        let t = s[1] << 17;
        s[2] ^= s[0];
        s[3] ^= s[1];
        s[1] ^= s[2];
        s[0] ^= s[3];
        s[2] ^= t;
        s[3] = s[3].rotate_left(45);
        result
    }

    /// A number below n (n at least 1).
    pub fn below(&mut self, n: u64) -> u64 {
        ((u128::from(self.any()) * u128::from(n)) >> 64) as u64
    }

    /// A number from a to b, both included.
    pub fn between(&mut self, a: u64, b: u64) -> u64 {
        match (b - a).checked_add(1) {
            Some(n) => a + self.below(n),
            None => self.any(),
        }
    }

    /// True once in n times.
    pub fn one_in(&mut self, n: u64) -> bool {
        self.below(n) == 0
    }

    pub fn pick<T: Copy>(&mut self, from: &[T]) -> T {
        from[self.below(from.len() as u64) as usize]
    }

    /// A number of a random length in bits, up to `most` bits.
    pub fn bits(&mut self, most: u32) -> u64 {
        match self.below(u64::from(most) + 1) {
            0 => 0,
            n => self.any() >> (64 - n),
        }
    }
}
