//! Random numbers that a seed determines, so that every list can be made again.

#[derive(Clone)]
pub struct Rng(u64);

impl Rng {
    pub fn new(seed: u64) -> Rng {
        Rng(seed)
    }

    /// The generator of the `nth` thing that a seed makes: no thing depends on those before it.
    pub fn nth(seed: u64, nth: u64) -> Rng {
        let mut mixed = Rng::new(seed);
        let start = mixed.word() ^ nth.wrapping_mul(0xd134_2543_de82_ef95);
        Rng::new(start)
    }

    /// A step of a Weyl sequence, mixed by two multiplications.
    pub fn word(&mut self) -> u64 {
        self.0 = self.0.wrapping_add(0x9e37_79b9_7f4a_7c15);
        let a = (self.0 ^ (self.0 >> 30)).wrapping_mul(0xbf58_476d_1ce4_e5b9);
        let b = (a ^ (a >> 27)).wrapping_mul(0x94d0_49bb_1331_11eb);
        b ^ (b >> 31)
    }

    pub fn any(&mut self) -> u32 {
        self.word() as u32
    }

    /// A number below n; 0 if n is 0.
    pub fn below(&mut self, n: u32) -> u32 {
        (((self.word() >> 32) * u64::from(n)) >> 32) as u32
    }

    pub fn within(&mut self, low: u32, high: u32) -> u32 {
        low + self.below(high - low + 1)
    }

    pub fn chance(&mut self, of: u32, among: u32) -> bool {
        self.below(among) < of
    }

    pub fn pick<T: Copy>(&mut self, from: &[T]) -> T {
        from[self.below(from.len() as u32) as usize]
    }

    pub fn shuffle<T>(&mut self, things: &mut [T]) {
        for i in (1..things.len()).rev() {
            things.swap(i, self.below(i as u32 + 1) as usize);
        }
    }
}
