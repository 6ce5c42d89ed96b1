//! Numbers at random, the same in each run.

pub struct Random(pub u64);

impl Random {
    pub fn next(&mut self) -> u64 {
        let high = self.step() >> 32;
        high << 32 | self.step() >> 32
    }

    fn step(&mut self) -> u64 {
        self.0 = self.0.wrapping_mul(6_364_136_223_846_793_005).wrapping_add(1_442_695_040_888_963_407);
        self.0
    }

    pub fn below(&mut self, bound: u64) -> u64 {
        self.next() % bound
    }
}
