//! Repeatable random numbers (splitmix64), and random sheets from them.

pub struct Random(pub u64);

impl Random {
    pub fn next(&mut self) -> u64 {
        self.0 = self.0.wrapping_add(0x9e37_79b9_7f4a_7c15);
        let mut z = self.0;
        z = (z ^ (z >> 30)).wrapping_mul(0xbf58_476d_1ce4_e5b9);
        z = (z ^ (z >> 27)).wrapping_mul(0x94d0_49bb_1331_11eb);
        z ^ (z >> 31)
    }

    /// From 0 up to but not n.
    pub fn below(&mut self, n: u64) -> u64 {
        self.next() % n
    }

    pub fn between(&mut self, a: i64, b: i64) -> i64 {
        a + self.below((b - a + 1) as u64) as i64
    }

    pub fn pick<'a, T>(&mut self, from: &'a [T]) -> &'a T {
        &from[self.below(from.len() as u64) as usize]
    }

    /// A place by one of several habits: anywhere, a small grid with many ties, a line, one spot.
    pub fn place(&mut self, habit: u64) -> (i32, i32) {
        let (x, y) = match habit % 5 {
            0 => (self.between(-1_000_000, 1_000_000), self.between(-1_000_000, 1_000_000)),
            1 => (self.between(-4, 4), self.between(-4, 4)),
            2 => (10 * self.between(-100, 100), 0),
            3 => (7, -7),
            _ => (self.between(-300, 300), self.between(-300, 300)),
        };
        (x as i32, y as i32)
    }
}
