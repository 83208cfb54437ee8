// A small random generator (splitmix64), so that a seed and a number give a request again.
pub struct Random(u64);

impl Random {
    // The generator of request number `i` of a class.
    pub fn of(seed: u64, class: &str, i: u64) -> Self {
        let mut r = Random(seed);
        for b in class.bytes() {
            r.0 = r.0.wrapping_mul(31).wrapping_add(b as u64);
            r.next();
        }
        r.0 ^= i.wrapping_mul(0x9E37_79B9_7F4A_7C15);
        r.next();
        r
    }

    pub fn next(&mut self) -> u64 {
        self.0 = self.0.wrapping_add(0x9E37_79B9_7F4A_7C15);
        let mut z = self.0;
        z = (z ^ (z >> 30)).wrapping_mul(0xBF58_476D_1CE4_E5B9);
        z = (z ^ (z >> 27)).wrapping_mul(0x94D0_49BB_1331_11EB);
        z ^ (z >> 31)
    }

    // A number below n; n is not 0.
    pub fn below(&mut self, n: usize) -> usize {
        (self.next() % n as u64) as usize
    }

    // A number from a to b, both included.
    pub fn within(&mut self, a: usize, b: usize) -> usize {
        a + self.below(b - a + 1)
    }

    pub fn byte(&mut self) -> u8 {
        self.next() as u8
    }

    // True once in n times.
    pub fn once_in(&mut self, n: usize) -> bool {
        self.below(n) == 0
    }

    pub fn pick<'a, T>(&mut self, from: &'a [T]) -> &'a T {
        &from[self.below(from.len())]
    }

    pub fn bytes(&mut self, n: usize) -> Vec<u8> {
        (0..n).map(|_| self.byte()).collect()
    }
}
