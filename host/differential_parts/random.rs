//! Random numbers (splitmix64): the same seed, the same run.

pub struct Random(u64);

impl Random {
    pub fn new(seed: u64) -> Random {
        Random(seed)
    }

    pub fn next(&mut self) -> u64 {
        self.0 = self.0.wrapping_add(0x9E37_79B9_7F4A_7C15);
        let mut mixed = self.0;
        mixed = (mixed ^ (mixed >> 30)).wrapping_mul(0xBF58_476D_1CE4_E5B9);
        mixed = (mixed ^ (mixed >> 27)).wrapping_mul(0x94D0_49BB_1331_11EB);
        mixed ^ (mixed >> 31)
    }

    /// 0 to count - 1.
    pub fn below(&mut self, count: usize) -> usize {
        (((self.next() >> 32) * count as u64) >> 32) as usize
    }

    /// Both ends included.
    pub fn between(&mut self, first: usize, last: usize) -> usize {
        first + self.below(last - first + 1)
    }

    /// Both ends included, and frequent.
    pub fn edgy(&mut self, first: usize, last: usize) -> usize {
        match self.below(4) {
            0 => first,
            1 => last,
            _ => self.between(first, last),
        }
    }

    pub fn one_in(&mut self, count: usize) -> bool {
        self.below(count) == 0
    }

    pub fn coin(&mut self) -> bool {
        self.one_in(2)
    }

    /// 0 or 1.
    pub fn bit(&mut self) -> u8 {
        u8::from(self.coin())
    }

    /// A byte that is neither 0 nor 1.
    pub fn no_bit(&mut self) -> u8 {
        if self.one_in(5) {
            self.between(2, 255) as u8
        } else {
            self.pick(&[2, 3, 0x80, 0xFF])
        }
    }

    pub fn byte(&mut self) -> u8 {
        (self.next() >> 56) as u8
    }

    /// A byte other than this one.
    pub fn byte_but(&mut self, not: u8) -> u8 {
        not.wrapping_add(self.between(1, 255) as u8)
    }

    /// One of these, or any.
    pub fn byte_like(&mut self, among: &[u8]) -> u8 {
        if self.one_in(among.len() + 1) {
            self.byte()
        } else {
            self.pick(among)
        }
    }

    /// 1 to 255.
    pub fn some_byte(&mut self) -> u8 {
        self.byte_but(0)
    }

    pub fn number(&mut self) -> u16 {
        (self.next() >> 48) as u16
    }

    pub fn bytes(&mut self, count: usize) -> Vec<u8> {
        let mut bytes = vec![0; count];
        self.fill(&mut bytes);
        bytes
    }

    pub fn fill(&mut self, bytes: &mut [u8]) {
        for eight in bytes.chunks_mut(8) {
            let word = self.next().to_le_bytes();
            eight.copy_from_slice(&word[..eight.len()]);
        }
    }

    pub fn pick<T: Copy>(&mut self, among: &[T]) -> T {
        among[self.below(among.len())]
    }
}
