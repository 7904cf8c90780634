// Pseudo-random numbers, the same in every run.

pub struct Dice(pub u64);

impl Dice {
    pub fn next(&mut self) -> u64 {
        self.0 = self.0.wrapping_add(0x9e3779b97f4a7c15);
        let mut z = self.0;
        z = (z ^ (z >> 30)).wrapping_mul(0xbf58476d1ce4e5b9);
        z = (z ^ (z >> 27)).wrapping_mul(0x94d049bb133111eb);
        z ^ (z >> 31)
    }

    pub fn below(&mut self, n: usize) -> usize {
        (self.next() >> 11) as usize % n
    }

    pub fn flag(&mut self) -> bool {
        self.below(2) == 1
    }

    pub fn rarely(&mut self) -> bool {
        self.below(8) == 0
    }

    // one of these
    pub fn of<A: Copy>(&mut self, these: &[A]) -> A {
        these[self.below(these.len())]
    }

    // lo..=hi, its ends and near 0 more often
    pub fn within(&mut self, lo: i32, hi: i32) -> i32 {
        let z = match self.below(8) {
            0 => lo + self.below(3) as i32,
            1 => hi - self.below(3) as i32,
            2 => self.below(7) as i32 - 3,
            _ => lo + self.below((hi - lo) as usize + 1) as i32,
        };
        z.clamp(lo, hi)
    }

    // outside lo..=hi
    pub fn outside(&mut self, lo: i32, hi: i32) -> i32 {
        self.of(&[lo - 1, hi + 1, i32::MIN, i32::MAX])
    }
}
