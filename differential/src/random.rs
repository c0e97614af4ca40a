//! A small generator (splitmix64), so that a seed gives the same cases everywhere.

pub struct Random(u64);

impl Random {
    /// Case `index` of `seed` has its own numbers, so that it can be made again alone.
    pub fn new(seed: u64, index: u64) -> Random {
        let mut r = Random(seed);
        Random(r.next() ^ index.wrapping_mul(0xd134_2543_de82_ef95))
    }

    /// The same for the cases of one stage of a run, whose numbers are apart from those of other stages.
    pub fn of(seed: u64, stage: &str, index: u64) -> Random {
        let name = stage.bytes().fold(0xcbf2_9ce4_8422_2325, |h, b| (h ^ u64::from(b)).wrapping_mul(0x0100_0000_01b3));
        Random::new(seed ^ name, index)
    }

    pub fn next(&mut self) -> u64 {
        self.0 = self.0.wrapping_add(0x9e37_79b9_7f4a_7c15);
        let mut z = self.0;
        z = (z ^ (z >> 30)).wrapping_mul(0xbf58_476d_1ce4_e5b9);
        z = (z ^ (z >> 27)).wrapping_mul(0x94d0_49bb_1331_11eb);
        z ^ (z >> 31)
    }

    pub fn below(&mut self, n: usize) -> usize {
        (self.next() % n as u64) as usize
    }

    pub fn between(&mut self, low: usize, high: usize) -> usize {
        low + self.below(high - low + 1)
    }

    pub fn one_in(&mut self, n: usize) -> bool {
        self.below(n) == 0
    }

    pub fn pick<'a, T: ?Sized>(&mut self, all: &[&'a T]) -> &'a T {
        all[self.below(all.len())]
    }

    pub fn pick_char(&mut self, all: &str) -> char {
        all.chars().nth(self.below(all.chars().count())).unwrap()
    }
}
