//! A seeded source of random words (splitmix64): the same seed, the same words.
use model::field::P;

pub struct Random {
    state: u64,
}

impl Random {
    pub fn new(seed: u64) -> Random {
        Random { state: seed }
    }

    pub fn word(&mut self) -> u64 {
        self.state = self.state.wrapping_add(0x9e3779b97f4a7c15);
        let mut z = self.state;
        z = (z ^ (z >> 30)).wrapping_mul(0xbf58476d1ce4e5b9);
        z = (z ^ (z >> 27)).wrapping_mul(0x94d049bb133111eb);
        z ^ (z >> 31)
    }

    /// One of `low..=high`.
    pub fn within(&mut self, low: u64, high: u64) -> u64 {
        low + self.word() % (high - low + 1)
    }

    /// True once in `times`.
    pub fn once_in(&mut self, times: u64) -> bool {
        self.within(1, times) == 1
    }

    pub fn pick<T: Copy>(&mut self, of: &[T]) -> T {
        of[self.within(0, of.len() as u64 - 1) as usize]
    }

    /// One of the given values, or, as often as each of them, one of `low..=high`.
    pub fn ends(&mut self, values: &[u64], low: u64, high: u64) -> u64 {
        match values.get(self.within(0, values.len() as u64) as usize) {
            Some(value) => *value,
            None => self.within(low, high),
        }
    }

    /// An element of the field, its ends more often than chance has it.
    pub fn element(&mut self) -> u64 {
        match self.within(0, 7) {
            0 => self.pick(&[0, 1, P - 1, P - 2, 1 << 32, (1 << 32) - 1]),
            _ => self.word() % P,
        }
    }

    pub fn shuffle<T>(&mut self, items: &mut [T]) {
        for i in (1..items.len()).rev() {
            let j = self.within(0, i as u64) as usize;
            items.swap(i, j);
        }
    }
}
