//! A small deterministic source of numbers for building and damaging files.

/// A generator: equal seeds give equal numbers on every machine.
#[derive(Clone, Debug)]
pub struct Random {
    state: u64,
}

impl Random {
    /// The generator of this seed.
    pub fn seeded(seed: u64) -> Random {
        let mut random = Random { state: seed.wrapping_mul(2).wrapping_add(1) };
        for _ in 0..8 {
            random.number();
        }
        random
    }

    /// The next 64 bits: shifts for the state, a product for the answer.
    pub fn number(&mut self) -> u64 {
        self.state ^= self.state << 13;
        self.state ^= self.state >> 7;
        self.state ^= self.state << 17;
        let mixed = self.state.wrapping_mul(0xD6E8_FEB8_6659_FD93);
        mixed ^ mixed >> 32
    }

    /// A number from 0 to below the limit; 0 if the limit is below 1.
    pub fn below(&mut self, limit: i64) -> i64 {
        let limit = u64::try_from(limit).unwrap_or(0).max(1);
        i64::try_from(self.number() % limit).unwrap_or(0)
    }

    /// A number from `low` to `high`, both included.
    pub fn between(&mut self, low: i64, high: i64) -> i64 {
        low.saturating_add(self.below(high.saturating_sub(low).saturating_add(1)))
    }

    /// True once in `times`.
    pub fn once_in(&mut self, times: i64) -> bool {
        self.below(times) == 0
    }

    /// A size below this one, as the place in a list of this length; 0 if it is 0.
    pub fn size_below(&mut self, limit: usize) -> usize {
        let limit = i64::try_from(limit).unwrap_or(i64::MAX);
        usize::try_from(self.below(limit)).unwrap_or(0)
    }

    /// One of a list, if it has any.
    pub fn one_of<'a, T>(&mut self, list: &'a [T]) -> Option<&'a T> {
        let place = self.size_below(list.len());
        list.get(place)
    }

    /// Any byte.
    pub fn byte(&mut self) -> u8 {
        self.number().to_le_bytes()[0]
    }

    /// Puts a list in any order.
    pub fn shuffle<T>(&mut self, list: &mut [T]) {
        for last in (1..list.len()).rev() {
            let other = self.size_below(last + 1);
            list.swap(last, other);
        }
    }
}
