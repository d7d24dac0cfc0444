//! Random numbers that a seed repeats (splitmix64).

pub struct Random(u64);

impl Random {
    /// The numbers of one case of a seed.
    pub fn new(seed: u64, case: u64) -> Random {
        let mut random = Random(seed);
        let start = random.next();
        Random(start ^ case.wrapping_mul(0xd134_2543_de82_ef95))
    }

    /// The next number; as there is always one, this is no iterator.
    #[allow(clippy::should_implement_trait)]
    pub fn next(&mut self) -> u64 {
        self.0 = self.0.wrapping_add(0x9e37_79b9_7f4a_7c15);
        let mut word = self.0;
        word = (word ^ (word >> 30)).wrapping_mul(0xbf58_476d_1ce4_e5b9);
        word = (word ^ (word >> 27)).wrapping_mul(0x94d0_49bb_1331_11eb);
        word ^ (word >> 31)
    }

    /// From `low` to `high`, both among them.
    pub fn between(&mut self, low: usize, high: usize) -> usize {
        low + (self.next() % (high - low + 1) as u64) as usize
    }

    pub fn chance(&mut self, times: u64, of: u64) -> bool {
        self.next() % of < times
    }

    pub fn pick<T: Clone>(&mut self, from: &[T]) -> T {
        from[self.between(0, from.len() - 1)].clone()
    }

    pub fn byte(&mut self) -> u8 {
        self.next() as u8
    }

    pub fn bytes(&mut self, length: usize) -> Vec<u8> {
        let mut bytes = vec![0; length];
        self.fill(&mut bytes);
        bytes
    }

    pub fn fill(&mut self, bytes: &mut [u8]) {
        for word in bytes.chunks_mut(8) {
            word.copy_from_slice(&self.next().to_le_bytes()[..word.len()]);
        }
    }

    /// A subset: each row with the given chance.
    pub fn subset(&mut self, rows: u64, times: u64, of: u64) -> u64 {
        reference::rows::members(rows)
            .filter(|_| self.chance(times, of))
            .fold(0, |set, row| set | reference::rows::only(row))
    }

    /// A row of the set; 1 if it is empty.
    pub fn row(&mut self, rows: u64) -> usize {
        let members: Vec<usize> = reference::rows::members(rows).collect();
        if members.is_empty() {
            1
        } else {
            self.pick(&members)
        }
    }

    pub fn shuffle<T>(&mut self, items: &mut [T]) {
        for last in (1..items.len()).rev() {
            items.swap(last, self.between(0, last));
        }
    }
}
