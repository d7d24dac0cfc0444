//! A value that many states share until one of them changes it, with its digest.

use std::cell::OnceCell;
use std::hash::{Hash, Hasher};
use std::ops::{Deref, DerefMut};
use std::rc::Rc;

#[derive(Clone, Debug, Default)]
pub struct Shared<T>(Rc<(T, OnceCell<u128>)>);

impl<T: Hash> Shared<T> {
    pub fn digest(&self) -> u128 {
        *self.0 .1.get_or_init(|| digest(&self.0 .0))
    }
}

impl<T: Clone> Shared<T> {
    pub fn into_inner(self) -> T {
        Rc::try_unwrap(self.0).map_or_else(|shared| shared.0.clone(), |(value, _)| value)
    }
}

impl<T> From<T> for Shared<T> {
    fn from(value: T) -> Shared<T> {
        Shared(Rc::new((value, OnceCell::new())))
    }
}

impl<T> Deref for Shared<T> {
    type Target = T;

    fn deref(&self) -> &T {
        &self.0 .0
    }
}

impl<T: Clone> DerefMut for Shared<T> {
    fn deref_mut(&mut self) -> &mut T {
        let (value, digest) = Rc::make_mut(&mut self.0);
        *digest = OnceCell::new();
        value
    }
}

impl<T: Hash> Hash for Shared<T> {
    fn hash<H: Hasher>(&self, state: &mut H) {
        state.write_u128(self.digest());
    }
}

/// Of values that are alike it is the same, and of others, but for a chance of one in 2^64 and less, another.
pub fn digest<T: Hash>(value: &T) -> u128 {
    let mut mixed = Mixed::default();
    value.hash(&mut mixed);
    u128::from(mixed.0) << 64 | u128::from(mixed.1)
}

/// Two sums of 64 bits, eight bytes at a time.
#[derive(Default)]
pub struct Mixed(u64, u64);

impl Mixed {
    fn add(&mut self, word: u64) {
        self.0 = (self.0.rotate_left(5) ^ word).wrapping_mul(0x9e37_79b9_7f4a_7c15);
        self.1 = (self.1.rotate_left(29) ^ word)
            .wrapping_mul(0xd6e8_feb8_6659_fd93)
            .wrapping_add(0x2545_f491_4f6c_dd1d);
    }
}

impl Hasher for Mixed {
    fn write(&mut self, bytes: &[u8]) {
        for chunk in bytes.chunks(8) {
            let mut word = [0; 8];
            word[..chunk.len()].copy_from_slice(chunk);
            self.add(u64::from_le_bytes(word));
        }
    }

    fn write_u64(&mut self, word: u64) {
        self.add(word);
    }

    fn write_usize(&mut self, word: usize) {
        self.add(word as u64);
    }

    fn finish(&self) -> u64 {
        self.0 ^ self.1
    }
}
