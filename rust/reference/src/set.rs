//! Sets of at most 64 items, as one truth value for each item.

/// A set of numbers below 64.
#[derive(Clone, Copy, PartialEq, Eq, Debug)]
pub struct Set([bool; 64]);

impl Set {
    pub const EMPTY: Set = Set([false; 64]);

    /// The items that satisfy `test`.
    pub fn of(test: impl Fn(usize) -> bool) -> Set {
        Set(std::array::from_fn(test))
    }

    /// The items below `count`.
    pub fn below(count: usize) -> Set {
        Set::of(|i| i < count)
    }

    pub fn single(item: usize) -> Set {
        Set::of(|i| i == item)
    }

    /// The eight bytes of the set as a word, lowest first.
    pub fn word(&self) -> Vec<u8> {
        let byte = |bits: &[bool]| (0..8).fold(0, |byte, bit| byte | u8::from(bits[bit]) << bit);
        self.0.chunks(8).map(byte).collect()
    }

    pub fn contains(&self, item: usize) -> bool {
        self.0[item]
    }

    pub fn items(&self) -> impl Iterator<Item = usize> + '_ {
        (0..64).filter(|&i| self.0[i])
    }

    pub fn len(&self) -> usize {
        self.items().count()
    }

    pub fn is_empty(&self) -> bool {
        *self == Set::EMPTY
    }

    pub fn and(&self, other: &Set) -> Set {
        Set::of(|i| self.0[i] && other.0[i])
    }

    pub fn or(&self, other: &Set) -> Set {
        Set::of(|i| self.0[i] || other.0[i])
    }

    pub fn without(&self, other: &Set) -> Set {
        Set::of(|i| self.0[i] && !other.0[i])
    }

    pub fn meets(&self, other: &Set) -> bool {
        !self.and(other).is_empty()
    }

    pub fn within(&self, other: &Set) -> bool {
        self.without(other).is_empty()
    }
}
