//! A set of class numbers, one bit each.

/// A set of class numbers below 256.
#[derive(Clone, Copy, Default)]
pub struct ClassSet([u64; 4]);

impl ClassSet {
    pub const EMPTY: ClassSet = ClassSet([0; 4]);

    pub fn insert(&mut self, class: usize) {
        self.0[class / 64] |= 1 << (class % 64);
    }

    pub fn contains(&self, class: usize) -> bool {
        self.0[class / 64] >> (class % 64) & 1 != 0
    }

    pub fn add_all(&mut self, other: ClassSet) {
        for (word, more) in self.0.iter_mut().zip(other.0) {
            *word |= more;
        }
    }

    pub fn and(mut self, other: ClassSet) -> ClassSet {
        for (word, mask) in self.0.iter_mut().zip(other.0) {
            *word &= mask;
        }
        self
    }

    pub fn without(mut self, other: ClassSet) -> ClassSet {
        for (word, mask) in self.0.iter_mut().zip(other.0) {
            *word &= !mask;
        }
        self
    }

    /// Takes out the lowest number.
    pub fn pop(&mut self) -> Option<usize> {
        let index = self.0.iter().position(|&word| word != 0)?;
        let bit = self.0[index].trailing_zeros() as usize;
        self.0[index] &= self.0[index] - 1;
        Some(index * 64 + bit)
    }

    pub fn count(&self) -> usize {
        self.0.iter().map(|word| word.count_ones() as usize).sum()
    }
}

/// All classes of `within` from which a chain of steps leads to one of `targets`, which are
/// counted themselves; `before[c]` holds the classes one step before `c`. Classes of `known`
/// are neither visited nor given back.
pub fn reaching(
    before: &[ClassSet],
    targets: ClassSet,
    within: ClassSet,
    known: ClassSet,
) -> ClassSet {
    let mut open = targets.without(known);
    let mut reached = open;
    while let Some(class) = open.pop() {
        let new = before[class].and(within).without(known).without(reached);
        open.add_all(new);
        reached.add_all(new);
    }
    reached
}
