//! Lent buffers between guards, none of which may change.

/// Items on each side of a lent buffer.
const GUARD: usize = 32;

/// A buffer to lend, with its guards.
#[derive(Clone)]
pub struct Guarded<T> {
    items: Vec<T>,
}

impl<T: Copy + PartialEq + From<u8>> Guarded<T> {
    /// Holds what `lent` holds.
    pub fn new(lent: &[T]) -> Self {
        let (before, behind) = ([T::from(0x3C); GUARD], [T::from(0xC3); GUARD]);
        Guarded {
            items: [&before, lent, &behind].concat(),
        }
    }

    /// The buffer between its guards.
    pub fn lent(&mut self) -> &mut [T] {
        let end = self.items.len() - GUARD;
        &mut self.items[GUARD..end]
    }

    /// Where the two differ first, guards included, if they do.
    pub fn difference(&self, other: &Self) -> Option<usize> {
        difference(&self.items, &other.items)
    }
}

/// Where two buffers of one length differ first, if they do.
pub fn difference<T: PartialEq>(one: &[T], other: &[T]) -> Option<usize> {
    assert_eq!(one.len(), other.len());
    (0..one.len()).find(|&place| one[place] != other[place])
}
