//! Columns: stretches of the memory of the program that has the proved code.

/// Memory of the program that can be lent: where it starts, and how many elements of which size it has.
#[derive(Clone, Copy, Debug)]
pub struct Column {
    pub(super) at: usize,
    pub(super) len: usize,
    pub(super) size: usize,
}

impl Column {
    #[allow(clippy::len_without_is_empty)]
    pub fn len(self) -> usize {
        self.len
    }

    /// Where its bytes start and end.
    pub fn span(self) -> (usize, usize) {
        (self.at, self.at + self.len * self.size)
    }

    /// The first elements alone, to lend less than there is.
    pub fn first(self, len: usize) -> Column {
        self.part(0, len)
    }

    /// Some of the elements alone.
    pub fn part(self, from: usize, len: usize) -> Column {
        assert!(from <= self.len && len <= self.len - from);
        let at = self.at + from * self.size;
        Column { at, len, ..self }
    }
}
