//! A range's bounds, as documents have them: a key, or end, which lies above every key.

/// The derived order is the right one: keys by number, and end above them all.
#[derive(Clone, Copy, Debug, PartialEq, Eq, PartialOrd, Ord)]
pub enum Bound {
    Key(u64),
    End,
}

/// A message has a key, or none for end.
impl From<Option<u64>> for Bound {
    fn from(key: Option<u64>) -> Bound {
        key.map_or(Bound::End, Bound::Key)
    }
}

/// Does the range [lo, hi) hold the key?
pub fn holds(lo: Bound, hi: Bound, key: u64) -> bool {
    lo <= Bound::Key(key) && Bound::Key(key) < hi
}

/// Where the keys of a script lie. A script counts its keys from 0, so that a model can have one place a key.
#[derive(Clone, Copy, Debug)]
pub enum Spread {
    /// The keys 0, 1, 2, ..
    Close,
    /// Keys in equal steps over all 64 bits, but the last is the largest of all.
    Wide,
}

impl Spread {
    /// The key with number k of so many.
    pub fn key(self, k: usize, space: usize) -> u64 {
        match self {
            Spread::Close => k as u64,
            Spread::Wide if k + 1 == space => u64::MAX,
            Spread::Wide => (u64::MAX / space as u64) * k as u64,
        }
    }

    /// The bound at that key; past the last one, end.
    pub fn bound(self, k: usize, space: usize) -> Bound {
        if k < space {
            Bound::Key(self.key(k, space))
        } else {
            Bound::End
        }
    }
}
