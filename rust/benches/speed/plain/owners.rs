//! Who owns what: bounds in a sorted map, each with its owner until the next. Neighbours with one owner are joined.
use std::collections::BTreeMap;
use std::ops::Bound::{Excluded, Included, Unbounded};

pub struct Owners {
    lows: BTreeMap<u64, usize>,
}

/// A range of keys that is not empty; without an end it goes to the last key.
#[derive(Clone, Copy)]
pub struct Range {
    pub lo: u64,
    pub hi: Option<u64>,
}

impl Range {
    /// The range, unless it is empty.
    pub fn new(lo: Option<u64>, hi: Option<u64>) -> Option<Range> {
        let lo = lo.filter(|lo| hi.is_none_or(|hi| *lo < hi))?;
        Some(Range { lo, hi })
    }

    pub fn holds(&self, key: u64) -> bool {
        self.lo <= key && self.hi.is_none_or(|hi| key < hi)
    }

    fn bounds(&self) -> (std::ops::Bound<u64>, std::ops::Bound<u64>) {
        (Included(self.lo), self.hi.map_or(Unbounded, Excluded))
    }
}

impl Owners {
    pub fn all(owner: usize) -> Owners {
        let lows = BTreeMap::from([(0, owner)]);
        Owners { lows }
    }

    pub fn len(&self) -> usize {
        self.lows.len()
    }

    pub fn of(&self, key: u64) -> usize {
        let below = self.lows.range(..=key).next_back();
        *below.expect("the first bound is key 0").1
    }

    pub fn whole(&self, range: Range, owner: usize) -> bool {
        let mut inside = self.lows.range(range.bounds());
        self.of(range.lo) == owner && inside.all(|(_, other)| *other == owner)
    }

    /// Is a bound needed at the start of the range, and at its end, once it is that owner's?
    fn needs(&self, range: Range, owner: usize) -> (bool, Option<(u64, usize)>) {
        let start = range.lo == 0 || self.of(range.lo - 1) != owner;
        let end = range.hi.map(|hi| (hi, self.of(hi)));
        (start, end.filter(|(_, after)| *after != owner))
    }

    /// How many bounds there are once the range is that owner's.
    pub fn bounds_after(&self, range: Range, owner: usize) -> usize {
        let (start, end) = self.needs(range, owner);
        let last = range.hi.map_or(Unbounded, Included);
        let gone = self.lows.range((Included(range.lo), last)).count();
        self.lows.len() - gone + usize::from(start) + usize::from(end.is_some())
    }

    pub fn give(&mut self, range: Range, owner: usize) {
        let (start, end) = self.needs(range, owner);
        let gone: Vec<u64> = self.lows.range(range.bounds()).map(|(k, _)| *k).collect();
        for key in gone.into_iter().chain(range.hi) {
            self.lows.remove(&key);
        }
        self.lows.extend(end);
        self.lows.extend(start.then_some((range.lo, owner)));
    }
}
