//! Who owns what, by document 01, section 2: a sorted list of lower bounds, each with its owner until the next.
//! Neighbours with one owner are joined, which section 6 allows.
use crate::bound::{holds, Bound};
use std::collections::BTreeMap;

pub type Address = Vec<u8>;

#[derive(Clone, Debug, PartialEq, Eq, Hash)]
pub struct Owners {
    lows: BTreeMap<u64, Address>,
}

impl Owners {
    /// All keys belong to one host.
    pub fn all(first: &[u8]) -> Owners {
        Owners {
            lows: BTreeMap::from([(0, first.to_vec())]),
        }
    }

    pub fn of(&self, key: u64) -> &Address {
        let below = self.lows.range(..=key).next_back();
        below.expect("the first bound is key 0").1
    }

    /// The bounds, each with its owner.
    pub fn bounds(&self) -> Vec<(u64, Address)> {
        let bounds = self.lows.iter();
        bounds.map(|(low, owner)| (*low, owner.clone())).collect()
    }

    /// The keys of [lo, hi) go to that host: first a bound at hi, unless hi is end, then no bound in the range, then
    /// one at lo.
    pub fn give(&mut self, lo: Bound, hi: Bound, to: &[u8]) {
        let Bound::Key(low) = lo else {
            return;
        };
        if hi <= lo {
            return;
        }
        if let Bound::Key(high) = hi {
            let had = self.of(high).clone();
            self.lows.insert(high, had);
        }
        self.lows.retain(|key, _| !holds(lo, hi, *key));
        self.lows.insert(low, to.to_vec());
        self.join();
    }

    fn join(&mut self) {
        let mut before: Option<Address> = None;
        self.lows.retain(|_, owner| {
            let changes = before.as_ref() != Some(owner);
            if changes {
                before = Some(owner.clone());
            }
            changes
        });
    }

    /// How many bounds there would be once the range is given to that host.
    pub fn bounds_after(&self, lo: Bound, hi: Bound, to: &[u8]) -> usize {
        let mut next = self.clone();
        next.give(lo, hi, to);
        next.lows.len()
    }

    /// Is the whole range that host's? An empty one is everybody's.
    pub fn whole(&self, lo: Bound, hi: Bound, host: &[u8]) -> bool {
        let Bound::Key(low) = lo else {
            return true;
        };
        let inside = self.lows.iter().filter(|(key, _)| holds(lo, hi, **key));
        hi <= lo || (self.of(low) == host && inside.into_iter().all(|(_, owner)| owner == host))
    }
}
