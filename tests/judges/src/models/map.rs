//! The map as one owner for each of so many stretches of keys: stretch k starts at key k of the script, and the
//! last one goes up to end. The script has no bound inside a stretch.
use crate::bound::Spread;

#[derive(Clone)]
pub struct Model {
    owners: Vec<u64>,
    spread: Spread,
}

impl Model {
    /// All keys to one owner.
    pub fn new(space: usize, spread: Spread, owner: u64) -> Model {
        Model {
            owners: vec![owner; space],
            spread,
        }
    }

    /// The owner of stretch k; what lies above the last is one with it.
    pub fn owner(&self, k: usize) -> u64 {
        self.owners[k.min(self.owners.len() - 1)]
    }

    /// Gives the stretches from lo up to hi to the owner.
    pub fn set(&mut self, lo: usize, hi: usize, owner: u64) {
        for k in lo..hi.min(self.owners.len()) {
            self.owners[k] = owner;
        }
    }

    pub fn whole(&self, lo: usize, hi: usize, owner: u64) -> bool {
        (lo..hi.min(self.owners.len())).all(|k| self.owners[k] == owner)
    }

    /// The bounds that there have to be, each with its owner: the first key, and every key where the owner changes.
    pub fn list(&self) -> Vec<(u64, u64)> {
        let starts = |k: &usize| *k == 0 || self.owners[*k - 1] != self.owners[*k];
        let space = self.owners.len();
        let entry = |k: usize| (self.spread.key(k, space), self.owners[k]);
        (0..space).filter(starts).map(entry).collect()
    }
}
