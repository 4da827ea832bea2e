//! The map from key to owner, in memory with room for so many bounds: the functions of `delegation`.
use crate::bound::Bound;
use crate::library::{truth, Call, Column, Library};

pub struct Map {
    pub library: Library,
    lows: Column,
    owners: Column,
}

#[derive(Clone, Copy, Debug, PartialEq, Eq)]
pub enum Changed {
    Bounds(usize),
    NoRoom,
}

fn changed(answer: u64) -> Changed {
    match answer {
        u64::MAX => Changed::NoRoom,
        n => Changed::Bounds(n as usize),
    }
}

impl Map {
    pub fn new(room: usize) -> Map {
        Map::with(room, room)
    }

    /// Memory whose two columns may differ in length.
    pub fn with(lows: usize, owners: usize) -> Map {
        let mut library = Library::start();
        Map {
            lows: library.numbers(lows),
            owners: library.numbers(owners),
            library,
        }
    }

    fn call(&self, function: &str) -> Call {
        self.library.of(function).lend(self.lows).lend(self.owners)
    }

    pub fn start(&mut self, owner: u64) -> Changed {
        let call = self.call("map_start").number(owner);
        changed(self.library.call(call))
    }

    /// The owner of each of the keys.
    pub fn owners(&mut self, n: usize, keys: &[u64]) -> Vec<u64> {
        let call = self.call("map_owner").count(n);
        let calls: Vec<Call> = keys.iter().map(|key| call.number(*key)).collect();
        self.library.calls(&calls)
    }

    pub fn set(&mut self, n: usize, lo: Bound, hi: Bound, owner: u64) -> Changed {
        let call = self.call("map_set").count(n);
        changed(self.library.call(call.bound(lo).bound(hi).number(owner)))
    }

    pub fn bounds_after(&mut self, n: usize, lo: Bound, hi: Bound, owner: u64) -> usize {
        let call = self.call("map_bounds_after").count(n);
        self.library.call(call.bound(lo).bound(hi).number(owner)) as usize
    }

    pub fn whole(&mut self, n: usize, lo: Bound, hi: Bound, owner: u64) -> bool {
        let call = self.call("map_whole").count(n);
        truth(self.library.call(call.bound(lo).bound(hi).number(owner)))
    }

    /// The first n bounds, each with its owner, as they stand in memory.
    pub fn list(&mut self, n: usize) -> Vec<(u64, u64)> {
        let lows = self.library.read_numbers(self.lows, n);
        let owners = self.library.read_numbers(self.owners, n);
        lows.into_iter().zip(owners).collect()
    }
}
