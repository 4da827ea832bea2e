//! The table as a map of the standard library.
use crate::bound::{holds, Bound};
use crate::table::{List, Stored, LONGEST};
use std::collections::BTreeMap;

#[derive(Clone)]
pub struct Model {
    entries: BTreeMap<u64, Vec<u8>>,
    room: usize,
}

impl Model {
    pub fn new(room: usize) -> Model {
        Model {
            entries: BTreeMap::new(),
            room,
        }
    }

    pub fn entries(&self) -> usize {
        self.entries.len()
    }

    pub fn get(&self, key: u64) -> Option<&Vec<u8>> {
        self.entries.get(&key)
    }

    /// The range's entries in rising order.
    pub fn range(&self, lo: Bound, hi: Bound) -> Vec<(u64, Vec<u8>)> {
        let inside = self.entries.iter().filter(|(key, _)| holds(lo, hi, **key));
        inside.map(|(key, value)| (*key, value.clone())).collect()
    }

    pub fn count(&self, lo: Bound, hi: Bound) -> usize {
        let keys = self.entries.keys();
        keys.filter(|key| holds(lo, hi, **key)).count()
    }

    pub fn delete(&mut self, key: u64) -> usize {
        self.entries.remove(&key);
        self.entries.len()
    }

    pub fn remove(&mut self, lo: Bound, hi: Bound) -> usize {
        self.entries.retain(|key, _| !holds(lo, hi, *key));
        self.entries.len()
    }

    /// A value that is too long is told before a table that is full.
    pub fn set(&mut self, key: u64, value: &[u8]) -> Stored {
        if LONGEST < value.len() {
            return Stored::TooLong;
        }
        if self.room <= self.entries.len() && !self.entries.contains_key(&key) {
            return Stored::Full;
        }
        self.entries.insert(key, value.to_vec());
        Stored::Entries(self.entries.len())
    }

    /// The table once the range is replaced, with no thought of its room. The list is one whose keys and values
    /// are there.
    fn replaced(&self, lo: Bound, hi: Bound, list: &List) -> Model {
        let mut next = self.clone();
        next.remove(lo, hi);
        for i in 0..list.many {
            let (at, len) = (list.places[i] as usize, list.lens[i] as usize);
            let value = list.bytes[at..at + len].to_vec();
            next.entries.insert(list.keys[i], value);
        }
        next
    }

    /// A list that is malformed is told before a value that is too long, and that before a table that is full.
    pub fn replace(&mut self, lo: Bound, hi: Bound, list: &List) -> Stored {
        if !well_formed(list) {
            return Stored::Malformed;
        }
        if list.lens[..list.many]
            .iter()
            .any(|len| *len > LONGEST as u64)
        {
            return Stored::TooLong;
        }
        let next = self.replaced(lo, hi, list);
        if next.room < next.entries.len() {
            return Stored::Full;
        }
        *self = next;
        Stored::Entries(self.entries.len())
    }

    /// How many entries there would be once the range is replaced by entries with these keys, which differ.
    pub fn left(&self, lo: Bound, hi: Bound, keys: &[u64]) -> usize {
        let mut next = self.clone();
        next.remove(lo, hi);
        next.entries
            .extend(keys.iter().map(|key| (*key, Vec::new())));
        next.entries.len()
    }
}

/// Are there as many entries as the list says, do their keys rise strictly, and do their values lie in the bytes?
fn well_formed(list: &List) -> bool {
    let columns = [&list.keys, &list.places, &list.lens];
    if columns.iter().any(|column| column.len() < list.many) {
        return false;
    }
    let rise = list.keys[..list.many].windows(2).all(|two| two[0] < two[1]);
    let inside = |i: usize| match list.places[i].checked_add(list.lens[i]) {
        Some(end) => end <= list.bytes.len() as u64,
        None => false,
    };
    rise && (0..list.many).all(inside)
}
