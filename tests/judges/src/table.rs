//! The table from key to value, in memory with so many places: the functions of `records`, `stores`, `removals`,
//! `counts`, `ranges`, `entries` and `audits`.
use crate::bound::Bound;
use crate::library::{truth, Call, Column, Library};

/// The longest value. The number is the document's and not that of `limits`, so that a wrong one there shows.
pub const LONGEST: usize = 1023;

/// So many entries are lent for a list, which a message cannot exceed.
pub const MOST: usize = 61;

/// So many bytes are lent for the values of a list.
pub const BUFFER: usize = 65_536;

pub struct Table {
    pub library: Library,
    pub keys: Column,
    pub slots: Column,
    pub lens: Column,
    pub values: Column,
    list: Lent,
    value: Column,
}

/// The columns of a list, to and from the table.
#[derive(Clone, Copy)]
struct Lent {
    keys: Column,
    places: Column,
    lens: Column,
    bytes: Column,
}

/// A list of entries as `entries::replace` takes it: where in the bytes each value stands.
#[derive(Clone, Debug)]
pub struct List {
    pub keys: Vec<u64>,
    pub places: Vec<u64>,
    pub lens: Vec<u64>,
    pub many: usize,
    pub bytes: Vec<u8>,
}

#[derive(Clone, Copy, Debug, PartialEq, Eq)]
pub enum Stored {
    Entries(usize),
    Full,
    TooLong,
    Malformed,
}

fn stored(answer: u64) -> Stored {
    match u64::MAX - answer {
        0 => Stored::Full,
        1 => Stored::TooLong,
        2 => Stored::Malformed,
        _ => Stored::Entries(answer as usize),
    }
}

impl Table {
    pub fn new(room: usize) -> Table {
        Table::with(room, room, room, room * LONGEST)
    }

    /// Memory whose columns may not fit together.
    pub fn with(keys: usize, slots: usize, lens: usize, values: usize) -> Table {
        let mut library = Library::start();
        let list = Lent {
            keys: library.numbers(MOST),
            places: library.numbers(MOST),
            lens: library.numbers(MOST),
            bytes: library.bytes(BUFFER),
        };
        Table {
            keys: library.numbers(keys),
            slots: library.numbers(slots),
            lens: library.numbers(lens),
            values: library.bytes(values),
            value: library.bytes(LONGEST + 1),
            list,
            library,
        }
    }

    fn call(&self, function: &str) -> Call {
        let call = self.library.of(function).lend(self.keys);
        call.lend(self.slots).lend(self.lens).lend(self.values)
    }

    pub fn start(&mut self) -> bool {
        let call = self.call("table_start");
        truth(self.library.call(call))
    }

    pub fn valid(&mut self, n: usize) -> bool {
        let call = self.call("table_valid").count(n);
        truth(self.library.call(call))
    }

    /// Where the value of each key stands, and its length.
    pub fn places(&mut self, n: usize, keys: &[u64]) -> Vec<Option<(usize, usize)>> {
        let place = self.call("table_get_place").count(n);
        let length = self.call("table_get_length").count(n);
        let calls: Vec<Call> = keys
            .iter()
            .flat_map(|key| [place.number(*key), length.number(*key)])
            .collect();
        let answers = self.library.calls(&calls);
        answers.chunks_exact(2).map(found).collect()
    }

    /// The value of the key.
    pub fn get(&mut self, n: usize, key: u64) -> Option<Vec<u8>> {
        let (at, len) = self.places(n, &[key])[0]?;
        Some(self.library.read_bytes(self.values, at, len))
    }

    pub fn set(&mut self, n: usize, key: u64, value: &[u8]) -> Stored {
        self.library.write_bytes(self.value, value);
        let call = self.call("table_set").count(n).number(key);
        stored(self.library.call(call.lend(self.value.first(value.len()))))
    }

    pub fn delete(&mut self, n: usize, key: u64) -> usize {
        let call = self.library.of("table_delete").lend(self.keys);
        self.library
            .call(call.lend(self.slots).count(n).number(key)) as usize
    }

    pub fn remove(&mut self, n: usize, lo: Bound, hi: Bound) -> usize {
        let call = self.library.of("table_remove").lend(self.keys);
        let call = call.lend(self.slots).count(n).bound(lo).bound(hi);
        self.library.call(call) as usize
    }

    pub fn count(&mut self, n: usize, lo: Bound, hi: Bound) -> usize {
        let call = self.library.of("table_count").lend(self.keys);
        self.library.call(call.count(n).bound(lo).bound(hi)) as usize
    }

    /// How many entries would be left once the range is replaced by entries with the list's keys.
    pub fn left(&mut self, n: usize, lo: Bound, hi: Bound, list: &List) -> usize {
        self.library.write_numbers(self.list.keys, 0, &list.keys);
        let call = self.library.of("table_left").lend(self.keys);
        let call = call.count(n).bound(lo).bound(hi);
        let keys = self.list.keys.first(list.keys.len());
        self.library.call(call.lend(keys).count(list.many)) as usize
    }

    pub fn replace(&mut self, n: usize, lo: Bound, hi: Bound, list: &List) -> Stored {
        let lent = Lent {
            keys: self.list.keys.first(list.keys.len()),
            places: self.list.places.first(list.places.len()),
            lens: self.list.lens.first(list.lens.len()),
            bytes: self.list.bytes.first(list.bytes.len()),
        };
        self.library.write_numbers(lent.keys, 0, &list.keys);
        self.library.write_numbers(lent.places, 0, &list.places);
        self.library.write_numbers(lent.lens, 0, &list.lens);
        self.library.write_bytes(lent.bytes, &list.bytes);
        let call = self.call("table_replace").count(n).bound(lo).bound(hi);
        let call = call.lend(lent.keys).lend(lent.places).lend(lent.lens);
        stored(self.library.call(call.count(list.many).lend(lent.bytes)))
    }

    /// The range's entries in the order in which they were noted, or nothing if they are more than MOST.
    pub fn pick(&mut self, n: usize, lo: Bound, hi: Bound) -> Option<Vec<(u64, Vec<u8>)>> {
        let to = self.list;
        let call = self.call("table_pick").count(n).bound(lo).bound(hi);
        let answer = self
            .library
            .call(call.lend(to.keys).lend(to.places).lend(to.lens));
        if answer == u64::MAX {
            return None;
        }
        let many = answer as usize;
        let keys = self.library.read_numbers(to.keys, many);
        let places = self.library.read_numbers(to.places, many);
        let lens = self.library.read_numbers(to.lens, many);
        let mut entries = Vec::new();
        for i in 0..many {
            let (at, len) = (places[i] as usize, lens[i] as usize);
            let value = self.library.read_bytes(self.values, at, len);
            entries.push((keys[i], value));
        }
        Some(entries)
    }

    /// What the table keeps its entries by, to see that nothing has changed: keys, slots and lengths.
    pub fn columns(&mut self) -> [Vec<u64>; 3] {
        [self.keys, self.slots, self.lens]
            .map(|column| self.library.read_numbers(column, column.len()))
    }

    /// All bytes that are lent for values.
    pub fn all_values(&mut self) -> Vec<u8> {
        self.library.read_bytes(self.values, 0, self.values.len())
    }
}

fn found(answers: &[u64]) -> Option<(usize, usize)> {
    let [place, length] = [answers[0], answers[1]];
    if place == u64::MAX || length == u64::MAX {
        assert_eq!(place, length, "a place without a length, or the reverse");
        return None;
    }
    Some((place as usize, length as usize))
}
