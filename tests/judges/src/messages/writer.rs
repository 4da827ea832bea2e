//! The proved writers, one a kind. Strings and lists are lent beside the bytes that are written to.
use crate::bound::Bound;
use crate::library::{Call, Column, Library};
use crate::models::messages::{Body, Datagram};

/// So many bytes can be lent to be written to: a datagram with two of the longest addresses fits.
const ROOM: usize = 0x24_0000;

/// So many bytes can be lent for an address, a value or the values of a list: what is too long by little fits.
const STRING: usize = 0x10_0100;

/// So many entries of a list can be lent.
const ENTRIES: usize = 3000;

/// So many bytes behind what is lent are looked at, to see that they are as they were.
const BEHIND: usize = 32;

pub struct Writer {
    pub library: Library,
    to: Column,
    string: Column,
    /// Of a list's entries the keys, and of their values the places and the lengths.
    list: [Column; 3],
    room: Column,
}

#[derive(Clone, Copy, Debug, PartialEq, Eq)]
pub enum Written {
    Bytes(usize),
    NoRoom,
    Invalid,
}

fn answered(answer: u64) -> Written {
    match u64::MAX - answer {
        0 => Written::NoRoom,
        1 => Written::Invalid,
        _ => Written::Bytes(answer as usize),
    }
}

/// What stands in the room before anything is written there.
pub fn before(room: usize) -> Vec<u8> {
    (0..room).map(|i| (i * 7 + 13) as u8).collect()
}

impl Default for Writer {
    fn default() -> Writer {
        let mut library = Library::start();
        Writer {
            to: library.bytes(STRING),
            string: library.bytes(STRING),
            list: [(); 3].map(|()| library.numbers(ENTRIES)),
            room: library.bytes(ROOM),
            library,
        }
    }
}

impl Writer {
    /// Writes the datagram into so much room: the answer, and what stands in the room afterwards.
    pub fn write(&mut self, datagram: &Datagram, room: usize) -> (Written, Vec<u8>) {
        let call = match datagram {
            Datagram::Message { number, to, body } => self.message(*number, to, body),
            Datagram::Ack(number) => self.library.of("ack").number(*number),
        };
        let around = before(room + BEHIND);
        self.library.write_bytes(self.room, &around);
        let answer = self.library.call(call.lend(self.room.first(room)));
        let mut after = self.library.read_bytes(self.room, 0, around.len());
        let kept = after[room..] == around[room..];
        assert!(kept, "something was written behind what was lent");
        after.truncate(room);
        (answered(answer), after)
    }

    /// The call for a message, but for the room.
    fn message(&mut self, number: u64, to: &[u8], body: &Body) -> Call {
        let string = string(body);
        self.library.write_bytes(self.to, to);
        self.library.write_bytes(self.string, &string);
        let list = self.list(body);
        let string = self.string.first(string.len());
        let start = |kind| {
            let call = self.library.of(kind).number(number);
            call.lend(self.to.first(to.len()))
        };
        let keyed = |kind, key: &u64, some| start(kind).number(*key).number(some).lend(string);
        let ranged = |kind, lo: &_, hi: &_| start(kind).bound(bound(*lo)).bound(bound(*hi));
        match body {
            Body::Get(key) => start("get").number(*key),
            Body::Set(key, value) => keyed("set", key, u64::from(value.is_some())),
            Body::Reply(key, value) => keyed("reply", key, u64::from(value.is_some())),
            Body::Redirect(key, _) => start("redirect").number(*key).lend(string),
            Body::Shard(lo, hi, _) => ranged("shard", lo, hi).lend(string),
            Body::Delegate(lo, hi, entries) => {
                let call = ranged("delegate", lo, hi);
                let call = list.iter().fold(call, |call, column| call.lend(*column));
                call.count(entries.len()).lend(string)
            }
        }
    }

    /// The columns of a body's list. The last value stands first, since places need not rise.
    fn list(&mut self, body: &Body) -> [Column; 3] {
        let Body::Delegate(_, _, list) = body else {
            return self.list;
        };
        let mut end: usize = list.iter().map(|(_, value)| value.len()).sum();
        for (i, (key, value)) in list.iter().enumerate() {
            end -= value.len();
            let entry = [*key, end as u64, value.len() as u64];
            for (column, number) in self.list.into_iter().zip(entry) {
                self.library.write_numbers(column, i, &[number]);
            }
        }
        self.list.map(|column| column.first(list.len()))
    }
}

/// The string that is lent for a body: its value, its address or its values. Where there is no value some bytes are
/// lent all the same, and are not to be written.
fn string(body: &Body) -> Vec<u8> {
    match body {
        Body::Set(_, value) | Body::Reply(_, value) => value.clone().unwrap_or(b"none".to_vec()),
        Body::Redirect(_, address) | Body::Shard(_, _, address) => address.clone(),
        Body::Delegate(_, _, list) => list.iter().rev().flat_map(|(_, v)| v.clone()).collect(),
        Body::Get(_) => Vec::new(),
    }
}

fn bound(bound: Option<u64>) -> Bound {
    bound.map_or(Bound::End, Bound::Key)
}
