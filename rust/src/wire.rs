//! Messages as bytes, as a client needs them: what there is to say, a writer and a reader. The proved host has its own.
//!
//! A number is 8 bytes, the lowest first. A string of bytes is its length and the bytes; a list is its length and the
//! elements. What may be missing is one byte 0, or 1 and then what is there. A choice is one byte, then its fields.
//!
//! ```
//! use tagshards::wire::{read, write, Body, Datagram};
//! let get = Datagram::Message { number: 1, to: b"a:1".to_vec(), body: Body::Get { key: 5 } };
//! let bytes = write(&get).unwrap();
//! assert_eq!(bytes[..9], [0, 1, 0, 0, 0, 0, 0, 0, 0]);
//! assert_eq!(read(&bytes), Some(get));
//! ```

/// Addresses are shorter than this, and a list takes at most so many bytes.
const MOST: usize = 0x10_0000;

/// What two peers send each other.
#[derive(Clone, Debug, PartialEq, Eq)]
pub enum Datagram {
    /// A message, which its receiver acknowledges.
    Message {
        /// Its number among those from this sender to this receiver. The first has number 1.
        number: u64,
        /// The receiver's address.
        to: Vec<u8>,
        /// What it says.
        body: Body,
    },
    /// All messages up to this number were taken.
    Ack(u64),
}

/// What a message says. The end of a range is the first key that is not in it, or none where it goes to the last key.
#[derive(Clone, Debug, PartialEq, Eq)]
pub enum Body {
    /// What is the record of the key?
    Get {
        /// The key.
        key: u64,
    },
    /// This is now the record of the key.
    Set {
        /// The key.
        key: u64,
        /// The record; none deletes it.
        value: Option<Vec<u8>>,
    },
    /// This is the record of the key.
    Reply {
        /// The key.
        key: u64,
        /// The record, if there is one.
        value: Option<Vec<u8>>,
    },
    /// Another host owns the key.
    Redirect {
        /// The key.
        key: u64,
        /// The other host's address.
        to: Vec<u8>,
    },
    /// Give the range to another host.
    Shard {
        /// The first key of the range; none for an empty one, which starts behind the last key.
        lo: Option<u64>,
        /// The end of the range.
        hi: Option<u64>,
        /// The other host's address.
        to: Vec<u8>,
    },
    /// The range is yours, with these records. Only hosts say so.
    Delegate {
        /// The first key of the range.
        lo: Option<u64>,
        /// The end of the range.
        hi: Option<u64>,
        /// All records in the range, by rising keys.
        entries: Vec<(u64, Vec<u8>)>,
    },
}

/// The bytes of a datagram; none if an address or a list in it is too long, or keys in a list do not rise.
pub fn write(datagram: &Datagram) -> Option<Vec<u8>> {
    let mut out = Vec::new();
    match datagram {
        Datagram::Message { number, to, body } => {
            out.push(0);
            put_number(&mut out, *number);
            put_address(&mut out, to)?;
            put_body(&mut out, body)?;
        }
        Datagram::Ack(number) => {
            out.push(1);
            put_number(&mut out, *number);
        }
    }
    Some(out)
}

fn put_body(out: &mut Vec<u8>, body: &Body) -> Option<()> {
    match body {
        Body::Get { key } => put_keyed(out, 0, *key),
        Body::Set { key, value } => {
            put_keyed(out, 1, *key);
            put_value(out, value);
        }
        Body::Reply { key, value } => {
            put_keyed(out, 2, *key);
            put_value(out, value);
        }
        Body::Redirect { key, to } => {
            put_keyed(out, 3, *key);
            put_address(out, to)?;
        }
        Body::Shard { lo, hi, to } => {
            out.push(4);
            put_bound(out, *lo);
            put_bound(out, *hi);
            put_address(out, to)?;
        }
        Body::Delegate { lo, hi, entries } => {
            out.push(5);
            put_bound(out, *lo);
            put_bound(out, *hi);
            put_entries(out, entries)?;
        }
    }
    Some(())
}

fn put_keyed(out: &mut Vec<u8>, choice: u8, key: u64) {
    out.push(choice);
    put_number(out, key);
}

fn put_number(out: &mut Vec<u8>, number: u64) {
    out.extend_from_slice(&number.to_le_bytes());
}

fn put_string(out: &mut Vec<u8>, string: &[u8]) {
    put_number(out, string.len() as u64);
    out.extend_from_slice(string);
}

fn put_address(out: &mut Vec<u8>, address: &[u8]) -> Option<()> {
    put_string(out, address);
    (address.len() < MOST).then_some(())
}

fn put_value(out: &mut Vec<u8>, value: &Option<Vec<u8>>) {
    out.push(u8::from(value.is_some()));
    if let Some(value) = value {
        put_string(out, value);
    }
}

fn put_bound(out: &mut Vec<u8>, bound: Option<u64>) {
    out.push(u8::from(bound.is_some()));
    if let Some(key) = bound {
        put_number(out, key);
    }
}

fn put_entries(out: &mut Vec<u8>, entries: &[(u64, Vec<u8>)]) -> Option<()> {
    let before = out.len();
    put_number(out, entries.len() as u64);
    for (key, value) in entries {
        put_number(out, *key);
        put_string(out, value);
    }
    (rise(entries) && out.len() - before <= MOST).then_some(())
}

fn rise(entries: &[(u64, Vec<u8>)]) -> bool {
    entries.windows(2).all(|two| two[0].0 < two[1].0)
}

/// The datagram that has exactly these bytes, if there is one.
pub fn read(bytes: &[u8]) -> Option<Datagram> {
    let mut left = Left(bytes);
    let datagram = match left.byte()? {
        0 => Datagram::Message {
            number: left.number()?,
            to: left.address()?,
            body: left.body()?,
        },
        1 => Datagram::Ack(left.number()?),
        _ => return None,
    };
    left.0.is_empty().then_some(datagram)
}

/// The bytes that are still to be read. Each function takes what it reads off their front.
struct Left<'a>(&'a [u8]);

impl<'a> Left<'a> {
    fn take(&mut self, many: usize) -> Option<&'a [u8]> {
        let (taken, left) = self.0.split_at_checked(many)?;
        self.0 = left;
        Some(taken)
    }

    fn byte(&mut self) -> Option<u8> {
        self.take(1)?.first().copied()
    }

    fn number(&mut self) -> Option<u64> {
        self.take(8)?.try_into().ok().map(u64::from_le_bytes)
    }

    fn string(&mut self) -> Option<Vec<u8>> {
        let length = usize::try_from(self.number()?).ok()?;
        Some(self.take(length)?.to_vec())
    }

    fn address(&mut self) -> Option<Vec<u8>> {
        self.string().filter(|address| address.len() < MOST)
    }

    /// The byte before a field that may be missing: is it there?
    fn there(&mut self) -> Option<bool> {
        match self.byte()? {
            0 => Some(false),
            1 => Some(true),
            _ => None,
        }
    }

    fn value(&mut self) -> Option<Option<Vec<u8>>> {
        Some(if self.there()? {
            Some(self.string()?)
        } else {
            None
        })
    }

    fn bound(&mut self) -> Option<Option<u64>> {
        Some(if self.there()? {
            Some(self.number()?)
        } else {
            None
        })
    }

    fn body(&mut self) -> Option<Body> {
        Some(match self.byte()? {
            0 => Body::Get {
                key: self.number()?,
            },
            1 => Body::Set {
                key: self.number()?,
                value: self.value()?,
            },
            2 => Body::Reply {
                key: self.number()?,
                value: self.value()?,
            },
            3 => Body::Redirect {
                key: self.number()?,
                to: self.address()?,
            },
            4 => Body::Shard {
                lo: self.bound()?,
                hi: self.bound()?,
                to: self.address()?,
            },
            5 => Body::Delegate {
                lo: self.bound()?,
                hi: self.bound()?,
                entries: self.entries()?,
            },
            _ => return None,
        })
    }

    /// Every element takes bytes, so a count that is too large ends with the bytes.
    fn entries(&mut self) -> Option<Vec<(u64, Vec<u8>)>> {
        let before = self.0.len();
        let mut entries = Vec::new();
        for _ in 0..self.number()? {
            entries.push((self.number()?, self.string()?));
        }
        (rise(&entries) && before - self.0.len() <= MOST).then_some(entries)
    }
}
