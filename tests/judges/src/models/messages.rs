//! Messages as bytes, by document 01, section 3: what there is to say, a writer and a reader.

/// An address is shorter, and a list takes at most so many bytes, its count among them. The number is the document's
/// and not that of `limits`, so that a wrong one there shows.
pub const MOST: usize = 0x10_0000;

#[derive(Clone, Debug, PartialEq, Eq)]
pub enum Datagram {
    Message {
        number: u64,
        to: Vec<u8>,
        body: Body,
    },
    Ack(u64),
}

/// A bound is a key, or none for end.
#[derive(Clone, Debug, PartialEq, Eq, Hash)]
pub enum Body {
    Get(u64),
    Set(u64, Option<Vec<u8>>),
    Reply(u64, Option<Vec<u8>>),
    Redirect(u64, Vec<u8>),
    Shard(Option<u64>, Option<u64>, Vec<u8>),
    Delegate(Option<u64>, Option<u64>, Vec<(u64, Vec<u8>)>),
}

/// The bytes of a datagram, also of one that may not be sent.
pub fn written(datagram: &Datagram) -> Vec<u8> {
    match datagram {
        Datagram::Message { number, to, body } => {
            [vec![0], of_number(*number), of_string(to), of_body(body)].concat()
        }
        Datagram::Ack(number) => [vec![1], of_number(*number)].concat(),
    }
}

fn of_body(body: &Body) -> Vec<u8> {
    let fields = match body {
        Body::Get(key) => vec![vec![0], of_number(*key)],
        Body::Set(key, value) => vec![vec![1], of_number(*key), of_value(value)],
        Body::Reply(key, value) => vec![vec![2], of_number(*key), of_value(value)],
        Body::Redirect(key, owner) => vec![vec![3], of_number(*key), of_string(owner)],
        Body::Shard(lo, hi, to) => vec![vec![4], of_bound(*lo), of_bound(*hi), of_string(to)],
        Body::Delegate(lo, hi, list) => {
            vec![vec![5], of_bound(*lo), of_bound(*hi), of_list(list)]
        }
    };
    fields.concat()
}

fn of_number(number: u64) -> Vec<u8> {
    number.to_le_bytes().to_vec()
}

fn of_string(string: &[u8]) -> Vec<u8> {
    [&of_number(string.len() as u64), string].concat()
}

fn of_value(value: &Option<Vec<u8>>) -> Vec<u8> {
    match value {
        Some(value) => [vec![1], of_string(value)].concat(),
        None => vec![0],
    }
}

fn of_bound(bound: Option<u64>) -> Vec<u8> {
    match bound {
        Some(key) => [vec![1], of_number(key)].concat(),
        None => vec![0],
    }
}

/// A list of entries, its count first.
pub fn of_list(list: &[(u64, Vec<u8>)]) -> Vec<u8> {
    let mut bytes = of_number(list.len() as u64);
    for (key, value) in list {
        bytes.extend(of_number(*key));
        bytes.extend(of_string(value));
    }
    bytes
}

/// The datagram that has exactly these bytes, if there is one.
pub fn read(bytes: &[u8]) -> Option<Datagram> {
    let mut left = Left(bytes);
    let datagram = match left.byte()? {
        0 => Datagram::Message {
            number: left.number()?,
            to: left.address()?,
            body: left.body()?,
        },
        1 => Datagram::Ack(left.number()?),
        _ => return None,
    };
    left.0.is_empty().then_some(datagram)
}

/// The bytes that are still to be read. Each function takes what it reads off their front.
struct Left<'a>(&'a [u8]);

impl<'a> Left<'a> {
    fn take(&mut self, many: usize) -> Option<&'a [u8]> {
        if self.0.len() < many {
            return None;
        }
        let (taken, left) = self.0.split_at(many);
        self.0 = left;
        Some(taken)
    }

    fn byte(&mut self) -> Option<u8> {
        Some(self.take(1)?[0])
    }

    fn number(&mut self) -> Option<u64> {
        let mut number = 0;
        for (place, byte) in self.take(8)?.iter().enumerate() {
            number += u64::from(*byte) << (8 * place);
        }
        Some(number)
    }

    fn string(&mut self) -> Option<Vec<u8>> {
        let length = usize::try_from(self.number()?).ok()?;
        Some(self.take(length)?.to_vec())
    }

    fn address(&mut self) -> Option<Vec<u8>> {
        self.string().filter(|address| address.len() < MOST)
    }

    /// The byte before a field that may be missing: is it there?
    fn there(&mut self) -> Option<bool> {
        match self.byte()? {
            0 => Some(false),
            1 => Some(true),
            _ => None,
        }
    }

    fn value(&mut self) -> Option<Option<Vec<u8>>> {
        match self.there()? {
            true => Some(Some(self.string()?)),
            false => Some(None),
        }
    }

    fn bound(&mut self) -> Option<Option<u64>> {
        match self.there()? {
            true => Some(Some(self.number()?)),
            false => Some(None),
        }
    }

    fn body(&mut self) -> Option<Body> {
        Some(match self.byte()? {
            0 => Body::Get(self.number()?),
            1 => Body::Set(self.number()?, self.value()?),
            2 => Body::Reply(self.number()?, self.value()?),
            3 => Body::Redirect(self.number()?, self.address()?),
            4 => Body::Shard(self.bound()?, self.bound()?, self.address()?),
            5 => Body::Delegate(self.bound()?, self.bound()?, self.list()?),
            _ => return None,
        })
    }

    fn list(&mut self) -> Option<Vec<(u64, Vec<u8>)>> {
        let before = self.0.len();
        let mut list: Vec<(u64, Vec<u8>)> = Vec::new();
        for _ in 0..self.number()? {
            list.push((self.number()?, self.string()?));
        }
        let rise = list.windows(2).all(|two| two[0].0 < two[1].0);
        (rise && before - self.0.len() <= MOST).then_some(list)
    }
}
