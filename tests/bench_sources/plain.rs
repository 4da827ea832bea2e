//! The same messages read and written in plain Rust, without proofs: what tests/bench counts beside the proved
//! functions. It refuses the same datagrams and the same messages, answers by value where each part stands, and copies
//! each byte once. It uses `core` alone, because it becomes x86-64 code on machines without Rust's library for x86-64.
//! Only what C calls is public, as in the archive of the proved functions, so that the compiler may inline the rest.
#![no_std]

const LIMIT: usize = 0x10_0000;

#[derive(Clone, Copy)]
enum Bound {
    Key(u64),
    End,
}

#[derive(Clone, Copy)]
struct Part {
    at: usize,
    len: usize,
}

struct List {
    at: usize,
    count: u64,
}

enum Body {
    Get(u64),
    Set(u64, Option<Part>),
    Reply(u64, Option<Part>),
    Redirect(u64, Part),
    Shard(Bound, Bound, Part),
    Delegate(Bound, Bound, List),
}

enum Datagram {
    Message { number: u64, to: Part, body: Body },
    Ack(u64),
}

enum Refusal {
    NoRoom,
    Invalid,
}

/// The bytes that are not read yet, and how many there were at the start.
struct Reader<'a> {
    rest: &'a [u8],
    whole: usize,
}

impl Reader<'_> {
    fn at(&self) -> usize {
        self.whole - self.rest.len()
    }

    fn byte(&mut self) -> Option<u8> {
        let (&byte, rest) = self.rest.split_first()?;
        self.rest = rest;
        Some(byte)
    }

    fn number(&mut self) -> Option<u64> {
        let (bytes, rest) = self.rest.split_first_chunk()?;
        self.rest = rest;
        Some(u64::from_le_bytes(*bytes))
    }

    fn string(&mut self) -> Option<Part> {
        let len = usize::try_from(self.number()?).ok()?;
        let at = self.at();
        self.rest = self.rest.get(len..)?;
        Some(Part { at, len })
    }

    fn address(&mut self) -> Option<Part> {
        self.string().filter(|part| part.len < LIMIT)
    }

    fn bound(&mut self) -> Option<Bound> {
        match self.byte()? {
            0 => Some(Bound::End),
            1 => Some(Bound::Key(self.number()?)),
            _ => None,
        }
    }

    fn value(&mut self) -> Option<Option<Part>> {
        match self.byte()? {
            0 => Some(None),
            1 => Some(Some(self.string()?)),
            _ => None,
        }
    }

    fn list(&mut self) -> Option<List> {
        let from = self.at();
        let count = self.number()?;
        let at = self.at();
        let mut last = None;
        for _ in 0..count {
            let key = self.number()?;
            if last.is_some_and(|last| key <= last) {
                return None;
            }
            last = Some(key);
            self.string()?;
        }
        (self.at() - from <= LIMIT).then_some(List { at, count })
    }

    fn body(&mut self) -> Option<Body> {
        Some(match self.byte()? {
            0 => Body::Get(self.number()?),
            1 => Body::Set(self.number()?, self.value()?),
            2 => Body::Reply(self.number()?, self.value()?),
            3 => Body::Redirect(self.number()?, self.address()?),
            4 => Body::Shard(self.bound()?, self.bound()?, self.address()?),
            5 => Body::Delegate(self.bound()?, self.bound()?, self.list()?),
            _ => return None,
        })
    }

    fn datagram(&mut self) -> Option<Datagram> {
        let datagram = match self.byte()? {
            0 => Datagram::Message {
                number: self.number()?,
                to: self.address()?,
                body: self.body()?,
            },
            1 => Datagram::Ack(self.number()?),
            _ => return None,
        };
        self.rest.is_empty().then_some(datagram)
    }
}

fn parse(bytes: &[u8]) -> Option<Datagram> {
    let whole = bytes.len();
    Reader { rest: bytes, whole }.datagram()
}

/// The room, cut to the message's length before anything is written, and how much of it is written.
struct Writer<'a> {
    room: &'a mut [u8],
    at: usize,
}

impl<'a> Writer<'a> {
    /// The front of a message whose fields take `more` bytes. Inlined, because the proved one is too: the count would
    /// otherwise show the compiler's guess of when that pays.
    #[inline(always)]
    fn front(
        number: u64,
        to: &[u8],
        kind: u8,
        more: usize,
        room: &'a mut [u8],
    ) -> Result<Writer<'a>, Refusal> {
        if LIMIT <= to.len() {
            return Err(Refusal::Invalid);
        }
        let total = 18 + to.len() + more;
        let room = room.get_mut(..total).ok_or(Refusal::NoRoom)?;
        let mut writer = Writer { room, at: 0 };
        writer.put(&[0]);
        writer.number(number);
        writer.string(to);
        writer.put(&[kind]);
        Ok(writer)
    }

    fn put(&mut self, bytes: &[u8]) {
        self.room[self.at..self.at + bytes.len()].copy_from_slice(bytes);
        self.at += bytes.len();
    }

    fn number(&mut self, number: u64) {
        self.put(&number.to_le_bytes());
    }

    fn string(&mut self, bytes: &[u8]) {
        self.number(bytes.len() as u64);
        self.put(bytes);
    }

    fn bound(&mut self, bound: Bound) {
        match bound {
            Bound::End => self.put(&[0]),
            Bound::Key(key) => {
                self.put(&[1]);
                self.number(key);
            }
        }
    }
}

fn get(number: u64, to: &[u8], key: u64, room: &mut [u8]) -> Result<usize, Refusal> {
    let mut writer = Writer::front(number, to, 0, 8, room)?;
    writer.number(key);
    Ok(writer.at)
}

fn set(
    number: u64,
    to: &[u8],
    key: u64,
    value: Option<&[u8]>,
    room: &mut [u8],
) -> Result<usize, Refusal> {
    let more = 9 + value.map_or(0, |value| 8 + value.len());
    let mut writer = Writer::front(number, to, 1, more, room)?;
    writer.number(key);
    match value {
        None => writer.put(&[0]),
        Some(value) => {
            writer.put(&[1]);
            writer.string(value);
        }
    }
    Ok(writer.at)
}

/// A list of entries as columns: of each entry the key, and where among the bytes its value stands.
struct Entries<'a> {
    keys: &'a [u64],
    ats: &'a [u64],
    lens: &'a [u64],
    bytes: &'a [u8],
}

impl Entries<'_> {
    /// The bytes that the list takes, if it may be written.
    fn size(&self) -> Option<usize> {
        if !self.keys.is_sorted_by(|a, b| a < b) {
            return None;
        }
        let mut total = 8;
        for (&at, &len) in self.ats.iter().zip(self.lens) {
            if (self.bytes.len() as u64).checked_sub(at)? < len {
                return None;
            }
            total += 16 + len as usize;
            if LIMIT < total {
                return None;
            }
        }
        Some(total)
    }
}

fn delegate(
    number: u64,
    to: &[u8],
    lo: Bound,
    hi: Bound,
    entries: Entries,
    room: &mut [u8],
) -> Result<usize, Refusal> {
    let size = entries.size().ok_or(Refusal::Invalid)?;
    let length = |bound| match bound {
        Bound::Key(_) => 9,
        Bound::End => 1,
    };
    let mut writer = Writer::front(number, to, 5, length(lo) + length(hi) + size, room)?;
    writer.bound(lo);
    writer.bound(hi);
    writer.number(entries.keys.len() as u64);
    for ((&key, &at), &len) in entries.keys.iter().zip(entries.ats).zip(entries.lens) {
        writer.number(key);
        writer.string(&entries.bytes[at as usize..][..len as usize]);
    }
    Ok(writer.at)
}

// What follows is called from C: a datagram as the twelve numbers of crates/judged_messages/src/view.rt, one asked for at
// a time, and the answers of writers as the numbers of code.rt beside it.

fn word(datagram: Option<Datagram>, which: u64) -> u64 {
    match datagram {
        None => match which {
            0 => 17,
            _ => 0,
        },
        Some(Datagram::Ack(number)) => match which {
            0 => 16,
            1 => number,
            _ => 0,
        },
        Some(Datagram::Message { number, to, body }) => match which {
            1 => number,
            2 => to.at as u64,
            3 => to.len as u64,
            _ => in_body(body, which),
        },
    }
}

fn in_body(body: Body, which: u64) -> u64 {
    match body {
        Body::Get(key) => keyed(0, key, None, which),
        Body::Set(key, value) => keyed(1, key, value, which),
        Body::Reply(key, value) => keyed(2, key, value, which),
        Body::Redirect(key, address) => match which {
            5 => 0,
            _ => keyed(3, key, Some(address), which),
        },
        Body::Shard(lo, hi, part) => ranged(4, lo, hi, part.at, part.len as u64, which),
        Body::Delegate(lo, hi, list) => ranged(5, lo, hi, list.at, list.count, which),
    }
}

fn keyed(kind: u64, key: u64, part: Option<Part>, which: u64) -> u64 {
    match which {
        0 => kind,
        4 => key,
        5 => part.is_some() as u64,
        6 => part.map_or(0, |part| part.at as u64),
        7 => part.map_or(0, |part| part.len as u64),
        _ => 0,
    }
}

fn ranged(kind: u64, lo: Bound, hi: Bound, at: usize, len: u64, which: u64) -> u64 {
    match which {
        0 => kind,
        6 => at as u64,
        7 => len,
        8 => matches!(lo, Bound::End) as u64,
        9 => key_of(lo),
        10 => matches!(hi, Bound::End) as u64,
        11 => key_of(hi),
        _ => 0,
    }
}

fn key_of(bound: Bound) -> u64 {
    match bound {
        Bound::Key(key) => key,
        Bound::End => 0,
    }
}

fn bound(is_end: bool, key: u64) -> Bound {
    match is_end {
        true => Bound::End,
        false => Bound::Key(key),
    }
}

fn written(answer: Result<usize, Refusal>) -> u64 {
    match answer {
        Ok(length) => length as u64,
        Err(Refusal::NoRoom) => u64::MAX,
        Err(Refusal::Invalid) => u64::MAX - 1,
    }
}

/// # Safety
/// As many elements stand at the address, and nothing writes them during the call.
unsafe fn lent<'a, T>(at: *const T, len: usize) -> &'a [T] {
    core::slice::from_raw_parts(at, len)
}

/// # Safety
/// The datagram stands there.
#[no_mangle]
pub unsafe extern "C" fn plain_parse(at: *const u8, len: usize, which: u64) -> u64 {
    word(parse(lent(at, len)), which)
}

/// # Safety
/// The destination and the room stand there, apart from each other.
#[no_mangle]
pub unsafe extern "C" fn plain_get(
    number: u64,
    to: *const u8,
    to_len: usize,
    key: u64,
    room: *mut u8,
    room_len: usize,
) -> u64 {
    let room = core::slice::from_raw_parts_mut(room, room_len);
    written(get(number, lent(to, to_len), key, room))
}

/// # Safety
/// The destination, the value and the room stand there, the room apart from the others.
#[no_mangle]
pub unsafe extern "C" fn plain_set(
    number: u64,
    to: *const u8,
    to_len: usize,
    key: u64,
    some: bool,
    value: *const u8,
    value_len: usize,
    room: *mut u8,
    room_len: usize,
) -> u64 {
    let value = some.then_some(lent(value, value_len));
    let room = core::slice::from_raw_parts_mut(room, room_len);
    written(set(number, lent(to, to_len), key, value, room))
}

/// # Safety
/// The destination, the columns, the bytes and the room stand there, the room apart from the others.
#[no_mangle]
pub unsafe extern "C" fn plain_delegate(
    number: u64,
    to: *const u8,
    to_len: usize,
    lo_end: bool,
    lo: u64,
    hi_end: bool,
    hi: u64,
    keys: *const u64,
    keys_len: usize,
    ats: *const u64,
    ats_len: usize,
    lens: *const u64,
    lens_len: usize,
    m: usize,
    bytes: *const u8,
    bytes_len: usize,
    room: *mut u8,
    room_len: usize,
) -> u64 {
    let columns = (
        lent(keys, keys_len).get(..m),
        lent(ats, ats_len).get(..m),
        lent(lens, lens_len).get(..m),
    );
    let (Some(keys), Some(ats), Some(lens)) = columns else {
        return written(Err(Refusal::Invalid));
    };
    let entries = Entries {
        keys,
        ats,
        lens,
        bytes: lent(bytes, bytes_len),
    };
    let (lo, hi) = (bound(lo_end, lo), bound(hi_end, hi));
    let room = core::slice::from_raw_parts_mut(room, room_len);
    written(delegate(number, lent(to, to_len), lo, hi, entries, room))
}
