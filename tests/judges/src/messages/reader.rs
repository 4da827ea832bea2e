//! The proved readers: `parsing::parse` for a datagram, and `format::list::row` for each entry of a list.
use crate::library::{truth, Call, Column, Library};
use crate::models::messages::{Body, Datagram};
use std::ops::Range;

/// So many bytes of datagrams are lent at once: one with two of the longest addresses fits.
pub const LENT: usize = 0x24_0000;

/// How many numbers a view is, and an entry; crates/judged_messages/src/view.rt says what each of them is.
const VIEW: u64 = 12;
const ENTRY: u64 = 4;

/// Kinds of view. The others are the bodies' bytes.
const DELEGATE: u64 = 5;
const ACK: u64 = 16;
const INVALID: u64 = 17;

pub struct Reader {
    pub library: Library,
    datagrams: Column,
}

/// What was made of a datagram: a message or none. An error is an answer that has no sense.
pub type Read = Result<Option<Datagram>, String>;

type Entries = Vec<(u64, Vec<u8>)>;

impl Default for Reader {
    fn default() -> Reader {
        let mut library = Library::start();
        Reader {
            datagrams: library.bytes(LENT),
            library,
        }
    }
}

impl Reader {
    /// What is made of each of the datagrams, which take at most LENT bytes together.
    pub fn read(&mut self, datagrams: &[Vec<u8>]) -> Vec<Read> {
        let lent = self.lend(datagrams);
        let views = self.views(&lent);
        let mut lists: Vec<List> = (datagrams.iter().zip(&lent).zip(&views))
            .filter(|(_, view)| view.kind == DELEGATE)
            .map(|((bytes, lent), view)| List::new(bytes, *lent, view.part))
            .collect();
        self.follow(&mut lists);
        let mut lists = lists.into_iter();
        let read = |(bytes, view): (&Vec<u8>, &View)| match view.kind {
            DELEGATE => view.datagram(bytes, lists.next().expect("a list each").entries?),
            _ => view.datagram(bytes, Vec::new()),
        };
        datagrams.iter().zip(&views).map(read).collect()
    }

    /// Writes the datagrams one after the other, to lend each by itself.
    fn lend(&mut self, datagrams: &[Vec<u8>]) -> Vec<Column> {
        let all = self.datagrams;
        self.library.write_bytes(all, &datagrams.concat());
        let mut end = 0;
        let place = |datagram: &Vec<u8>| {
            end += datagram.len();
            all.part(end - datagram.len(), datagram.len())
        };
        datagrams.iter().map(place).collect()
    }

    /// The view of each datagram. Of what is no message only that is asked.
    fn views(&mut self, lent: &[Column]) -> Vec<View> {
        let parse = self.library.of("parse");
        let first: Vec<Call> = lent.iter().map(|it| parse.lend(*it).number(0)).collect();
        let kinds = self.library.calls(&first);
        let calls: Vec<Call> = (lent.iter().zip(&kinds))
            .filter(|(_, kind)| **kind != INVALID)
            .flat_map(|(it, _)| each(parse.lend(*it), 0..VIEW))
            .collect();
        let words = self.library.calls(&calls);
        let mut words = words.chunks_exact(VIEW as usize);
        let view = |kind: &u64| match *kind {
            INVALID => View::new(&[INVALID, 0, 0, 0, 0, 0, 0, 0, 0, 0, 0, 0]),
            _ => View::new(words.next().expect("a view each")),
        };
        kinds.iter().map(view).collect()
    }

    /// Reads the lists: the first entry of each, then of each the entry behind it, until none has any left.
    fn follow(&mut self, lists: &mut [List]) {
        let row = self.library.of("row");
        loop {
            let mut open: Vec<&mut List> = lists.iter_mut().filter(|list| 0 < list.left).collect();
            if open.is_empty() {
                return;
            }
            let calls: Vec<Call> = (open.iter())
                .flat_map(|list| each(row.lend(list.lent).number(list.next), 0..ENTRY))
                .collect();
            let words = self.library.calls(&calls);
            for (list, words) in open.iter_mut().zip(words.chunks_exact(ENTRY as usize)) {
                list.add(words);
            }
        }
    }
}

/// The call once with each of the numbers.
fn each(call: Call, numbers: Range<u64>) -> impl Iterator<Item = Call> {
    numbers.map(move |number| call.number(number))
}

/// Where a string of a datagram stands, and its length; of a list, where its first entry stands, and how many there
/// are.
#[derive(Clone, Copy, Debug)]
struct Part {
    at: u64,
    len: u64,
}

impl Part {
    /// The string, which must lie within the datagram.
    fn of(self, bytes: &[u8]) -> Result<Vec<u8>, String> {
        let outside = || format!("{self:?} of {} bytes", bytes.len());
        let end = self.at.checked_add(self.len).ok_or_else(outside)?;
        let string = bytes.get(self.at as usize..end as usize);
        Ok(string.ok_or_else(outside)?.to_vec())
    }
}

/// What `parsing::parse` answers, all that a view of any kind can have.
#[derive(Clone, Copy, Debug)]
struct View {
    kind: u64,
    number: u64,
    to: Part,
    key: u64,
    some: bool,
    part: Part,
    lo: Option<u64>,
    hi: Option<u64>,
}

impl View {
    fn new(words: &[u64]) -> View {
        let part = |i: usize| Part {
            at: words[i],
            len: words[i + 1],
        };
        let bound = |i: usize| (!truth(words[i])).then_some(words[i + 1]);
        View {
            kind: words[0],
            number: words[1],
            to: part(2),
            key: words[4],
            some: truth(words[5]),
            part: part(6),
            lo: bound(8),
            hi: bound(10),
        }
    }

    /// The datagram that the view describes, given the entries of its list.
    fn datagram(&self, bytes: &[u8], list: Entries) -> Read {
        let body = match self.kind {
            0 => Body::Get(self.key),
            1 => Body::Set(self.key, self.value(bytes)?),
            2 => Body::Reply(self.key, self.value(bytes)?),
            3 => Body::Redirect(self.key, self.part.of(bytes)?),
            4 => Body::Shard(self.lo, self.hi, self.part.of(bytes)?),
            DELEGATE => Body::Delegate(self.lo, self.hi, list),
            ACK => return Ok(Some(Datagram::Ack(self.number))),
            INVALID => return Ok(None),
            kind => return Err(format!("a kind {kind}")),
        };
        Ok(Some(Datagram::Message {
            number: self.number,
            to: self.to.of(bytes)?,
            body,
        }))
    }

    fn value(&self, bytes: &[u8]) -> Result<Option<Vec<u8>>, String> {
        match self.some {
            true => Ok(Some(self.part.of(bytes)?)),
            false => Ok(None),
        }
    }
}

/// A list that is being read: how many entries are left, where the next one stands, and those before it.
struct List<'a> {
    bytes: &'a [u8],
    lent: Column,
    left: u64,
    next: u64,
    entries: Result<Entries, String>,
}

impl List<'_> {
    fn new(bytes: &[u8], lent: Column, part: Part) -> List<'_> {
        List {
            bytes,
            lent,
            left: part.len,
            next: part.at,
            entries: Ok(Vec::new()),
        }
    }

    /// Takes the entry that was found at the next place. The first fault ends the list.
    fn add(&mut self, words: &[u64]) {
        let value = Part {
            at: words[2],
            len: words[3],
        };
        match (words[0], value.of(self.bytes), &mut self.entries) {
            (1, Ok(string), Ok(entries)) => {
                entries.push((words[1], string));
                self.left -= 1;
                self.next = value.at + value.len;
            }
            (found, string, _) => {
                let fault = string.err().unwrap_or_default();
                self.entries = Err(format!("no entry at {}: {found} {fault}", self.next));
                self.left = 0;
            }
        }
    }
}
