//! Datagrams to try: the document's, good ones of every kind and up to every limit, bad ones, and damages.
use crate::models::messages::{written, Body, Datagram, MOST};
use std::ops::Range;

type Entries = Vec<(u64, Vec<u8>)>;

pub const NUMBERS: [u64; 4] = [0, 1, 1 << 63, u64::MAX];

const BOUNDS: [Option<u64>; 3] = [None, Some(0), Some(u64::MAX)];

/// Document 01, section 3, worked: what it is, its bytes as the document prints them, and the datagram.
pub fn worked() -> [(&'static str, &'static str, Datagram); 4] {
    let entry = (9, b"x".to_vec());
    [
        (
            "Get 5, number 1, destination \"a:1\"",
            "00 0100000000000000 0300000000000000 613a31 00 0500000000000000",
            message(1, b"a:1", Body::Get(5)),
        ),
        (
            "Set 5 to none, number 2",
            "00 0200000000000000 0300000000000000 613a31 01 0500000000000000 00",
            message(2, b"a:1", Body::Set(5, None)),
        ),
        ("Ack 7", "01 0700000000000000", Datagram::Ack(7)),
        (
            "Delegate [7,end) with 9 -> \"x\", number 1, to \"b:2\"",
            "00 0100000000000000 0300000000000000 623a32 05 01 0700000000000000 00 \
             0100000000000000 0900000000000000 0100000000000000 78",
            message(1, b"b:2", Body::Delegate(Some(7), None, vec![entry])),
        ),
    ]
}

pub fn message(number: u64, to: &[u8], body: Body) -> Datagram {
    let to = to.to_vec();
    Datagram::Message { number, to, body }
}

/// A string of so many bytes.
pub fn string(len: usize) -> Vec<u8> {
    (0..len).map(|i| (i * 31 + 7) as u8).collect()
}

/// So many entries with values of that length. The first key is 0, and the last one the largest, if there are two.
pub fn list(many: usize, len: usize) -> Entries {
    let step = u64::MAX / many.saturating_sub(1).max(1) as u64;
    let key = |i: usize| match i {
        0 => 0,
        i if i + 1 == many => u64::MAX,
        i => step * i as u64,
    };
    (0..many).map(|i| (key(i), string(len))).collect()
}

/// A list that takes exactly so many bytes: the last value is as long as it must be.
pub fn sized_list(many: usize, bytes: usize) -> Entries {
    let each = (bytes - 8) / many - 16;
    let mut entries = list(many, each);
    let last = bytes - 8 - many * 16 - (many - 1) * each;
    entries[many - 1].1 = string(last);
    entries
}

/// Datagrams that may be sent, of every kind and none of them long.
pub fn good() -> Vec<Datagram> {
    let mut good = NUMBERS.map(Datagram::Ack).to_vec();
    for to in [string(0), b"a:1".to_vec(), string(21)] {
        good.extend(bodies().into_iter().map(|body| message(1, &to, body)));
    }
    for number in NUMBERS {
        good.push(message(number, b"a:1", Body::Get(number)));
        let list = vec![(number, string(2))];
        good.push(message(number, b"a:1", Body::Delegate(None, None, list)));
    }
    good
}

fn bodies() -> Vec<Body> {
    let mut bodies = vec![Body::Get(5), Body::Set(5, None), Body::Reply(5, None)];
    for len in [0, 1, 1023, 1024] {
        bodies.push(Body::Set(7, Some(string(len))));
        bodies.push(Body::Reply(u64::MAX, Some(string(len))));
    }
    for len in [0, 3, 25] {
        bodies.push(Body::Redirect(1 << 63, string(len)));
    }
    for (lo, hi) in ranges() {
        bodies.push(Body::Shard(lo, hi, b"b:2".to_vec()));
        bodies.push(Body::Delegate(lo, hi, list(1, 1)));
    }
    bodies.push(Body::Shard(Some(1), Some(2), Vec::new()));
    for (many, len) in [(0, 0), (1, 0), (2, 0), (2, 3), (61, 1), (62, 1), (62, 0)] {
        bodies.push(Body::Delegate(Some(7), None, list(many, len)));
    }
    bodies
}

fn ranges() -> impl Iterator<Item = (Option<u64>, Option<u64>)> {
    BOUNDS.into_iter().flat_map(|lo| BOUNDS.map(|hi| (lo, hi)))
}

/// Datagrams that may be sent, as far as the rules of messages go, and are long.
pub fn long() -> Vec<Datagram> {
    let (to, most) = (b"a:1", string(MOST - 1));
    let delegate = |list| message(1, to, Body::Delegate(Some(0), None, list));
    let mut long = vec![
        message(1, &most, Body::Get(5)),
        message(1, to, Body::Redirect(5, most.clone())),
        message(1, &most, Body::Redirect(5, most.clone())),
        message(1, &most, Body::Shard(None, Some(3), most.clone())),
        // A value is no address, and may have any length here.
        message(1, to, Body::Set(5, Some(string(MOST - 1)))),
        message(1, to, Body::Set(5, Some(string(MOST)))),
        message(1, &most, Body::Reply(5, Some(string(MOST + 1)))),
        // The largest Delegate that is ever sent.
        delegate(list(61, 1023)),
    ];
    for many in [1, 2, 62, 3000] {
        long.push(delegate(sized_list(many, MOST)));
        long.push(delegate(sized_list(many, MOST - 1)));
    }
    long
}

/// Datagrams that may not be sent, each with its fault: an address or a list is too long, or keys do not rise.
pub fn unsendable() -> Vec<(&'static str, Datagram)> {
    let (to, over) = (b"a:1", string(MOST));
    let delegate = |list| message(1, to, Body::Delegate(None, Some(9), list));
    let keys = |keys: &[u64]| delegate(keys.iter().map(|key| (*key, string(1))).collect());
    let mut equal_at_the_end = list(62, 1);
    equal_at_the_end[60].0 = u64::MAX;
    vec![
        ("destination", message(1, &over, Body::Get(5))),
        ("redirect", message(1, to, Body::Redirect(5, over.clone()))),
        ("shard", message(1, to, Body::Shard(None, None, over))),
        ("list, 1 entry", delegate(sized_list(1, MOST + 1))),
        ("list, 62 entries", delegate(sized_list(62, MOST + 1))),
        ("list, 3000 entries", delegate(sized_list(3000, MOST + 1))),
        ("equal keys", keys(&[5, 5])),
        ("equal keys, 0", keys(&[0, 0])),
        ("equal keys, the largest", keys(&[3, u64::MAX, u64::MAX])),
        ("equal keys at the end", delegate(equal_at_the_end)),
        ("falling keys", keys(&[6, 5])),
        ("falling keys at the end", keys(&[1, 2, 9, 8])),
        ("falling keys over the top", keys(&[1, u64::MAX, 0])),
    ]
}

/// Bytes that are no message, each with its fault.
pub fn bad() -> Vec<(String, Vec<u8>)> {
    let mut bad = vec![("nothing".to_string(), Vec::new())];
    for (fault, datagram) in unsendable() {
        bad.push((fault.to_string(), written(&datagram)));
    }
    for datagram in good().iter().chain(&long()) {
        let more = [written(datagram), vec![0]].concat();
        bad.push(("a byte more".to_string(), more));
    }
    for datagram in good() {
        for (place, over) in choices(&datagram) {
            for byte in [over, over + 1, 128, 255] {
                let fault = format!("byte {byte} at {place}");
                bad.push((fault, with(&written(&datagram), place, &[byte])));
            }
        }
    }
    bad
}

/// Where the bytes stand that choose, the datagram's, the body's and a maybe's, and the lowest that chooses nothing.
fn choices(datagram: &Datagram) -> Vec<(usize, u8)> {
    let Datagram::Message { to, body, .. } = datagram else {
        return vec![(0, 2)];
    };
    let at = 17 + to.len();
    let maybes = match body {
        Body::Get(_) | Body::Redirect(..) => vec![],
        Body::Set(..) | Body::Reply(..) => vec![at + 9],
        Body::Shard(lo, ..) | Body::Delegate(lo, ..) => match lo {
            Some(_) => vec![at + 1, at + 10],
            None => vec![at + 1, at + 2],
        },
    };
    let choices = [(0, 2), (at, 6)].into_iter();
    choices
        .chain(maybes.into_iter().map(|place| (place, 2)))
        .collect()
}

/// The bytes, with others from a place on.
pub fn with(bytes: &[u8], place: usize, others: &[u8]) -> Vec<u8> {
    let mut changed = bytes.to_vec();
    changed[place..place + others.len()].copy_from_slice(others);
    changed
}

/// Every front of the bytes that is not the whole.
pub fn truncated(bytes: &[u8]) -> impl Iterator<Item = Vec<u8>> + '_ {
    (0..bytes.len()).map(|len| bytes[..len].to_vec())
}

/// The bytes with another byte at each place: one more and one less, and the bytes that have a meaning somewhere.
pub fn damaged(bytes: &[u8]) -> impl Iterator<Item = Vec<u8>> + '_ {
    let others = |byte: u8| {
        let near = [byte.wrapping_add(1), byte.wrapping_sub(1), byte ^ 0x80];
        let mut others = [&near[..], &[0, 1, 2, 3, 4, 5, 6, 16, 255]].concat();
        others.sort_unstable();
        others.dedup();
        others.retain(|other| *other != byte);
        others
    };
    (0..bytes.len()).flat_map(move |place| {
        let changed = move |other| with(bytes, place, &[other]);
        others(bytes[place]).into_iter().map(changed)
    })
}

/// The bytes with another number at each of the places, as far as one fits there: a length or a count that lies, if
/// that is what stands there.
pub fn lying(bytes: &[u8], places: Range<usize>) -> impl Iterator<Item = Vec<u8>> + '_ {
    let end = (bytes.len() + 1).saturating_sub(8).min(places.end);
    (places.start..end).flat_map(move |place| {
        let eight = bytes[place..place + 8].try_into().expect("8 bytes");
        let number = u64::from_le_bytes(eight);
        let near = [number.wrapping_add(1), number.wrapping_sub(1)];
        let large = [u64::MAX, u64::MAX - 7, 1 << 63, 1 << 32, MOST as u64];
        let fitting = [0, bytes.len() as u64, (bytes.len() - place - 8) as u64];
        let numbers = [&near[..], &large, &fitting].concat().into_iter();
        numbers.map(move |number| with(bytes, place, &number.to_le_bytes()))
    })
}
