//! Document 01, worked, as the proved code computes it: the table of updates of the map (section 2), then the two
//! things that are easily got wrong, that end is no key and that a full map can still shrink; and the datagrams
//! (section 3). tests/worked.txt has the lists as the document gives them, with equal neighbours joined, which it
//! allows, and the datagrams' bytes.
use crate::bound::Bound::{self, End, Key};
use crate::map::{Changed, Map};
use crate::messages::samples;
use crate::messages::writer::{Writer, Written};

/// The owners print as letters.
const A: u64 = 1;
const B: u64 = 2;
const C: u64 = 3;

const LAST: u64 = u64::MAX;

/// The keys beside the document's bounds.
const KEYS: [u64; 9] = [0, 99, 100, 149, 150, 199, 200, LAST - 1, LAST];

/// Ranges of which it is asked whose they are as a whole; an empty one is everybody's.
const RANGES: [(Bound, Bound); 5] = [
    (Key(7), Key(7)),
    (Key(100), Key(150)),
    (Key(150), End),
    (Key(0), Key(LAST)),
    (Key(0), End),
];

/// The keys of [lo, hi) go to the owner.
type Given = (Bound, Bound, u64);

pub fn text() -> String {
    updates() + "\n" + &datagrams()
}

fn updates() -> String {
    let document = [
        // In the document's order, up to the one that joins neighbours.
        (Key(100), Key(200), B),
        (Key(150), End, C),
        (Key(100), Key(150), A),
        (Key(0), End, B),
        // The keys are all B's: an empty range changes nothing, nor does giving B what it has.
        (Key(5), Key(5), C),
        (End, Key(7), C),
        (Key(10), Key(20), B),
    ];
    // The largest key is the only one in [2^64 - 1, end), and the only one not in [0, 2^64 - 1).
    let end_is_no_key = [
        (Key(0), End, B),
        (Key(LAST), End, C),
        (Key(0), Key(LAST), A),
    ];
    // Room for two bounds: a third is refused, and the map that was left as it was can still be changed within
    // its two bounds, and shrink.
    let full = [
        (Key(100), End, B),
        (Key(200), End, C),
        (Key(50), End, B),
        (Key(20), End, A),
    ];
    played(8, &document) + &played(8, &end_is_no_key) + &played(2, &full)
}

/// All keys to A, then the updates.
fn played(room: usize, updates: &[Given]) -> String {
    let mut map = Map::new(room);
    let started = map.start(A);
    let mut bounds = left(started, 0);
    let mut text = format!("room for {room} bounds: all keys to A");
    text += &format!("{}\n{}\n", said(started), list(&mut map, bounds));
    for &(lo, hi, owner) in updates {
        let expected = map.bounds_after(bounds, lo, hi, owner);
        let changed = map.set(bounds, lo, hi, owner);
        bounds = left(changed, bounds);
        let asked = format!("set {} to {}", range(lo, hi), letter(owner));
        text += &format!("{asked}: expected {expected}{}\n", said(changed));
        text += &shown(&mut map, bounds);
    }
    map.library.check_guards();
    text
}

/// How many bounds there are after an answer, of which there were n.
fn left(changed: Changed, n: usize) -> usize {
    match changed {
        Changed::Bounds(now) => now,
        Changed::NoRoom => n,
    }
}

fn said(changed: Changed) -> String {
    match changed {
        Changed::Bounds(now) => format!(", bounds {now}"),
        Changed::NoRoom => ", no room".to_string(),
    }
}

/// The map: its bounds, owners, and whose some ranges are as a whole.
fn shown(map: &mut Map, bounds: usize) -> String {
    let owners = map.owners(bounds, &KEYS);
    let owner = |(key, owner): (&u64, u64)| format!(" {key}:{}", letter(owner));
    let owners: String = KEYS.iter().zip(owners).map(owner).collect();
    let mut wholes = String::new();
    for (lo, hi) in RANGES {
        wholes += &format!(" {}:", range(lo, hi));
        for owner in [A, B, C] {
            let whole = map.whole(bounds, lo, hi, owner);
            wholes.push(if whole { letter(owner) } else { '-' });
        }
    }
    format!(
        "{}\n  owner of{owners}\n  whole{wholes}\n",
        list(map, bounds)
    )
}

/// The bounds, each with its owner.
fn list(map: &mut Map, bounds: usize) -> String {
    let entry = |(low, owner): &(u64, u64)| format!(" ({low},{})", letter(*owner));
    let list: String = map.list(bounds).iter().map(entry).collect();
    format!("  list{list}")
}

fn range(lo: Bound, hi: Bound) -> String {
    let bound = |bound| match bound {
        Key(key) => key.to_string(),
        End => "end".to_string(),
    };
    format!("[{},{})", bound(lo), bound(hi))
}

fn letter(owner: u64) -> char {
    match owner {
        A => 'A',
        B => 'B',
        C => 'C',
        _ => '?',
    }
}

/// The document's datagrams with the bytes that are written, in the document's groups.
fn datagrams() -> String {
    let mut writer = Writer::default();
    let mut text = String::new();
    for (name, printed, datagram) in samples::worked() {
        let (answer, room) = writer.write(&datagram, 256);
        let bytes = match answer {
            Written::Bytes(len) => grouped(&room[..len], printed),
            refused => format!(" {refused:?}"),
        };
        text += &format!("{name}\n {bytes}\n");
    }
    writer.library.check_guards();
    text
}

/// The bytes in groups as long as those of the document's text; what is left over is a group more.
fn grouped(bytes: &[u8], printed: &str) -> String {
    let mut left = bytes;
    let mut text = String::new();
    let lengths = printed.split_whitespace().map(|group| group.len() / 2);
    for length in lengths.chain([bytes.len()]) {
        let (group, rest) = left.split_at(length.min(left.len()));
        if !group.is_empty() {
            let digits: String = group.iter().map(|byte| format!("{byte:02x}")).collect();
            text += &format!(" {digits}");
        }
        left = rest;
    }
    text
}
