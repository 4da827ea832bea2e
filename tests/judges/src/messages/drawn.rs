//! Datagrams by the pseudo-random rule.
use super::samples::{with, NUMBERS};
use crate::draw::Draw;
use crate::models::messages::{Body, Datagram};

/// All 64 bits, of which a draw has fewer.
fn word(draw: &mut Draw) -> u64 {
    draw.number() << 32 ^ draw.number()
}

/// A number: one at a limit, a small one, or any.
fn number(draw: &mut Draw) -> u64 {
    match draw.below(4) {
        0 => NUMBERS[draw.below(NUMBERS.len())],
        1 => draw.below(80) as u64,
        _ => word(draw),
    }
}

fn string(draw: &mut Draw, len: usize) -> Vec<u8> {
    (0..len).map(|_| draw.number() as u8).collect()
}

/// Bytes that follow no rule. In half of the cases they are of the few that have a meaning, and start like a message,
/// so that a reader gets further.
pub fn bytes(draw: &mut Draw) -> Vec<u8> {
    let len = draw.below(80);
    if draw.below(2) == 0 {
        return string(draw, len);
    }
    let few = [0, 0, 0, 0, 0, 0, 0, 0, 1, 1, 2, 3, 4, 5, 6, 255];
    let mut bytes: Vec<u8> = (0..len).map(|_| few[draw.below(few.len())]).collect();
    for (place, byte) in [(0, draw.below(2) as u8), (9, draw.below(9) as u8)] {
        if place < len {
            bytes[place] = byte;
        }
    }
    if 17 <= len {
        bytes[10..17].fill(0);
    }
    bytes
}

/// The bytes with one to three changes.
pub fn changed(draw: &mut Draw, bytes: &[u8]) -> Vec<u8> {
    let mut changed = bytes.to_vec();
    for _ in 0..1 + draw.below(3) {
        changed = change(draw, &changed);
    }
    changed
}

/// One change: a byte, a bit, a number, a stretch taken out, doubled or put in, the end taken off.
fn change(draw: &mut Draw, bytes: &[u8]) -> Vec<u8> {
    let len = bytes.len();
    let place = draw.below(len + 1);
    let end = place + draw.below((len - place).min(20) + 1);
    let (front, middle, back) = (&bytes[..place], &bytes[place..end], &bytes[end..]);
    match draw.below(7) {
        0 if place < len => with(bytes, place, &[draw.number() as u8]),
        1 if place < len => with(bytes, place, &[bytes[place] ^ 1 << draw.below(8)]),
        2 if place + 8 <= len => with(bytes, place, &number(draw).to_le_bytes()),
        3 => [front, back].concat(),
        4 => [front, middle, middle, back].concat(),
        5 => [front, &string(draw, end - place), middle, back].concat(),
        _ => front.to_vec(),
    }
}

/// A datagram that says something; one in many may not be sent.
pub fn datagram(draw: &mut Draw) -> Datagram {
    if draw.below(8) == 0 {
        return Datagram::Ack(number(draw));
    }
    let len = draw.below(24);
    Datagram::Message {
        number: number(draw),
        to: string(draw, len),
        body: body(draw),
    }
}

fn body(draw: &mut Draw) -> Body {
    let len = draw.below(40);
    let key = number(draw);
    match draw.below(6) {
        0 => Body::Get(key),
        1 => Body::Set(key, value(draw)),
        2 => Body::Reply(key, value(draw)),
        3 => Body::Redirect(key, string(draw, len)),
        4 => Body::Shard(bound(draw), bound(draw), string(draw, len)),
        _ => Body::Delegate(bound(draw), bound(draw), list(draw)),
    }
}

fn value(draw: &mut Draw) -> Option<Vec<u8>> {
    let len = match draw.below(32) {
        0..=7 => return None,
        8 => 1000 + draw.below(50),
        _ => draw.below(40),
    };
    Some(string(draw, len))
}

fn bound(draw: &mut Draw) -> Option<u64> {
    (0 < draw.below(4)).then(|| number(draw))
}

/// Entries whose keys rise; in one of eight lists they are as they come.
fn list(draw: &mut Draw) -> Vec<(u64, Vec<u8>)> {
    let many = match draw.below(64) {
        0 => 60 + draw.below(5),
        _ => draw.below(6),
    };
    let mut keys: Vec<u64> = (0..many).map(|_| number(draw)).collect();
    if 0 < draw.below(8) {
        keys.sort_unstable();
        keys.dedup();
    }
    let entry = |key| {
        let len = draw.below(12);
        (key, string(draw, len))
    };
    keys.into_iter().map(entry).collect()
}
