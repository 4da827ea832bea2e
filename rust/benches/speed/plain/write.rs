//! The messages that a host sends, each written into memory of just its length.

/// The bytes of a message's front, but for its destination: the kind of datagram, two numbers, the kind of body.
const FRONT: usize = 18;

fn front(number: u64, to: &[u8], kind: u8, more: usize) -> Vec<u8> {
    let mut out = Vec::with_capacity(FRONT + to.len() + more);
    out.push(0);
    put(&mut out, number);
    string(&mut out, to);
    out.push(kind);
    out
}

fn put(out: &mut Vec<u8>, number: u64) {
    out.extend_from_slice(&number.to_le_bytes());
}

fn string(out: &mut Vec<u8>, bytes: &[u8]) {
    put(out, bytes.len() as u64);
    out.extend_from_slice(bytes);
}

fn bound(out: &mut Vec<u8>, bound: Option<u64>) {
    out.push(u8::from(bound.is_some()));
    if let Some(key) = bound {
        put(out, key);
    }
}

pub fn reply(number: u64, to: &[u8], key: u64, value: Option<&[u8]>) -> Vec<u8> {
    let more = 9 + value.map_or(0, |value| 8 + value.len());
    let mut out = front(number, to, 2, more);
    put(&mut out, key);
    out.push(u8::from(value.is_some()));
    if let Some(value) = value {
        string(&mut out, value);
    }
    out
}

pub fn redirect(number: u64, to: &[u8], key: u64, owner: &[u8]) -> Vec<u8> {
    let mut out = front(number, to, 3, 16 + owner.len());
    put(&mut out, key);
    string(&mut out, owner);
    out
}

type Ends = (Option<u64>, Option<u64>);

pub fn delegate(number: u64, to: &[u8], ends: Ends, entries: &[(u64, Vec<u8>)]) -> Vec<u8> {
    let size: usize = entries.iter().map(|(_, value)| 16 + value.len()).sum();
    let mut out = front(number, to, 5, 26 + size);
    bound(&mut out, ends.0);
    bound(&mut out, ends.1);
    put(&mut out, entries.len() as u64);
    for (key, value) in entries {
        put(&mut out, *key);
        string(&mut out, value);
    }
    out
}
