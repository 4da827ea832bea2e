//! Requests by the pseudo-random rule, over few keys, so that they meet.
use crate::draw::Draw;
use crate::models::host::Host;
use crate::models::messages::Body;

/// The keys, which are also the bounds of ranges.
const KEYS: [u64; 12] = [
    0,
    1,
    2,
    5,
    6,
    100,
    255,
    256,
    1 << 32,
    1 << 63,
    u64::MAX - 1,
    u64::MAX,
];

fn key(draw: &mut Draw) -> u64 {
    KEYS[draw.below(KEYS.len())]
}

/// A bound: mostly a key, sometimes end.
fn bound(draw: &mut Draw) -> Option<u64> {
    (0 < draw.below(6)).then(|| key(draw))
}

/// A range, mostly one with keys in it.
fn range(draw: &mut Draw) -> (Option<u64>, Option<u64>) {
    let (one, other) = (bound(draw), bound(draw));
    let falls = one.is_none() || other.is_some_and(|other| Some(other) < one);
    match falls && 0 < draw.below(8) {
        true => (other, one),
        false => (one, other),
    }
}

fn value(draw: &mut Draw) -> Option<Vec<u8>> {
    let len = match draw.below(40) {
        0 => 1023 + draw.below(2),
        1..=10 => return None,
        _ => draw.below(6),
    };
    Some((0..len).map(|_| draw.number() as u8).collect())
}

/// Mostly one of the hosts.
fn address(draw: &mut Draw, hosts: &[&[u8]]) -> Vec<u8> {
    match draw.below(16) {
        0 => b"x:1".to_vec(),
        _ => hosts[draw.below(hosts.len())].to_vec(),
    }
}

/// What a client asks for; now and then something that only hosts send.
pub fn request(draw: &mut Draw, hosts: &[&[u8]]) -> Body {
    match draw.below(20) {
        0..=5 => Body::Get(key(draw)),
        6..=12 => Body::Set(key(draw), value(draw)),
        13..=18 => {
            let (lo, hi) = range(draw);
            Body::Shard(lo, hi, address(draw, hosts))
        }
        _ => any(draw, hosts),
    }
}

/// What the host can do, if it owns anything: its own keys, and ranges that are all its own.
pub fn possible(draw: &mut Draw, host: &Host) -> Body {
    let hosts: Vec<&[u8]> = host.hosts.iter().map(|host| &host[..]).collect();
    let mine = |key: u64| host.owners.of(key) == &host.me;
    let keys: Vec<u64> = KEYS.into_iter().filter(|key| mine(*key)).collect();
    if keys.is_empty() {
        return request(draw, &hosts);
    }
    let first = draw.below(keys.len());
    let lo = keys[first];
    match draw.below(8) {
        0..=1 => Body::Get(lo),
        2..=4 => Body::Set(lo, value(draw)),
        _ => {
            // Up to another own key, or up to the first that is not, or else the end.
            let inner = keys[first + draw.below(keys.len() - first)];
            let other = KEYS.into_iter().find(|key| lo < *key && !mine(*key));
            let hi = if lo < inner { Some(inner) } else { other };
            let others: Vec<&[u8]> = hosts.into_iter().filter(|to| *to != host.me).collect();
            Body::Shard(Some(lo), hi, address(draw, &others))
        }
    }
}

/// Any body. The entries of a transfer may lie outside of its range.
pub fn any(draw: &mut Draw, hosts: &[&[u8]]) -> Body {
    match draw.below(5) {
        0 => Body::Reply(key(draw), value(draw)),
        1 => Body::Redirect(key(draw), address(draw, hosts)),
        _ => {
            let (lo, hi) = range(draw);
            Body::Delegate(lo, hi, entries(draw))
        }
    }
}

fn entries(draw: &mut Draw) -> Vec<(u64, Vec<u8>)> {
    let mut keys: Vec<u64> = (0..draw.below(5)).map(|_| key(draw)).collect();
    keys.sort_unstable();
    keys.dedup();
    let entry = |key| (key, value(draw).unwrap_or_default());
    keys.into_iter().map(entry).collect()
}
