//! The limits of document 01, section 6, and the room test: a message for which there might be no room is not received.
//! What it would need is what there is after it, not what there might be at most, as crates/hosts/specs/Limits.antt has
//! it; what would only be dropped needs nothing.
use super::Host;
use crate::bound::holds;
use crate::models::messages::Body;
use std::collections::BTreeSet;

/// So many entries, bounds, peers and waiting messages; bytes of an address, of a datagram that is sent, and of one
/// that can be received.
#[derive(Clone, Copy, Debug, PartialEq, Eq)]
pub struct Limits {
    pub entries: usize,
    pub bounds: usize,
    pub peers: usize,
    pub waiting: usize,
    pub address: usize,
    pub size: usize,
    pub room: usize,
}

impl Host {
    pub fn has_room(&self, from: &[u8], body: &Body, len: usize) -> bool {
        let known = self.peer(from).is_some();
        let joins = from.len() <= self.limits.address && self.peers.len() < self.limits.peers;
        len <= self.limits.room && (known || joins) && self.has_needs(from, body)
    }

    fn has_needs(&self, from: &[u8], body: &Body) -> bool {
        match body {
            Body::Get(_) => self.has_place(),
            Body::Set(_, value) => super::process::is_long(value) || self.has_place(),
            Body::Reply(..) | Body::Redirect(..) => true,
            Body::Shard(lo, hi, to) => {
                self.refuses_shard(*lo, *hi, to)
                    || self.has_place() && self.has_bounds(*lo, *hi, to)
            }
            Body::Delegate(lo, hi, list) => {
                self.refuses_delegate(from, *lo, *hi, list)
                    || self.has_bounds(*lo, *hi, &self.me)
                        && self.entries_after(*lo, *hi, list) <= self.limits.entries
            }
        }
    }

    /// Is there a place for one more waiting message?
    fn has_place(&self) -> bool {
        let waiting: usize = self.peers.iter().map(|peer| peer.waiting.len()).sum();
        waiting < self.limits.waiting
    }

    /// Does the map have its bounds once the range is that host's?
    fn has_bounds(&self, lo: Option<u64>, hi: Option<u64>, to: &[u8]) -> bool {
        let bounds = self.owners.bounds_after(lo.into(), hi.into(), to);
        bounds <= self.limits.bounds
    }

    /// How many entries there are once the range has those of the list.
    fn entries_after(&self, lo: Option<u64>, hi: Option<u64>, list: &[(u64, Vec<u8>)]) -> usize {
        let old = self.records.keys().copied();
        let outside = old.filter(|key| !holds(lo.into(), hi.into(), *key));
        let new = list.iter().map(|(key, _)| *key);
        outside.chain(new).collect::<BTreeSet<u64>>().len()
    }

    /// Does the table have a place for the value of a Set?
    pub fn has_entry(&self, key: u64, value: &Option<Vec<u8>>) -> bool {
        let old = value.is_none() || self.records.contains_key(&key);
        old || self.records.len() < self.limits.entries
    }
}
