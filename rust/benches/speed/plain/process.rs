//! What there must be room for, and what a message does: document 01, sections 5 and 6.
use super::owners::Range;
use super::{write, Plain, Sent};
use tagshards::wire::Body;
use tagshards::{Outcome, MOST_VALUE};

/// A transfer has at most so many entries.
const MOST_ENTRIES: usize = 61;

/// Delegate and Shard are processed while the count of transfers is below this.
const TRANSFERS: u64 = 0x7fff_ffff_ffff_ffff - 2;

fn is_long(value: &Option<Vec<u8>>) -> bool {
    value.as_ref().is_some_and(|value| MOST_VALUE < value.len())
}

impl Plain {
    /// The hash table does not know a range's records without a walk through all, so what is cheap is asked first.
    pub(super) fn has_room(&self, sender: Option<usize>, body: &Body) -> bool {
        let has_place = self.waiting < self.limits.waiting;
        let fits = |range, owner| self.owners.bounds_after(range, owner) <= self.limits.bounds;
        match body {
            Body::Get { .. } => has_place,
            Body::Set { value, .. } => has_place || is_long(value),
            Body::Reply { .. } | Body::Redirect { .. } => true,
            Body::Shard { lo, hi, to } => match self.shard(*lo, *hi, to) {
                Some((range, to)) => has_place && fits(range, to) || self.in_range(range).is_none(),
                None => true,
            },
            Body::Delegate { lo, hi, entries } => match self.delegate(sender, *lo, *hi, entries) {
                Some(range) => fits(range, self.own) && self.has_entries(range, entries),
                None => true,
            },
        }
    }

    /// Where a Shard's range goes, unless it is refused; how many entries are in it is not looked at.
    fn shard(&self, lo: Option<u64>, hi: Option<u64>, to: &[u8]) -> Option<(Range, usize)> {
        let range = Range::new(lo, hi)?;
        let to = *self.numbers.get(to)?;
        let whole = self.owners.whole(range, self.own);
        (to < self.hosts && to != self.own && whole).then_some((range, to))
    }

    /// The keys in the range, rising, unless there are too many.
    fn in_range(&self, range: Range) -> Option<Vec<u64>> {
        let keys = self.records.keys().copied();
        let mut keys: Vec<u64> = keys.filter(|key| range.holds(*key)).collect();
        keys.sort_unstable();
        (keys.len() <= MOST_ENTRIES).then_some(keys)
    }

    /// A Delegate's range, unless it is refused.
    fn delegate(
        &self,
        sender: Option<usize>,
        lo: Option<u64>,
        hi: Option<u64>,
        entries: &[(u64, Vec<u8>)],
    ) -> Option<Range> {
        let range = Range::new(lo, hi)?;
        let short = entries.iter().all(|(_, value)| value.len() <= MOST_VALUE);
        let host = sender.is_some_and(|sender| sender < self.hosts);
        (host && short && entries.len() <= MOST_ENTRIES).then_some(range)
    }

    /// Is there room for the entries, once those in the range are gone?
    fn has_entries(&self, range: Range, entries: &[(u64, Vec<u8>)]) -> bool {
        let most = self.limits.entries;
        if self.records.len() + entries.len() <= most {
            return true;
        }
        let inside = self.records.keys().filter(|key| range.holds(**key)).count();
        let new = |key: &u64| range.holds(*key) || !self.records.contains_key(key);
        let new = entries.iter().filter(|(key, _)| new(key)).count();
        self.records.len() - inside + new <= most
    }

    pub(super) fn processed(&mut self) -> Outcome {
        let transfer = |body: &Body| matches!(body, Body::Shard { .. } | Body::Delegate { .. });
        let stays = |body: &Body| transfer(body) && TRANSFERS <= self.transfers;
        if self.room.as_ref().is_some_and(|(_, body)| stays(body)) {
            return Outcome::Stuck;
        }
        let Some((sender, body)) = self.room.take() else {
            return Outcome::Idle;
        };
        match body {
            Body::Get { key } => self.get(sender, key),
            Body::Set { key, value } => self.set(sender, key, value),
            Body::Shard { lo, hi, to } => self.hand_over(lo, hi, &to),
            Body::Delegate { lo, hi, entries } => self.accept(sender, lo, hi, entries),
            Body::Reply { .. } | Body::Redirect { .. } => Outcome::Dropped,
        }
    }

    fn get(&mut self, sender: usize, key: u64) -> Outcome {
        let owner = self.owners.of(key);
        let peer = &self.peers[sender];
        let Some(number) = peer.next() else {
            return Outcome::Unnumbered;
        };
        if owner != self.own {
            return self.redirect(sender, number, key, owner);
        }
        let value = self.records.get(&key).map(Vec::as_slice);
        let reply = write::reply(number, &peer.address, key, value);
        self.post(sender, reply, Outcome::Replied)
    }

    fn set(&mut self, sender: usize, key: u64, value: Option<Vec<u8>>) -> Outcome {
        if is_long(&value) {
            return Outcome::Dropped;
        }
        let owner = self.owners.of(key);
        let peer = &self.peers[sender];
        let Some(number) = peer.next() else {
            return Outcome::Unnumbered;
        };
        if owner != self.own {
            return self.redirect(sender, number, key, owner);
        }
        let full = self.records.len() >= self.limits.entries;
        if full && value.is_some() && !self.records.contains_key(&key) {
            return Outcome::Dropped;
        }
        let reply = write::reply(number, &peer.address, key, value.as_deref());
        match value {
            Some(value) => self.records.insert(key, value),
            None => self.records.remove(&key),
        };
        self.post(sender, reply, Outcome::Replied)
    }

    fn redirect(&mut self, sender: usize, number: u64, key: u64, owner: usize) -> Outcome {
        let (to, owner) = (&self.peers[sender].address, &self.peers[owner].address);
        let redirect = write::redirect(number, to, key, owner);
        self.post(sender, redirect, Outcome::Redirected)
    }

    fn post(&mut self, to: usize, datagram: Vec<u8>, outcome: Outcome) -> Outcome {
        self.peers[to].waiting.push_back(datagram);
        self.waiting += 1;
        self.sent = Sent::Message(to);
        outcome
    }

    fn hand_over(&mut self, lo: Option<u64>, hi: Option<u64>, to: &[u8]) -> Outcome {
        let Some((range, to)) = self.shard(lo, hi, to) else {
            return Outcome::Dropped;
        };
        let Some(keys) = self.in_range(range) else {
            return Outcome::Dropped;
        };
        self.transfers += 1;
        let Some(number) = self.peers[to].next() else {
            return Outcome::Unnumbered;
        };
        self.owners.give(range, to);
        let entry = |key| Some((key, self.records.remove(&key)?));
        let entries: Vec<(u64, Vec<u8>)> = keys.into_iter().filter_map(entry).collect();
        let delegate = write::delegate(number, &self.peers[to].address, (lo, hi), &entries);
        self.post(to, delegate, Outcome::Handed)
    }

    fn accept(
        &mut self,
        sender: usize,
        lo: Option<u64>,
        hi: Option<u64>,
        entries: Vec<(u64, Vec<u8>)>,
    ) -> Outcome {
        let Some(range) = self.delegate(Some(sender), lo, hi, &entries) else {
            return Outcome::Dropped;
        };
        self.owners.give(range, self.own);
        self.records.retain(|key, _| !range.holds(*key));
        self.records.extend(entries);
        self.transfers += 1;
        Outcome::Accepted
    }
}
