//! The message in the room is processed: the table of document 01, section 5, row by row.
use super::{Host, Letter, Outcome, Step};
use crate::bound::{holds, Bound};
use crate::models::messages::Body;

/// A value has fewer bytes.
const LONG: usize = 1024;

/// A transfer has fewer entries.
const MANY: usize = 62;

/// Delegate and Shard are processed while the count of transfers is below this.
pub const TRANSFERS: u64 = 0x7fff_ffff_ffff_ffff - 2;

type List = [(u64, Vec<u8>)];

pub fn is_long(value: &Option<Vec<u8>>) -> bool {
    value.as_ref().is_some_and(|value| LONG <= value.len())
}

impl Host {
    pub fn process(&mut self) -> Step {
        let Some(letter) = self.room.clone() else {
            return Step::still(Outcome::Idle);
        };
        let transfer = matches!(letter.body, Body::Delegate(..) | Body::Shard(..));
        if transfer && TRANSFERS <= self.transfers {
            return Step::still(Outcome::Stuck);
        }
        self.room = None;
        match &letter.body {
            Body::Get(key) => self.get(&letter, *key),
            Body::Set(key, value) => self.set(&letter, *key, value),
            Body::Delegate(lo, hi, list) => self.delegate(&letter, *lo, *hi, list),
            Body::Shard(lo, hi, to) => self.shard(*lo, *hi, to),
            Body::Reply(..) | Body::Redirect(..) => Step::still(Outcome::Dropped),
        }
    }

    /// Sends the body, if there is a number for it.
    fn answer(&mut self, to: &[u8], body: Body, outcome: Outcome) -> Step {
        let peer = self.peer_mut(to).expect("who is answered has a place");
        if !peer.numbered() {
            return Step::still(Outcome::Unnumbered);
        }
        Step::sending(outcome, peer.post(body))
    }

    fn numbered(&self, to: &[u8]) -> bool {
        self.peer(to).is_none_or(|peer| peer.numbered())
    }

    fn redirect(&mut self, letter: &Letter, key: u64) -> Step {
        let owner = self.owners.of(key).clone();
        let body = Body::Redirect(key, owner);
        self.answer(&letter.from, body, Outcome::Redirected)
    }

    fn get(&mut self, letter: &Letter, key: u64) -> Step {
        if self.owners.of(key) != &self.me {
            return self.redirect(letter, key);
        }
        let value = self.records.get(&key).cloned();
        self.answer(&letter.from, Body::Reply(key, value), Outcome::Replied)
    }

    /// If the reply can't be sent, the request isn't executed: that is looked at before the table's room is.
    fn set(&mut self, letter: &Letter, key: u64, value: &Option<Vec<u8>>) -> Step {
        if is_long(value) {
            return Step::still(Outcome::Dropped);
        }
        if self.owners.of(key) != &self.me {
            return self.redirect(letter, key);
        }
        if self.numbered(&letter.from) {
            if !self.has_entry(key, value) {
                return Step::still(Outcome::Dropped);
            }
            match value {
                Some(value) => self.records.insert(key, value.clone()),
                None => self.records.remove(&key),
            };
        }
        let body = Body::Reply(key, value.clone());
        self.answer(&letter.from, body, Outcome::Replied)
    }

    pub fn refuses_delegate(
        &self,
        from: &[u8],
        lo: Option<u64>,
        hi: Option<u64>,
        list: &List,
    ) -> bool {
        let empty = Bound::from(hi) <= Bound::from(lo);
        let long = list.iter().any(|(_, value)| LONG <= value.len());
        let host = self.hosts.iter().any(|host| host == from);
        empty || MANY <= list.len() || long || !host
    }

    fn delegate(&mut self, letter: &Letter, lo: Option<u64>, hi: Option<u64>, list: &List) -> Step {
        if self.refuses_delegate(&letter.from, lo, hi, list) {
            return Step::still(Outcome::Dropped);
        }
        self.owners.give(lo.into(), hi.into(), &self.me);
        // In the range exactly the entries that were sent; those outside of it are stored all the same.
        self.records
            .retain(|key, _| !holds(lo.into(), hi.into(), *key));
        self.records.extend(list.iter().cloned());
        self.transfers += 1;
        Step::still(Outcome::Accepted)
    }

    fn entries(&self, lo: Option<u64>, hi: Option<u64>) -> Vec<(u64, Vec<u8>)> {
        let inside = |key: u64| holds(lo.into(), hi.into(), key);
        let entries = self.records.iter().filter(|(key, _)| inside(**key));
        entries.map(|(key, value)| (*key, value.clone())).collect()
    }

    pub fn refuses_shard(&self, lo: Option<u64>, hi: Option<u64>, to: &[u8]) -> bool {
        let empty = Bound::from(hi) <= Bound::from(lo);
        let host = self.hosts.iter().any(|host| host == to);
        let mine = self.owners.whole(lo.into(), hi.into(), &self.me);
        to == self.me || !host || empty || !mine || MANY <= self.entries(lo, hi).len()
    }

    /// Without a number for the Delegate only the count is raised.
    fn shard(&mut self, lo: Option<u64>, hi: Option<u64>, to: &[u8]) -> Step {
        if self.refuses_shard(lo, hi, to) {
            return Step::still(Outcome::Dropped);
        }
        self.transfers += 1;
        let entries = self.entries(lo, hi);
        if self.numbered(to) {
            self.owners.give(lo.into(), hi.into(), to);
            for (key, _) in &entries {
                self.records.remove(key);
            }
        }
        self.answer(to, Body::Delegate(lo, hi, entries), Outcome::Handed)
    }
}
