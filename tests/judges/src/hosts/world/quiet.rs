//! The quiet end of a world, in which nothing gets lost any more.
use super::{Flying, World};
use crate::hosts::operation::Operation;
use std::collections::BTreeMap;

/// After so many rounds in which nothing gets lost no more is expected to happen.
const ROUNDS: usize = 60;

impl World {
    /// Nothing gets lost any more, and nobody asks for anything new: whatever waits is sent again and arrives, until
    /// nothing waits. Answers how many messages wait at last.
    pub fn settle(&mut self) -> usize {
        for _ in 0..ROUNDS {
            for host in 0..self.hosts.len() {
                self.act(host, Operation::Process);
                self.act(host, Operation::Retransmit);
                self.land();
            }
            if self.waiting() == 0 {
                break;
            }
        }
        self.check_owners();
        self.waiting()
    }

    /// All that flies arrives in order, at hosts whose room is free.
    fn land(&mut self) {
        while !self.flying.is_empty() {
            let Flying { from, to, datagram } = self.flying.remove(0);
            self.arrive(&from, &to, datagram);
            if let Some(host) = self.hosts.iter().position(|both| both.model.me == to) {
                self.act(host, Operation::Process);
            }
        }
    }

    fn waiting(&self) -> usize {
        let models = self.hosts.iter().map(|both| &both.model);
        let peers = models.flat_map(|model| &model.peers);
        peers.map(|peer| peer.waiting.len()).sum()
    }

    /// What all hosts together hold is what the ledger says.
    pub fn check_ledger(&self) {
        let models = self.hosts.iter().map(|both| &both.model);
        let records = models.flat_map(|model| model.records.clone());
        let held: Vec<(u64, Vec<u8>)> = records.collect();
        let once: BTreeMap<u64, Vec<u8>> = held.iter().cloned().collect();
        assert_eq!(held.len(), once.len(), "a key has a record at two hosts");
        assert_eq!(once, self.ledger.values, "the records of {:?}", self.plan);
    }
}
