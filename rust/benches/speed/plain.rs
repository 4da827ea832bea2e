//! The same host in plain Rust, as one would write it without proofs: the standard hash table for records and for
//! peers, a sorted map of bounds, and for each peer a queue of the datagrams that wait for an Ack. It has the same
//! limits and hands out the same bytes; what it does not do is send again and take turns.
mod owners;
mod process;
mod write;

use crate::served::Served;
use owners::Owners;
use std::collections::{HashMap, VecDeque};
use tagshards::wire::{read, Body, Datagram};
use tagshards::{Limits, Outcome};

pub struct Plain {
    limits: Limits,
    me: Vec<u8>,
    /// The own place among the peers.
    own: usize,
    /// How many of the peers are hosts: the first.
    hosts: usize,
    owners: Owners,
    records: HashMap<u64, Vec<u8>>,
    /// Each peer's place among the peers.
    numbers: HashMap<Vec<u8>, usize>,
    peers: Vec<Peer>,
    /// How many messages wait, over all peers.
    waiting: usize,
    /// The message that is received and not yet processed, and the place of its sender.
    room: Option<(usize, Body)>,
    transfers: u64,
    sent: Sent,
    from: Vec<u8>,
    ack: [u8; 9],
}

struct Peer {
    address: Vec<u8>,
    received: u64,
    acknowledged: u64,
    waiting: VecDeque<Vec<u8>>,
}

/// What the last step hands out: the Ack for `from`, or the last message that waits for a peer.
enum Sent {
    Nothing,
    Ack,
    Message(usize),
}

impl Peer {
    fn new(address: &[u8]) -> Peer {
        Peer {
            address: address.to_vec(),
            received: 0,
            acknowledged: 0,
            waiting: VecDeque::new(),
        }
    }

    /// The number of the next message, if there is one left.
    fn next(&self) -> Option<u64> {
        let last = self.acknowledged.checked_add(self.waiting.len() as u64)?;
        last.checked_add(1)
    }
}

impl Served for Plain {
    /// The list and the limits are good ones.
    fn start(limits: Limits, hosts: &[&[u8]], me: &[u8]) -> Plain {
        let mut plain = Plain {
            limits,
            me: me.to_vec(),
            own: 0,
            hosts: hosts.len(),
            owners: Owners::all(0),
            records: HashMap::with_capacity(limits.entries),
            numbers: HashMap::with_capacity(limits.peers),
            peers: Vec::with_capacity(limits.peers),
            waiting: 0,
            room: None,
            transfers: 1,
            sent: Sent::Nothing,
            from: Vec::new(),
            ack: [0; 9],
        };
        for host in hosts {
            plain.join(host);
        }
        plain.own = plain.numbers[me];
        plain
    }

    fn receive(&mut self, from: &[u8], datagram: &[u8]) -> Outcome {
        self.sent = Sent::Nothing;
        if self.room.is_some() {
            return Outcome::Full;
        }
        match read(datagram) {
            None => Outcome::Invalid,
            Some(Datagram::Ack(number)) => self.acknowledge(from, number),
            Some(Datagram::Message { to, .. }) if to != self.me => Outcome::Elsewhere,
            Some(Datagram::Message { number, body, .. }) => {
                self.take(from, number, body, datagram.len())
            }
        }
    }

    fn process(&mut self) -> Outcome {
        self.sent = Sent::Nothing;
        self.processed()
    }

    fn sent(&self) -> Option<(&[u8], &[u8])> {
        match self.sent {
            Sent::Nothing => None,
            Sent::Ack => Some((&self.from, &self.ack)),
            Sent::Message(i) => {
                let peer = &self.peers[i];
                Some((&peer.address, peer.waiting.back()?))
            }
        }
    }

    fn counts(&self) -> [u64; 3] {
        [self.records.len(), self.owners.len(), self.peers.len()].map(|count| count as u64)
    }
}

impl Plain {
    fn join(&mut self, address: &[u8]) -> usize {
        let place = self.peers.len();
        self.numbers.insert(address.to_vec(), place);
        self.peers.push(Peer::new(address));
        place
    }

    fn take(&mut self, from: &[u8], number: u64, body: Body, length: usize) -> Outcome {
        let known = self.numbers.get(from).copied();
        let last = known.map_or(0, |sender| self.peers[sender].received);
        if number <= last {
            self.hand_ack(from, number);
            return Outcome::Again;
        }
        if number - 1 != last {
            return Outcome::Future;
        }
        let joins = from.len() <= self.limits.address() && self.peers.len() < self.limits.peers;
        if length > self.limits.datagram || !(known.is_some() || joins) {
            return Outcome::Unreceived;
        }
        if !self.has_room(known, &body) {
            return Outcome::Unreceived;
        }
        let sender = known.unwrap_or_else(|| self.join(from));
        self.peers[sender].received = number;
        self.room = Some((sender, body));
        self.hand_ack(from, number);
        Outcome::Taken
    }

    fn hand_ack(&mut self, from: &[u8], number: u64) {
        self.from.clear();
        self.from.extend_from_slice(from);
        self.ack[0] = 1;
        self.ack[1..].copy_from_slice(&number.to_le_bytes());
        self.sent = Sent::Ack;
    }

    fn acknowledge(&mut self, from: &[u8], number: u64) -> Outcome {
        let peer = self.numbers.get(from).map(|i| &mut self.peers[*i]);
        let Some(peer) = peer.filter(|peer| peer.acknowledged < number) else {
            return Outcome::Stale;
        };
        let arrived = (number - peer.acknowledged).min(peer.waiting.len() as u64);
        peer.waiting.drain(..arrived as usize);
        peer.acknowledged = number;
        self.waiting -= arrived as usize;
        Outcome::Arrived
    }
}
