//! The host, by document 01, sections 4 to 6: plain collections, and one step after the other. `process` has the
//! table of section 5, `room` the limits and the room test of section 6.
//!
//! Where the document leaves a choice, it is that of crates/protocol/specs: a message for another destination is not
//! taken, and an Ack from an address that has no place says nothing.
mod process;
mod room;

pub use super::owners::Address;
pub use process::TRANSFERS;
pub use room::Limits;

use super::messages::{read, written, Body, Datagram, MOST};
use super::owners::Owners;
use std::collections::BTreeMap;

/// Retransmission acts on every so many of its turns. This number and the others here are the document's and not those
/// of `limits`, so that a wrong one there shows.
const EVERY: u64 = 100_000_000;

/// The turns until all begins anew.
pub const ROUND: u64 = 3 * EVERY;

/// What became of a step, by the names of crates/protocol/specs/Delivery.antt.
#[derive(Clone, Copy, Debug, PartialEq, Eq, PartialOrd, Ord)]
pub enum Outcome {
    Full,
    Invalid,
    Elsewhere,
    Taken,
    Unreceived,
    Again,
    Future,
    Arrived,
    Stale,
    Idle,
    Stuck,
    Replied,
    Redirected,
    Dropped,
    Unnumbered,
    Accepted,
    Handed,
    Resent,
    Waits,
}

/// A datagram that is handed out, and where it is to go.
#[derive(Clone, Debug, PartialEq, Eq)]
pub struct Packet {
    pub to: Address,
    pub bytes: Vec<u8>,
}

#[derive(Clone, Debug, PartialEq, Eq)]
pub struct Step {
    pub outcome: Outcome,
    pub sends: Vec<Packet>,
}

/// What is known of an address that has a place: the number of the last message taken, how many it has acknowledged,
/// and the messages after that, in order.
#[derive(Clone, Debug, PartialEq, Eq)]
pub struct Peer {
    pub address: Address,
    pub received: u64,
    pub acknowledged: u64,
    pub waiting: Vec<Body>,
}

/// A message that is received and not yet processed, and the datagram that it came as.
#[derive(Clone, Debug, PartialEq, Eq)]
pub struct Letter {
    pub from: Address,
    pub body: Body,
    pub datagram: Vec<u8>,
}

#[derive(Clone, Debug, PartialEq, Eq)]
pub struct Host {
    pub limits: Limits,
    pub me: Address,
    pub hosts: Vec<Address>,
    pub owners: Owners,
    pub records: BTreeMap<u64, Vec<u8>>,
    /// The hosts first, then whoever a message was taken from.
    pub peers: Vec<Peer>,
    pub room: Option<Letter>,
    pub transfers: u64,
    pub turns: u64,
}

impl Step {
    pub fn still(outcome: Outcome) -> Step {
        let sends = Vec::new();
        Step { outcome, sends }
    }

    fn sending(outcome: Outcome, packet: Packet) -> Step {
        let sends = vec![packet];
        Step { outcome, sends }
    }
}

impl Peer {
    pub fn new(address: &[u8]) -> Peer {
        Peer {
            address: address.to_vec(),
            received: 0,
            acknowledged: 0,
            waiting: Vec::new(),
        }
    }

    /// The number of the last message that was sent.
    pub fn last(&self) -> u64 {
        self.acknowledged + self.waiting.len() as u64
    }

    /// Is there a number for another message?
    fn numbered(&self) -> bool {
        self.last() < u64::MAX
    }

    /// One more message waits.
    fn post(&mut self, body: Body) -> Packet {
        self.waiting.push(body);
        self.packet(self.waiting.len() - 1)
    }

    /// The datagram of a message that waits.
    fn packet(&self, i: usize) -> Packet {
        Packet {
            to: self.address.clone(),
            bytes: written(&Datagram::Message {
                number: self.acknowledged + i as u64 + 1,
                to: self.address.clone(),
                body: self.waiting[i].clone(),
            }),
        }
    }

    /// All that waits, in the order of the numbers.
    pub fn packets(&self) -> Vec<Packet> {
        let waiting = 0..self.waiting.len();
        waiting.map(|i| self.packet(i)).collect()
    }
}

impl Host {
    /// The host of that set with the own address `me`, or none: at least one address, no two equal, each short enough,
    /// the own one among them.
    pub fn start(limits: Limits, hosts: &[Address], me: &[u8]) -> Option<Host> {
        let first = hosts.first()?;
        let differ = (0..hosts.len()).all(|i| !hosts[..i].contains(&hosts[i]));
        let short = hosts.iter().all(|address| address.len() < MOST);
        let own = hosts.iter().any(|address| address == me);
        (differ && short && own).then(|| Host {
            limits,
            me: me.to_vec(),
            hosts: hosts.to_vec(),
            owners: Owners::all(first),
            records: BTreeMap::new(),
            peers: hosts.iter().map(|address| Peer::new(address)).collect(),
            room: None,
            transfers: 1,
            turns: 0,
        })
    }

    pub fn peer(&self, address: &[u8]) -> Option<&Peer> {
        self.peers.iter().find(|peer| peer.address == address)
    }

    pub fn peer_mut(&mut self, address: &[u8]) -> Option<&mut Peer> {
        self.peers.iter_mut().find(|peer| peer.address == address)
    }

    /// While the room is taken every datagram is dropped, Acks too.
    pub fn receive(&mut self, from: &[u8], datagram: &[u8]) -> Step {
        if self.room.is_some() {
            return Step::still(Outcome::Full);
        }
        match read(datagram) {
            None => Step::still(Outcome::Invalid),
            Some(Datagram::Ack(number)) => self.ack(from, number),
            Some(Datagram::Message { to, .. }) if to != self.me => Step::still(Outcome::Elsewhere),
            Some(Datagram::Message { number, body, .. }) => {
                self.message(from, number, body, datagram)
            }
        }
    }

    /// A message is new if its number is last + 1. Whatever number is <= last then is answered with an Ack of that
    /// number.
    fn message(&mut self, from: &[u8], number: u64, body: Body, datagram: &[u8]) -> Step {
        let last = self.peer(from).map_or(0, |peer| peer.received);
        let ack = Packet {
            to: from.to_vec(),
            bytes: written(&Datagram::Ack(number)),
        };
        if number <= last {
            return Step::sending(Outcome::Again, ack);
        }
        if number - 1 != last {
            return Step::still(Outcome::Future);
        }
        if !self.has_room(from, &body, datagram.len()) {
            return Step::still(Outcome::Unreceived);
        }
        if self.peer(from).is_none() {
            self.peers.push(Peer::new(from));
        }
        self.peer_mut(from).expect("it has a place").received = number;
        self.room = Some(Letter {
            from: from.to_vec(),
            body,
            datagram: datagram.to_vec(),
        });
        Step::sending(Outcome::Taken, ack)
    }

    /// An Ack that says more than was known drops the messages up to its number. One from the future drops all that
    /// wait, and their numbers and those after them are skipped.
    fn ack(&mut self, from: &[u8], number: u64) -> Step {
        match self.peer_mut(from) {
            Some(peer) if peer.acknowledged < number => {
                let arrived = (number - peer.acknowledged).min(peer.waiting.len() as u64);
                peer.waiting.drain(..arrived as usize);
                peer.acknowledged = number;
                Step::still(Outcome::Arrived)
            }
            _ => Step::still(Outcome::Stale),
        }
    }

    /// All waiting messages again, to one peer after the other.
    pub fn retransmit(&self) -> Step {
        Step {
            outcome: Outcome::Resent,
            sends: self.peers.iter().flat_map(Peer::packets).collect(),
        }
    }

    /// The three kinds of step take turns. What has arrived is looked at on a turn for receiving only.
    pub fn turn(&mut self, arrived: Option<(&[u8], &[u8])>) -> Step {
        let step = match (self.turns % 3, arrived) {
            (0, Some((from, datagram))) => self.receive(from, datagram),
            (1, _) => self.process(),
            (2, _) if self.turns + 1 == ROUND => self.retransmit(),
            _ => Step::still(Outcome::Waits),
        };
        self.turns = (self.turns + 1) % ROUND;
        step
    }
}
