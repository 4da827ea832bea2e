//! A host: the proved code and the memory that it is lent.
use crate::back_end::{BackEnd, Chosen, List};
use crate::limits::Limits;
use crate::memory::{zeros, Memory, BOUNDS, ENTRIES, HANDED, LENGTH, PEERS, TRANSFERS, TURNS};
use crate::{Outcome, Refusal};
use std::fmt::{Debug, Formatter};

/// The answer of a start that has started a host.
const STARTED: u64 = 0;

/// What sending again answers where the list of places is too short. It never is here.
const NO_PLACES: u64 = u64::MAX;

/// The answer of an audit that finds a host.
const KEPT: u64 = 1;

/// A host of a set of hosts that share all keys among them. It keeps the records of the keys that it owns.
///
/// It is moved by steps, in any order that its user likes: [`receive`](Host::receive) takes a datagram in,
/// [`process`](Host::process) carries out the message that was taken, [`retransmit`](Host::retransmit) hands out again
/// whatever was not acknowledged; or [`turn`](Host::turn) makes these three take turns. After each step
/// [`sends`](Host::sends) has the datagrams to send. Sending may fail: a datagram may be lost, doubled, delayed or
/// overtaken on its way.
///
/// No step panics, blocks, or takes more memory, whatever it is given.
pub struct Host {
    limits: Limits,
    memory: Memory,
    back_end: Chosen,
    /// Who sent the datagram of the last step, if that is to be acknowledged.
    from: Vec<u8>,
    handed: Handed,
}

/// What the last step hands out.
#[derive(Clone, Copy, Debug)]
enum Handed {
    Nothing,
    Ack,
    /// The datagrams in so many places, which stand at the front of `out`.
    Places(usize),
}

impl Host {
    /// Starts the host with the own address `me`, in new memory with these limits.
    ///
    /// All hosts of a set are started with the same list, in the same order. The first on it owns every key at first.
    /// An address is any string of bytes; addresses are compared byte by byte.
    ///
    /// # Errors
    ///
    /// No host is started where the limits ask for memory that there is not or that is too small to run in, where the
    /// list is empty, has an address twice or one longer than [`Limits::address`], or where `me` is not on it.
    pub fn start(limits: Limits, hosts: &[&[u8]], me: &[u8]) -> Result<Host, Refusal> {
        let limits = limits.checked()?;
        let mut host = Host {
            memory: Memory::new(&limits)?,
            back_end: Chosen::new(&limits)?,
            limits,
            // No sender of a message that was taken has a longer address.
            from: zeros(limits.address())?,
            handed: Handed::Nothing,
        };
        let list = List::new(hosts);
        let answer = host.back_end.start(&mut host.memory, &list, me);
        match answer {
            Some(STARTED) => Ok(host),
            Some(answer) => Err(Refusal::explained(answer, &limits, hosts, me)),
            None => Err(Refusal::Gone),
        }
    }

    /// A datagram has arrived from the address `from`.
    pub fn receive(&mut self, from: &[u8], datagram: &[u8]) -> Outcome {
        let answer = self.back_end.receive(&mut self.memory, from, datagram);
        self.stepped(answer, from)
    }

    /// Carries out the message in the room, if there is one.
    pub fn process(&mut self) -> Outcome {
        let answer = self.back_end.process(&mut self.memory);
        self.stepped(answer, &[])
    }

    /// Hands out all messages again that were not yet acknowledged: for each peer in turn, in the order of their
    /// numbers. The host does not change.
    pub fn retransmit(&mut self) -> Outcome {
        self.handed = Handed::Nothing;
        match self.back_end.retransmit(&mut self.memory) {
            None => Outcome::Gone,
            Some(NO_PLACES) => Outcome::Unfit,
            Some(many) => self.hand_out(many, Outcome::Resent),
        }
    }

    /// Does the host's memory keep a host? Decided anew, by looking at all of it, at a cost that grows with the squares of
    /// peers, entries and waiting messages. After a start and any steps the answer is yes; anything else means that
    /// something outside has written into the memory.
    pub fn audit(&mut self) -> bool {
        self.back_end.audit(&self.memory) == Some(KEPT)
    }

    /// One turn: turns for receiving, processing and sending again follow each other, and sending again acts on every
    /// 100,000,000th of its turns only. On a turn that [receives](Host::receives) a datagram is looked at, if one has
    /// arrived; on other turns it is not, and is to be handed in again.
    pub fn turn(&mut self, arrived: Option<(&[u8], &[u8])>) -> Outcome {
        let answer = self.back_end.turn(&mut self.memory, arrived);
        self.stepped(answer, arrived.unwrap_or_default().0)
    }

    /// The datagrams that the last step hands out, in order: the address to send to, and the bytes.
    pub fn sends(&self) -> impl Iterator<Item = (&[u8], &[u8])> {
        let (acks, places) = match self.handed {
            Handed::Nothing => (0, 0),
            Handed::Ack => (1, 0),
            Handed::Places(many) => (0, many),
        };
        let ack = (&self.from[..], &self.memory.ack[..]);
        let acks = std::iter::repeat_n(ack, acks);
        let places = self.memory.out.iter().take(places);
        acks.chain(places.filter_map(|place| self.memory.packet(*place)))
    }

    /// What the answer of a step means, and what it hands out.
    fn stepped(&mut self, answer: Option<u64>, from: &[u8]) -> Outcome {
        self.handed = Handed::Nothing;
        let Some(answer) = answer else {
            return Outcome::Gone;
        };
        let outcome = Outcome::of(answer);
        match outcome {
            Outcome::Taken | Outcome::Again => {
                self.from.clear();
                self.from.extend_from_slice(from);
                self.handed = Handed::Ack;
                outcome
            }
            Outcome::Replied | Outcome::Redirected | Outcome::Handed => {
                if let Some(first) = self.memory.out.first_mut() {
                    *first = self.memory.numbers[HANDED];
                }
                self.hand_out(1, outcome)
            }
            Outcome::Resent => self.hand_out(self.memory.number(HANDED), outcome),
            _ => outcome,
        }
    }

    /// Hands out the datagrams in the first places of `out`.
    fn hand_out(&mut self, many: u64, outcome: Outcome) -> Outcome {
        let most = self.memory.out.len();
        let many = usize::try_from(many).map_or(most, |many| many.min(most));
        if self.back_end.fetch(&mut self.memory, many).is_none() {
            return Outcome::Gone;
        }
        self.handed = Handed::Places(many);
        outcome
    }

    /// The limits that the host was started with.
    pub fn limits(&self) -> Limits {
        self.limits
    }

    /// How many records the host keeps.
    pub fn entries(&self) -> u64 {
        self.memory.number(ENTRIES)
    }

    /// How many ranges the host's map tells apart.
    pub fn bounds(&self) -> u64 {
        self.memory.number(BOUNDS)
    }

    /// How many peers the host knows: the hosts, itself among them, and whoever it has taken a message from.
    pub fn peers(&self) -> u64 {
        self.memory.number(PEERS)
    }

    /// The count of transfers: 1 at first, and one more for each range that was accepted or handed over.
    pub fn transfers(&self) -> u64 {
        self.memory.number(TRANSFERS)
    }

    /// Is there a message that was received and not yet processed? Until it is, no datagram is taken.
    pub fn is_busy(&self) -> bool {
        self.memory.number(LENGTH) != 0
    }

    /// Is the next [`turn`](Host::turn) one for receiving?
    pub fn receives(&self) -> bool {
        self.memory.number(TURNS).is_multiple_of(3)
    }
}

impl Debug for Host {
    fn fmt(&self, f: &mut Formatter<'_>) -> std::fmt::Result {
        f.debug_struct("Host")
            .field("limits", &self.limits)
            .field("entries", &self.entries())
            .field("bounds", &self.bounds())
            .field("peers", &self.peers())
            .field("is_busy", &self.is_busy())
            .finish_non_exhaustive()
    }
}

#[cfg(test)]
mod tests;
