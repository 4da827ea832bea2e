//! A client of the hosts.
mod answer;
mod link;

pub use answer::{Answer, Answered, Heard, Request, Unasked};

use crate::limits::{MOST_ADDRESS, MOST_VALUE};
use crate::wire::{self, Body, Datagram};
use crate::Refusal;
use link::Link;
use std::collections::{BTreeMap, VecDeque};

/// A client of a set of hosts: it asks for records and sets them, and asks hosts to give ranges away.
///
/// It numbers its requests to each host, sends them again until they are acknowledged, acknowledges what it is sent,
/// and asks elsewhere when it is redirected. It does not touch the network: [`send`](Client::send) has the datagrams
/// that are to be sent, and what arrives goes to [`receive`](Client::receive). Datagrams may get lost, so
/// [`resend`](Client::resend) is to be called now and then. No function panics, whatever arrives.
///
/// Requests for one key are carried out in the order in which they were made: of those for the same key one is under
/// way at a time. Requests for different keys run beside each other, up to eight messages to a host at a time.
///
/// Hosts remember an address and its numbers for good, so a client's address must never have been another client's. The
/// client remembers where it has found each key, and asks there first the next time.
#[derive(Clone, Debug)]
pub struct Client {
    me: Vec<u8>,
    /// The host that is asked for a key of which nothing is known.
    first: Vec<u8>,
    links: BTreeMap<Vec<u8>, Link>,
    /// Where a key was last found.
    homes: BTreeMap<u64, Vec<u8>>,
    /// The requests for each key that are not answered. The first of them is under way.
    queues: BTreeMap<u64, VecDeque<(Request, Body)>>,
    sends: VecDeque<(Vec<u8>, Vec<u8>)>,
    answers: VecDeque<Answered>,
    requests: u64,
}

impl Client {
    /// A client with the own address `me` of these hosts. The first is asked for keys of which nothing is known.
    ///
    /// # Errors
    ///
    /// There is none without a host, or where an address has 0x100000 bytes or more.
    pub fn new(me: &[u8], hosts: &[&[u8]]) -> Result<Client, Refusal> {
        let first = hosts.first().ok_or(Refusal::NoHosts)?.to_vec();
        if let Some(place) = hosts.iter().position(|host| MOST_ADDRESS <= host.len()) {
            return Err(Refusal::Long(place));
        }
        let links = hosts.iter().map(|host| (host.to_vec(), Link::default()));
        Ok(Client {
            me: me.to_vec(),
            first,
            links: links.collect(),
            homes: BTreeMap::new(),
            queues: BTreeMap::new(),
            sends: VecDeque::new(),
            answers: VecDeque::new(),
            requests: 0,
        })
    }

    /// Asks for the record of a key.
    pub fn get(&mut self, key: u64) -> Request {
        self.request(key, Body::Get { key })
    }

    /// Sets the record of a key, or deletes it.
    ///
    /// # Errors
    ///
    /// The value has at most [`MOST_VALUE`] bytes.
    pub fn set(&mut self, key: u64, value: Option<&[u8]>) -> Result<Request, Unasked> {
        if value.is_some_and(|value| MOST_VALUE < value.len()) {
            return Err(Unasked::LongValue);
        }
        let value = value.map(<[u8]>::to_vec);
        Ok(self.request(key, Body::Set { key, value }))
    }

    /// Asks a host to give the keys from `lo` on, below `hi` or up to the last, to another. The host does not answer,
    /// and does nothing unless it owns all these keys and has at most 61 records among them.
    ///
    /// # Errors
    ///
    /// Both hosts are on the client's list.
    pub fn shard(
        &mut self,
        host: &[u8],
        lo: u64,
        hi: Option<u64>,
        to: &[u8],
    ) -> Result<(), Unasked> {
        if !self.links.contains_key(host) || !self.links.contains_key(to) {
            return Err(Unasked::NoHost);
        }
        let body = Body::Shard {
            lo: Some(lo),
            hi,
            to: to.to_vec(),
        };
        self.post(host, body).ok_or(Unasked::NoNumber)
    }

    /// A datagram has arrived from the address `from`.
    pub fn receive(&mut self, from: &[u8], datagram: &[u8]) -> Heard {
        let Some(link) = self.links.get_mut(from) else {
            return Heard::Nothing;
        };
        match wire::read(datagram) {
            Some(Datagram::Ack(number)) => {
                link.confirm(number);
                self.release(from);
                Heard::Ack
            }
            Some(Datagram::Message { number, to, body }) if to == self.me => {
                let is_new = link.take(number);
                if link.has_taken(number) {
                    let ack = wire::write(&Datagram::Ack(number)).unwrap_or_default();
                    self.sends.push_back((from.to_vec(), ack));
                }
                match (is_new, link.has_taken(number)) {
                    (true, _) => self.hear(from, body),
                    (false, true) => Heard::Again,
                    (false, false) => Heard::Nothing,
                }
            }
            _ => Heard::Nothing,
        }
    }

    /// Hands out again, through [`send`](Client::send), all requests that are under way and were not acknowledged.
    pub fn resend(&mut self) {
        // Messages that are still to be sent wait as well, so they would be sent twice. Acks begin with a 1.
        self.sends
            .retain(|(_, datagram)| datagram.first() == Some(&1));
        for (host, link) in &self.links {
            let flying = link.flying().map(|it| (host.clone(), it.to_vec()));
            self.sends.extend(flying);
        }
    }

    /// The next datagram to send: the address and the bytes. It counts as sent then, whether it arrives or not.
    pub fn send(&mut self) -> Option<(Vec<u8>, Vec<u8>)> {
        self.sends.pop_front()
    }

    /// The next request that something came of.
    pub fn answer(&mut self) -> Option<Answered> {
        self.answers.pop_front()
    }

    /// How many requests are not answered. Requests to give a range away are not among them.
    pub fn unanswered(&self) -> usize {
        self.queues.values().map(VecDeque::len).sum()
    }

    /// How many messages were not acknowledged, of all kinds.
    pub fn unacknowledged(&self) -> usize {
        self.links.values().map(Link::waiting).sum()
    }

    fn request(&mut self, key: u64, body: Body) -> Request {
        self.requests = self.requests.wrapping_add(1);
        let request = Request(self.requests);
        let queue = self.queues.entry(key).or_default();
        queue.push_back((request, body));
        if queue.len() == 1 {
            self.ask(key);
        }
        request
    }

    /// Sends the first request for the key to the host that is said to own it.
    fn ask(&mut self, key: u64) {
        let first = self.queues.get(&key).and_then(VecDeque::front);
        let Some(body) = first.map(|(_, body)| body.clone()) else {
            return;
        };
        let host = self.homes.get(&key).unwrap_or(&self.first).clone();
        // Where there is no number left, the request stays unanswered. That takes 2^64 requests.
        if self.post(&host, body).is_some() {
            if let Some(link) = self.links.get_mut(&host) {
                link.asked.push_back(key);
            }
        }
    }

    fn post(&mut self, host: &[u8], body: Body) -> Option<()> {
        let link = self.links.get_mut(host)?;
        let number = link.next()?;
        let to = host.to_vec();
        let datagram = wire::write(&Datagram::Message { number, to, body })?;
        link.post(datagram);
        self.release(host);
        Some(())
    }

    /// Hands out the messages to a host that may be sent now.
    fn release(&mut self, host: &[u8]) {
        if let Some(link) = self.links.get_mut(host) {
            let released = std::iter::from_fn(|| link.release());
            let released = released.map(|datagram| (host.to_vec(), datagram));
            self.sends.extend(released);
        }
    }

    /// A new message of a host.
    fn hear(&mut self, from: &[u8], body: Body) -> Heard {
        match body {
            Body::Reply { key, value } if self.settle(from, key) => {
                self.homes.insert(key, from.to_vec());
                self.finish(key, Answer::Value(value));
                Heard::Reply
            }
            Body::Redirect { key, to } if self.settle(from, key) => {
                if self.links.contains_key(&to) {
                    self.homes.insert(key, to);
                    self.ask(key);
                } else {
                    self.finish(key, Answer::Elsewhere(to));
                }
                Heard::Redirect
            }
            _ => Heard::Other,
        }
    }

    /// Is this the answer to a request to the host? A host answers in the order in which it is asked, so it has dropped
    /// the requests before.
    fn settle(&mut self, from: &[u8], key: u64) -> bool {
        let Some(link) = self.links.get_mut(from) else {
            return false;
        };
        let Some(place) = link.asked.iter().position(|asked| *asked == key) else {
            return false;
        };
        let dropped: Vec<u64> = link.asked.drain(..=place).take(place).collect();
        for key in dropped {
            self.finish(key, Answer::Dropped);
        }
        true
    }

    /// The first request for the key is answered, and the next one is under way.
    fn finish(&mut self, key: u64, answer: Answer) {
        let Some(queue) = self.queues.get_mut(&key) else {
            return;
        };
        if let Some((request, _)) = queue.pop_front() {
            self.answers.push_back(Answered {
                request,
                key,
                answer,
            });
        }
        if queue.is_empty() {
            self.queues.remove(&key);
        } else {
            self.ask(key);
        }
    }
}
