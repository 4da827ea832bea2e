//! The proved host beside the model of document 01, step by step: the document's situations one by one (`rows`,
//! `receiving`, `counting`, `limits`, `sizes`, `starting`), worlds by the pseudo-random rule (`worlds`), every script
//! of a few events (`every`), one large run (`large`), and damaged memory (`audit`).
mod audit;
mod counting;
mod every;
mod large;
mod limits;
mod receiving;
mod rows;
mod sizes;
mod starting;
mod worlds;

use judges::hosts::both::{Both, Look};
use judges::messages::samples::message;
use judges::models::host::{Limits, Outcome, Step};
use judges::models::messages::{read, written, Body, Datagram};

/// The hosts of a scene; the first owns everything at first. A client.
pub const A: &[u8] = b"a:1";
pub const B: &[u8] = b"b:2";
pub const C: &[u8] = b"c:3";
pub const K: &[u8] = b"k:1";

/// So few that they are reached soon.
pub const FEW: Limits = Limits {
    entries: 70,
    bounds: 7,
    peers: 6,
    waiting: 4,
    address: 8,
    size: 65_536,
    room: 65_536,
};

/// One host, to which others send messages with the right numbers.
pub struct Scene {
    pub both: Both,
    me: &'static [u8],
}

impl Scene {
    /// The host `me` of A, B and C.
    pub fn new(me: &'static [u8], limits: Limits) -> Scene {
        Scene::of(&[A, B, C], me, limits)
    }

    pub fn of(hosts: &[&[u8]], me: &'static [u8], limits: Limits) -> Scene {
        let mut both = Both::start(limits, hosts, me, Look::EachTime);
        both.name = "a scene".to_string();
        Scene { both, me }
    }

    /// The number that the host takes from that address next.
    pub fn next(&self, from: &[u8]) -> u64 {
        let peer = self.both.model.peer(from);
        peer.map_or(0, |peer| peer.received) + 1
    }

    /// The host receives the body from that address, as the message that comes next.
    pub fn receive(&mut self, from: &[u8], body: Body) -> Outcome {
        self.receive_numbered(from, self.next(from), body)
    }

    pub fn receive_numbered(&mut self, from: &[u8], number: u64, body: Body) -> Outcome {
        let datagram = written(&message(number, self.me, body));
        self.both.receive(from, &datagram).outcome
    }

    /// The host receives the body and processes it.
    pub fn ask(&mut self, from: &[u8], body: Body) -> Step {
        let received = self.receive(from, body.clone());
        assert_eq!(received, Outcome::Taken, "{body:?}");
        self.both.process()
    }

    /// The same, and everything that is sent arrives.
    pub fn ask_and_ack(&mut self, from: &[u8], body: Body) -> Step {
        let step = self.ask(from, body);
        for packet in &step.sends {
            let number = number(&packet.bytes);
            assert_eq!(self.ack(&packet.to, number), Outcome::Arrived);
        }
        step
    }

    pub fn ack(&mut self, from: &[u8], number: u64) -> Outcome {
        let datagram = written(&Datagram::Ack(number));
        self.both.receive(from, &datagram).outcome
    }

    /// The value of a key at this host.
    pub fn get(&mut self, key: u64) -> Option<Vec<u8>> {
        let step = self.ask_and_ack(K, Body::Get(key));
        assert_eq!(step.outcome, Outcome::Replied);
        match sent(&step).2 {
            Body::Reply(found, value) if found == key => value,
            other => panic!("no reply for {key}, but {other:?}"),
        }
    }

    /// Whose is the key, by what the host answers?
    pub fn owner(&mut self, key: u64) -> Vec<u8> {
        let step = self.ask_and_ack(K, Body::Get(key));
        match sent(&step).2 {
            Body::Redirect(_, owner) => owner,
            _ => self.me.to_vec(),
        }
    }

    pub fn transfers(&self) -> u64 {
        self.both.model.transfers
    }
}

/// The one message that a step sends: to whom, its number and its body.
pub fn sent(step: &Step) -> (Vec<u8>, u64, Body) {
    let [packet] = &step.sends[..] else {
        panic!("{} datagrams instead of one", step.sends.len());
    };
    match read(&packet.bytes) {
        Some(Datagram::Message { number, to, body }) => {
            assert_eq!(to, packet.to, "the destination inside and outside");
            (to, number, body)
        }
        other => panic!("no message, but {other:?}"),
    }
}

/// The number of a datagram.
pub fn number(datagram: &[u8]) -> u64 {
    match read(datagram) {
        Some(Datagram::Message { number, .. }) | Some(Datagram::Ack(number)) => number,
        None => panic!("a datagram that is none was sent"),
    }
}

pub fn set(key: u64, value: &[u8]) -> Body {
    Body::Set(key, Some(value.to_vec()))
}

pub fn shard(lo: u64, hi: Option<u64>, to: &[u8]) -> Body {
    Body::Shard(Some(lo), hi, to.to_vec())
}

/// A transfer of the range with entries at these keys, of so many bytes each.
pub fn delegate(lo: u64, hi: Option<u64>, keys: impl IntoIterator<Item = u64>, len: usize) -> Body {
    let value = |key: u64| vec![key as u8; len];
    let list = keys.into_iter().map(|key| (key, value(key))).collect();
    Body::Delegate(Some(lo), hi, list)
}
