//! What the tests share.
#![allow(dead_code)]
use tagshards::wire::{read, write, Body, Datagram};
use tagshards::{Host, Limits, Outcome};

/// Two hosts and a client.
pub const A: &[u8] = b"a:1";
pub const B: &[u8] = b"b:2";
pub const K: &[u8] = b"k:3";

/// Small limits, so that each is reached soon.
pub const FEW: Limits = Limits {
    entries: 4,
    bounds: 3,
    peers: 4,
    waiting: 3,
    datagram: tagshards::LEAST_DATAGRAM,
};

pub fn start(limits: Limits, me: &[u8]) -> Host {
    Host::start(limits, &[A, B], me).expect("the host starts")
}

pub fn message(number: u64, to: &[u8], body: Body) -> Vec<u8> {
    let to = to.to_vec();
    write(&Datagram::Message { number, to, body }).expect("a message that can be written")
}

pub fn ack(number: u64) -> Vec<u8> {
    write(&Datagram::Ack(number)).expect("an Ack")
}

pub fn get(key: u64) -> Body {
    Body::Get { key }
}

pub fn set(key: u64, value: &[u8]) -> Body {
    let value = Some(value.to_vec());
    Body::Set { key, value }
}

pub fn shard(lo: u64, hi: Option<u64>, to: &[u8]) -> Body {
    let (lo, to) = (Some(lo), to.to_vec());
    Body::Shard { lo, hi, to }
}

/// What the last step hands out, read.
pub fn sent(host: &Host) -> Vec<(Vec<u8>, Datagram)> {
    let read = |(to, bytes): (&[u8], &[u8])| (to.to_vec(), read(bytes).expect("a datagram"));
    host.sends().map(read).collect()
}

/// The only datagram that the last step hands out, as bytes.
pub fn only(host: &Host) -> (Vec<u8>, Vec<u8>) {
    let mut sends = host
        .sends()
        .map(|(to, bytes)| (to.to_vec(), bytes.to_vec()));
    let only = sends.next().expect("a datagram");
    assert!(sends.next().is_none(), "more than one datagram");
    only
}

/// A host that is asked with the next number each time.
pub struct Scene {
    pub host: Host,
    pub me: &'static [u8],
    numbers: std::collections::BTreeMap<Vec<u8>, u64>,
}

impl Scene {
    pub fn new(limits: Limits, me: &'static [u8]) -> Scene {
        let numbers = Default::default();
        let host = start(limits, me);
        Scene { host, me, numbers }
    }

    /// The message arrives, from this address, with the next number.
    pub fn bring(&mut self, from: &[u8], body: Body) -> Outcome {
        let number = self.numbers.entry(from.to_vec()).or_default();
        let outcome = self
            .host
            .receive(from, &message(*number + 1, self.me, body));
        *number += u64::from(outcome == Outcome::Taken);
        outcome
    }

    /// The message arrives and is processed.
    pub fn ask(&mut self, from: &[u8], body: Body) -> Outcome {
        assert_eq!(self.bring(from, body), Outcome::Taken);
        self.host.process()
    }

    /// The message arrives, is processed, and its answer, to whoever it is, is acknowledged.
    pub fn ask_and_ack(&mut self, from: &[u8], body: Body) -> Outcome {
        let outcome = self.ask(from, body);
        for (to, datagram) in sent(&self.host) {
            if let Datagram::Message { number, .. } = datagram {
                assert_eq!(self.host.receive(&to, &ack(number)), Outcome::Arrived);
            }
        }
        outcome
    }
}
