//! A host in a setting: so many entries, bounds, peers and waiting messages, brought about by its own steps.
use crate::draw::Draw;
use crate::served::Served;
use std::hint::black_box;
use tagshards::wire::{write, Body, Datagram};
use tagshards::{Limits, Outcome};

/// The bytes of a value.
pub const VALUE: usize = 1000;

/// Between two keys that have records there is room for ranges without any.
const APART: u64 = 1000;

/// How many of each there are. The peers are hosts, then clients that ask in turn, then one that never acknowledges,
/// if anything is to wait.
#[derive(Clone, Copy)]
pub struct Setting {
    pub entries: u64,
    pub bounds: u64,
    pub hosts: u64,
    pub peers: u64,
    pub waiting: u64,
    /// How many waiting messages there is memory for.
    pub places: u64,
}

#[derive(Clone, Copy)]
enum Ask {
    Get,
    Set,
    Delete,
}

/// What is asked. Additions are Sets of keys without a record, each followed by one that deletes it again.
#[derive(Clone, Copy, PartialEq)]
pub enum Mix {
    Gets,
    Sets,
    Both,
    Additions,
}

struct Client {
    address: Vec<u8>,
    sent: u64,
    answered: u64,
}

pub struct Scene<H> {
    pub host: H,
    clients: Vec<Client>,
    get: Vec<u8>,
    set: Vec<u8>,
    delete: Vec<u8>,
    entries: u64,
    draw: Draw,
}

pub fn address(peer: u64) -> Vec<u8> {
    format!("10.0.0.{peer:02}:700").into_bytes()
}

pub fn key(i: u64) -> u64 {
    i * APART + 1
}

/// A message with number 0 and key 0, which are exchanged before it is used.
pub fn message(to: u64, body: Body) -> Vec<u8> {
    let (number, to) = (0, address(to));
    write(&Datagram::Message { number, to, body }).expect("a message")
}

fn exchange(datagram: &mut [u8], at: usize, number: u64) {
    datagram[at..at + 8].copy_from_slice(&number.to_le_bytes());
}

/// Gives the message its number.
pub fn number(datagram: &mut [u8], number: u64) {
    exchange(datagram, 1, number);
}

/// The limits of a setting: there is room for one entry more than it has, so that one can be added.
fn limits(setting: &Setting) -> Limits {
    Limits {
        entries: setting.entries as usize + 1,
        waiting: setting.places as usize,
        ..Limits::default()
    }
}

impl<H: Served> Scene<H> {
    pub fn new(setting: Setting) -> Scene<H> {
        let hosts: Vec<Vec<u8>> = (0..setting.hosts).map(address).collect();
        let hosts: Vec<&[u8]> = hosts.iter().map(Vec::as_slice).collect();
        let set = |value| Body::Set { key: 0, value };
        let mut scene = Scene {
            host: H::start(limits(&setting), &hosts, hosts[0]),
            clients: (setting.hosts..setting.peers).map(Client::new).collect(),
            get: message(0, Body::Get { key: 0 }),
            set: message(0, set(Some(vec![7; VALUE]))),
            delete: message(0, set(None)),
            entries: setting.entries,
            draw: Draw::new(1),
        };
        scene.fill(&setting);
        let have = [setting.entries, setting.bounds, setting.peers];
        assert_eq!(scene.host.counts(), have);
        scene
    }

    fn fill(&mut self, setting: &Setting) {
        let clients = self.clients.len();
        for i in 0..setting.entries {
            self.ask(i as usize % clients, Ask::Set, key(i));
        }
        for client in 0..clients {
            self.ask(client, Ask::Get, key(0));
        }
        let ranges = setting.bounds / 2;
        for i in 0..ranges {
            let lo = i * (setting.entries * APART / ranges);
            self.shard(lo, lo + 1, i + 1);
        }
        if setting.waiting > 0 {
            for _ in 0..setting.waiting {
                self.ask_only(clients - 1, Ask::Get, key(0));
            }
            self.clients.pop();
        }
    }

    /// A range without records goes to the other host: two more bounds, or one where it starts with the first key.
    fn shard(&mut self, lo: u64, hi: u64, count: u64) {
        let (lo, hi, to) = (Some(lo), Some(hi), address(1));
        let mut shard = message(0, Body::Shard { lo, hi, to });
        self.clients[0].sent += 1;
        number(&mut shard, self.clients[0].sent);
        let from = &self.clients[0].address;
        assert_eq!(self.host.receive(from, &shard), Outcome::Taken);
        assert_eq!(self.host.process(), Outcome::Handed);
        let ack = write(&Datagram::Ack(count)).expect("an Ack");
        assert_eq!(self.host.receive(&address(1), &ack), Outcome::Arrived);
    }

    /// A client's request arrives and is processed.
    fn ask_only(&mut self, client: usize, ask: Ask, key: u64) {
        let at = self.get.len() - 8;
        let datagram = match ask {
            Ask::Get => &mut self.get,
            Ask::Set => &mut self.set,
            Ask::Delete => &mut self.delete,
        };
        let client = &mut self.clients[client];
        client.sent += 1;
        number(datagram, client.sent);
        exchange(datagram, at, key);
        let taken = self.host.receive(&client.address, datagram);
        black_box(self.host.sent());
        assert_eq!(taken, Outcome::Taken);
        assert_eq!(self.host.process(), Outcome::Replied);
        black_box(self.host.sent());
    }

    /// A client's request, and the Ack of its answer.
    fn ask(&mut self, client: usize, ask: Ask, key: u64) {
        self.ask_only(client, ask, key);
        let client = &mut self.clients[client];
        client.answered += 1;
        let mut ack = [1; 9];
        number(&mut ack, client.answered);
        let arrived = self.host.receive(&client.address, &ack);
        assert_eq!(arrived, Outcome::Arrived);
    }

    /// So many requests, of keys in no order.
    pub fn run(&mut self, mix: Mix, requests: u64) {
        let clients = self.clients.len() as u64;
        let mut drawn = 0;
        for i in 0..requests {
            let second = i % 2 == 1;
            if !(second && mix == Mix::Additions) {
                drawn = key(self.draw.below(self.entries));
            }
            let (ask, key) = match (mix, second) {
                (Mix::Gets, _) | (Mix::Both, false) => (Ask::Get, drawn),
                (Mix::Sets, _) | (Mix::Both, true) => (Ask::Set, drawn),
                (Mix::Additions, false) => (Ask::Set, drawn + 1),
                (Mix::Additions, true) => (Ask::Delete, drawn + 1),
            };
            self.ask((i % clients) as usize, ask, key);
        }
    }
}

impl Client {
    fn new(peer: u64) -> Client {
        Client {
            address: address(peer),
            sent: 0,
            answered: 0,
        }
    }
}
