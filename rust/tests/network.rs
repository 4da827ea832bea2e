//! Clients and hosts over a network that loses, repeats, delays and reorders, while ranges move: every request is
//! carried out once, and every answer is what one table would have answered.
mod common;
#[path = "../src/bin/night/draw.rs"]
#[allow(dead_code)]
mod draw;
#[path = "../src/bin/night/network.rs"]
mod network;

use common::FEW;
use draw::Draw;
use network::{Network, Weather};
use std::collections::BTreeMap;
use tagshards::{Answer, Client, Host, Limits, Outcome, Request};

const HOSTS: [&[u8]; 3] = [b"one", b"two", b"three"];
const CLIENTS: [&[u8]; 5] = [b"p", b"q", b"r", b"s", b"mover"];
const MOVER: usize = 4;
const KEYS: u64 = 40;
const TICKS: u64 = 1_500;
const WEATHER: Weather = Weather {
    lost: 20,
    repeated: 10,
    delay: 5,
};

struct World {
    hosts: Vec<Host>,
    clients: Vec<Client>,
    network: Network,
    draw: Draw,
    /// What one table would hold, and what it would answer to the requests that are under way. Each key has one client
    /// that asks for it, so the requests for it are carried out in the order in which they are made.
    table: BTreeMap<u64, Vec<u8>>,
    wanted: BTreeMap<(usize, Request), Option<Vec<u8>>>,
    answered: usize,
    by_turns: bool,
}

impl World {
    /// In every second world the hosts take turns.
    fn new(seed: u64) -> World {
        let limits = Limits {
            entries: KEYS as usize,
            bounds: 2 * KEYS as usize,
            peers: HOSTS.len() + CLIENTS.len(),
            waiting: 40,
            ..FEW
        };
        let host = |me: &&[u8]| Host::start(limits, &HOSTS, me).expect("the host starts");
        let client = |me: &&[u8]| Client::new(me, &HOSTS).expect("a client");
        World {
            hosts: HOSTS.iter().map(host).collect(),
            clients: CLIENTS.iter().map(client).collect(),
            network: Network::new(WEATHER, seed),
            draw: Draw::new(seed + 1),
            table: BTreeMap::new(),
            wanted: BTreeMap::new(),
            answered: 0,
            by_turns: seed.is_multiple_of(2),
        }
    }

    /// Some client asks for something, and the mover for a range to be moved.
    fn ask(&mut self) {
        let key = self.draw.below(KEYS);
        let client = key as usize % MOVER;
        let value = self.draw.number().to_le_bytes();
        let request = match self.draw.below(3) {
            0 => self.clients[client].get(key),
            1 => {
                self.table.remove(&key);
                self.clients[client].set(key, None).expect("a request")
            }
            _ => {
                self.table.insert(key, value.to_vec());
                let set = self.clients[client].set(key, Some(&value));
                set.expect("a request")
            }
        };
        let want = self.table.get(&key).cloned();
        self.wanted.insert((client, request), want);
        if self.draw.percent(30) {
            let (lo, many) = (self.draw.below(KEYS), self.draw.below(9));
            let [from, to] = [(); 2].map(|()| *self.draw.of(&HOSTS));
            let moved = self.clients[MOVER].shard(from, lo, Some(lo + many), to);
            moved.expect("a request");
        }
    }

    fn tick(&mut self) {
        self.network.now += 1;
        while let Some(packet) = self.network.arrived() {
            match HOSTS.iter().position(|name| *name == packet.to) {
                Some(i) => self.bring(i, &packet.from, &packet.datagram),
                None => {
                    let client = CLIENTS.iter().position(|name| *name == packet.to);
                    let client = &mut self.clients[client.expect("a client")];
                    client.receive(&packet.from, &packet.datagram);
                }
            }
        }
        for i in 0..HOSTS.len() {
            self.host(i, |host| host.process());
            if self.network.now % 20 == i as u64 {
                self.host(i, |host| host.retransmit());
            }
        }
        (0..CLIENTS.len()).for_each(|i| self.client(i));
    }

    /// A datagram arrives at a host: it receives it, or takes turns until one was for receiving.
    fn bring(&mut self, i: usize, from: &[u8], datagram: &[u8]) {
        if !self.by_turns {
            return self.host(i, |host| host.receive(from, datagram));
        }
        let mut is_done = false;
        while !is_done {
            is_done = self.hosts[i].receives();
            self.host(i, |host| host.turn(Some((from, datagram))));
        }
    }

    fn host(&mut self, i: usize, step: impl Fn(&mut Host) -> Outcome) {
        step(&mut self.hosts[i]);
        for (to, datagram) in self.hosts[i].sends() {
            self.network.send(HOSTS[i], to, datagram);
        }
    }

    fn client(&mut self, i: usize) {
        let client = &mut self.clients[i];
        if self.network.now % 15 == i as u64 {
            client.resend();
        }
        while let Some((to, datagram)) = client.send() {
            self.network.send(CLIENTS[i], &to, &datagram);
        }
        while let Some(answered) = client.answer() {
            let want = self.wanted.remove(&(i, answered.request));
            let want = want.expect("each request is answered once");
            assert_eq!(answered.answer, Answer::Value(want), "key {}", answered.key);
            self.answered += 1;
        }
    }

    /// Nothing is under way: no request, no answer, no transfer.
    fn is_settled(&mut self) -> bool {
        let settled = |client: &Client| client.unanswered() + client.unacknowledged() == 0;
        let quiet = |host: &mut Host| {
            host.retransmit();
            host.sends().count() == 0 && !host.is_busy()
        };
        let hosts = self.hosts.iter_mut().all(quiet);
        hosts && self.clients.iter().all(settled) && self.network.is_empty()
    }
}

fn play(seed: u64) -> World {
    let mut world = World::new(seed);
    for _ in 0..TICKS {
        if world.draw.percent(40) {
            world.ask();
        }
        world.tick();
    }
    while !world.is_settled() {
        world.tick();
        assert!(
            world.network.now < 20 * TICKS,
            "seed {seed} does not settle"
        );
    }
    world
}

#[test]
fn every_answer_is_right() {
    let mut moved = 0;
    for seed in 1..=6 {
        let world = play(seed);
        assert_eq!(world.wanted.len(), 0);
        assert!(TICKS / 3 < world.answered as u64);
        let held: u64 = world.hosts.iter().map(Host::entries).sum();
        assert_eq!(held, world.table.len() as u64, "records at all hosts");
        let transfers: u64 = world.hosts.iter().map(Host::transfers).sum();
        moved += (transfers - HOSTS.len() as u64) / 2;
        assert!(0 < world.network.lost && 0 < world.network.repeated);
    }
    assert!(60 < moved, "only {moved} ranges were moved");
}
