//! Five hosts, their clients, and the network between them. A tick is a second.
use crate::draw::Draw;
use crate::network::{Network, Packet, Weather};
use crate::owners::Owners;
use std::collections::BTreeMap;
use tagshards::wire::{self, Body, Datagram};
use tagshards::{Client, Heard, Host, Limits, Outcome, Refusal};

pub const HOSTS: [&[u8]; 5] = [
    b"10.0.0.1:6000",
    b"10.0.0.2:6000",
    b"10.0.0.3:6000",
    b"10.0.0.4:6000",
    b"10.0.0.5:6000",
];

const STORM: Weather = Weather {
    lost: 10,
    repeated: 5,
    delay: 4,
};

const CALM: Weather = Weather {
    lost: 0,
    repeated: 0,
    delay: 1,
};

/// Hosts and clients send again every so many seconds.
const HOSTS_RESEND: u64 = 15;
const CLIENTS_RESEND: u64 = 10;

/// So many times out of a hundred a host processes a message at once, and otherwise a second later. Until then it drops
/// whatever arrives.
const PROMPT: u64 = 95;

pub struct World {
    pub hosts: Vec<Host>,
    pub clients: Vec<Client>,
    names: Vec<Vec<u8>>,
    places: BTreeMap<Vec<u8>, Place>,
    pub network: Network,
    pub draw: Draw,
    /// The message in each host's room.
    taken: Vec<Option<Body>>,
    pub owners: Owners,
    /// How many requests each host has carried out since this was last looked at.
    pub load: Vec<u64>,
    pub redirects: u64,
    /// Requests for a range to be moved that a host has dropped.
    pub unmoved: u64,
}

#[derive(Clone, Copy)]
enum Place {
    Host(usize),
    Client(usize),
}

impl World {
    pub fn new(limits: Limits, owners: Owners, seed: u64) -> Result<World, Refusal> {
        let start = |me: &&[u8]| Host::start(limits, &HOSTS, me);
        let hosts: Result<Vec<Host>, Refusal> = HOSTS.iter().map(start).collect();
        let place = |(i, name): (usize, &&[u8])| (name.to_vec(), Place::Host(i));
        Ok(World {
            hosts: hosts?,
            clients: Vec::new(),
            names: Vec::new(),
            places: HOSTS.iter().enumerate().map(place).collect(),
            network: Network::new(STORM, seed),
            draw: Draw::new(seed + 1),
            taken: vec![None; HOSTS.len()],
            owners,
            load: vec![0; HOSTS.len()],
            redirects: 0,
            unmoved: 0,
        })
    }

    /// A new client that knows these hosts. Answers its number.
    pub fn join(&mut self, name: &str, hosts: &[&[u8]]) -> Result<usize, Refusal> {
        let name = name.as_bytes().to_vec();
        let number = self.clients.len();
        self.clients.push(Client::new(&name, hosts)?);
        self.places.insert(name.clone(), Place::Client(number));
        self.names.push(name);
        Ok(number)
    }

    /// The network loses nothing any more.
    pub fn calm(&mut self) {
        self.network.weather = CALM;
    }

    fn is_calm(&self) -> bool {
        self.network.weather.lost == 0
    }

    pub fn tick(&mut self) {
        self.network.now += 1;
        for host in 0..self.hosts.len() {
            self.process(host);
        }
        while let Some(packet) = self.network.arrived() {
            self.deliver(&packet);
        }
        let now = self.network.now;
        for host in 0..self.hosts.len() {
            // Not all at once.
            if (now + 3 * host as u64).is_multiple_of(HOSTS_RESEND) {
                self.hosts[host].retransmit();
                self.hand_out(host);
            }
        }
        for client in 0..self.clients.len() {
            if (now + client as u64).is_multiple_of(CLIENTS_RESEND) {
                self.clients[client].resend();
            }
            while let Some((to, datagram)) = self.clients[client].send() {
                self.network.send(&self.names[client], &to, &datagram);
            }
        }
    }

    fn deliver(&mut self, packet: &Packet) {
        match self.places.get(&packet.to) {
            Some(Place::Host(host)) => self.receive(*host, packet),
            Some(Place::Client(client)) => {
                let heard = self.clients[*client].receive(&packet.from, &packet.datagram);
                self.redirects += u64::from(heard == Heard::Redirect);
            }
            None => {}
        }
    }

    fn receive(&mut self, host: usize, packet: &Packet) {
        let outcome = self.hosts[host].receive(&packet.from, &packet.datagram);
        self.hand_out(host);
        if outcome == Outcome::Taken {
            self.taken[host] = body(&packet.datagram);
            if self.is_calm() || self.draw.percent(PROMPT) {
                self.process(host);
            }
        }
    }

    /// Processes, and writes down what has become of a range.
    fn process(&mut self, host: usize) {
        if !self.hosts[host].is_busy() {
            return;
        }
        let outcome = self.hosts[host].process();
        let now = self.network.now;
        match (outcome, self.taken[host].take()) {
            (Outcome::Replied, _) => self.load[host] += 1,
            (Outcome::Handed, Some(Body::Shard { lo, hi, .. })) => self.owners.leave(lo, hi, now),
            (Outcome::Accepted, Some(Body::Delegate { lo, hi, .. })) => {
                self.owners.arrive(lo, hi, host, now);
            }
            (Outcome::Dropped, Some(Body::Shard { .. })) => self.unmoved += 1,
            _ => {}
        }
        self.hand_out(host);
    }

    fn hand_out(&mut self, host: usize) {
        for (to, datagram) in self.hosts[host].sends() {
            self.network.send(HOSTS[host], to, datagram);
        }
    }

    /// Is nothing under way: no request, no answer, no transfer?
    pub fn is_quiet(&mut self) -> bool {
        let done = |client: &Client| client.unanswered() + client.unacknowledged() == 0;
        let quiet = |host: &mut Host| {
            host.retransmit();
            host.sends().count() == 0 && !host.is_busy()
        };
        self.network.is_empty() && self.clients.iter().all(done) && self.hosts.iter_mut().all(quiet)
    }
}

fn body(datagram: &[u8]) -> Option<Body> {
    match wire::read(datagram)? {
        Datagram::Message { body, .. } => Some(body),
        Datagram::Ack(_) => None,
    }
}
