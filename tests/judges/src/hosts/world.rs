//! Hosts and clients, and a network between them that loses, repeats, delays and reorders. Everything is drawn by the
//! pseudo-random rule; each host is the proved one and the model in lock step.
mod client;
mod disturbed;
mod drawn;
mod ledger;
pub mod limits;
mod quiet;
mod replay;

use super::both::{Both, Look};
use super::operation::Operation;
use super::owned;
use crate::draw::Draw;
use crate::library::Library;
use crate::models::host::{Address, Host, Limits, Outcome, Packet};
use client::Client;
use ledger::Ledger;
use replay::Act;
use std::collections::BTreeMap;

/// So many datagrams fly at most; of more some get lost.
const FLYING: usize = 40;

const HOSTS: [&[u8]; 5] = [b"a:1", b"b:2", b"c:3", b"d:4", b"e:5"];

/// One client has the empty address.
const CLIENTS: [&[u8]; 4] = [b"k:1", b"", b"k:3", b"k:4"];

/// Who can send what.
#[derive(Clone, Copy, Debug, PartialEq, Eq)]
pub enum Senders {
    /// What claims to come from a host does, and is whole. Clients may send anything.
    Known,
    /// Anything may come from anyone; keys may get lost or have two owners.
    Forged,
}

#[derive(Clone, Copy, Debug)]
pub struct Plan {
    pub seed: u64,
    pub hosts: usize,
    pub clients: usize,
    pub limits: Limits,
    pub senders: Senders,
    /// Of a hundred events so many more are damaged or misplaced datagrams.
    pub damage: usize,
    /// Memory is audited and compared after each so manyth event.
    pub look: usize,
}

#[derive(Clone)]
struct Flying {
    from: Address,
    to: Address,
    datagram: Vec<u8>,
}

pub struct World {
    plan: Plan,
    draw: Draw,
    hosts: Vec<Both>,
    clients: BTreeMap<Address, Client>,
    flying: Vec<Flying>,
    ledger: Ledger,
    /// How often each outcome came about.
    pub outcomes: BTreeMap<Outcome, usize>,
    /// How many datagrams arrived damaged.
    pub damaged: usize,
    /// After how many events memory was audited and compared.
    pub looked: usize,
    journal: Vec<Act>,
}

impl World {
    pub fn new(plan: Plan) -> World {
        World::new_in(&mut Vec::new(), plan)
    }

    /// A world whose hosts are in these programs, as far as there are enough of them.
    pub fn new_in(programs: &mut Vec<Library>, plan: Plan) -> World {
        let addresses = &HOSTS[..plan.hosts];
        let look = match plan.look {
            1 => Look::EachTime,
            _ => Look::WhenAsked,
        };
        let mut start = |me: &&[u8]| {
            let program = programs.pop().unwrap_or_else(Library::start);
            let mut both = Both::start_in(program, plan.limits, addresses, me, look);
            both.name = format!("{plan:?}");
            both
        };
        let clients = CLIENTS[..plan.clients].iter();
        World {
            plan,
            draw: Draw::new(plan.seed),
            hosts: addresses.iter().map(&mut start).collect(),
            clients: clients.map(|c| (c.to_vec(), Client::default())).collect(),
            flying: Vec::new(),
            ledger: Ledger::default(),
            outcomes: BTreeMap::new(),
            damaged: 0,
            looked: 0,
            journal: Vec::new(),
        }
    }

    /// The programs of its hosts, for another world.
    pub fn programs(self) -> impl Iterator<Item = Library> {
        let hosts = self.hosts.into_iter();
        hosts.map(|both| both.proved.library.emptied())
    }

    pub fn models(&self) -> Vec<&Host> {
        self.hosts.iter().map(|both| &both.model).collect()
    }

    /// So many steps of one kind or another.
    pub fn run(&mut self, steps: usize) {
        for number in 0..steps {
            self.step();
            if number % 8 == 0 {
                self.check_owners();
            }
        }
        for both in &mut self.hosts {
            both.check();
        }
    }

    /// Where senders are known every key has exactly one owner, at any time.
    pub fn check_owners(&self) {
        if self.plan.senders == Senders::Known {
            if let Err(fault) = owned::check(&self.models()) {
                self.fail(fault);
            }
        }
    }

    /// Ends the test: the hosts do as their models do, but together something is wrong.
    fn fail(&self, fault: String) -> ! {
        let (plan, events) = (&self.plan, self.journal.len());
        let new = self.models().into_iter().map(|model| {
            let host = Host::start(model.limits, &model.hosts, &model.me);
            host.expect("the model starts")
        });
        let script = replay::shortest(&new.collect::<Vec<Host>>(), &self.journal, fault);
        panic!("{plan:?}, event {events}: {script}");
    }

    fn step(&mut self) {
        let host = self.draw.below(self.hosts.len());
        if self.draw.below(100) < self.plan.damage {
            return self.disturb(host);
        }
        match self.draw.below(100) {
            0..=58 if !self.flying.is_empty() => self.deliver(),
            59..=74 => self.process(host),
            75 => self.act(host, Operation::Retransmit),
            76..=79 => self.disturb(host),
            80..=84 => self.turn(host),
            _ => self.ask(host),
        }
    }

    /// Mostly one of the hosts that have something to process does; if none has, that one.
    fn process(&mut self, host: usize) {
        let busy = |host: &usize| self.hosts[*host].model.room.is_some();
        let busy: Vec<usize> = (0..self.hosts.len()).filter(busy).collect();
        let host = match self.draw.below(8) {
            0 => host,
            _ => *busy.get(self.draw.below(busy.len())).unwrap_or(&host),
        };
        self.act(host, Operation::Process);
    }

    /// One of the datagrams that fly, often the oldest, arrives, gets lost, or arrives and flies on.
    fn deliver(&mut self) {
        let any = self.draw.below(self.flying.len());
        let it = if self.draw.below(2) == 0 { 0 } else { any };
        let Flying { from, to, datagram } = self.flying.remove(it);
        match self.draw.below(12) {
            0 => return,
            1 => self.fly(&from, &to, &datagram),
            _ => {}
        }
        self.arrive(&from, &to, datagram);
    }

    fn fly(&mut self, from: &[u8], to: &[u8], datagram: &[u8]) {
        if self.flying.len() == FLYING {
            let lost = self.draw.below(FLYING);
            self.flying.remove(lost);
        }
        self.flying.push(Flying {
            from: from.to_vec(),
            to: to.to_vec(),
            datagram: datagram.to_vec(),
        });
    }

    fn arrive(&mut self, from: &[u8], to: &[u8], datagram: Vec<u8>) {
        let from = from.to_vec();
        match self.hosts.iter().position(|both| both.model.me == to) {
            Some(host) => self.act(host, Operation::Receive { from, datagram }),
            None => {
                // Whoever is sent something has a client that acknowledges it.
                let client = self.clients.entry(to.to_vec()).or_default();
                let sloppy = self.draw.below(12) == 0;
                if let Some(ack) = client.receive(&from, &datagram, sloppy) {
                    self.fly(to, &from, &ack);
                }
            }
        }
    }

    /// The host does that; what it hands out flies.
    fn act(&mut self, host: usize, operation: Operation) {
        let both = &mut self.hosts[host];
        let before = both.model.room.as_ref().map(|letter| letter.body.clone());
        let step = both.play(operation.clone());
        self.journal.push((host, operation));
        if self.journal.len().is_multiple_of(self.plan.look) {
            self.looked += 1;
            if self.plan.look != 1 {
                both.check();
            }
        }
        let me = both.model.me.clone();
        *self.outcomes.entry(step.outcome).or_default() += 1;
        if self.plan.senders == Senders::Known {
            let entered = self.ledger.enter(before, &step);
            entered.unwrap_or_else(|fault| self.fail(fault));
        }
        for Packet { to, bytes } in step.sends {
            self.fly(&me, &to, &bytes);
        }
    }

    /// A client asks the host for something new, or sends again what was not acknowledged.
    fn ask(&mut self, host: usize) {
        let me = self.hosts[host].model.me.clone();
        let from = CLIENTS[self.draw.below(self.plan.clients)];
        let body = match self.draw.below(4) {
            0 => drawn::request(&mut self.draw, &HOSTS[..self.plan.hosts]),
            _ => drawn::possible(&mut self.draw, &self.hosts[host].model),
        };
        let new = 0 < self.draw.below(4);
        let client = self.clients.get_mut(from).expect("a client");
        let datagram = client.ask(&me, body, new);
        self.fly(from, &me, &datagram);
    }

    /// A turn of the host. Only on its turn for receiving it looks at what has arrived.
    fn turn(&mut self, host: usize) {
        let model = &self.hosts[host].model;
        let kind = model.turns % 3;
        let arrived = self.flying.iter().position(|flying| flying.to == model.me);
        let arrived = arrived.map(|i| match kind {
            0 => self.flying.remove(i),
            _ => self.flying[i].clone(),
        });
        let arrived = arrived.map(|it| (it.from, it.datagram));
        self.act(host, Operation::Turn(arrived));
    }
}
