//! Every script of so many events over two hosts, a client and three keys. A world is the two hosts, the model and the
//! proved host's memory each, with all that they have handed out for each other; any of that may be brought at any
//! later time, often or never, so whatever a network loses, repeats, delays or reorders is among the scripts. A world
//! that is reached twice is followed once.
pub mod alphabet;
pub mod asking;
pub mod events;
pub mod holdings;
pub mod ledger;
pub mod post;
pub mod quick;
pub mod standings;
pub mod steps;
pub mod walk;

use crate::models::host::{Address, Host, Limits, Outcome, ROUND, TRANSFERS};
use alphabet::Alphabet;
use asking::Asking;
use events::HOSTS;
use std::collections::BTreeMap;
use std::fmt::{Display, Formatter};
use steps::Steps;
use walk::Walk;

/// What is walked: the limits of both hosts, their counts of transfers and turns at the start, the alphabet, and how
/// many events a script has.
#[derive(Clone, Copy, Debug)]
pub struct Scripts {
    pub limits: Limits,
    pub counts: (u64, u64),
    pub alphabet: Alphabet,
    pub events: usize,
}

/// Two entries for three keys, two messages that wait, and no place for a peer beside the hosts and one other.
pub const LITTLE: Limits = Limits {
    entries: 2,
    bounds: 3,
    peers: 3,
    waiting: 2,
    address: 3,
    size: 65_536,
    room: 65_536,
};

/// The least of each that two hosts and a client can do something with.
pub const LEAST: Limits = Limits {
    entries: 1,
    bounds: 2,
    waiting: 1,
    ..LITTLE
};

/// The counts of a host that was just started.
pub const NEW: (u64, u64) = (1, 0);

/// One more transfer is processed, and on the second turn all that waits is sent again.
pub const LATE: (u64, u64) = (TRANSFERS - 1, ROUND - 2);

pub struct Covered {
    pub events: usize,
    pub worlds: usize,
    pub hosts: usize,
    pub asked: usize,
    pub scripts: u128,
    pub outcomes: BTreeMap<Outcome, usize>,
}

impl Display for Covered {
    fn fmt(&self, f: &mut Formatter<'_>) -> std::fmt::Result {
        let Covered { events, worlds, .. } = self;
        writeln!(f, "{} scripts of exactly {events} events", self.scripts)?;
        writeln!(f, "{worlds} distinct worlds before the last event")?;
        writeln!(f, "{} distinct hosts", self.hosts)?;
        writeln!(f, "{} pairs of a host and an operation asked", self.asked)?;
        write!(f, "{:?}", self.outcomes)
    }
}

/// Walks all of it, telling of each event what was reached. A failure ends it, with a shortest script.
pub fn walk(scripts: Scripts, mut tell: impl FnMut(&Walk)) -> Covered {
    let mut walk = start(scripts);
    for event in 1..=scripts.events {
        if let Err(fault) = walk.level(event == scripts.events) {
            panic!("{scripts:?}: {fault}");
        }
        tell(&walk);
    }
    Covered {
        events: scripts.events,
        worlds: walk.worlds.len(),
        hosts: walk.steps.standings.len(),
        asked: walk.steps.asked,
        scripts: walk.scripts(),
        outcomes: walk.steps.outcomes,
    }
}

fn start(scripts: Scripts) -> Walk {
    let asking = Asking::new(scripts.limits, scripts.alphabet.room());
    let mut steps = Steps::new(asking, [0, 1].map(|side| scripts.alphabet.events(side)));
    let list: Vec<Address> = HOSTS.map(<[u8]>::to_vec).to_vec();
    let hosts = [0, 1].map(|side| {
        let me = HOSTS[side];
        let memory = steps.asking.start(&list, me, scripts.counts);
        let mut model = Host::start(scripts.limits, &list, me).expect("the model starts");
        (model.transfers, model.turns) = scripts.counts;
        steps
            .standings
            .keep((side, (side as u32, 0)), model, &memory, &[])
    });
    Walk::new(steps, hosts)
}
