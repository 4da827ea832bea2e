//! Before anything is measured: both hosts are given the same datagrams, good and bad, and each step must have the same
//! outcome and hand out the same bytes.
use crate::draw::Draw;
use crate::plain::Plain;
use crate::served::Served;
use std::collections::{BTreeMap, BTreeSet};
use tagshards::wire::{write, Body, Datagram};
use tagshards::{Host, Limits, Outcome};

const HOSTS: [&[u8]; 3] = [b"10.0.0.1:7000", b"10.0.0.2:7000", b"10.0.0.3:7000"];
const PEERS: [&[u8]; 7] = [
    HOSTS[0], HOSTS[1], HOSTS[2], b"k:1", b"k:2", b"k:3", b"mute",
];
const KEYS: u64 = 400;

/// Every outcome of a receive and of a process, but for the one that the count of transfers has at its limit.
const OUTCOMES: [Outcome; 16] = [
    Outcome::Full,
    Outcome::Invalid,
    Outcome::Elsewhere,
    Outcome::Taken,
    Outcome::Unreceived,
    Outcome::Again,
    Outcome::Future,
    Outcome::Arrived,
    Outcome::Stale,
    Outcome::Idle,
    Outcome::Replied,
    Outcome::Redirected,
    Outcome::Dropped,
    Outcome::Unnumbered,
    Outcome::Accepted,
    Outcome::Handed,
];

struct Both {
    proved: Host,
    plain: Plain,
    draw: Draw,
    /// The last number that was taken from each peer, and the last that was sent to it.
    taken: BTreeMap<&'static [u8], u64>,
    answered: BTreeMap<Vec<u8>, u64>,
    seen: BTreeSet<Outcome>,
}

/// Some thousand steps under limits that are soon reached, and under those of the benchmark. Answers how many.
pub fn agree() -> u64 {
    let few = |entries, bounds| Limits {
        entries,
        bounds,
        peers: 6,
        waiting: 5,
        ..Limits::default()
    };
    let limits = [few(90, 12), few(12, 5), few(64, 4), Limits::default()];
    let mut seen = BTreeSet::new();
    let mut steps = 0;
    for (seed, limits) in (1..).zip(limits) {
        let mut both = Both::new(limits, seed);
        for _ in 0..20_000 {
            both.step();
            steps += 1;
        }
        seen.extend(both.seen);
    }
    for outcome in OUTCOMES {
        assert!(seen.contains(&outcome), "no step had the outcome {outcome}");
    }
    steps
}

impl Both {
    fn new(limits: Limits, seed: u64) -> Both {
        Both {
            proved: Served::start(limits, &HOSTS, HOSTS[0]),
            plain: Served::start(limits, &HOSTS, HOSTS[0]),
            draw: Draw::new(seed),
            taken: BTreeMap::new(),
            answered: BTreeMap::new(),
            seen: BTreeSet::new(),
        }
    }

    fn step(&mut self) {
        let from = *self.draw.of(&PEERS);
        match self.draw.below(20) {
            0..=6 => self.process(),
            7..=12 => self.bring(from),
            13..=17 => self.acknowledge(from),
            18 => self.disturb(from),
            _ => {
                let noise: Vec<u8> = (0..9).map(|_| self.draw.below(3) as u8).collect();
                self.receive(from, &noise);
            }
        }
    }

    fn same(&mut self, outcomes: [Outcome; 2]) -> Outcome {
        let [proved, plain] = outcomes;
        assert_eq!(proved, plain);
        assert!(self.proved.sends().count() <= 1, "after {proved}");
        assert_eq!(self.proved.sent(), self.plain.sent(), "after {proved}");
        assert_eq!(self.proved.counts(), self.plain.counts(), "after {proved}");
        self.seen.insert(proved);
        proved
    }

    fn process(&mut self) {
        let outcomes = [self.proved.process(), self.plain.process()];
        self.same(outcomes);
        if let Some((to, _)) = self.proved.sent() {
            *self.answered.entry(to.to_vec()).or_default() += 1;
        }
    }

    fn receive(&mut self, from: &[u8], datagram: &[u8]) -> Outcome {
        let outcomes = [
            self.proved.receive(from, datagram),
            self.plain.receive(from, datagram),
        ];
        self.same(outcomes)
    }

    /// The next message of the peer, or sometimes one before or after it.
    fn bring(&mut self, from: &'static [u8]) {
        let next = self.taken.get(from).copied().unwrap_or_default() + 1;
        let number = match self.draw.below(16) {
            0 => self.draw.below(next),
            1 => next + 1 + self.draw.below(3),
            _ => next,
        };
        let to = if self.draw.percent(97) {
            HOSTS[0]
        } else {
            PEERS[3]
        };
        let (to, body) = (to.to_vec(), self.body(from));
        let message = Datagram::Message { number, to, body };
        let bytes = write(&message).expect("a message");
        if self.receive(from, &bytes) == Outcome::Taken {
            self.taken.insert(from, number);
        }
    }

    fn acknowledge(&mut self, from: &[u8]) {
        let last = self.answered.get(from).copied().unwrap_or_default();
        let ack = Datagram::Ack(last.saturating_sub(self.draw.below(3)));
        self.receive(from, &write(&ack).expect("an Ack"));
    }

    /// The mute peer has acknowledged every number, so there is none left for it. Others send bytes that are cut short.
    fn disturb(&mut self, from: &[u8]) {
        if from == PEERS[6] {
            self.receive(from, &write(&Datagram::Ack(u64::MAX)).expect("an Ack"));
        } else {
            self.receive(from, &[0; 40][..from.len()]);
        }
    }

    fn body(&mut self, from: &[u8]) -> Body {
        let key = self.draw.below(KEYS);
        let (lo, hi) = (Some(key), self.end(key));
        let host = HOSTS.contains(&from);
        match self.draw.below(20) {
            0..=4 => Body::Get { key },
            5..=11 => Body::Set {
                key,
                value: self.value(),
            },
            12 => Body::Reply { key, value: None },
            13 => Body::Redirect {
                key,
                to: from.to_vec(),
            },
            14..=15 if !host => Body::Get { key },
            14..=17 if host => Body::Delegate {
                lo,
                hi,
                entries: self.entries(key),
            },
            _ => Body::Shard {
                lo,
                hi,
                to: self.draw.of(&PEERS).to_vec(),
            },
        }
    }

    fn end(&mut self, key: u64) -> Option<u64> {
        match self.draw.below(8) {
            0 => None,
            _ => Some(key + self.draw.below(60)),
        }
    }

    fn value(&mut self) -> Option<Vec<u8>> {
        let byte = self.draw.number() as u8;
        match self.draw.below(10) {
            0 => None,
            1 => Some(vec![byte; 1024]),
            2 => Some(vec![byte; 1023]),
            _ => Some(vec![byte; self.draw.below(40) as usize]),
        }
    }

    fn entries(&mut self, key: u64) -> Vec<(u64, Vec<u8>)> {
        let many = [0, 1, 5, 61, 62][self.draw.below(5) as usize];
        let first = key.saturating_sub(self.draw.below(3));
        let value = |i: u64| vec![i as u8; 3 + i as usize];
        (0..many).map(|i| (first + i, value(i))).collect()
    }
}
