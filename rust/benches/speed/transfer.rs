//! A range of 61 records goes from one host to another and back, and each of the four steps is timed by itself.
use crate::served::Served;
use crate::setting::{address, key, message, number, VALUE};
use crate::watch::parts;
use std::time::Instant;
use tagshards::wire::{write, Body, Datagram};
use tagshards::{Limits, Outcome};

pub const STEPS: [&str; 4] = [
    "receive the Shard",
    "process the Shard",
    "receive the Delegate",
    "process the Delegate",
];

const MOVED: u64 = 61;

struct Pair<H> {
    hosts: [H; 2],
    /// The numbers of the client's last message to each host, and of each host's last to the client and to the other.
    sent: [u64; 2],
    answered: [u64; 2],
    handed: [u64; 2],
    client: Vec<u8>,
}

/// The mean nanoseconds of each step over so many transfers, between two hosts that keep so many records each. A
/// stretch is one there and one back.
pub fn transfers<H: Served>(records: u64, many: u64) -> [f64; 4] {
    let mut pair = Pair::<H>::new(records);
    let range = (Some(0), Some(key(MOVED)));
    let sums = parts(many / 2, || {
        let there = pair.hand_over(0, range);
        let back = pair.hand_over(1, range);
        [0, 1, 2, 3].map(|step| there[step] + back[step])
    });
    assert_eq!(pair.hosts[0].counts()[0], records);
    sums.map(|sum| sum as f64 / many as f64)
}

impl<H: Served> Pair<H> {
    /// The second host gets the upper half of the keys that there are records for.
    fn new(records: u64) -> Pair<H> {
        let names = [address(0), address(1)];
        let list = [&names[0][..], &names[1]];
        let limits = Limits {
            entries: (records + MOVED) as usize,
            ..Limits::default()
        };
        let start = |me| H::start(limits, &list, me);
        let mut pair = Pair {
            hosts: [start(list[0]), start(list[1])],
            sent: [0; 2],
            answered: [0; 2],
            handed: [0; 2],
            client: address(2),
        };
        pair.hand_over(0, (Some(key(records)), None));
        for i in 0..2 * records {
            pair.set((i / records) as usize, key(i));
        }
        pair
    }

    fn ask(&mut self, host: usize, body: Body) -> Vec<u8> {
        self.sent[host] += 1;
        let mut asked = message(host as u64, body);
        number(&mut asked, self.sent[host]);
        asked
    }

    fn set(&mut self, host: usize, key: u64) {
        let value = Some(vec![key as u8; VALUE]);
        let set = self.ask(host, Body::Set { key, value });
        assert_eq!(self.hosts[host].receive(&self.client, &set), Outcome::Taken);
        assert_eq!(self.hosts[host].process(), Outcome::Replied);
        self.answered[host] += 1;
        let client = self.client.clone();
        self.acknowledge(host, &client, self.answered[host]);
    }

    fn acknowledge(&mut self, host: usize, from: &[u8], number: u64) {
        let ack = write(&Datagram::Ack(number)).expect("an Ack");
        assert_eq!(self.hosts[host].receive(from, &ack), Outcome::Arrived);
    }

    /// Hands a range of one host over to the other. Answers how many nanoseconds each step took.
    fn hand_over(&mut self, giver: usize, (lo, hi): (Option<u64>, Option<u64>)) -> [u64; 4] {
        let taker = 1 - giver;
        let (me, to) = (address(giver as u64), address(taker as u64));
        let shard = Body::Shard {
            lo,
            hi,
            to: to.clone(),
        };
        let shard = self.ask(giver, shard);
        let given = &mut self.hosts[giver];
        let first = timed(|| given.receive(&self.client, &shard), Outcome::Taken);
        let second = timed(|| given.process(), Outcome::Handed);
        let delegate = given.sent().expect("a Delegate").1.to_vec();
        let taken = &mut self.hosts[taker];
        let third = timed(|| taken.receive(&me, &delegate), Outcome::Taken);
        let fourth = timed(|| taken.process(), Outcome::Accepted);
        self.handed[giver] += 1;
        self.acknowledge(giver, &to, self.handed[giver]);
        [first, second, third, fourth]
    }
}

fn timed(mut step: impl FnMut() -> Outcome, wanted: Outcome) -> u64 {
    let start = Instant::now();
    let outcome = step();
    let time = start.elapsed();
    assert_eq!(outcome, wanted);
    time.as_nanos() as u64
}
