//! One run at the size that document 01, section 6, asks for: 3,000 entries, 4,000 bounds, 64 peers and 256 waiting
//! messages of full size, all of them full at once.
use crate::{delegate, number, sent, set, shard, A, B, C, K};
use judges::hosts::both::{Both, Look};
use judges::messages::samples::message;
use judges::models::host::{Limits, Outcome, Outcome::*};
use judges::models::messages::{written, Body, Datagram};

const LARGE: Limits = Limits {
    entries: 3_000,
    bounds: 4_000,
    peers: 64,
    waiting: 256,
    address: 16,
    size: 65_536,
    room: 65_536,
};

/// The ranges that are handed on are so wide, and lie from here on.
const WIDE: u64 = 1_000;
const HIGH: u64 = 1 << 40;

struct Run {
    both: Both,
}

impl Run {
    /// The host B, which owns nothing at first.
    fn new() -> Run {
        let mut both = Both::start(LARGE, &[A, B, C], B, Look::WhenAsked);
        both.name = "the large run".to_string();
        Run { both }
    }

    fn receive(&mut self, from: &[u8], body: Body) -> Outcome {
        let last = self.both.model.peer(from).map_or(0, |peer| peer.received);
        let datagram = written(&message(last + 1, B, body));
        self.both.receive(from, &datagram).outcome
    }

    fn ask(&mut self, from: &[u8], body: Body) -> Outcome {
        assert_eq!(self.receive(from, body), Taken);
        self.both.process().outcome
    }

    fn ack(&mut self, from: &[u8], number: u64) -> Outcome {
        let datagram = written(&Datagram::Ack(number));
        self.both.receive(from, &datagram).outcome
    }

    fn waiting(&self) -> usize {
        let peers = self.both.model.peers.iter();
        peers.map(|peer| peer.waiting.len()).sum()
    }

    /// 256 transfers of 61 entries of 1,023 bytes: each is taken from A and handed on to C, who acknowledges nothing.
    fn fill_waiting(&mut self) {
        for i in 0..LARGE.waiting as u64 {
            let lo = HIGH + 2 * i * WIDE;
            let hi = Some(lo + WIDE);
            let transfer = delegate(lo, hi, lo..lo + 61, 1023);
            assert_eq!(self.ask(A, transfer.clone()), Accepted);
            assert_eq!(self.receive(K, shard(lo, hi, C)), Taken);
            let step = self.both.process();
            assert_eq!(step.outcome, Handed);
            assert_eq!(sent(&step), (C.to_vec(), i + 1, transfer));
            assert_eq!(step.sends[0].bytes.len(), 63_423 + C.len());
        }
        assert_eq!(self.waiting(), LARGE.waiting);
        assert_eq!(self.receive(K, Body::Get(5)), Unreceived);
        self.both.check();
    }

    /// Transfers of two entries each, in ranges that do not touch, until there is one entry short of all.
    fn fill_table_and_map(&mut self) {
        let bounds = |run: &Run| run.both.model.owners.bounds().len();
        let mut lo = 0;
        while bounds(self) + 2 < LARGE.bounds {
            let left = LARGE.entries - 1 - self.both.model.records.len();
            let keys = lo + 1..lo + 1 + left.min(2) as u64;
            let len = lo as usize % 1024;
            assert_eq!(self.ask(A, delegate(lo, Some(lo + 5), keys, len)), Accepted);
            lo += 10;
        }
        // The rest is A's up to the end: a bound there, and the last entry.
        assert!(lo < HIGH);
        let top = delegate(u64::MAX, None, [u64::MAX], 1023);
        assert_eq!(self.ask(A, top), Accepted);
        while bounds(self) < LARGE.bounds {
            let next = delegate(HIGH - 1, Some(HIGH), [], 0);
            assert_eq!(self.ask(A, next), Accepted);
        }
        assert_eq!(bounds(self), LARGE.bounds);
        assert_eq!(self.both.model.records.len(), LARGE.entries);
        self.both.check();
    }

    /// Strangers get a place with a message that needs nothing else.
    fn fill_peers(&mut self) {
        let mut many = 0;
        while self.both.model.peers.len() < LARGE.peers {
            let from = format!("stranger {many}");
            assert_eq!(self.ask(from.as_bytes(), Body::Reply(5, None)), Dropped);
            many += 1;
        }
        self.both.check();
    }

    /// Everything is full: one more of each is not received, and what needs nothing more is.
    fn one_over(&mut self) {
        assert_eq!(self.receive(b"one more", Body::Reply(5, None)), Unreceived);
        assert_eq!(self.receive(K, Body::Get(1)), Unreceived);
        assert_eq!(self.receive(K, set(1, b"x")), Unreceived);
        assert_eq!(self.receive(K, shard(0, Some(1), C)), Unreceived);
        assert_eq!(self.receive(A, delegate(7, Some(8), [], 0)), Unreceived);
        assert_eq!(self.receive(A, delegate(0, Some(5), 0..3, 1)), Unreceived);
        assert_eq!(self.ask(A, delegate(0, Some(5), 0..2, 9)), Accepted);
        assert_eq!(self.ask(K, Body::Reply(5, None)), Dropped);
        self.both.check();
    }

    /// All 256 messages are sent again, in order.
    fn send_again(&mut self, first: u64) {
        let step = self.both.retransmit();
        let numbers = step.sends.iter().map(|packet| number(&packet.bytes));
        assert!(numbers.eq(first..=LARGE.waiting as u64));
    }

    /// C acknowledges: some one by one, many at once, and the rest.
    fn acknowledge(&mut self) {
        for number in [1, 2, 3, 130, 129, 255] {
            let new = if number == 129 { Stale } else { Arrived };
            assert_eq!(self.ack(C, number), new);
            if new == Arrived {
                self.send_again(number + 1);
            }
        }
        assert_eq!(self.waiting(), 1);
        assert_eq!(self.ack(C, 256), Arrived);
        assert!(self.both.retransmit().sends.is_empty());
        self.both.check();
    }

    /// There are places again; the table and the map are still full, and a transfer that empties both is taken.
    fn afterwards(&mut self) {
        assert_eq!(self.ask(K, Body::Get(1)), Replied);
        assert_eq!(self.ask(K, set(2, b"new")), Dropped);
        assert_eq!(self.ask(K, set(1, &[1; 1023])), Replied);
        assert_eq!(self.ask(K, Body::Get(HIGH)), Redirected);
        assert_eq!(self.ask(K, shard(0, None, C)), Dropped);
        assert_eq!(self.receive(A, delegate(7, Some(8), [], 0)), Unreceived);
        assert_eq!(self.ask(A, delegate(0, None, 0..61, 1023)), Accepted);
        assert_eq!(self.both.model.owners.bounds().len(), 1);
        assert_eq!(self.both.model.records.len(), 61);
        assert_eq!(self.ask(K, shard(0, None, C)), Handed);
        self.both.check();
    }
}

#[test]
fn everything_full_at_once() {
    let mut run = Run::new();
    run.fill_waiting();
    run.fill_table_and_map();
    run.fill_peers();
    run.one_over();
    run.send_again(1);
    run.acknowledge();
    run.afterwards();
}
