//! The alphabets of events that scripts are made of.
use super::events::{Event, HOSTS, KEYS};
use crate::models::messages::Body;

/// No value, and two that differ.
pub const VALUES: [Option<&[u8]>; 3] = [None, Some(b"x"), Some(b"y")];

/// A value of so many bytes is too long.
const LONG: usize = 1024;

#[derive(Clone, Copy, Debug, PartialEq, Eq)]
pub enum Alphabet {
    /// What moves values and keys, and what a bad network brings.
    Small,
    /// That, and all else by which a host can be led to any row of document 01's table and to any outcome.
    Whole,
}

impl Alphabet {
    /// The events at that one of the two hosts.
    pub fn events(self, side: usize) -> Vec<Event> {
        let mut events = small(HOSTS[1 - side]);
        if self == Alphabet::Whole {
            events.extend(more());
        }
        events
    }

    /// So many bytes of the room are in use at most.
    pub fn room(self) -> usize {
        match self {
            Alphabet::Small => 128,
            Alphabet::Whole => 64 + LONG,
        }
    }
}

fn set(key: u64, value: usize) -> Event {
    Event::Asks(Body::Set(key, VALUES[value].map(<[u8]>::to_vec)))
}

fn shard(lo: u64, hi: Option<u64>, to: &[u8]) -> Event {
    Event::Asks(Body::Shard(Some(lo), hi, to.to_vec()))
}

fn small(other: &[u8]) -> Vec<Event> {
    let [first, middle, last] = KEYS;
    let mut events = Vec::new();
    // Reply, Redirect, and the third Set finds the table full.
    for key in KEYS {
        events.push(Event::Asks(Body::Get(key)));
        events.push(set(key, 1));
        events.push(set(key, 0));
    }
    events.extend([
        // Another value, so that one which came back from the past shows.
        set(middle, 2),
        // Ranges up to the last key and up to the end, which differ in that key; and what is left of them. Once some of
        // it is the other host's they are dropped.
        shard(middle, Some(last), other),
        shard(middle, None, other),
        shard(first, Some(middle), other),
        // Again and Stale, Future, Arrived, Invalid and Elsewhere.
        Event::AsksAgain,
        Event::AsksAhead,
        Event::Acks,
        Event::Damaged,
        Event::Astray,
        Event::Process,
        Event::Retransmit,
    ]);
    events
}

fn more() -> Vec<Event> {
    let [first, middle, _] = KEYS;
    vec![
        // Rows that drop: a value that is too long, a Shard to nobody, what only hosts send.
        Event::Asks(Body::Set(middle, Some(vec![7; LONG]))),
        shard(first, None, b"x:1"),
        Event::Asks(Body::Delegate(Some(middle), None, Vec::new())),
        Event::Asks(Body::Reply(middle, None)),
        // Unnumbered.
        Event::AcksAll,
        // One peer too many, whoever of the two comes first.
        Event::StrangerAsks(Body::Get(middle)),
        // Waits; and each kind of step on its turn.
        Event::TurnAsks(Body::Get(middle)),
    ]
}
