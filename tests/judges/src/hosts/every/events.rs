//! What can happen at one of two hosts, as a small alphabet. Each event is in it for a row of document 01's table or an
//! outcome that nothing else brings about.
use super::standings::Standing;
use crate::hosts::operation::Operation;
use crate::messages::samples::message;
use crate::models::host::Host;
use crate::models::messages::{written, Body, Datagram};

pub const HOSTS: [&[u8]; 2] = [b"a:1", b"b:2"];
pub const CLIENT: &[u8] = b"k:1";
const STRANGER: &[u8] = b"x:1";

/// The first key there is, one between, and the last, which is not the end.
pub const KEYS: [u64; 3] = [0, 7, u64::MAX];

#[derive(Clone, Debug)]
pub enum Event {
    /// The client's request with the next number arrives.
    Asks(Body),
    /// The last request that was taken from the client arrives once more: acknowledged, and not taken again.
    AsksAgain,
    /// A request of the client arrives before the one that comes first.
    AsksAhead,
    /// The client acknowledges the first message that waits for it, or once more the last that it had.
    Acks,
    /// The client acknowledges the largest number: after that there is none for an answer to it.
    AcksAll,
    /// A request that lacks its last byte.
    Damaged,
    /// The client's next request, but for the other host.
    Astray,
    /// A request of somebody else, who needs a place among the peers.
    StrangerAsks(Body),
    Process,
    Retransmit,
    /// A turn, on which the client's next request has arrived; it is looked at if it is the turn for receiving.
    TurnAsks(Body),
}

impl Event {
    /// What it is at a host that stands so, if it can happen there.
    pub fn operation(&self, standing: &Standing) -> Option<Operation> {
        let host = &standing.model;
        let receive = |from: &[u8], datagram: Vec<u8>| {
            let from = from.to_vec();
            Some(Operation::Receive { from, datagram })
        };
        match self {
            Event::Asks(body) => receive(CLIENT, next(host, CLIENT, body)),
            Event::AsksAgain => {
                let last = standing.last_request();
                (!last.is_empty()).then(|| receive(CLIENT, last.to_vec()))?
            }
            Event::AsksAhead => {
                let number = received(host, CLIENT) + 2;
                let ahead = message(number, &host.me, Body::Get(KEYS[1]));
                receive(CLIENT, written(&ahead))
            }
            Event::Acks => receive(CLIENT, written(&Datagram::Ack(awaited(host)?))),
            Event::AcksAll => receive(CLIENT, written(&Datagram::Ack(u64::MAX))),
            Event::Damaged => {
                let mut datagram = next(host, CLIENT, &Body::Get(KEYS[1]));
                datagram.pop();
                receive(CLIENT, datagram)
            }
            Event::Astray => {
                let other = HOSTS[1 - standing.side];
                let number = received(host, CLIENT) + 1;
                receive(CLIENT, written(&message(number, other, Body::Get(KEYS[1]))))
            }
            Event::StrangerAsks(body) => receive(STRANGER, next(host, STRANGER, body)),
            Event::Process => Some(Operation::Process),
            Event::Retransmit => Some(Operation::Retransmit),
            Event::TurnAsks(body) => {
                let arrived = (CLIENT.to_vec(), next(host, CLIENT, body));
                Some(Operation::Turn(Some(arrived)))
            }
        }
    }
}

fn received(host: &Host, from: &[u8]) -> u64 {
    host.peer(from).map_or(0, |peer| peer.received)
}

/// The message that the host takes next from there.
fn next(host: &Host, from: &[u8], body: &Body) -> Vec<u8> {
    let number = received(host, from) + 1;
    written(&message(number, &host.me, body.clone()))
}

/// The number of the first message that waits for the client, or of the last that it has acknowledged.
fn awaited(host: &Host) -> Option<u64> {
    let client = host.peer(CLIENT)?;
    let waits = u64::from(!client.waiting.is_empty());
    Some(client.acknowledged + waits)
}
