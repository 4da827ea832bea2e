//! What decides who owns the keys of two hosts, so that worlds that agree in it are looked at once: a host's map, the
//! transfers that wait for the other host, what was taken from it last, and a transfer of it in the room.
use super::events::HOSTS;
use super::quick::QuickMap;
use crate::hosts::owned;
use crate::models::host::{Host, Peer};
use crate::models::messages::Body;
use crate::models::owners::Owners;
use std::collections::HashMap;

#[derive(Clone, PartialEq, Eq, Hash)]
struct Holding {
    owners: Owners,
    waiting: Vec<(u64, Body)>,
    received: u64,
    room: Option<Body>,
    me: Vec<u8>,
}

#[derive(Default)]
pub struct Holdings {
    numbers: HashMap<Holding, u32>,
    /// A host with each of them.
    samples: Vec<Host>,
    good: QuickMap<(u32, u32), ()>,
}

impl Holdings {
    pub fn number(&mut self, host: &Host) -> u32 {
        let holding = holding(host);
        if let Some(number) = self.numbers.get(&holding) {
            return *number;
        }
        let number = self.samples.len() as u32;
        self.samples.push(host.clone());
        self.numbers.insert(holding, number);
        number
    }

    /// Has every key exactly one owner, at hosts with these two?
    pub fn check(&mut self, one: u32, other: u32) -> Result<(), String> {
        if self.good.contains_key(&(one, other)) {
            return Ok(());
        }
        let hosts = [one, other].map(|number| &self.samples[number as usize]);
        owned::check(&hosts)?;
        self.good.insert((one, other), ());
        Ok(())
    }
}

fn holding(host: &Host) -> Holding {
    let other = HOSTS.into_iter().find(|other| *other != host.me);
    let other = other.expect("there are two hosts");
    let peer = host.peer(other).expect("a host has a place");
    let room = host.room.as_ref().filter(|letter| letter.from == other);
    Holding {
        owners: host.owners.clone(),
        waiting: transfers(peer),
        received: peer.received,
        room: room.map(|letter| letter.body.clone()),
        me: host.me.clone(),
    }
}

fn transfers(peer: &Peer) -> Vec<(u64, Body)> {
    let waiting = (peer.acknowledged + 1..).zip(&peer.waiting);
    let transfer = |(_, body): &(u64, &Body)| matches!(body, Body::Delegate(..));
    let owned = |(number, body): (u64, &Body)| (number, body.clone());
    waiting.filter(transfer).map(owned).collect()
}
