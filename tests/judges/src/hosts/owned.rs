//! Does every key have exactly one owner? A key is a host's if its map says so, or is on its way in a transfer that was
//! sent and not yet carried out.
use crate::bound::{holds, Bound};
use crate::models::host::{Address, Host};
use crate::models::messages::{read, Body, Datagram};
use std::collections::BTreeSet;

/// A transfer on its way: the range, and who has sent it to whom.
type Transfer = (Bound, Bound, Address, Address);

/// Every key has exactly one owner; what is on its way counts. An owner can only change at a bound of some map or
/// transfer, so these are the keys to look at.
pub fn check(hosts: &[&Host]) -> Result<(), String> {
    let transfers: Vec<Transfer> = hosts.iter().flat_map(|host| sent(host, hosts)).collect();
    let lows = hosts.iter().flat_map(|host| host.owners.bounds());
    let mut keys: BTreeSet<u64> = lows.map(|(low, _)| low).collect();
    for (lo, hi, ..) in &transfers {
        keys.extend([lo, hi].into_iter().filter_map(|bound| match bound {
            Bound::Key(key) => Some(*key),
            Bound::End => None,
        }));
    }
    keys.into_iter().try_for_each(|key| {
        let mine = |host: &&&Host| host.owners.of(key) == &host.me;
        let owners: Vec<String> = (hosts.iter().filter(mine))
            .map(|host| host.me.escape_ascii().to_string())
            .chain(way(&transfers, key))
            .collect();
        match owners.len() {
            1 => Ok(()),
            _ => Err(format!("the owners of {key}: {owners:?}")),
        }
    })
}

/// The transfers on their way that have the key.
fn way(transfers: &[Transfer], key: u64) -> impl Iterator<Item = String> + '_ {
    let with = transfers.iter().filter(move |it| holds(it.0, it.1, key));
    with.map(|(_, _, from, to)| {
        let (from, to) = (from.escape_ascii(), to.escape_ascii());
        format!("on the way from {from} to {to}")
    })
}

/// How many transfers are on their way.
pub fn on_the_way(hosts: &[&Host]) -> usize {
    hosts.iter().map(|host| sent(host, hosts).len()).sum()
}

/// The transfers that the host has sent and that the recipient has not taken, or has not processed yet.
fn sent(host: &Host, hosts: &[&Host]) -> Vec<Transfer> {
    let mut transfers = Vec::new();
    for peer in &host.peers {
        let recipient = hosts.iter().find(|other| other.me == peer.address);
        let Some(recipient) = recipient else {
            continue;
        };
        let taken = recipient.peer(&host.me).map_or(0, |known| known.received);
        let waiting = (1..).zip(&peer.waiting);
        let new = waiting.filter(|(i, _)| taken < peer.acknowledged + i);
        let room = recipient
            .room
            .iter()
            .filter(|letter| letter.from == host.me);
        let bodies = new
            .map(|(_, body)| body)
            .chain(room.map(|letter| &letter.body));
        for body in bodies {
            if let Body::Delegate(lo, hi, _) = body {
                let (from, to) = (host.me.clone(), peer.address.clone());
                transfers.push(((*lo).into(), (*hi).into(), from, to));
            }
        }
    }
    transfers
}

/// The body of a message, if the bytes are one.
pub fn body(bytes: &[u8]) -> Option<Body> {
    match read(bytes)? {
        Datagram::Message { body, .. } => Some(body),
        Datagram::Ack(_) => None,
    }
}
