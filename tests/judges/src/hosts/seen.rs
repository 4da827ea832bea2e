//! What can be seen of a host, read from memory or from the model, and where two differ.
use super::lent::{Lent, LENGTH, SENDER, TURNS, WORDS};
use super::words::Words;
use crate::library::Memory;
use crate::messages::hex;
use crate::models::host::{Address, Host, Peer};

#[derive(Clone, Debug, PartialEq, Eq)]
pub struct Seen {
    /// The words of `Numbers` up to the count of turns; while the room is free the sender is 0.
    pub numbers: Vec<u64>,
    /// The map's bounds, each with its owner.
    pub owners: Vec<(u64, Address)>,
    pub records: Vec<(u64, Vec<u8>)>,
    pub peers: Vec<SeenPeer>,
    pub room: Vec<u8>,
}

#[derive(Clone, Debug, PartialEq, Eq)]
pub struct SeenPeer {
    pub address: Address,
    /// The number of the last message taken, how many are acknowledged, the number of the last sent.
    pub counts: [u64; WORDS],
    /// The numbers of the messages that wait, rising, and the datagrams.
    pub waiting: Vec<(u64, Vec<u8>)>,
}

/// Is a part of what is seen the same, what is it called, and how is it printed?
type Part = (bool, &'static str, fn(&Seen) -> String);

impl Seen {
    /// Where this one, which was found, differs from the other first.
    pub fn difference(&self, want: &Seen) -> Option<String> {
        let parts: [Part; 5] = [
            (self.numbers == want.numbers, "numbers", |seen| {
                format!("{:?}", seen.numbers)
            }),
            (self.owners == want.owners, "bounds", |seen| {
                format!("{:?}", seen.owners)
            }),
            (self.records == want.records, "entries", |seen| {
                values(&seen.records)
            }),
            (self.peers == want.peers, "peers", |seen| peers(&seen.peers)),
            (self.room == want.room, "room", |seen| hex(&seen.room)),
        ];
        let (_, what, shown) = parts.into_iter().find(|(same, ..)| !same)?;
        Some(format!(
            "{what}: {}\ninstead of: {}",
            shown(self),
            shown(want)
        ))
    }

    pub fn of_model(host: &Host) -> Seen {
        let sender = |from: &Address| place(host.peers.iter().map(|peer| &peer.address), from);
        let room = host.room.as_ref();
        let numbers = [
            place(host.hosts.iter(), &host.me),
            host.hosts.len() as u64,
            host.peers.len() as u64,
            host.limits.address as u64,
            host.limits.size as u64,
            host.owners.bounds().len() as u64,
            host.records.len() as u64,
            room.map_or(0, |letter| letter.datagram.len() as u64),
            room.map_or(0, |letter| sender(&letter.from)),
            host.transfers,
            host.turns,
        ];
        Seen {
            numbers: numbers.to_vec(),
            owners: host.owners.bounds(),
            records: host.records.clone().into_iter().collect(),
            peers: host.peers.iter().map(SeenPeer::of_model).collect(),
            room: room.map_or(Vec::new(), |letter| letter.datagram.clone()),
        }
    }

    /// Reads memory that keeps a host. An error is memory that keeps none.
    pub fn of_memory(memory: &mut impl Memory, lent: &Lent) -> Result<Seen, String> {
        let words = Words::read(memory, lent);
        let parts = words.parts(lent)?;
        let mut bytes = memory.read(&parts).into_iter();
        let mut next = || bytes.next().expect("bytes for each part");
        let records = words.keys.iter().map(|key| (*key, next())).collect();
        let mut seats: Vec<SeenPeer> = (0..words.peers()).map(|i| words.peer(i)).collect();
        for place in words.taken() {
            let waiting = &mut seats[place[0] as usize - 1].waiting;
            waiting.push((place[1], next()));
        }
        for seat in &mut seats {
            seat.waiting.sort();
        }
        let owner = |i: &u64| seats.get(*i as usize).map(|seat| seat.address.clone());
        let owners: Option<Vec<Address>> = words.owners.iter().map(owner).collect();
        let owners = owners.ok_or("an owner that is no peer")?;
        let mut numbers = words.numbers[..=TURNS].to_vec();
        if numbers[LENGTH] == 0 {
            numbers[SENDER] = 0;
        }
        Ok(Seen {
            numbers,
            owners: words.lows.iter().copied().zip(owners).collect(),
            records,
            peers: seats,
            room: next(),
        })
    }
}

impl SeenPeer {
    fn of_model(peer: &Peer) -> SeenPeer {
        let bytes = peer.packets().into_iter().map(|packet| packet.bytes);
        SeenPeer {
            address: peer.address.clone(),
            counts: [peer.received, peer.acknowledged, peer.last()],
            waiting: (1..)
                .zip(bytes)
                .map(|(i, bytes)| (peer.acknowledged + i, bytes))
                .collect(),
        }
    }
}

fn place<'a>(mut addresses: impl Iterator<Item = &'a Address>, address: &Address) -> u64 {
    let place = addresses.position(|other| other == address);
    place.expect("an address that has a place") as u64
}

fn values(records: &[(u64, Vec<u8>)]) -> String {
    let entry = |(key, value): &(u64, Vec<u8>)| format!("{key}: {}", hex(value));
    records
        .iter()
        .map(entry)
        .collect::<Vec<String>>()
        .join(", ")
}

fn peers(peers: &[SeenPeer]) -> String {
    let peer = |peer: &SeenPeer| {
        let counts = format!(
            "{:?} {:?}",
            peer.address.escape_ascii().to_string(),
            peer.counts
        );
        format!("{counts} {}", values(&peer.waiting))
    };
    peers.iter().map(peer).collect::<Vec<String>>().join("; ")
}
