//! Why no host was started.
use crate::limits::{Limits, LEAST_DATAGRAM};
use std::error::Error;
use std::fmt::{Display, Formatter, Result};

/// Why no host was started. Nothing has happened then.
#[derive(Clone, Copy, Debug, PartialEq, Eq, Hash)]
#[non_exhaustive]
pub enum Refusal {
    /// The limits ask for more bytes than can be counted.
    Overflow,
    /// There is not so much memory.
    Memory,
    /// Datagrams are limited to fewer than 65,536 bytes.
    Datagram,
    /// The map may have no bound.
    NoBounds,
    /// No message may wait.
    NoWaiting,
    /// There are fewer places for peers than hosts on the list.
    FewPeers,
    /// The list has no host.
    NoHosts,
    /// Two hosts on the list have the same address: those in these places, from 0 on.
    Equal(usize, usize),
    /// The address in this place of the list, from 0 on, has too many bytes for these limits.
    Long(usize),
    /// The own address is not on the list.
    Unlisted,
    /// The proved code has refused, with this answer, for a reason that is not known here. Does not happen.
    Unknown(u64),
    /// The program in which the proved code runs does not start or has ended. Only where the machine cannot run the
    /// proved code itself.
    Gone,
}

impl Refusal {
    /// Why the proved code has refused.
    pub(crate) fn explained(answer: u64, limits: &Limits, hosts: &[&[u8]], me: &[u8]) -> Refusal {
        let long = |host: &&[u8]| limits.address() < host.len();
        if limits.datagram < LEAST_DATAGRAM {
            Refusal::Datagram
        } else if limits.bounds == 0 {
            Refusal::NoBounds
        } else if limits.waiting == 0 {
            Refusal::NoWaiting
        } else if hosts.is_empty() {
            Refusal::NoHosts
        } else if limits.peers < hosts.len() {
            Refusal::FewPeers
        } else if let Some(place) = hosts.iter().position(long) {
            Refusal::Long(place)
        } else if let Some((one, two)) = equal(hosts) {
            Refusal::Equal(one, two)
        } else if !hosts.contains(&me) {
            Refusal::Unlisted
        } else {
            Refusal::Unknown(answer)
        }
    }
}

/// The places of two equal addresses.
fn equal(hosts: &[&[u8]]) -> Option<(usize, usize)> {
    let earlier = |place: usize| hosts[..place].iter().position(|host| *host == hosts[place]);
    (0..hosts.len()).find_map(|place| earlier(place).map(|first| (first, place)))
}

impl Display for Refusal {
    fn fmt(&self, f: &mut Formatter<'_>) -> Result {
        let text = match self {
            Refusal::Overflow => "the limits ask for more bytes than can be counted",
            Refusal::Memory => "there is not so much memory as the limits ask for",
            Refusal::Datagram => "datagrams are limited to fewer than 65,536 bytes",
            Refusal::NoBounds => "the map may have no bound",
            Refusal::NoWaiting => "no message may wait",
            Refusal::FewPeers => "there are fewer places for peers than hosts on the list",
            Refusal::NoHosts => "the list has no host",
            Refusal::Unlisted => "the own address is not on the list",
            Refusal::Gone => "the program that has the proved code does not answer",
            Refusal::Equal(one, two) => {
                return write!(f, "hosts {one} and {two} of the list have the same address");
            }
            Refusal::Long(place) => {
                return write!(f, "the address of host {place} of the list is too long");
            }
            Refusal::Unknown(answer) => {
                return write!(f, "the proved code has refused with the answer {answer}");
            }
        };
        f.write_str(text)
    }
}

impl Error for Refusal {}
