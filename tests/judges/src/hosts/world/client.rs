//! A client: it numbers its requests to each host, sends them until they are acknowledged, and acknowledges what it is
//! sent.
use crate::messages::samples::message;
use crate::models::messages::{read, written, Body, Datagram};
use std::collections::BTreeMap;

/// So many requests to one host may be under way.
const AHEAD: usize = 3;

#[derive(Default)]
pub struct Client {
    links: BTreeMap<Vec<u8>, Link>,
}

/// What a client knows of a host: all that it has sent, how much of that was acknowledged, and the number of the last
/// message taken.
#[derive(Default)]
struct Link {
    sent: Vec<Vec<u8>>,
    acknowledged: usize,
    received: u64,
}

impl Client {
    /// What is sent to the host: the request, if a new one is wanted or nothing is under way, or else the first that
    /// is.
    pub fn ask(&mut self, host: &[u8], body: Body, new: bool) -> Vec<u8> {
        let link = self.links.entry(host.to_vec()).or_default();
        let ahead = link.sent.len() - link.acknowledged;
        if 0 < ahead && (!new || ahead == AHEAD) {
            return link.sent[link.acknowledged].clone();
        }
        let number = link.sent.len() as u64 + 1;
        let datagram = written(&message(number, host, body));
        link.sent.push(datagram.clone());
        datagram
    }

    /// The Ack for a message. A sloppy client acknowledges also what is from the future, and never takes what it skips.
    pub fn receive(&mut self, host: &[u8], datagram: &[u8], sloppy: bool) -> Option<Vec<u8>> {
        let link = self.links.entry(host.to_vec()).or_default();
        match read(datagram)? {
            Datagram::Ack(number) => {
                let number = usize::try_from(number).ok()?.min(link.sent.len());
                link.acknowledged = link.acknowledged.max(number);
                None
            }
            Datagram::Message { number, .. } => {
                if number == link.received + 1 || sloppy {
                    link.received = link.received.max(number);
                }
                let taken = number <= link.received;
                taken.then(|| written(&Datagram::Ack(number)))
            }
        }
    }
}
