//! What a script does with a host.
use crate::messages::hex;
use crate::models::host::Address;
use crate::models::messages::{read, Body, Datagram};
use std::fmt::{Display, Formatter, Result};

#[derive(Clone, Debug)]
pub enum Operation {
    Receive {
        from: Address,
        datagram: Vec<u8>,
    },
    Process,
    Retransmit,
    /// A turn, with what has arrived: from whom, and the datagram.
    Turn(Option<(Address, Vec<u8>)>),
    /// From outside: the numbers of an address that has a place and for which nothing waits.
    Numbers {
        of: Address,
        received: u64,
        acknowledged: u64,
    },
    /// From outside: the count of transfers, and that of turns.
    Transfers(u64),
    Turns(u64),
}

impl Operation {
    /// Is it a change from outside and no step?
    pub fn is_change(&self) -> bool {
        use Operation::{Numbers, Transfers, Turns};
        matches!(self, Numbers { .. } | Transfers(_) | Turns(_))
    }

    /// Who has sent what arrives with it, if anything does.
    pub fn sender(&self) -> &[u8] {
        match self {
            Operation::Receive { from, .. } | Operation::Turn(Some((from, _))) => from,
            _ => &[],
        }
    }
}

/// As a failure prints it.
impl Display for Operation {
    fn fmt(&self, f: &mut Formatter<'_>) -> Result {
        match self {
            Operation::Receive { from, datagram } => arrival(f, "receive", from, datagram),
            Operation::Turn(Some((from, datagram))) => arrival(f, "a turn", from, datagram),
            Operation::Numbers {
                of,
                received,
                acknowledged,
            } => {
                let of = name(of);
                write!(
                    f,
                    "{of} has sent {received} and acknowledged {acknowledged}"
                )
            }
            other => write!(f, "{other:?}"),
        }
    }
}

fn arrival(f: &mut Formatter<'_>, what: &str, from: &[u8], datagram: &[u8]) -> Result {
    write!(f, "{what} from {}: ", name(from))?;
    match read(datagram) {
        Some(Datagram::Ack(number)) => write!(f, "Ack {number}"),
        Some(Datagram::Message { number, to, body }) => {
            write!(f, "message {number} to {}: {}", name(&to), said(&body))
        }
        None => write!(f, "the bytes {}", hex(datagram)),
    }
}

/// An address as text, as far as it is text.
pub fn name(address: &[u8]) -> String {
    format!("\"{}\"", address.escape_ascii())
}

/// A body in short: of values the lengths alone.
fn said(body: &Body) -> String {
    let value = |value: &Option<Vec<u8>>| match value {
        Some(value) => format!("{} bytes", value.len()),
        None => "none".to_string(),
    };
    let bound = |key: &Option<u64>| key.map_or("end".to_string(), |key| key.to_string());
    match body {
        Body::Get(key) => format!("Get {key}"),
        Body::Set(key, v) => format!("Set {key} to {}", value(v)),
        Body::Reply(key, v) => format!("Reply {key}, {}", value(v)),
        Body::Redirect(key, to) => format!("Redirect {key} to {}", name(to)),
        Body::Shard(lo, hi, to) => format!("Shard [{},{}) to {}", bound(lo), bound(hi), name(to)),
        Body::Delegate(lo, hi, list) => {
            let keys: Vec<u64> = list.iter().map(|(key, _)| *key).collect();
            format!("Delegate [{},{}) with {keys:?}", bound(lo), bound(hi))
        }
    }
}
