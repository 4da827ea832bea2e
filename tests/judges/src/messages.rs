//! Messages as bytes: what the proved code reads (`reader`) and writes (`writer`), datagrams to try (`samples`, and
//! `drawn` by the pseudo-random rule), and what a failure says of them.
pub mod drawn;
pub mod reader;
pub mod samples;
pub mod writer;

use crate::models::messages::{Body, Datagram};

/// A failure prints so many bytes of a datagram at most.
const PRINTED: usize = 2048;

/// The bytes as the documents print them.
pub fn hex(bytes: &[u8]) -> String {
    let digits = bytes.iter().take(PRINTED).map(|byte| format!("{byte:02x}"));
    let more = match bytes.len().checked_sub(PRINTED) {
        None | Some(0) => String::new(),
        Some(many) => format!(" and {many} bytes more"),
    };
    digits.collect::<String>() + &more
}

/// Where two answers to one datagram differ: the first field, as it was found and as it should be.
pub fn difference(found: &Option<Datagram>, want: &Option<Datagram>) -> String {
    let (found, want) = (fields(found), fields(want));
    let both = found.iter().zip(&want);
    match both.clone().find(|(found, want)| found != want) {
        Some((found, want)) => format!("{} {} instead of {} {}", found.0, found.1, want.0, want.1),
        None => format!("{} fields instead of {}", found.len(), want.len()),
    }
}

/// The fields in their order, each with its name.
fn fields(datagram: &Option<Datagram>) -> Vec<(&'static str, String)> {
    match datagram {
        None => vec![("kind", "Invalid".to_string())],
        Some(Datagram::Ack(number)) => {
            vec![("kind", "Ack".to_string()), ("number", number.to_string())]
        }
        Some(Datagram::Message { number, to, body }) => {
            let mut fields = of_body(body);
            fields.insert(1, ("number", number.to_string()));
            fields.insert(2, ("destination", hex(to)));
            fields
        }
    }
}

fn of_body(body: &Body) -> Vec<(&'static str, String)> {
    let kind = |kind: &str| ("kind", kind.to_string());
    let key = |key: &u64| ("key", key.to_string());
    let value = |value: &Option<Vec<u8>>| ("value", format!("{:?}", value.as_deref().map(hex)));
    let address = |address: &[u8]| ("address", hex(address));
    let low = |lo: &Option<u64>| ("lo", format!("{lo:?}"));
    let high = |hi: &Option<u64>| ("hi", format!("{hi:?}"));
    match body {
        Body::Get(k) => vec![kind("Get"), key(k)],
        Body::Set(k, v) => vec![kind("Set"), key(k), value(v)],
        Body::Reply(k, v) => vec![kind("Reply"), key(k), value(v)],
        Body::Redirect(k, a) => vec![kind("Redirect"), key(k), address(a)],
        Body::Shard(lo, hi, a) => vec![kind("Shard"), low(lo), high(hi), address(a)],
        Body::Delegate(lo, hi, list) => {
            let mut fields = vec![kind("Delegate"), low(lo), high(hi)];
            fields.push(("entries", list.len().to_string()));
            for (k, v) in list {
                fields.extend([key(k), ("value", hex(v))]);
            }
            fields
        }
    }
}
