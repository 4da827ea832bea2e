//! The shortest script that shows a difference: operations are left out, many at once and then fewer, as long as some
//! difference is left. What a host does depends on nothing but its own operations, so one host's script is enough even
//! if others took part.
use super::both::Both;
use super::operation::Operation;
use crate::models::host::{Address, Host};
use crate::models::messages::{read, Datagram};
use std::fmt::Display;

/// So many operations are tried at most, long datagrams counting as several; after that the script is as short as it
/// has become.
pub const TRIED: usize = 200_000;

/// So many operations are printed at most.
const PRINTED: usize = 60;

/// So many bytes of a datagram take about as long as an operation.
const BYTES: usize = 256;

/// An operation of the script. The number of a datagram is kept as how far it lies ahead of what the host knows of the
/// sender, so that it keeps its sense when messages before it are left out.
#[derive(Clone)]
pub struct Line {
    operation: Operation,
    ahead: u64,
}

struct Shortening<'a> {
    both: &'a mut Both,
    tried: usize,
}

/// What was played until the hosts differed, and how they did.
type Shown = (Vec<Operation>, String);

/// The script as text, and the difference at its end.
pub fn shortest(both: &mut Both, journal: Vec<Operation>, difference: String) -> String {
    both.restart();
    let lines = lines(both.model.clone(), &journal);
    let mut shortening = Shortening { both, tried: 0 };
    let (script, difference) = shortening.shorten(lines, (journal, difference));
    format!("{}\n{difference}", text(&script))
}

/// A script as text; of a long one the end.
pub fn text(script: &[impl Display]) -> String {
    let before = script.len().saturating_sub(PRINTED);
    let lines: Vec<String> = script.iter().map(|it| format!("  {it}")).collect();
    format!("{before} operations, then\n{}", lines[before..].join("\n"))
}

/// The operations as lines; the host is a new one.
fn lines(mut host: Host, journal: &[Operation]) -> Vec<Line> {
    let line = |operation: &Operation| {
        let line = Line::of(&host, operation);
        Both::play_model(&mut host, operation);
        line
    };
    journal.iter().map(line).collect()
}

/// The lines that are left when as many as can be are left out, many at once and then fewer, while it still fails.
/// `fails` says after how many lines it does.
pub fn shortened<L: Clone>(lines: Vec<L>, mut fails: impl FnMut(&[L]) -> Option<usize>) -> Vec<L> {
    let mut lines = lines;
    let mut many = lines.len() / 2;
    while 0 < many {
        let mut at = 0;
        while at < lines.len() {
            let end = (at + many).min(lines.len());
            let shorter = [&lines[..at], &lines[end..]].concat();
            match fails(&shorter) {
                Some(len) => lines = shorter[..len].to_vec(),
                None => at = end,
            }
        }
        many /= 2;
    }
    lines
}

impl Line {
    /// The operation at a host that stands so.
    pub fn of(host: &Host, operation: &Operation) -> Line {
        let ahead = match arrival(operation) {
            Some((from, datagram)) => number(datagram).wrapping_sub(known(host, from, datagram)),
            None => 0,
        };
        let operation = operation.clone();
        Line { operation, ahead }
    }

    /// The operation, with the number that lies as far ahead as it did.
    pub fn at(&self, host: &Host) -> Operation {
        let mut operation = self.operation.clone();
        if let Some((from, datagram)) = arrival(&self.operation) {
            let number = known(host, from, datagram).wrapping_add(self.ahead);
            if let Operation::Receive { datagram, .. } | Operation::Turn(Some((_, datagram))) =
                &mut operation
            {
                datagram[1..9].copy_from_slice(&number.to_le_bytes());
            }
        }
        operation
    }
}

impl Shortening<'_> {
    fn shorten(&mut self, lines: Vec<Line>, shown: Shown) -> Shown {
        let mut shown = shown;
        shortened(lines, |lines| {
            if TRIED <= self.tried {
                return None;
            }
            shown = self.difference(lines)?;
            Some(shown.0.len())
        });
        shown
    }

    /// The operations up to the first at which the hosts differ, and how they do.
    fn difference(&mut self, lines: &[Line]) -> Option<Shown> {
        self.both.restart();
        let mut played = Vec::new();
        for line in lines {
            let operation = line.at(&self.both.model);
            self.tried += cost(&operation);
            if senseless(&self.both.model, &operation) {
                return None;
            }
            let outcome = self.both.try_play(&operation);
            played.push(operation);
            if let Err(difference) = outcome {
                return Some((played, difference));
            }
        }
        None
    }
}

/// The datagram that arrives with an operation, and its sender.
fn arrival(operation: &Operation) -> Option<(&Address, &Vec<u8>)> {
    match operation {
        Operation::Receive { from, datagram } | Operation::Turn(Some((from, datagram))) => {
            read(datagram).map(|_| (from, datagram))
        }
        _ => None,
    }
}

/// The number of a datagram, which stands behind its first byte.
fn number(datagram: &[u8]) -> u64 {
    u64::from_le_bytes(datagram[1..9].try_into().expect("8 bytes"))
}

/// What is known of the sender: for a message the last number taken, for an Ack the last that was acknowledged.
fn known(host: &Host, from: &[u8], datagram: &[u8]) -> u64 {
    host.peer(from).map_or(0, |peer| match read(datagram) {
        Some(Datagram::Ack(_)) => peer.acknowledged,
        _ => peer.received,
    })
}

/// A change from outside of an address that has no place, or for which something waits, since what came before is left
/// out.
fn senseless(host: &Host, operation: &Operation) -> bool {
    match operation {
        Operation::Numbers { of, .. } => {
            let peer = host.peer(of);
            peer.is_none_or(|peer| !peer.waiting.is_empty())
        }
        _ => false,
    }
}

fn cost(operation: &Operation) -> usize {
    1 + arrival(operation).map_or(0, |(_, datagram)| datagram.len() / BYTES)
}
