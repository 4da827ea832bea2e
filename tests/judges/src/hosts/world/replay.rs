//! A world's script once more, with the models alone: they have gone wrong together, and the script is made as short as
//! can be. What is left out may have sent what arrives later; that is then left out, too.
use super::ledger::Ledger;
use crate::hosts::both::Both;
use crate::hosts::operation::{name, Operation};
use crate::hosts::owned;
use crate::hosts::shortest::{shortened, text, Line, TRIED};
use crate::models::host::{Address, Host};
use std::collections::HashSet;

/// What a host of the world did: which one, and the operation.
pub type Act = (usize, Operation);

struct Replay {
    hosts: Vec<Host>,
    ledger: Ledger,
    /// What hosts have handed out: who, for whom, and the bytes.
    sent: HashSet<(Address, Address, Vec<u8>)>,
}

/// The script as text, and the fault at its end. `hosts` are new ones.
pub fn shortest(hosts: &[Host], journal: &[Act], fault: String) -> String {
    let mut shown = (words(hosts, journal), fault);
    let mut tried = 0;
    shortened(lines(hosts, journal), |lines| {
        if TRIED <= tried {
            return None;
        }
        tried += lines.len();
        let (len, played, fault) = Replay::of(hosts).fault(lines)?;
        shown = (words(hosts, &played), fault);
        Some(len)
    });
    format!("{}\n{}", text(&shown.0), shown.1)
}

fn words(hosts: &[Host], journal: &[Act]) -> Vec<String> {
    let word = |(host, operation): &Act| format!("at {}: {operation}", name(&hosts[*host].me));
    journal.iter().map(word).collect()
}

fn lines(hosts: &[Host], journal: &[Act]) -> Vec<(usize, Line)> {
    let mut hosts = hosts.to_vec();
    let line = |(host, operation): &Act| {
        let line = Line::of(&hosts[*host], operation);
        Both::play_model(&mut hosts[*host], operation);
        (*host, line)
    };
    journal.iter().map(line).collect()
}

impl Replay {
    fn of(hosts: &[Host]) -> Replay {
        Replay {
            hosts: hosts.to_vec(),
            ledger: Ledger::default(),
            sent: HashSet::new(),
        }
    }

    /// After how many lines something is wrong, what was played of them, and what is wrong.
    fn fault(&mut self, lines: &[(usize, Line)]) -> Option<(usize, Vec<Act>, String)> {
        let mut played = Vec::new();
        for (i, (host, line)) in lines.iter().enumerate() {
            let operation = line.at(&self.hosts[*host]);
            if !self.possible(*host, &operation) {
                continue;
            }
            let outcome = self.play(*host, &operation);
            played.push((*host, operation));
            if let Err(fault) = outcome {
                return Some((i + 1, played, fault));
            }
        }
        None
    }

    /// Has what arrives from a host been handed out by it?
    fn possible(&self, host: usize, operation: &Operation) -> bool {
        let from = operation.sender();
        let (Operation::Receive { datagram, .. } | Operation::Turn(Some((_, datagram)))) =
            operation
        else {
            return true;
        };
        let (from, me) = (from.to_vec(), self.hosts[host].me.clone());
        let known = self.hosts.iter().any(|other| other.me == from);
        !known || self.sent.contains(&(from, me, datagram.clone()))
    }

    fn play(&mut self, host: usize, operation: &Operation) -> Result<(), String> {
        let model = &mut self.hosts[host];
        let before = model.room.as_ref().map(|letter| letter.body.clone());
        let step = Both::play_model(model, operation);
        let me = model.me.clone();
        let sends = step.sends.iter();
        self.sent
            .extend(sends.map(|packet| (me.clone(), packet.to.clone(), packet.bytes.clone())));
        self.ledger.enter(before, &step)?;
        owned::check(&self.hosts.iter().collect::<Vec<&Host>>())
    }
}
