//! What each event does at each host: asked once of the proved code, held to the model, and kept as numbers.
use super::asking::{Answered, Asking};
use super::events::{Event, CLIENT, HOSTS};
use super::ledger::Effect;
use super::post::Post;
use super::quick::QuickMap;
use super::standings::Standings;
use crate::hosts::both::{same_host, same_step, Both};
use crate::hosts::operation::Operation;
use crate::hosts::proved::KEPT;
use crate::hosts::seen::Seen;
use crate::models::host::{Host, Outcome, Packet, Step};
use std::collections::BTreeMap;

/// A host, and what happens there: an event by its number, or, from the number of events on, a datagram that the other
/// host has handed out and that is brought.
pub type Pair = (u32, u16);

/// What comes of it: the host as it stands then, what it has handed out for the other as a set of `Post`, and what it
/// means for the ledger.
#[derive(Clone, Copy)]
pub struct Next {
    pub host: u32,
    pub sends: u32,
    pub effect: Effect,
}

pub struct Steps {
    pub asking: Asking,
    pub standings: Standings,
    pub post: Post,
    events: [Vec<Event>; 2],
    /// For each host what each event does, or none if it cannot happen there; no row before it is asked.
    rows: Vec<Vec<Option<Next>>>,
    brought: QuickMap<Pair, Next>,
    pub asked: usize,
    /// So many of the hosts are audited.
    audited: usize,
    /// How many of the pairs have each outcome.
    pub outcomes: BTreeMap<Outcome, usize>,
}

impl Steps {
    pub fn new(asking: Asking, events: [Vec<Event>; 2]) -> Steps {
        Steps {
            asking,
            standings: Standings::default(),
            post: Post::default(),
            events,
            rows: Vec::new(),
            brought: QuickMap::default(),
            asked: 0,
            audited: 0,
            outcomes: BTreeMap::new(),
        }
    }

    /// How many events there are, the same number at both hosts.
    pub fn events(&self) -> usize {
        self.events[0].len()
    }

    pub fn next(&self, (host, event): Pair) -> Option<Next> {
        match usize::from(event).checked_sub(self.events()) {
            None => self.rows[host as usize][usize::from(event)],
            Some(_) => self.brought.get(&(host, event)).copied(),
        }
    }

    pub fn operation(&self, (host, event): Pair) -> Option<Operation> {
        let standing = self.standings.get(host);
        let datagram = match usize::from(event).checked_sub(self.events()) {
            None => {
                let events = &self.events[standing.side];
                return events[usize::from(event)].operation(standing);
            }
            Some(datagram) => self.post.datagram(datagram as u16).1.clone(),
        };
        let from = HOSTS[1 - standing.side].to_vec();
        Some(Operation::Receive { from, datagram })
    }

    /// Asks for whatever of these is not known. An error says where the proved host differs from the model, and how.
    pub fn ask(&mut self, pairs: &[Pair]) -> Result<(), (Pair, String)> {
        self.rows.resize_with(self.standings.len(), Vec::new);
        for pair in pairs {
            if self.asking.is_full() {
                self.asking.flush();
                while !self.asking.is_low() {
                    self.hear()?;
                }
            }
            if let Some(operation) = self.operation(*pair) {
                let standing = self.standings.get(pair.0);
                self.asking.ask(*pair, standing, operation);
            }
        }
        self.asking.flush();
        while self.hear()? {}
        self.audit()
    }

    /// Audits the memory of each host that is new.
    fn audit(&mut self) -> Result<(), (Pair, String)> {
        let new = self.standings.since(self.audited);
        let answers = self.asking.audits(new);
        self.audited += new.len();
        match answers.iter().position(|answer| *answer != KEPT) {
            Some(bad) => Err((new[bad].by, format!("the audit answers {}", answers[bad]))),
            None => Ok(()),
        }
    }

    /// All events at the hosts that were not asked about before, and what is brought to one of them.
    pub fn unknown(&self, hosts: impl Iterator<Item = (u32, u32)>) -> Vec<Pair> {
        let mut seen = vec![false; self.standings.len()];
        let mut brought: QuickMap<Pair, ()> = QuickMap::default();
        let mut pairs = Vec::new();
        for (host, sent) in hosts {
            let known = self
                .rows
                .get(host as usize)
                .is_some_and(|it| !it.is_empty());
            if !known && !std::mem::replace(&mut seen[host as usize], true) {
                pairs.extend((0..self.events() as u16).map(|event| (host, event)));
            }
            let side = self.standings.get(host).side;
            for datagram in self.post.set(sent) {
                let pair = (host, self.events() as u16 + datagram);
                let new =
                    self.post.datagram(*datagram).0 == side && !self.brought.contains_key(&pair);
                if new && brought.insert(pair, ()).is_none() {
                    pairs.push(pair);
                }
            }
        }
        pairs
    }

    /// Takes the next answer, if one is under way.
    fn hear(&mut self) -> Result<bool, (Pair, String)> {
        let Some((pair, operation, answered)) = self.asking.answer() else {
            return Ok(false);
        };
        self.asked += 1;
        let next = self.step(pair, &operation, &answered);
        let next = next.map_err(|difference| (pair, difference))?;
        self.keep(pair, next);
        Ok(true)
    }

    fn keep(&mut self, pair: Pair, next: Next) {
        let (host, event) = (pair.0 as usize, usize::from(pair.1));
        let events = self.events();
        if events <= event {
            self.brought.insert(pair, next);
            return;
        }
        self.rows[host].resize(events, None);
        self.rows[host][event] = Some(next);
    }

    /// What the answer says, which is what the model says.
    fn step(
        &mut self,
        pair: Pair,
        operation: &Operation,
        answered: &Answered,
    ) -> Result<Next, String> {
        let standing = self.standings.get(pair.0);
        let mut model = standing.model.clone();
        let want = Both::play_model(&mut model, operation);
        same_step(&self.asking.step(operation, answered)?, &want)?;
        *self.outcomes.entry(want.outcome).or_default() += 1;
        let effect = Effect::of(&standing.model, &want)?;
        let side = standing.side;
        let last = match (want.outcome, operation) {
            (Outcome::Taken, Operation::Receive { from, datagram })
            | (Outcome::Taken, Operation::Turn(Some((from, datagram))))
                if from == CLIENT =>
            {
                datagram.clone()
            }
            _ => standing.last_request().to_vec(),
        };
        Ok(Next {
            host: self.stands((side, pair), model, answered, &last)?,
            sends: self.sends(side, &want),
            effect,
        })
    }

    /// The number of the host as it stands now. If it is a new one, all that can be seen of it is what the model has.
    fn stands(
        &mut self,
        (side, by): (usize, Pair),
        model: Host,
        answered: &Answered,
        last: &[u8],
    ) -> Result<u32, String> {
        let memory = self.asking.memory(answered);
        let before = self.standings.get(by.0);
        let same = before.memory() == memory && before.last_request() == last;
        let known = if same { Some(by.0) } else { None };
        if let Some(number) = known.or_else(|| self.standings.find(memory, last)) {
            return match self.standings.get(number).model == model {
                true => Ok(number),
                false => Err("memory is that of a host which differs".to_string()),
            };
        }
        let lent = &self.asking.proved.lent;
        let seen = Seen::of_memory(&mut self.asking.image(answered), lent);
        same_host(KEPT, seen, &model)?;
        Ok(self.standings.keep((side, by), model, memory, last))
    }

    /// The set of what was handed out for the other host.
    fn sends(&mut self, side: usize, step: &Step) -> u32 {
        let other = 1 - side;
        let theirs = step.sends.iter().filter(|packet| packet.to == HOSTS[other]);
        let number = |packet: &Packet| self.post.number(other, &packet.bytes);
        let set = theirs.map(number).collect();
        self.post.set_number(set)
    }
}
