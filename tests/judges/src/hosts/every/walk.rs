//! The walk over all worlds that scripts of so many events reach, in rising number of events, so that the first world
//! in which something is wrong has a shortest script.
use super::events::HOSTS;
use super::ledger::Ledger;
use super::quick::QuickMap;
use super::steps::{Next, Pair, Steps};
use std::ops::Range;

/// Two hosts as they stand, all that was handed out from one for the other, and what one table would hold.
#[derive(Clone, Copy, PartialEq, Eq, Hash)]
pub struct World {
    pub hosts: [u32; 2],
    pub sent: u32,
    pub ledger: Ledger,
}

/// How a world was reached first: from which, and by which event at which host.
type Before = (u32, u16, bool);

pub struct Walk {
    pub steps: Steps,
    pub worlds: Vec<World>,
    numbers: QuickMap<World, u32>,
    before: Vec<Before>,
    /// How many worlds are reached by so many events or fewer.
    pub levels: Vec<usize>,
    /// Where each world's events lead, world by world; how many events it has.
    edges: Vec<u32>,
    degrees: Vec<u16>,
}

impl Walk {
    pub fn new(steps: Steps, hosts: [u32; 2]) -> Walk {
        let start = World {
            hosts,
            sent: 0,
            ledger: Ledger::default(),
        };
        Walk {
            steps,
            worlds: vec![start],
            numbers: QuickMap::from_iter([(start, 0)]),
            before: vec![(0, 0, false)],
            levels: vec![1],
            edges: Vec::new(),
            degrees: Vec::new(),
        }
    }

    /// One event more. The worlds that the last one leads to are looked at and not kept. An error tells the script.
    pub fn level(&mut self, last: bool) -> Result<(), String> {
        let depth = self.levels.len();
        let from = if depth < 2 { 0 } else { self.levels[depth - 2] };
        let worlds = from..self.levels[depth - 1];
        self.ask(worlds.clone())?;
        for world in worlds {
            let mut degree = 0;
            for side in 0..HOSTS.len() {
                degree += self.events(world, side, last)?;
            }
            self.degrees.push(degree);
        }
        if !last {
            self.levels.push(self.worlds.len());
        }
        self.steps.asking.check_rest();
        Ok(())
    }

    fn ask(&mut self, worlds: Range<usize>) -> Result<(), String> {
        let hosts = self.worlds[worlds.clone()].iter();
        let hosts = hosts.flat_map(|world| world.hosts.map(|host| (host, world.sent)));
        let pairs = self.steps.unknown(hosts);
        let asked = self.steps.ask(&pairs);
        asked.map_err(|(pair, difference)| {
            let mut these = worlds.clone();
            let world = these.find(|world| self.has(*world, pair));
            let world = world.expect("a world with what was asked about");
            let side = self.steps.standings.get(pair.0).side;
            let script = self.script(world, side, pair.1);
            format!("the proved host differs from the model\n{script}{difference}")
        })
    }

    /// Can this happen in the world?
    fn has(&self, world: usize, (host, event): Pair) -> bool {
        let world = self.worlds[world];
        let datagram = usize::from(event).checked_sub(self.steps.events());
        let set = self.steps.post.set(world.sent);
        let sent = datagram.is_none_or(|it| set.contains(&(it as u16)));
        world.hosts.contains(&host) && sent
    }

    /// Follows all events at that host, and answers how many there are.
    fn events(&mut self, world: usize, side: usize, last: bool) -> Result<u16, String> {
        let World { hosts, sent, .. } = self.worlds[world];
        let host = hosts[side];
        let own = self.steps.events() as u16;
        let mut many = 0;
        for event in 0..own + self.steps.post.set(sent).len() as u16 {
            let event = match event.checked_sub(own) {
                None => event,
                Some(i) => own + self.steps.post.set(sent)[usize::from(i)],
            };
            if let Some(next) = self.steps.next((host, event)) {
                let followed = self.follow(world, (side, event), next, last);
                followed
                    .map_err(|fault| format!("\n{}{fault}", self.script(world, side, event)))?;
                many += 1;
            }
        }
        Ok(many)
    }

    fn follow(
        &mut self,
        from: usize,
        by: (usize, u16),
        next: Next,
        last: bool,
    ) -> Result<(), String> {
        let mut world = self.worlds[from];
        world.hosts[by.0] = next.host;
        world.ledger = world.ledger.after(next.effect)?;
        if last {
            return self.check(world);
        }
        world.sent = self.steps.post.union(world.sent, next.sends);
        let number = match self.numbers.get(&world) {
            Some(number) => *number,
            None => {
                self.check(world)?;
                let number = self.worlds.len() as u32;
                self.numbers.insert(world, number);
                self.worlds.push(world);
                self.before.push((from as u32, by.1, by.0 == 1));
                number
            }
        };
        self.edges.push(number);
        Ok(())
    }

    fn check(&mut self, world: World) -> Result<(), String> {
        let standings = &mut self.steps.standings;
        let [one, other] = world.hosts.map(|host| standings.get(host).holding);
        standings.holdings.check(one, other)
    }

    /// The script that leads to the world, and then that event at one of the hosts, in words.
    fn script(&self, world: usize, side: usize, event: u16) -> String {
        let mut lines = vec![(world, event, side)];
        let mut at = world;
        while at != 0 {
            let (from, event, second) = self.before[at];
            at = from as usize;
            lines.push((at, event, usize::from(second)));
        }
        let words = lines.into_iter().rev().map(|(world, event, side)| {
            let host = self.worlds[world].hosts[side];
            let operation = self.steps.operation((host, event));
            let operation = operation.expect("it happened");
            format!("  at {}: {operation}\n", HOSTS[side].escape_ascii())
        });
        words.collect()
    }

    /// How many scripts there are of exactly as many events as were followed.
    pub fn scripts(&self) -> u128 {
        let mut counts = vec![0; self.worlds.len()];
        counts[0] = 1;
        for reached in &self.levels[..self.levels.len() - 1] {
            let mut after = vec![0; self.worlds.len()];
            let mut edges = self.edges.iter();
            for (count, degree) in counts[..*reached].iter().zip(&self.degrees) {
                for to in edges.by_ref().take(usize::from(*degree)) {
                    after[*to as usize] += count;
                }
            }
            counts = after;
        }
        let last = counts.iter().zip(&self.degrees);
        last.map(|(count, degree): (&u128, &u16)| count * u128::from(*degree))
            .sum()
    }
}
