//! Worlds of every kind one after the other, each for some thousand steps: a seed decides how many hosts and clients,
//! their limits, who can send what, how much is damaged, and how often memory is looked at.
use super::world::limits::{FEW_BOUNDS, FEW_ENTRIES, FEW_PEERS, FEW_WAITING, LEAST, ROOMY, TIGHT};
use super::world::{Plan, Senders, World};
use crate::models::host::{Limits, Outcome};
use std::collections::BTreeMap;

/// So many steps a world has before its quiet end. Most of them are events at a host, some only send or lose something.
const STEPS: usize = 5_000;

/// After so many of them what was reached is told.
const PART: usize = 500;

const LIMITS: [Limits; 7] = [
    ROOMY,
    TIGHT,
    LEAST,
    FEW_ENTRIES,
    FEW_BOUNDS,
    FEW_WAITING,
    FEW_PEERS,
];

/// Of a hundred events so many are damaged or misplaced datagrams, beside those that each world has.
const DAMAGE: [usize; 3] = [0, 10, 30];

/// Memory is looked at after each event, or after so many.
const LOOKS: [usize; 4] = [1, 1, 1, 16];

#[derive(Default)]
pub struct Soak {
    /// What the hosts did, and of that what was on a damaged datagram.
    pub events: usize,
    pub damaged: usize,
    pub looked: usize,
    pub worlds: usize,
    pub outcomes: BTreeMap<Outcome, usize>,
}

/// The world of a seed. Its parts run through their lists at different paces, so that all of them meet.
pub fn plan(seed: u64) -> Plan {
    let of = |pace: u64, many: usize| (seed / pace) as usize % many;
    Plan {
        seed,
        hosts: 2 + of(1, 4),
        clients: 1 + of(5, 4),
        limits: LIMITS[of(1, LIMITS.len())],
        senders: match of(3, 3) {
            0 => Senders::Forged,
            _ => Senders::Known,
        },
        damage: DAMAGE[of(1, DAMAGE.len())],
        look: LOOKS[of(7, LOOKS.len())],
    }
}

impl Soak {
    /// Worlds from that seed on, until there were so many events; tells of each world what was reached.
    pub fn run(&mut self, events: usize, seed: u64, mut tell: impl FnMut(&Soak, &Plan)) {
        let mut programs = Vec::new();
        for seed in seed.. {
            if events <= self.events {
                return;
            }
            let plan = plan(seed);
            let mut world = World::new_in(&mut programs, plan);
            self.worlds += 1;
            let steps = STEPS.min(events - self.events);
            for _ in 0..steps.div_ceil(PART) {
                world.run(PART.min(steps));
                self.count(&mut world);
                tell(self, &plan);
            }
            settle(&plan, &mut world);
            self.count(&mut world);
            programs.extend(world.programs());
        }
    }

    /// Adds what has happened in the world since the last time.
    fn count(&mut self, world: &mut World) {
        for (outcome, many) in std::mem::take(&mut world.outcomes) {
            *self.outcomes.entry(outcome).or_default() += many;
            self.events += many;
        }
        self.damaged += std::mem::take(&mut world.damaged);
        self.looked += std::mem::take(&mut world.looked);
    }
}

/// The quiet end. With room enough and known senders nothing waits any more, and no record is lost.
fn settle(plan: &Plan, world: &mut World) {
    let waiting = world.settle();
    if plan.limits == ROOMY && plan.senders == Senders::Known {
        assert_eq!(waiting, 0, "{plan:?}: messages wait at the quiet end");
        world.check_ledger();
    }
}
