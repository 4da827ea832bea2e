//! Moves ranges of tags from busy hosts to idle ones, while requests run.
use crate::world::{World, HOSTS};
use tagshards::{Refusal, Unasked};

/// With so many tags, a range is moved every so many seconds; with more, more often.
const TAGS: usize = 3_000;
const EVERY: u64 = 90;

/// A range has so many tags, and then fewer than so many more. No more than 61 records can be moved at once.
const LEAST: u64 = 20;
const MORE: u64 = 40;

pub struct Mover {
    client: usize,
    every: u64,
}

impl Mover {
    pub fn new(world: &mut World) -> Result<Mover, Refusal> {
        let client = world.join("the mover", &HOSTS)?;
        let times = (world.owners.tags.len() / TAGS) as u64;
        let every = (EVERY / times.max(1)).max(1);
        Ok(Mover { client, every })
    }

    pub fn tick(&self, world: &mut World) -> Result<(), Unasked> {
        if !world.network.now.is_multiple_of(self.every) {
            return Ok(());
        }
        let mut order: Vec<usize> = (0..HOSTS.len()).collect();
        order.sort_by_key(|host| std::cmp::Reverse(world.load[*host]));
        world.load.fill(0);
        // The busiest host that has tags gives some to the idlest.
        let (Some(idle), Some(busy)) = (
            order.pop(),
            order.iter().find(|host| has_tags(world, **host)),
        ) else {
            return Ok(());
        };
        let Some((lo, hi)) = range(world, *busy) else {
            return Ok(());
        };
        world.clients[self.client].shard(HOSTS[*busy], lo, hi, HOSTS[idle])
    }
}

fn has_tags(world: &World, host: usize) -> bool {
    let owners = &world.owners;
    (0..owners.tags.len()).any(|tag| owners.of(tag) == host)
}

/// Some tags beside each other that the host owns. The first range begins with key 0, and the last goes on to the end.
fn range(world: &mut World, host: usize) -> Option<(u64, Option<u64>)> {
    let owners = &world.owners;
    let its: Vec<usize> = (0..owners.tags.len())
        .filter(|tag| owners.of(*tag) == host)
        .collect();
    if its.is_empty() {
        return None;
    }
    let from = *world.draw.of(&its);
    let most = LEAST + world.draw.below(MORE);
    let same = (from..owners.tags.len()).take_while(|tag| owners.of(*tag) == host);
    let to = from + same.take(most as usize).count();
    let lo = if from == 0 { 0 } else { owners.tags[from] };
    Some((lo, owners.tags.get(to).copied()))
}
