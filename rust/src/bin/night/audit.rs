//! The audit in the morning: every host is asked for every key. One owns it, all others say that they do not, and the
//! record is the one that was written last.
use crate::bags::Bags;
use crate::world::{World, HOSTS};
use std::collections::BTreeMap;
use std::error::Error;
use tagshards::{Answer, Host};

/// So many keys are asked for at once, so that not more answers wait than there are places.
const AT_ONCE: usize = 100;

/// No run takes so long to come to rest.
pub const PATIENCE: usize = 10_000;

pub struct Audit {
    pub keys: usize,
    pub records: usize,
    pub faults: Vec<String>,
}

/// Seconds go by until nothing is under way.
pub fn settle(world: &mut World) -> Result<(), Box<dyn Error>> {
    for _ in 0..PATIENCE {
        if world.is_quiet() {
            return Ok(());
        }
        world.tick();
    }
    Err("the network does not come to rest".into())
}

pub fn audit(world: &mut World, bags: &Bags) -> Result<Audit, Box<dyn Error>> {
    let records: BTreeMap<u64, &Vec<u8>> = (bags.bags.iter())
        .filter_map(|bag| Some((bag.tag, bag.record.as_ref()?)))
        .collect();
    // A client that knows one host only is told where another one would be redirected.
    let mut auditors = Vec::new();
    for host in HOSTS {
        auditors.push(world.join(&format!("auditor of {}", host.escape_ascii()), &[host])?);
    }
    let keys = keys(world);
    let mut faults = bags.wrong.clone();
    for some in keys.chunks(AT_ONCE) {
        for (key, answers) in ask(world, &auditors, some)? {
            faults.extend(fault(key, &answers, records.get(&key).copied()));
        }
    }
    let held: u64 = world.hosts.iter().map(Host::entries).sum();
    if held != records.len() as u64 {
        faults.push(format!(
            "the hosts have {held} records, not {}",
            records.len()
        ));
    }
    Ok(Audit {
        keys: keys.len(),
        records: records.len(),
        faults,
    })
}

/// The keys of all bags, those at both sides of wherever an owner may change, the first and the last.
fn keys(world: &World) -> Vec<u64> {
    let ends = world.owners.ends.iter();
    let sides = ends.flat_map(|end| [end.saturating_sub(1), *end]);
    let tags = world.owners.tags.iter().copied();
    let mut keys: Vec<u64> = tags.chain(sides).chain([0, u64::MAX]).collect();
    keys.sort_unstable();
    keys.dedup();
    keys
}

/// What each host says of each key.
fn ask(
    world: &mut World,
    auditors: &[usize],
    keys: &[u64],
) -> Result<BTreeMap<u64, Vec<Answer>>, Box<dyn Error>> {
    for auditor in auditors {
        for key in keys {
            world.clients[*auditor].get(*key);
        }
    }
    settle(world)?;
    let mut said: BTreeMap<u64, Vec<Answer>> = BTreeMap::new();
    for auditor in auditors {
        while let Some(answered) = world.clients[*auditor].answer() {
            said.entry(answered.key).or_default().push(answered.answer);
        }
    }
    Ok(said)
}

fn fault(key: u64, answers: &[Answer], record: Option<&Vec<u8>>) -> Option<String> {
    let values: Vec<&Answer> = (answers.iter())
        .filter(|answer| matches!(answer, Answer::Value(_)))
        .collect();
    match values[..] {
        [Answer::Value(value)] if answers.len() == HOSTS.len() => (value.as_ref() != record)
            .then(|| format!("key {key} has the record {value:?} instead of {record:?}")),
        _ => Some(format!("key {key} has {} owners", values.len())),
    }
}
