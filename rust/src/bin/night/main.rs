//! A night at an airline: five proved hosts keep the records of bags that go through nineteen airports. Thirty-eight
//! desks read and write them, ranges are moved from busy hosts to idle ones all the while, and the network loses,
//! repeats, delays and reorders. In the morning every host is asked for every key.
//!
//!     night [SCALE] [FILE]
//!
//! SCALE is how many times 3,000 bags there are, 1 if it is not said. FILE gets the picture of which host owned which
//! tags when, night.svg if it is not said.
mod audit;
mod bags;
mod draw;
mod mover;
mod network;
mod owners;
mod svg;
mod world;

use audit::{Audit, PATIENCE};
use bags::{clock, Bags};
use draw::Draw;
use mover::Mover;
use owners::Owners;
use std::error::Error;
use std::io::{stderr, IsTerminal, Write};
use std::process::ExitCode;
use std::time::Instant;
use tagshards::Limits;
use world::World;

const SEED: u64 = 19;
const BAGS: usize = 3_000;

/// From 22 o'clock to 6.
const NIGHT: u64 = 8 * 3_600;

fn main() -> ExitCode {
    match run() {
        Ok(true) => ExitCode::SUCCESS,
        Ok(false) => ExitCode::FAILURE,
        Err(why) => {
            eprintln!("night: {why}");
            ExitCode::FAILURE
        }
    }
}

/// Answers whether the audit found nothing.
fn run() -> Result<bool, Box<dyn Error>> {
    let mut words = std::env::args().skip(1);
    let scale: usize = words.next().map_or(Ok(1), |word| word.parse())?;
    let file = words.next().unwrap_or("night.svg".to_string());
    let many = BAGS.checked_mul(scale.max(1)).ok_or("too many bags")?;
    let began = Instant::now();
    let (mut world, bags) = play(many)?;
    let end = world.network.now;
    world.owners.end(end);
    let picture = svg::svg(&world.owners, end);
    std::fs::write(&file, picture).map_err(|error| format!("{file}: {error}"))?;
    report(&world, &bags);
    let passed = passed(&audit::audit(&mut world, &bags)?);
    println!("picture      {file}");
    println!("time         {:.1} s", began.elapsed().as_secs_f64());
    Ok(passed)
}

/// The night, until nothing is under way any more.
fn play(many: usize) -> Result<(World, Bags), Box<dyn Error>> {
    let owners = Owners::new(bags::tags(&mut Draw::new(SEED), many));
    let limits = Limits {
        entries: many,
        ..Limits::default()
    };
    let mut world = World::new(limits, owners, SEED)?;
    let mut bags = Bags::new(&mut world)?;
    let mover = Mover::new(&mut world)?;
    while world.network.now < NIGHT {
        world.tick();
        bags.tick(&mut world)?;
        mover.tick(&mut world)?;
        progress(&world, &bags);
    }
    // What a bag is still asked for in the morning is answered.
    world.calm();
    for _ in 0..PATIENCE {
        if world.is_quiet() {
            return Ok((world, bags));
        }
        world.tick();
        bags.tick(&mut world)?;
    }
    Err("the network does not come to rest".into())
}

/// One line that changes every minute on a terminal, and otherwise one for each hour.
fn progress(world: &World, bags: &Bags) {
    let now = world.network.now;
    let terminal = stderr().is_terminal();
    if !now.is_multiple_of(if terminal { 60 } else { 3_600 }) {
        return;
    }
    let (home, all) = (bags.home, bags.bags.len());
    let (requests, moved) = (bags.gets + bags.sets, world.owners.arrived);
    let line = format!(
        "{}  {home} of {all} bags home, {requests} requests, {moved} ranges moved",
        clock(now)
    );
    let end = if terminal && now < NIGHT { "\r" } else { "\n" };
    // Whether anyone sees it does not matter.
    let _ = write!(stderr(), "{line}{end}");
}

fn report(world: &World, bags: &Bags) {
    let [gets, sets] = [bags.gets, bags.sets];
    println!(
        "bags         {}, {} of them home",
        bags.bags.len(),
        bags.home
    );
    println!("requests     {}: {gets} Gets, {sets} Sets", gets + sets);
    println!("redirects    {}", world.redirects);
    let [sent, lost, repeated] = [
        world.network.sent,
        world.network.lost,
        world.network.repeated,
    ];
    println!("datagrams    {sent}: {lost} lost, {repeated} repeated");
    let Owners { left, arrived, .. } = world.owners;
    println!(
        "ranges       {arrived} moved, {} on their way, {} refused",
        left - arrived,
        world.unmoved
    );
    let entries: Vec<String> = world
        .hosts
        .iter()
        .map(|host| host.entries().to_string())
        .collect();
    println!("records      {} at the five hosts", entries.join(", "));
}

fn passed(audit: &Audit) -> bool {
    for fault in audit.faults.iter().take(10) {
        println!("FAULT        {fault}");
    }
    let Audit {
        keys,
        records,
        faults,
    } = audit;
    match faults.len() {
        0 => println!("audit        {keys} keys have one owner each, {records} records are the last ones written"),
        many => println!("audit        {many} faults"),
    }
    faults.is_empty()
}
