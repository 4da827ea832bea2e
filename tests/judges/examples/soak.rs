//! Runs worlds until there were so many events, a million if no number is given, and tells what happened:
//! `soak [EVENTS] [SEED]`. A failure prints the world with its seed, and a script as short as can be found.
use judges::hosts::soak::Soak;
use judges::hosts::world::Plan;
use std::time::{Duration, Instant};

/// So much time lies between two lines of progress at least.
const EVERY: Duration = Duration::from_secs(5);

fn main() {
    let mut words = std::env::args().skip(1);
    let mut number = |otherwise| words.next().map_or(Ok(otherwise), |word| word.parse());
    let events = number(1_000_000).expect("a number of events");
    let seed = number(1).expect("a seed");
    let began = Instant::now();
    let mut told = began;
    let mut soak = Soak::default();
    soak.run(events as usize, seed, |soak, plan| {
        if EVERY <= told.elapsed() {
            told = Instant::now();
            progress(soak, plan, began.elapsed());
        }
    });
    summary(&soak, seed, began.elapsed());
}

fn rate(soak: &Soak, time: Duration) -> u64 {
    (soak.events as f64 / time.as_secs_f64()) as u64
}

fn progress(soak: &Soak, plan: &Plan, time: Duration) {
    let Soak {
        events, damaged, ..
    } = soak;
    println!(
        "{events} events, {} a second, seed {}, {damaged} damaged, {:?}",
        rate(soak, time),
        plan.seed,
        soak.outcomes
    );
}

fn summary(soak: &Soak, seed: u64, time: Duration) {
    let Soak { events, worlds, .. } = soak;
    println!("{events} events in {worlds} worlds from seed {seed} on");
    println!("{} on damaged datagrams", soak.damaged);
    println!("memory audited and compared after {}", soak.looked);
    println!("{:?}", soak.outcomes);
    println!("{} s, {} a second", time.as_secs(), rate(soak, time));
}
