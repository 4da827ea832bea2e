//! How long requests take at the proved host, at one in plain Rust, and at the bare hash table. `tests/speed` runs it
//! and writes docs/PERFORMANCE.md from what it prints: a line for each thing measured, with the nanoseconds of five runs.
mod agreement;
#[path = "../../src/bin/night/draw.rs"]
#[allow(dead_code)]
mod draw;
mod plain;
mod served;
mod setting;
mod table;
mod transfer;
mod watch;

use plain::Plain;
use served::Served;
use setting::{Mix, Scene, Setting};
use std::sync::atomic::Ordering;
use table::Table;
use tagshards::{Host, Limits};
use watch::{whole, DISTURBED, LEFT_OUT};

const RUNS: usize = 5;

/// Requests of a run: of the comparison, and of each point where growth is measured.
const MANY: u64 = 1_000_000;
const SOME: u64 = 100_000;
const TRANSFERS: u64 = 1_000;

/// Requests of a stretch.
const STRETCH: u64 = 10_000;

const RECORDS: u64 = 3_000;

const ONE: Setting = Setting {
    entries: RECORDS,
    bounds: 1,
    hosts: 1,
    peers: 2,
    waiting: 0,
    places: 257,
};

const MIXES: [(Mix, &str); 4] = [
    (Mix::Gets, "Get"),
    (Mix::Sets, "Set"),
    (Mix::Both, "Get and Set in turn"),
    (Mix::Additions, "Set that adds, Set that deletes"),
];

fn main() {
    if !cfg!(tagshards_native) {
        eprintln!("The proved code is asked and not linked, where a time says nothing; tests/speed links it.");
        std::process::exit(1);
    }
    println!("agreed\t{}", agreement::agree());
    memory();
    comparison();
    growth();
    sharding();
    println!("left out\t{}", LEFT_OUT.load(Ordering::Relaxed));
    println!("disturbed\t{}", DISTURBED.load(Ordering::Relaxed));
}

/// A line: what was measured, where, at which size, and the numbers of all runs.
fn say(what: &str, side: &str, size: u64, runs: &[f64]) {
    let runs: Vec<String> = runs.iter().map(|run| format!("{run:.2}")).collect();
    println!("{what}\t{side}\t{size}\t{}", runs.join(" "));
}

/// The nanoseconds of one request, in a new host.
fn time<H: Served>(setting: Setting, mix: Mix, requests: u64) -> f64 {
    let mut scene = Scene::<H>::new(setting);
    let time = whole(requests / STRETCH, || scene.run(mix, STRETCH));
    time as f64 / requests as f64
}

/// The same at the bare hash table.
fn bare(mix: Mix) -> f64 {
    let mut table = Table::new(RECORDS);
    let time = whole(MANY / STRETCH, || table.run(mix, STRETCH));
    time as f64 / MANY as f64
}

/// Runs of both hosts, one after the other by turns.
fn beside(what: &str, size: u64, setting: Setting, mix: Mix, requests: u64) {
    let (mut proved, mut plain) = ([0.0; RUNS], [0.0; RUNS]);
    for run in 0..RUNS {
        proved[run] = time::<Host>(setting, mix, requests);
        plain[run] = time::<Plain>(setting, mix, requests);
    }
    say(what, "proved", size, &proved);
    say(what, "plain", size, &plain);
}

/// The bytes lent for each of the default limits.
fn memory() {
    let limits = Limits::default();
    let all = limits.bytes().expect("they can be counted");
    let rows = [
        ("entries", limits.entries, all.entries),
        ("bounds", limits.bounds, all.bounds),
        ("peers", limits.peers, all.peers),
        ("waiting", limits.waiting, all.waiting),
        ("datagram", limits.datagram, all.datagram),
    ];
    for (name, limit, bytes) in rows {
        println!("lent\t{name}\t{limit}\t{bytes}");
    }
}

fn comparison() {
    for (mix, name) in &MIXES[..3] {
        say(name, "bare", 0, &[(); RUNS].map(|()| bare(*mix)));
        for peers in [4, 64] {
            let setting = Setting {
                hosts: 3,
                peers,
                ..ONE
            };
            beside(name, peers, setting, *mix, MANY);
        }
    }
}

fn growth() {
    for entries in [30, 100, 300, 1_000, 3_000, 10_000, 30_000] {
        for (mix, name) in [MIXES[0], MIXES[1], MIXES[3]] {
            let setting = Setting { entries, ..ONE };
            beside(&format!("entries: {name}"), entries, setting, mix, SOME);
        }
    }
    for (mix, name) in &MIXES[..2] {
        for bounds in [10, 100, 1_000, 4_000] {
            let setting = Setting {
                bounds,
                hosts: 2,
                peers: 3,
                ..ONE
            };
            beside(&format!("bounds: {name}"), bounds, setting, *mix, SOME);
        }
        for peers in [2, 8, 16, 32, 64] {
            let setting = Setting { peers, ..ONE };
            beside(&format!("peers: {name}"), peers, setting, *mix, SOME);
        }
        for waiting in [0, 16, 64, 128, 256] {
            let peers = 3;
            let setting = Setting {
                peers,
                waiting,
                ..ONE
            };
            beside(&format!("waiting: {name}"), waiting, setting, *mix, SOME);
        }
        for places in [1, 16, 64, 128, 256] {
            let setting = Setting { places, ..ONE };
            beside(&format!("places: {name}"), places, setting, *mix, SOME);
        }
    }
}

fn sharding() {
    let mut runs = Vec::new();
    for _ in 0..RUNS {
        runs.push(transfer::transfers::<Host>(RECORDS, TRANSFERS));
        runs.push(transfer::transfers::<Plain>(RECORDS, TRANSFERS));
    }
    for (i, step) in transfer::STEPS.iter().enumerate() {
        for (side, skipped) in [("proved", 0), ("plain", 1)] {
            let runs: Vec<f64> = runs
                .iter()
                .skip(skipped)
                .step_by(2)
                .map(|run| run[i])
                .collect();
            say(step, side, RECORDS, &runs);
        }
    }
}
