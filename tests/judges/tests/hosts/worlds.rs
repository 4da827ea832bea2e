//! Several hosts and a few clients over a network that loses, repeats, delays and reorders, each host beside its model
//! step by step. Where nobody forges a sender every key has exactly one owner at any time, and no record gets lost.
use crate::{A, B, FEW};
use judges::bound::Bound;
use judges::hosts::owned;
use judges::hosts::soak::Soak;
use judges::hosts::world::limits::{FEW_BOUNDS, FEW_ENTRIES, FEW_WAITING, ROOMY, TIGHT};
use judges::hosts::world::{Plan, Senders, World};
use judges::models::host::{Host, Limits, Outcome};
use judges::models::messages::Body;
use std::collections::BTreeMap;

/// Everything that can happen in a world. That numbers or transfers run out cannot.
pub const HAPPENS: [Outcome; 17] = [
    Outcome::Full,
    Outcome::Invalid,
    Outcome::Elsewhere,
    Outcome::Taken,
    Outcome::Unreceived,
    Outcome::Again,
    Outcome::Future,
    Outcome::Arrived,
    Outcome::Stale,
    Outcome::Idle,
    Outcome::Replied,
    Outcome::Redirected,
    Outcome::Dropped,
    Outcome::Accepted,
    Outcome::Handed,
    Outcome::Resent,
    Outcome::Waits,
];

/// All of these happened.
fn happened(outcomes: &BTreeMap<Outcome, usize>, wanted: &[Outcome]) {
    for outcome in wanted {
        assert!(
            outcomes.contains_key(outcome),
            "never {outcome:?}: {outcomes:?}"
        );
    }
    println!("{outcomes:?}");
}

fn plan(seed: u64, hosts: usize, limits: Limits, senders: Senders) -> Plan {
    Plan {
        seed,
        hosts,
        clients: 1 + seed as usize % 4,
        limits,
        senders,
        damage: 0,
        look: 1,
    }
}

/// At the quiet end nothing waits, and every key has one owner that has its record.
fn settles(seed: u64, hosts: usize) {
    let mut world = World::new(plan(seed, hosts, ROOMY, Senders::Known));
    for _ in 0..3 {
        world.run(3_000);
        assert_eq!(world.settle(), 0, "seed {seed}: messages wait");
        assert_eq!(owned::on_the_way(&world.models()), 0, "seed {seed}");
        world.check_ledger();
    }
    happened(&world.outcomes, &[Outcome::Handed, Outcome::Accepted]);
}

#[test]
fn worlds_that_settle_2() {
    settles(1, 2);
}

#[test]
fn worlds_that_settle_3() {
    settles(2, 3);
    settles(3, 3);
}

#[test]
fn worlds_that_settle_5() {
    settles(4, 5);
}

/// The worlds together, each with so many steps.
fn together(plans: &[Plan], steps: usize) -> BTreeMap<Outcome, usize> {
    let mut outcomes = BTreeMap::new();
    for plan in plans {
        let mut world = World::new(*plan);
        world.run(steps);
        world.settle();
        for (outcome, many) in &world.outcomes {
            *outcomes.entry(*outcome).or_default() += many;
        }
    }
    outcomes
}

/// Little room of one kind or of all: transfers may wait for ever, but no key is lost.
#[test]
fn worlds_with_little_room() {
    let little = |seed, hosts, limits| plan(seed, hosts, limits, Senders::Known);
    let plans = [
        little(11, 3, FEW_ENTRIES),
        little(12, 3, FEW_BOUNDS),
        little(13, 4, FEW_WAITING),
        little(14, 2, Limits { peers: 4, ..ROOMY }),
        little(15, 3, TIGHT),
    ];
    happened(&together(&plans, 3_000), &HAPPENS);
}

/// Anything may come from anyone. No claim is made but that the proved host does as the model does.
#[test]
fn worlds_with_forged_senders() {
    let forged = |seed, hosts, limits| plan(seed, hosts, limits, Senders::Forged);
    let plans = [
        forged(21, 2, ROOMY),
        forged(22, 3, TIGHT),
        forged(23, 3, Limits { bounds: 5, ..ROOMY }),
    ];
    happened(&together(&plans, 4_000), &HAPPENS);
}

/// The first worlds that examples/soak.rs runs, in which much is damaged.
#[test]
fn worlds_of_every_kind() {
    let mut soak = Soak::default();
    soak.run(9_000, 1, |_, _| {});
    happened(&soak.outcomes, &HAPPENS);
    let (damaged, events) = (soak.damaged, soak.events);
    assert!(events < 20 * damaged, "{damaged} of {events} are damaged");
}

/// That a key has two owners or none is noticed, also if a transfer is on its way.
#[test]
fn the_check_of_owners() {
    let list = [A.to_vec(), B.to_vec()];
    let start = |me| Host::start(FEW, &list, me).expect("it starts");
    let (mut a, mut b) = (start(A), start(B));
    let [lo, hi] = [Bound::Key(5), Bound::Key(9)];
    assert_eq!(owned::check(&[&a, &b]), Ok(()));
    a.owners.give(lo, hi, B);
    assert!(owned::check(&[&a, &b]).is_err(), "nobody owns 5");
    b.owners.give(lo, hi, B);
    assert_eq!(owned::check(&[&a, &b]), Ok(()));
    let transfer = Body::Delegate(Some(5), Some(9), Vec::new());
    let to_b = a.peer_mut(B).expect("a host has a place");
    to_b.waiting.push(transfer);
    assert!(owned::check(&[&a, &b]).is_err(), "5 is B's and on its way");
    b.owners.give(lo, hi, A);
    assert_eq!(owned::check(&[&a, &b]), Ok(()));
    // Taken, so it is no longer on its way, but it was not carried out.
    b.peer_mut(A).expect("a host has a place").received = 1;
    assert!(owned::check(&[&a, &b]).is_err(), "nobody owns 5");
    b.owners.give(lo, Bound::Key(8), B);
    assert!(owned::check(&[&a, &b]).is_err(), "nobody owns 8");
}
