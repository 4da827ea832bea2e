//! The limits, exactly full: what still fits is taken, and nothing else is.
mod common;

use common::{ack, get, only, set, shard, Scene, A, B, FEW, K};
use tagshards::wire::Body;
use tagshards::{Limits, Outcome};

fn delete(key: u64) -> Body {
    Body::Set { key, value: None }
}

fn fill_table(limits: Limits) {
    let mut scene = Scene::new(limits, A);
    let full = limits.entries as u64;
    for key in 0..full {
        assert_eq!(scene.ask_and_ack(K, set(key, &[7; 1023])), Outcome::Replied);
    }
    assert_eq!(scene.host.entries(), full);
    assert_eq!(scene.ask_and_ack(K, set(full, b"x")), Outcome::Dropped);
    assert_eq!(scene.ask_and_ack(K, set(full - 1, b"x")), Outcome::Replied);
    assert_eq!(scene.ask_and_ack(K, delete(0)), Outcome::Replied);
    assert_eq!(scene.ask_and_ack(K, set(full, b"x")), Outcome::Replied);
    assert_eq!(scene.ask_and_ack(K, set(0, b"x")), Outcome::Dropped);
    assert_eq!(scene.host.entries(), full);
}

#[test]
fn entries() {
    fill_table(FEW);
    fill_table(Limits::default());
}

/// Each second key goes to the other host: two more bounds each time. The last range goes on to the end, which takes
/// one.
fn fill_map(limits: Limits) {
    let mut scene = Scene::new(limits, A);
    let mut key = 1;
    while scene.host.bounds() + 2 <= limits.bounds as u64 {
        let range = shard(key, Some(key + 1), B);
        assert_eq!(scene.ask_and_ack(K, range), Outcome::Handed);
        key += 2;
    }
    if scene.host.bounds() < limits.bounds as u64 {
        assert_eq!(
            scene.ask_and_ack(K, shard(key + 9, None, B)),
            Outcome::Handed
        );
    }
    assert_eq!(scene.host.bounds(), limits.bounds as u64);
    let another = shard(key + 3, Some(key + 4), B);
    assert_eq!(scene.bring(K, another), Outcome::Unreceived);
    // A range beside one that the other host has needs no bound more.
    assert_eq!(scene.ask_and_ack(K, shard(2, Some(3), B)), Outcome::Handed);
    assert!(scene.host.bounds() <= limits.bounds as u64);
}

#[test]
fn bounds() {
    fill_map(FEW);
    fill_map(Limits::default());
}

fn fill_peers(limits: Limits) {
    let mut scene = Scene::new(limits, A);
    let name = |i: usize| format!("client {i}").into_bytes();
    for i in 2..limits.peers {
        assert_eq!(scene.ask_and_ack(&name(i), get(5)), Outcome::Replied);
        assert_eq!(only_to(&mut scene, &name(i)), Outcome::Replied);
    }
    assert_eq!(scene.host.peers(), limits.peers as u64);
    assert_eq!(
        scene.bring(&name(limits.peers), get(5)),
        Outcome::Unreceived
    );
    assert_eq!(scene.ask_and_ack(&name(2), get(5)), Outcome::Replied);
    // The other host has its place from the start.
    assert_eq!(scene.ask_and_ack(B, get(5)), Outcome::Replied);
}

/// The client asks, and the answer is for it alone.
fn only_to(scene: &mut Scene, from: &[u8]) -> Outcome {
    let outcome = scene.ask(from, get(6));
    let (to, _) = only(&scene.host);
    assert_eq!(to, from);
    scene.host.receive(from, &ack(2));
    outcome
}

#[test]
fn peers() {
    fill_peers(FEW);
    fill_peers(Limits::default());
}

fn fill_places(limits: Limits) {
    let mut scene = Scene::new(limits, A);
    for _ in 0..limits.waiting {
        assert_eq!(scene.ask(K, get(5)), Outcome::Replied);
    }
    for body in [get(5), set(5, b"x"), shard(10, None, B)] {
        assert_eq!(scene.bring(K, body), Outcome::Unreceived);
    }
    assert_eq!(scene.host.retransmit(), Outcome::Resent);
    assert_eq!(scene.host.sends().count(), limits.waiting);
    assert_eq!(scene.host.receive(K, &ack(1)), Outcome::Arrived);
    assert_eq!(scene.ask(K, shard(10, None, B)), Outcome::Handed);
    assert_eq!(scene.bring(K, get(5)), Outcome::Unreceived);
    scene.host.retransmit();
    assert_eq!(scene.host.sends().count(), limits.waiting);
}

#[test]
fn waiting() {
    fill_places(FEW);
    fill_places(Limits::default());
}
