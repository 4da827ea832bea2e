//! The limits of document 01, section 6, each exactly reached and one over. What might find no room is not received; a
//! Set that finds the table full is dropped.
use crate::{delegate, set, shard, Scene, A, B, C, FEW, K};
use judges::hosts::lent::Slice;
use judges::models::host::{Limits, Outcome::*};
use judges::models::messages::Body;

/// All kinds of body that a new message may have.
fn bodies() -> Vec<Body> {
    vec![
        Body::Get(5),
        set(5, b"x"),
        Body::Set(5, None),
        Body::Reply(5, None),
        Body::Redirect(5, B.to_vec()),
        shard(0, None, B),
        delegate(0, None, [5], 1),
    ]
}

#[test]
fn a_full_table_and_sets() {
    let mut scene = Scene::new(A, Limits { entries: 3, ..FEW });
    for key in [7, 3, 5] {
        assert_eq!(scene.ask_and_ack(K, set(key, b"x")).outcome, Replied);
    }
    for key in [0, 4, 6, 8, u64::MAX] {
        assert_eq!(scene.ask(K, set(key, b"")).outcome, Dropped);
        assert_eq!(scene.get(key), None);
    }
    // What is there can still be set, and what is not can still be deleted.
    assert_eq!(scene.ask_and_ack(K, set(5, &[5; 1023])).outcome, Replied);
    assert_eq!(scene.ask_and_ack(K, Body::Set(4, None)).outcome, Replied);
    assert_eq!(scene.ask_and_ack(K, Body::Set(3, None)).outcome, Replied);
    assert_eq!(scene.ask_and_ack(K, set(4, b"y")).outcome, Replied);
    assert_eq!(scene.ask(K, set(3, b"y")).outcome, Dropped);
    // Who does not own the key redirects, full or not.
    scene.ask_and_ack(K, shard(100, None, B));
    assert_eq!(scene.ask_and_ack(K, set(100, b"y")).outcome, Redirected);
}

#[test]
fn a_table_without_places() {
    let mut scene = Scene::new(A, Limits { entries: 0, ..FEW });
    assert_eq!(scene.ask(K, set(5, b"")).outcome, Dropped);
    assert_eq!(scene.ask_and_ack(K, Body::Set(5, None)).outcome, Replied);
    assert_eq!(scene.get(5), None);
    assert_eq!(scene.ask_and_ack(K, shard(0, None, B)).outcome, Handed);
    assert_eq!(scene.receive(B, delegate(0, None, [5], 0)), Unreceived);
    assert_eq!(scene.ask(B, delegate(0, None, [], 0)).outcome, Accepted);
}

/// A transfer is received only if its entries fit; those that it replaces make room.
#[test]
fn a_full_table_and_transfers() {
    let mut scene = Scene::new(B, Limits { entries: 5, ..FEW });
    assert_eq!(
        scene.receive(A, delegate(10, Some(20), 10..16, 1)),
        Unreceived
    );
    assert_eq!(
        scene.ask(A, delegate(10, Some(20), 10..15, 1)).outcome,
        Accepted
    );
    assert_eq!(
        scene.receive(A, delegate(20, Some(30), [20], 1)),
        Unreceived
    );
    assert_eq!(
        scene.ask(A, delegate(20, Some(30), [], 1)).outcome,
        Accepted
    );
    // Entries outside the range count too, unless their keys are there.
    assert_eq!(
        scene.receive(A, delegate(30, Some(40), [50], 1)),
        Unreceived
    );
    assert_eq!(
        scene.ask(A, delegate(30, Some(40), [14], 2)).outcome,
        Accepted
    );
    assert_eq!(
        scene.receive(A, delegate(10, Some(12), [10, 11, 30], 1)),
        Unreceived
    );
    assert_eq!(
        scene.ask(A, delegate(10, Some(12), [11, 30], 1)).outcome,
        Accepted
    );
    assert_eq!(
        scene.ask(A, delegate(10, Some(40), 35..40, 3)).outcome,
        Accepted
    );
    // What would only be dropped needs no room.
    assert_eq!(
        scene.ask(K, delegate(50, Some(60), 50..59, 1)).outcome,
        Dropped
    );
    assert_eq!(
        scene.ask(A, delegate(50, None, 100..162, 1)).outcome,
        Dropped
    );
    assert_eq!(
        scene.ask(A, delegate(60, Some(50), 50..59, 1)).outcome,
        Dropped
    );
    assert_eq!(
        scene.ask(A, delegate(50, Some(60), 50..59, 1024)).outcome,
        Dropped
    );
    // A transfer that is not received is not acknowledged; once there is room it is taken.
    let late = delegate(70, Some(80), [70], 1);
    assert_eq!(scene.receive(A, late.clone()), Unreceived);
    assert_eq!(scene.ask_and_ack(K, Body::Set(35, None)).outcome, Replied);
    assert_eq!(scene.ask(A, late).outcome, Accepted);
}

#[test]
fn a_full_map_and_transfers() {
    let mut scene = Scene::new(B, Limits { bounds: 3, ..FEW });
    assert_eq!(
        scene.ask(A, delegate(10, Some(20), [], 0)).outcome,
        Accepted
    );
    for (lo, hi) in [(30, Some(40)), (30, None), (5, Some(6)), (0, Some(9))] {
        assert_eq!(scene.receive(A, delegate(lo, hi, [], 0)), Unreceived);
    }
    // Taken: what leaves three bounds, or fewer.
    assert_eq!(
        scene.ask(A, delegate(12, Some(15), [], 0)).outcome,
        Accepted
    );
    assert_eq!(
        scene.ask(A, delegate(15, Some(30), [], 0)).outcome,
        Accepted
    );
    assert_eq!(scene.ask(A, delegate(5, Some(10), [], 0)).outcome, Accepted);
    assert_eq!(scene.receive(A, delegate(40, Some(50), [], 0)), Unreceived);
    assert_eq!(scene.ask(A, delegate(0, Some(5), [], 0)).outcome, Accepted);
    assert_eq!(scene.both.model.owners.bounds().len(), 2);
    assert_eq!(scene.receive(A, delegate(40, Some(50), [], 0)), Unreceived);
    assert_eq!(scene.ask(A, delegate(40, None, [], 0)).outcome, Accepted);
    assert_eq!(scene.ask(A, delegate(0, None, [], 0)).outcome, Accepted);
    assert_eq!(scene.both.model.owners.bounds().len(), 1);
}

#[test]
fn a_full_map_and_shards() {
    let mut scene = Scene::new(A, Limits { bounds: 3, ..FEW });
    assert_eq!(scene.ask_and_ack(K, shard(10, Some(20), B)).outcome, Handed);
    assert_eq!(scene.receive(K, shard(30, Some(40), B)), Unreceived);
    assert_eq!(scene.receive(K, shard(20, Some(30), C)), Unreceived);
    assert_eq!(scene.receive(K, shard(30, None, C)), Unreceived);
    assert_eq!(scene.ask_and_ack(K, shard(20, Some(30), B)).outcome, Handed);
    assert_eq!(scene.ask_and_ack(K, shard(30, None, C)).outcome, Handed);
    assert_eq!(scene.receive(K, shard(5, Some(10), C)), Unreceived);
    assert_eq!(scene.ask_and_ack(K, shard(5, Some(10), B)).outcome, Handed);
    // What is refused needs no bound.
    assert_eq!(scene.ask(K, shard(30, Some(40), A)).outcome, Dropped);
    assert_eq!(scene.ask(K, shard(2, Some(40), C)).outcome, Dropped);
    assert_eq!(scene.ask_and_ack(K, shard(0, Some(5), B)).outcome, Handed);
    assert_eq!(scene.both.model.owners.bounds().len(), 2);
}

#[test]
fn a_map_with_few_bounds() {
    let mut scene = Scene::new(A, Limits { bounds: 1, ..FEW });
    assert_eq!(scene.receive(K, shard(5, None, B)), Unreceived);
    assert_eq!(scene.receive(K, shard(0, Some(u64::MAX), B)), Unreceived);
    assert_eq!(scene.ask_and_ack(K, shard(0, None, B)).outcome, Handed);
    assert_eq!(
        scene.receive(B, delegate(u64::MAX, None, [], 0)),
        Unreceived
    );
    assert_eq!(scene.ask(B, delegate(0, None, [], 0)).outcome, Accepted);
    let mut scene = Scene::new(A, Limits { bounds: 2, ..FEW });
    assert_eq!(scene.receive(K, shard(5, Some(6), B)), Unreceived);
    assert_eq!(
        scene.ask_and_ack(K, shard(u64::MAX, None, B)).outcome,
        Handed
    );
    assert_eq!(
        scene.ask(B, delegate(u64::MAX, None, [], 0)).outcome,
        Accepted
    );
}

/// A stranger's message is not received if there is no place for the stranger, whatever it says.
#[test]
fn full_peers() {
    let mut scene = Scene::new(A, Limits { peers: 5, ..FEW });
    for from in [K, b""] {
        assert_eq!(scene.ask(from, Body::Get(5)).outcome, Replied);
    }
    for body in bodies() {
        assert_eq!(scene.receive(b"x", body), Unreceived);
    }
    // That it is old or from the future is told without a place.
    assert_eq!(scene.receive_numbered(b"x", 0, Body::Get(5)), Again);
    assert_eq!(scene.receive_numbered(b"x", 2, Body::Get(5)), Future);
    assert_eq!(scene.ack(b"x", 1), Stale);
    // Whoever has a place keeps it, the hosts too of whom nothing was heard yet.
    for from in [K, b"", B, C] {
        assert_eq!(scene.ask_and_ack(from, Body::Get(5)).outcome, Replied);
    }
}

#[test]
fn as_many_peers_as_hosts() {
    let mut scene = Scene::new(C, Limits { peers: 3, ..FEW });
    for body in bodies() {
        assert_eq!(scene.receive(K, body), Unreceived);
    }
    for from in [A, B, C] {
        assert_eq!(scene.ask(from, Body::Get(5)).outcome, Redirected);
    }
}

/// What is answered needs a place; what is dropped, and a transfer that is taken, does not.
#[test]
fn a_full_waiting_list() {
    let mut scene = Scene::new(A, Limits { waiting: 2, ..FEW });
    scene.ask_and_ack(K, shard(100, Some(200), B));
    for _ in 0..2 {
        assert_eq!(scene.ask(K, Body::Get(5)).outcome, Replied);
    }
    for body in [
        Body::Get(5),
        Body::Get(100),
        set(5, &[1; 1023]),
        set(100, b""),
        Body::Set(5, None),
        shard(0, Some(9), B),
    ] {
        assert_eq!(scene.receive(K, body.clone()), Unreceived);
        assert_eq!(scene.receive(B, body), Unreceived);
    }
    for body in [
        set(5, &[1; 1024]),
        Body::Reply(5, None),
        Body::Redirect(5, B.to_vec()),
        shard(0, Some(9), K),
        shard(0, Some(101), B),
        delegate(0, None, [5], 1),
    ] {
        assert_eq!(scene.ask(K, body).outcome, Dropped);
    }
    assert_eq!(
        scene.ask(B, delegate(100, Some(200), [150], 1)).outcome,
        Accepted
    );
    assert_eq!(scene.ack(K, 1), Arrived);
    assert_eq!(scene.ask(K, shard(0, Some(9), B)).outcome, Handed);
    assert_eq!(scene.receive(K, Body::Get(5)), Unreceived);
    assert_eq!(scene.ack(B, 2), Arrived);
    assert_eq!(scene.ask(B, Body::Get(150)).outcome, Replied);
}

/// A limit is what the shorter of two slices has.
#[test]
fn slices_of_unequal_length() {
    for slice in [Slice::Lows, Slice::Owners] {
        let mut scene = Scene::new(A, Limits { bounds: 5, ..FEW });
        shorten(&mut scene, slice, 3);
        scene.both.model.limits.bounds = 3;
        scene.both.restart();
        assert_eq!(scene.receive(K, shard(10, Some(20), B)), Taken);
        scene.both.process();
        assert_eq!(scene.receive(K, shard(30, Some(40), B)), Unreceived);
    }
    for (slice, len) in [
        (Slice::NameLens, 4),
        (Slice::Names, 4 * FEW.address + FEW.address - 1),
        (Slice::Counts, 4 * 3 + 2),
    ] {
        let mut scene = Scene::new(A, FEW);
        shorten(&mut scene, slice, len);
        scene.both.model.limits.peers = 4;
        scene.both.restart();
        assert_eq!(scene.ask_and_ack(K, Body::Get(5)).outcome, Replied);
        assert_eq!(scene.receive(b"x", Body::Get(5)), Unreceived);
    }
    // The table has as many places as slots; and two words are no place for a message.
    let mut scene = Scene::new(A, FEW);
    shorten(&mut scene, Slice::Slots, 1);
    shorten(&mut scene, Slice::Places, 5);
    scene.both.model.limits.entries = 1;
    scene.both.model.limits.waiting = 1;
    scene.both.restart();
    assert_eq!(scene.ask(K, set(5, b"x")).outcome, Replied);
    assert_eq!(scene.receive(K, Body::Get(5)), Unreceived);
    scene.ack(K, 1);
    assert_eq!(scene.ask(K, set(6, b"x")).outcome, Dropped);
}

fn shorten(scene: &mut Scene, slice: Slice, len: usize) {
    let column = &mut scene.both.proved.lent[slice];
    *column = column.first(len);
}
