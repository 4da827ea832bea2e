//! The table of document 01, section 5, row by row.
use crate::{delegate, sent, set, shard, Scene, A, B, C, FEW, K};
use judges::models::host::Outcome::*;
use judges::models::messages::Body;

const LAST: u64 = u64::MAX;

#[test]
fn nothing_there() {
    let mut scene = Scene::new(A, FEW);
    assert_eq!(scene.both.process().outcome, Idle);
    scene.ask(K, Body::Get(5));
    assert_eq!(scene.both.process().outcome, Idle);
}

#[test]
fn get() {
    let mut scene = Scene::new(A, FEW);
    let step = scene.ask(K, Body::Get(5));
    assert_eq!(step.outcome, Replied);
    assert_eq!(sent(&step), (K.to_vec(), 1, Body::Reply(5, None)));
    scene.ask(K, set(5, b"x"));
    let step = scene.ask(K, Body::Get(5));
    assert_eq!(step.outcome, Replied);
    let value = Some(b"x".to_vec());
    assert_eq!(sent(&step), (K.to_vec(), 3, Body::Reply(5, value)));
}

#[test]
fn get_of_another_hosts_key() {
    let mut scene = Scene::new(B, FEW);
    for (i, key) in [0, 5, LAST].into_iter().enumerate() {
        let step = scene.ask(K, Body::Get(key));
        assert_eq!(step.outcome, Redirected);
        let redirect = Body::Redirect(key, A.to_vec());
        assert_eq!(sent(&step), (K.to_vec(), i as u64 + 1, redirect));
    }
}

/// A value of 1,023 bytes is stored, one of 1,024 is not; the answer is what was sent.
#[test]
fn set_by_length() {
    let mut scene = Scene::new(A, FEW);
    for len in [0, 1, 1023] {
        let step = scene.ask_and_ack(K, set(5, &vec![7; len]));
        assert_eq!(step.outcome, Replied);
        let value = Some(vec![7; len]);
        assert_eq!(sent(&step).2, Body::Reply(5, value.clone()));
        assert_eq!(scene.get(5), value);
    }
    for len in [1024, 1025, 60_000] {
        let step = scene.ask(K, set(5, &vec![8; len]));
        assert_eq!(step.outcome, Dropped);
        assert_eq!(scene.get(5), Some(vec![7; 1023]));
    }
}

#[test]
fn set_to_none() {
    let mut scene = Scene::new(A, FEW);
    for key in [5, LAST] {
        scene.ask_and_ack(K, set(key, b"x"));
        let step = scene.ask_and_ack(K, Body::Set(key, None));
        assert_eq!(step.outcome, Replied);
        assert_eq!(sent(&step).2, Body::Reply(key, None));
        assert_eq!(scene.get(key), None);
        // Nothing to delete: answered all the same.
        let step = scene.ask_and_ack(K, Body::Set(key, None));
        assert_eq!(step.outcome, Replied);
    }
}

/// A value that is too long is looked at before the owner is.
#[test]
fn set_of_another_hosts_key() {
    let mut scene = Scene::new(B, FEW);
    for body in [set(5, b"x"), set(5, &[1; 1023]), Body::Set(5, None)] {
        let step = scene.ask_and_ack(K, body);
        assert_eq!(step.outcome, Redirected);
        assert_eq!(sent(&step).2, Body::Redirect(5, A.to_vec()));
    }
    assert_eq!(scene.ask(K, set(5, &[1; 1024])).outcome, Dropped);
}

#[test]
fn reply_and_redirect() {
    let mut scene = Scene::new(A, FEW);
    for from in [K, B] {
        for body in [
            Body::Reply(5, None),
            Body::Reply(5, Some(vec![1; 2000])),
            Body::Redirect(5, B.to_vec()),
        ] {
            assert_eq!(scene.ask(from, body).outcome, Dropped);
        }
    }
}

#[test]
fn delegate_dropped() {
    let mut scene = Scene::new(B, FEW);
    let range = |lo, hi| Body::Delegate(lo, hi, vec![(6, vec![1])]);
    for body in [
        range(Some(5), Some(5)),
        range(Some(6), Some(5)),
        range(None, Some(7)),
        range(None, None),
        range(Some(LAST), Some(LAST)),
        delegate(0, None, 0..62, 1),
        delegate(0, None, 0..63, 1),
        delegate(0, Some(9), [5], 1024),
        delegate(0, Some(9), [5], 60_000),
    ] {
        assert_eq!(scene.ask(A, body).outcome, Dropped);
    }
    // The one long value may be any of them.
    for long in 0..3 {
        let list = (0..3).map(|i| (i, vec![1; if i == long { 1024 } else { 1023 }]));
        let body = Body::Delegate(Some(0), None, list.collect());
        assert_eq!(scene.ask(A, body).outcome, Dropped);
    }
    // One that is fine, but from no host.
    assert_eq!(scene.ask(K, delegate(0, Some(9), [5], 1)).outcome, Dropped);
    assert_eq!(scene.transfers(), 1);
    assert_eq!(scene.owner(5), A);
}

/// In the range are exactly the entries sent, and the count grows.
#[test]
fn delegate_accepted() {
    let mut scene = Scene::new(B, FEW);
    let step = scene.ask(A, delegate(10, Some(20), 10..20, 3));
    assert_eq!(step.outcome, Accepted);
    assert_eq!(scene.transfers(), 2);
    for (key, owner) in [(9, A), (10, B), (19, B), (20, A)] {
        assert_eq!(scene.owner(key), owner);
    }
    // Again, with other entries: what was in the range is gone.
    let step = scene.ask(C, delegate(10, Some(18), [11, 13], 1023));
    assert_eq!(step.outcome, Accepted);
    assert_eq!(scene.transfers(), 3);
    for (key, len) in [(10, None), (11, Some(1023)), (12, None), (18, Some(3))] {
        assert_eq!(scene.get(key).map(|value| value.len()), len);
    }
    // From the own address, which is a host's too.
    assert_eq!(
        scene.ask(B, delegate(10, Some(11), [], 0)).outcome,
        Accepted
    );
    assert_eq!(scene.get(11).map(|value| value.len()), Some(1023));
    assert_eq!(scene.transfers(), 4);
}

/// 61 entries of 1,023 bytes are the most that are taken.
#[test]
fn delegate_by_entries() {
    let mut scene = Scene::new(B, FEW);
    for first in [0, 5] {
        let body = delegate(0, None, first..first + 61, 1023);
        assert_eq!(scene.ask(A, body).outcome, Accepted);
        let kept = scene.both.model.records.keys().copied();
        assert!(kept.eq(first..first + 61));
        let body = delegate(0, None, first..first + 62, 1);
        assert_eq!(scene.ask(A, body).outcome, Dropped);
    }
}

/// Entries outside the range are stored all the same, whoever owns their keys.
#[test]
fn delegate_with_entries_outside() {
    let mut scene = Scene::new(B, FEW);
    let step = scene.ask(A, delegate(10, Some(20), [5, 10, 20, LAST], 2));
    assert_eq!(step.outcome, Accepted);
    assert_eq!(scene.owner(5), A);
    scene.ask(A, delegate(0, None, [], 0));
    assert_eq!(scene.get(5), None);
    scene.ask(A, delegate(0, Some(5), [5, 7], 2));
    assert_eq!(scene.get(5), Some(vec![5; 2]));
    // One that was there is set anew.
    scene.ask(A, delegate(0, Some(5), [5], 3));
    assert_eq!(scene.get(5), Some(vec![5; 3]));
    assert_eq!(scene.get(7), Some(vec![7; 2]));
}

/// End is no key: it lies above the largest.
#[test]
fn ranges_up_to_the_end() {
    let mut scene = Scene::new(B, FEW);
    scene.ask(A, delegate(LAST, None, [LAST], 1));
    assert_eq!(scene.owner(LAST), B);
    assert_eq!(scene.owner(LAST - 1), A);
    scene.ask(A, delegate(0, Some(LAST), [], 0));
    assert_eq!(scene.get(LAST), Some(vec![255]));
    assert_eq!(scene.both.model.owners.bounds().len(), 1);
    let step = scene.ask_and_ack(K, shard(0, Some(LAST), C));
    assert_eq!(step.outcome, Handed);
    assert_eq!(scene.owner(LAST), B);
    let step = scene.ask_and_ack(K, shard(LAST, None, C));
    let list = vec![(LAST, vec![255])];
    assert_eq!(sent(&step).2, Body::Delegate(Some(LAST), None, list));
    assert_eq!(scene.owner(LAST), C);
}

#[test]
fn shard_dropped() {
    let mut scene = Scene::new(A, FEW);
    scene.ask_and_ack(K, shard(100, Some(200), B));
    for body in [
        // The recipient is me, or no host.
        shard(0, Some(9), A),
        shard(0, Some(9), K),
        shard(0, Some(9), b""),
        shard(0, Some(9), b"b:22"),
        shard(0, Some(9), b"b:"),
        // The range is empty.
        shard(5, Some(5), B),
        shard(6, Some(5), B),
        Body::Shard(None, Some(5), B.to_vec()),
        Body::Shard(None, None, B.to_vec()),
        // Not all of the range is mine.
        shard(0, Some(101), B),
        shard(199, Some(300), B),
        shard(50, Some(250), B),
        shard(100, Some(200), C),
        shard(150, Some(160), B),
        shard(0, None, C),
    ] {
        assert_eq!(scene.ask(K, body).outcome, Dropped);
    }
    assert_eq!(scene.transfers(), 2);
    assert_eq!(scene.owner(0), A);
}

/// 61 entries go, 62 do not.
#[test]
fn shard_by_entries() {
    let mut scene = Scene::new(A, FEW);
    for key in 0..62 {
        scene.ask_and_ack(K, set(key, &[key as u8]));
    }
    scene.ask_and_ack(K, set(70, b"stays"));
    for hi in [Some(62), Some(70), None] {
        assert_eq!(scene.ask(K, shard(0, hi, B)).outcome, Dropped);
    }
    assert_eq!(scene.transfers(), 1);
    let step = scene.ask_and_ack(K, shard(0, Some(61), B));
    assert_eq!(step.outcome, Handed);
    assert_eq!(
        sent(&step),
        (B.to_vec(), 1, delegate(0, Some(61), 0..61, 1))
    );
    assert_eq!(scene.transfers(), 2);
    for (key, owner) in [(0, B), (60, B), (61, A), (70, A)] {
        assert_eq!(scene.owner(key), owner);
    }
    assert_eq!(scene.get(61), Some(vec![61]));
    assert_eq!(scene.get(70), Some(b"stays".to_vec()));
    // Handed back, the range has what is sent, not what it once had.
    scene.ask(B, delegate(0, Some(61), [3], 2));
    assert_eq!(scene.get(3), Some(vec![3; 2]));
    assert_eq!(scene.get(4), None);
}

/// Anyone may ask for a Shard: a client, the recipient itself, another host.
#[test]
fn shard_from_anyone() {
    let mut scene = Scene::new(A, FEW);
    for (i, from) in [K, B, C, A].into_iter().enumerate() {
        let lo = i as u64 * 10;
        let step = scene.ask_and_ack(from, shard(lo, Some(lo + 10), B));
        assert_eq!(step.outcome, Handed);
        assert_eq!(sent(&step).0, B);
    }
    assert_eq!(scene.transfers(), 5);
    assert_eq!(scene.both.model.owners.bounds().len(), 2);
}
