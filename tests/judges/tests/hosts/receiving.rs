//! What becomes of a datagram that arrives: document 01, section 4, and the room of section 5.
use crate::{number, sent, set, shard, Scene, A, B, C, FEW, K};
use judges::messages::samples;
use judges::models::host::Outcome::*;
use judges::models::messages::{written, Body, Datagram};

/// While the room is taken every datagram is dropped, Acks too.
#[test]
fn room_taken() {
    let mut scene = Scene::new(A, FEW);
    scene.ask(K, Body::Get(5));
    assert_eq!(scene.receive(B, Body::Get(6)), Taken);
    assert_eq!(scene.ack(K, 1), Full);
    assert_eq!(scene.receive(K, Body::Get(7)), Full);
    assert_eq!(scene.receive_numbered(B, 1, Body::Get(6)), Full);
    assert_eq!(scene.both.receive(K, b"rubbish").outcome, Full);
    assert_eq!(scene.both.receive(K, b"").outcome, Full);
    assert_eq!(scene.both.process().outcome, Replied);
    assert_eq!(scene.ack(K, 1), Arrived);
    assert_eq!(scene.receive(K, Body::Get(7)), Taken);
}

#[test]
fn no_message() {
    let mut scene = Scene::new(A, FEW);
    for (fault, datagram) in samples::bad() {
        if datagram.len() <= 0x1_0000 {
            let outcome = scene.both.receive(K, &datagram).outcome;
            assert_eq!(outcome, Invalid, "{fault}");
        }
    }
    assert_eq!(scene.both.model.peers.len(), 3);
}

/// A message for another destination is not taken, even if it would come next.
#[test]
fn for_another() {
    let mut scene = Scene::new(A, FEW);
    for to in [B, K, b"", b"a:", b"a:11", b"A:1", b"a:1\0"] {
        for body in [Body::Get(5), shard(0, None, B)] {
            let datagram = written(&samples::message(1, to, body));
            assert_eq!(scene.both.receive(K, &datagram).outcome, Elsewhere);
            assert_eq!(scene.both.receive(B, &datagram).outcome, Elsewhere);
        }
    }
    assert_eq!(scene.next(K), 1);
}

/// A number from the future is neither taken nor acknowledged; an old one is acknowledged by its own number.
#[test]
fn numbers_in_no_order() {
    let mut scene = Scene::new(A, FEW);
    for future in [2, 3, u64::MAX] {
        assert_eq!(scene.receive_numbered(K, future, Body::Get(5)), Future);
    }
    for new in 1..=3 {
        scene.ask_and_ack(K, set(5, &[new as u8]));
        assert_eq!(scene.next(K), new + 1);
        assert_eq!(scene.receive_numbered(K, new + 2, Body::Get(5)), Future);
    }
    for old in [3, 1, 2, 0] {
        let datagram = written(&samples::message(old, A, set(5, b"old")));
        let step = scene.both.receive(K, &datagram);
        assert_eq!(step.outcome, Again);
        assert_eq!(step.sends[0].bytes, written(&Datagram::Ack(old)));
        assert_eq!(step.sends[0].to, K);
    }
    assert_eq!(scene.get(5), Some(vec![3]));
}

/// The Ack of a message got lost: it comes again, is acknowledged again, and is not carried out again.
#[test]
fn carried_out_once() {
    let mut scene = Scene::new(A, FEW);
    scene.ask_and_ack(K, set(5, b"first"));
    scene.ask_and_ack(K, set(5, b"second"));
    for _ in 0..3 {
        assert_eq!(scene.receive_numbered(K, 1, set(5, b"first")), Again);
        assert_eq!(scene.both.process().outcome, Idle);
    }
    assert_eq!(scene.get(5), Some(b"second".to_vec()));
}

/// Message 0 is older than all: whoever sends it gets an Ack, and no place.
#[test]
fn number_0_from_a_stranger() {
    let mut scene = Scene::new(A, FEW);
    assert_eq!(scene.receive_numbered(b"x", 0, Body::Get(5)), Again);
    assert_eq!(
        scene.receive_numbered(b"longer than 8", 0, Body::Get(5)),
        Again
    );
    assert_eq!(scene.both.model.peers.len(), 3);
}

/// Each address has its own numbers.
#[test]
fn numbers_of_each_sender() {
    let mut scene = Scene::new(A, FEW);
    for from in [K, B, b"", A, C] {
        for number in 1..=2 {
            assert_eq!(scene.receive_numbered(from, number, Body::Get(5)), Taken);
            let step = scene.both.process();
            assert_eq!(sent(&step).0, from);
            assert_eq!(sent(&step).1, number);
            scene.ack(from, number);
        }
    }
}

/// The Ack of a reply got lost: the reply is sent again, and a second Ack says nothing new.
#[test]
fn acks_lost_and_repeated() {
    let mut scene = Scene::new(A, FEW);
    let reply = scene.ask(K, Body::Get(5)).sends;
    for _ in 0..3 {
        let again = scene.both.retransmit();
        assert_eq!(again.outcome, Resent);
        assert_eq!(again.sends, reply);
    }
    assert_eq!(scene.ack(K, 1), Arrived);
    assert_eq!(scene.ack(K, 1), Stale);
    assert_eq!(scene.ack(K, 0), Stale);
    assert!(scene.both.retransmit().sends.is_empty());
}

/// An Ack drops the messages up to its number, and no others.
#[test]
fn ack_of_some() {
    let mut scene = Scene::new(A, FEW);
    for _ in 0..3 {
        scene.ask(K, Body::Get(5));
    }
    scene.ask(B, Body::Get(5));
    assert_eq!(scene.ack(K, 2), Arrived);
    let left = scene.both.retransmit().sends;
    let left: Vec<(&[u8], u64)> = left.iter().map(|p| (&p.to[..], number(&p.bytes))).collect();
    assert_eq!(left, [(B, 1), (K, 3)]);
    assert_eq!(scene.ack(K, 1), Stale);
    assert_eq!(scene.ack(K, 3), Arrived);
    assert_eq!(scene.ack(B, 1), Arrived);
}

/// To one peer after the other, to each in rising order of numbers, whatever places were free.
#[test]
fn the_order_of_sending_again() {
    let mut scene = Scene::new(A, FEW);
    scene.ask(K, Body::Get(1));
    scene.ask(B, Body::Get(2));
    scene.ask(K, Body::Get(3));
    scene.ask(b"z", Body::Get(4));
    scene.ack(K, 1);
    scene.ask(B, Body::Get(5));
    scene.ack(b"z", 1);
    scene.ask(K, Body::Get(6));
    let sends = scene.both.retransmit().sends;
    let sends: Vec<(&[u8], u64)> = sends
        .iter()
        .map(|p| (&p.to[..], number(&p.bytes)))
        .collect();
    assert_eq!(sends, [(B, 1), (B, 2), (K, 2), (K, 3)]);
}

/// Nothing was sent to one who has no place, so an Ack from there says nothing.
#[test]
fn acks_from_strangers() {
    let mut scene = Scene::new(A, FEW);
    scene.ask(K, Body::Get(5));
    for stranger in [&b"x"[..], b"", b"k:", b"k:11", b"longer than 8"] {
        assert_eq!(scene.ack(stranger, 1), Stale);
        assert_eq!(scene.ack(stranger, u64::MAX), Stale);
    }
    assert_eq!(scene.both.retransmit().sends.len(), 1);
    assert_eq!(scene.both.model.peers.len(), 4);
}

/// An Ack from the future drops all that waits, and the numbers up to it are skipped.
#[test]
fn acks_from_the_future() {
    let mut scene = Scene::new(A, FEW);
    scene.ask(K, Body::Get(1));
    scene.ask(K, Body::Get(2));
    assert_eq!(scene.ack(K, 10), Arrived);
    assert!(scene.both.retransmit().sends.is_empty());
    assert_eq!(sent(&scene.ask(K, Body::Get(3))).1, 11);
    assert_eq!(scene.ack(K, 10), Stale);
    assert_eq!(scene.ack(K, 11), Arrived);
    // To a host nothing was sent yet, but it has a place.
    assert_eq!(scene.ack(B, 4), Arrived);
    assert_eq!(sent(&scene.ask(K, shard(0, Some(9), B))).1, 5);
}
