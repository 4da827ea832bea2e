//! Numbers that run out, the count of transfers at its limit, and turns.
use crate::{delegate, sent, set, shard, Scene, A, B, C, FEW, K};
use judges::hosts::operation::Operation;
use judges::messages::samples::message;
use judges::models::host::Outcome::*;
use judges::models::host::{Limits, ROUND};
use judges::models::messages::{written, Body};

const LAST: u64 = u64::MAX;

/// The count from which on no transfer is processed.
const FULL: u64 = 0x7fff_ffff_ffff_ffff - 2;

fn numbers(scene: &mut Scene, of: &[u8], received: u64, acknowledged: u64) {
    scene.both.play(Operation::Numbers {
        of: of.to_vec(),
        received,
        acknowledged,
    });
}

/// The message with the largest number is the last that is ever taken from its sender.
#[test]
fn received_up_to_the_last_number() {
    let mut scene = Scene::new(A, FEW);
    numbers(&mut scene, B, LAST - 2, 0);
    assert_eq!(scene.receive_numbered(B, LAST, Body::Get(5)), Future);
    assert_eq!(scene.receive_numbered(B, LAST - 1, Body::Get(5)), Taken);
    scene.both.process();
    assert_eq!(scene.receive_numbered(B, LAST, Body::Get(5)), Taken);
    scene.both.process();
    for number in [LAST, LAST - 1, 1, 0] {
        assert_eq!(scene.receive_numbered(B, number, Body::Get(5)), Again);
    }
}

/// The last number is given to an answer; then there is none, and no request is executed.
#[test]
fn sent_up_to_the_last_number() {
    let mut scene = Scene::new(A, FEW);
    scene.ask_and_ack(K, set(5, b"before"));
    numbers(&mut scene, K, 1, LAST - 1);
    assert_eq!(sent(&scene.ask(K, Body::Get(5))).1, LAST);
    for body in [
        Body::Get(5),
        set(5, b"after"),
        Body::Set(5, None),
        set(6, b""),
    ] {
        assert_eq!(scene.ask(K, body).outcome, Unnumbered);
    }
    assert_eq!(scene.both.retransmit().sends.len(), 1);
    assert_eq!(scene.ack(K, LAST - 1), Stale);
    assert_eq!(scene.ack(K, LAST), Arrived);
    assert_eq!(scene.ack(K, LAST), Stale);
    assert_eq!(scene.ask(K, Body::Get(5)).outcome, Unnumbered);
    assert_eq!(scene.both.model.records[&5], b"before");
    // A value that is too long is dropped before numbers are looked at, and others have numbers still.
    assert_eq!(scene.ask(K, set(5, &[0; 1024])).outcome, Dropped);
    assert_eq!(scene.ask(B, Body::Get(5)).outcome, Replied);
}

#[test]
fn no_number_for_a_redirect() {
    let mut scene = Scene::new(B, FEW);
    scene.ask_and_ack(K, Body::Get(5));
    numbers(&mut scene, K, 1, LAST);
    assert_eq!(scene.ask(K, Body::Get(5)).outcome, Unnumbered);
    assert_eq!(scene.ask(K, set(5, b"x")).outcome, Unnumbered);
}

/// That there is no number is told before that the table is full.
#[test]
fn no_number_and_a_full_table() {
    let mut scene = Scene::new(A, Limits { entries: 1, ..FEW });
    scene.ask_and_ack(K, set(5, b"x"));
    assert_eq!(scene.ask(K, set(6, b"y")).outcome, Dropped);
    numbers(&mut scene, K, 2, LAST);
    assert_eq!(scene.ask(K, set(6, b"y")).outcome, Unnumbered);
    assert_eq!(scene.ask(K, set(5, b"y")).outcome, Unnumbered);
    assert_eq!(scene.both.model.records[&5], b"x");
}

/// A Shard for which there is no number only raises the count.
#[test]
fn no_number_for_a_transfer() {
    let mut scene = Scene::new(A, FEW);
    scene.ask_and_ack(K, set(5, b"x"));
    numbers(&mut scene, B, 0, LAST - 1);
    assert_eq!(sent(&scene.ask(K, shard(100, None, B))).1, LAST);
    for count in [3, 4] {
        assert_eq!(scene.ask(K, shard(0, Some(9), B)).outcome, Unnumbered);
        assert_eq!(scene.transfers(), count);
    }
    // One that is refused does not even do that; to another host there are numbers.
    assert_eq!(scene.ask(K, shard(0, None, B)).outcome, Dropped);
    assert_eq!(scene.transfers(), 4);
    assert_eq!(scene.ask(K, shard(0, Some(9), C)).outcome, Handed);
}

/// An Ack of the largest number leaves none for any answer.
#[test]
fn an_ack_that_skips_all_numbers() {
    let mut scene = Scene::new(A, FEW);
    scene.ask(K, Body::Get(5));
    assert_eq!(scene.ack(K, LAST), Arrived);
    assert!(scene.both.retransmit().sends.is_empty());
    assert_eq!(scene.ask(K, Body::Get(5)).outcome, Unnumbered);
}

#[test]
fn transfers_up_to_the_limit() {
    for (me, from, body, outcome) in [
        (B, A, delegate(10, Some(20), [11], 1), Accepted),
        (A, K, shard(10, Some(20), B), Handed),
        (A, K, shard(10, Some(20), A), Dropped),
        (B, K, delegate(10, Some(20), [11], 1), Dropped),
    ] {
        let mut scene = Scene::new(me, FEW);
        scene.both.play(Operation::Transfers(FULL - 1));
        assert_eq!(scene.ask(from, body.clone()).outcome, outcome);
        let moved = u64::from(outcome != Dropped);
        assert_eq!(scene.transfers(), FULL - 1 + moved);
        // At the limit it stays, and the host takes no other message.
        scene.both.play(Operation::Transfers(FULL));
        assert_eq!(scene.ask(from, body.clone()).outcome, Stuck);
        assert_eq!(scene.both.process().outcome, Stuck);
        assert_eq!(scene.receive(K, Body::Get(5)), Full);
        assert_eq!(scene.ack(B, 1), Full);
        assert_eq!(scene.both.process().outcome, Stuck);
    }
}

/// The limit is one for transfers alone.
#[test]
fn requests_at_the_limit_of_transfers() {
    let mut scene = Scene::new(A, FEW);
    for count in [FULL, FULL + 1, LAST] {
        scene.both.play(Operation::Transfers(count));
        assert_eq!(scene.ask_and_ack(K, set(5, b"x")).outcome, Replied);
        assert_eq!(scene.ask_and_ack(K, Body::Get(5)).outcome, Replied);
        assert_eq!(scene.ask(K, Body::Reply(5, None)).outcome, Dropped);
    }
    assert_eq!(scene.ask(K, shard(0, None, B)).outcome, Stuck);
}

/// Receive, process, retransmit, and again from the front; what has arrived is looked at on the first of them only.
#[test]
fn turns() {
    let mut scene = Scene::new(A, FEW);
    let datagram = written(&message(1, A, set(5, b"x")));
    let next = written(&message(2, A, Body::Get(5)));
    let arrived = Some((K, &datagram[..]));
    let later = Some((K, &next[..]));
    for (arrived, outcome) in [
        (None, Waits),
        (arrived, Idle),
        (arrived, Waits),
        (arrived, Taken),
        (later, Replied),
        (later, Waits),
        (arrived, Again),
        (None, Idle),
        (None, Waits),
        (later, Taken),
        (None, Replied),
        (None, Waits),
        (Some((K, &b"rubbish"[..])), Invalid),
    ] {
        assert_eq!(scene.both.turn(arrived).outcome, outcome);
    }
    assert_eq!(scene.both.model.turns, 13);
}

/// A room that is not processed, since turns are not the only way to a step, is full on the next turn.
#[test]
fn turns_among_other_steps() {
    let mut scene = Scene::new(A, FEW);
    assert_eq!(scene.receive(K, Body::Get(5)), Taken);
    let datagram = written(&message(1, A, Body::Get(5)));
    assert_eq!(scene.both.turn(Some((K, &datagram))).outcome, Full);
    assert_eq!(scene.both.turn(None).outcome, Replied);
    assert_eq!(scene.both.process().outcome, Idle);
    assert_eq!(scene.both.turn(None).outcome, Waits);
    assert_eq!(scene.both.turn(Some((K, &datagram))).outcome, Again);
}

/// Of the turns for sending again only the last of a round acts, and then the round begins anew.
#[test]
fn the_turn_that_sends_again() {
    let mut scene = Scene::new(A, FEW);
    let mut sends = scene.ask(B, Body::Get(6)).sends;
    sends.extend(scene.ask(K, Body::Get(5)).sends);
    sends.extend(scene.ask(K, Body::Get(7)).sends);
    for before in [2, 5, ROUND - 4, ROUND / 2 - ROUND / 2 % 3 + 2] {
        scene.both.play(Operation::Turns(before));
        assert_eq!(scene.both.turn(None).outcome, Waits);
    }
    scene.both.play(Operation::Turns(ROUND - 1));
    let step = scene.both.turn(None);
    assert_eq!(step.outcome, Resent);
    assert_eq!(step.sends, sends);
    assert_eq!(scene.both.model.turns, 0);
    scene.ack(B, 1);
    scene.ack(K, 2);
    scene.both.play(Operation::Turns(ROUND - 1));
    let step = scene.both.turn(None);
    assert_eq!(step.outcome, Resent);
    assert!(step.sends.is_empty());
}
