//! What no test from outside could wait for: counts at their limits, and answers that do not come.
use super::*;
use crate::memory::PEERS;
use crate::wire::{write, Body, Datagram};

const A: &[u8] = b"a";
const B: &[u8] = b"b";
const K: &[u8] = b"k";

fn host() -> Host {
    let limits = Limits {
        entries: 2,
        bounds: 3,
        peers: 3,
        waiting: 2,
        ..Limits::default()
    };
    Host::start(limits, &[A, B], A).expect("the host starts")
}

fn message(number: u64, body: Body) -> Vec<u8> {
    let to = A.to_vec();
    write(&Datagram::Message { number, to, body }).expect("a message")
}

/// The count of transfers is one below its limit, and then at it.
#[test]
fn stuck() {
    let mut host = host();
    let last = 0x7fff_ffff_ffff_ffff - 3;
    host.back_end.set_number(&mut host.memory, TRANSFERS, last);
    let shard = |lo| Body::Shard {
        lo: Some(lo),
        hi: None,
        to: B.to_vec(),
    };
    assert_eq!(host.receive(K, &message(1, shard(20))), Outcome::Taken);
    assert_eq!(host.process(), Outcome::Handed);
    assert_eq!(
        host.receive(K, &message(2, Body::Get { key: 1 })),
        Outcome::Taken
    );
    assert_eq!(host.process(), Outcome::Replied);
    assert_eq!(
        host.receive(B, &write(&Datagram::Ack(1)).expect("an Ack")),
        Outcome::Arrived
    );
    assert_eq!(host.receive(K, &message(3, shard(10))), Outcome::Taken);
    assert_eq!(host.process(), Outcome::Stuck);
    assert_eq!(host.process(), Outcome::Stuck);
    assert!(host.is_busy());
    assert_eq!(
        host.receive(K, &message(4, Body::Get { key: 1 })),
        Outcome::Full
    );
}

/// The last turn before all begins anew sends again.
#[test]
fn a_turn_sends_again() {
    let mut host = host();
    for number in [1, 2] {
        host.receive(K, &message(number, Body::Get { key: 1 }));
        assert_eq!(host.process(), Outcome::Replied);
    }
    let last = 3 * 100_000_000 - 1;
    host.back_end.set_number(&mut host.memory, TURNS, last - 3);
    assert_eq!(host.turn(None), Outcome::Waits);
    assert_eq!(host.turn(None), Outcome::Waits);
    assert_eq!(host.turn(None), Outcome::Idle);
    assert_eq!(host.turn(None), Outcome::Resent);
    let turned: Vec<_> = host.sends().map(|(_, it)| it.to_vec()).collect();
    assert_eq!(turned.len(), 2);
    assert!(host.receives());
    assert_eq!(host.retransmit(), Outcome::Resent);
    assert!(host.sends().map(|(_, it)| it.to_vec()).eq(turned));
}

/// Answers that have no name here are no panic.
#[test]
fn unknown_answers() {
    let mut host = host();
    assert_eq!(host.stepped(Some(2), K), Outcome::Unfit);
    assert_eq!(host.stepped(Some(77), K), Outcome::Unknown(77));
    assert_eq!(host.stepped(None, K), Outcome::Gone);
    assert_eq!(host.sends().count(), 0);
    // A place that there is not hands out nothing.
    host.memory.numbers[HANDED] = 99;
    assert_eq!(host.stepped(Some(22), K), Outcome::Replied);
    assert_eq!(host.sends().count(), 0);
}

/// Where the proved code runs in a program of its own, that may end.
#[cfg(not(tagshards_native))]
#[test]
fn the_program_has_ended() {
    let mut host = host();
    host.receive(K, &message(1, Body::Get { key: 1 }));
    host.back_end.end();
    for _ in 0..2 {
        assert_eq!(host.process(), Outcome::Gone);
        assert_eq!(host.receive(K, b"x"), Outcome::Gone);
        assert_eq!(host.retransmit(), Outcome::Gone);
        assert_eq!(host.turn(None), Outcome::Gone);
        assert_eq!(host.sends().count(), 0);
    }
}

/// A datagram that is longer than the program's whole arena.
#[cfg(not(tagshards_native))]
#[test]
fn too_long_to_ask() {
    let mut host = host();
    let huge = vec![0; 130 << 20];
    assert_eq!(host.receive(K, &huge), Outcome::Unreceived);
    assert_eq!(host.turn(Some((K, &huge))), Outcome::Waits);
    assert!(!host.receives());
    assert_eq!(host.turn(Some((&huge, b""))), Outcome::Idle);
}

/// Memory that something else has written into keeps no host.
#[test]
fn an_audit_sees_damage() {
    let mut host = host();
    assert!(host.audit());
    let peers = host.memory.number(PEERS);
    host.back_end.set_number(&mut host.memory, PEERS, 99);
    assert!(!host.audit());
    host.back_end.set_number(&mut host.memory, PEERS, peers);
    assert!(host.audit());
}
