//! Addresses and datagrams of exactly the size that there is room for, and one byte longer.
use crate::{delegate, number, sent, set, shard, Scene, A, B, FEW, K};
use judges::models::host::{Limits, Outcome::*};
use judges::models::messages::Body;

/// The bytes of a Set beside its value, for a destination of so many bytes.
const fn set_around(to: usize) -> usize {
    1 + 8 + 8 + to + 1 + 8 + 1 + 8
}

/// A datagram that fills the room is taken, one that is longer by a byte is not.
#[test]
fn a_datagram_as_long_as_the_room() {
    for more in [0, 5, 1000] {
        let room = FEW.size + more;
        let mut scene = Scene::new(A, Limits { room, ..FEW });
        let most = room - set_around(A.len());
        for from in [K, B] {
            assert_eq!(scene.receive(from, set(5, &vec![1; most + 1])), Unreceived);
            assert_eq!(scene.ask(from, set(5, &vec![1; most])).outcome, Dropped);
            // An old one, or one from the future, needs no room.
            let long = set(5, &vec![1; most + 1]);
            assert_eq!(scene.receive_numbered(from, 1, long.clone()), Again);
            assert_eq!(scene.receive_numbered(from, 3, long), Future);
        }
        // 3,000 entries are more than are taken, and about as long as the room.
        let keys = (room - 100) / 17;
        let step = scene.ask(B, delegate(0, None, 0..keys as u64, 1));
        assert_eq!(step.outcome, Dropped);
    }
}

#[test]
fn an_address_as_long_as_there_is_room() {
    let mut scene = Scene::new(A, FEW);
    for long in [&b"nine long"[..], &[0; 10], &[7; 65_536]] {
        for body in [Body::Get(5), Body::Reply(5, None)] {
            assert_eq!(scene.receive(long, body), Unreceived);
        }
    }
    for from in [&b"8 is all"[..], b"7 long.", b""] {
        let step = scene.ask(from, Body::Get(5));
        assert_eq!(sent(&step).0, from);
        assert_eq!(scene.ack(from, 1), Arrived);
    }
    // Neighbours that begin alike are others.
    assert_eq!(scene.receive(b"8 is al", Body::Get(5)), Unreceived);
}

/// Addresses inside a message may be longer than any that has a place.
#[test]
fn long_addresses_inside() {
    let mut scene = Scene::new(A, FEW);
    let long = vec![7; 60_000];
    assert_eq!(scene.ask(K, shard(0, None, &long)).outcome, Dropped);
    let body = Body::Redirect(5, long);
    assert_eq!(scene.ask(K, body).outcome, Dropped);
}

/// Hosts whose addresses have exactly the width, and one whose address is empty.
#[test]
fn hosts_with_long_and_empty_addresses() {
    let hosts: [&[u8]; 3] = [b"", b"8 bytes!", b"8 bytes?"];
    let mut scene = Scene::of(&hosts, b"", FEW);
    let step = scene.ask_and_ack(K, shard(10, Some(20), hosts[1]));
    assert_eq!(sent(&step).0, hosts[1]);
    assert_eq!(scene.ask(K, shard(0, Some(10), b"")).outcome, Dropped);
    assert_eq!(scene.owner(10), hosts[1]);
    assert_eq!(scene.owner(9), hosts[0]);
    let step = scene.ask(hosts[2], delegate(10, Some(20), [], 0));
    assert_eq!(step.outcome, Accepted);
    let mut scene = Scene::of(&hosts, b"8 bytes?", FEW);
    assert_eq!(scene.owner(9), b"8 bytes?".to_vec().split_off(8));
}

/// The largest Delegate there can be fills a place exactly: 61 values of 1,023 bytes, for an address of full width.
#[test]
fn the_largest_delegate() {
    let width = 2_113;
    let long: &'static [u8] = vec![b'b'; width].leak();
    let limits = Limits {
        address: width,
        size: 63_423 + width,
        ..FEW
    };
    assert_eq!(limits.size, 65_536);
    let mut scene = Scene::of(&[A, long], A, limits);
    for key in 0..61 {
        scene.ask_and_ack(K, set(key, &[key as u8; 1023]));
    }
    let step = scene.ask(K, shard(0, Some(61), long));
    assert_eq!(step.outcome, Handed);
    assert_eq!(step.sends[0].bytes.len(), limits.size);
    assert_eq!(sent(&step).2, delegate(0, Some(61), 0..61, 1023));
    assert_eq!(scene.both.retransmit().sends, step.sends);
}

/// Of addresses that are very wide a Redirect takes more than a Delegate, and fills a place exactly.
#[test]
fn the_largest_redirect() {
    let width = 63_390;
    let long: &'static [u8] = vec![b'a'; width].leak();
    let client = vec![b'k'; width];
    let limits = Limits {
        address: width,
        size: 34 + 2 * width,
        room: 34 + 2 * width,
        peers: 4,
        waiting: 2,
        ..FEW
    };
    let mut scene = Scene::of(&[long, B], B, limits);
    let step = scene.ask(&client, Body::Get(5));
    assert_eq!(step.outcome, Redirected);
    assert_eq!(step.sends[0].bytes.len(), limits.size);
    assert_eq!(sent(&step).2, Body::Redirect(5, long.to_vec()));
    assert_eq!(number(&step.sends[0].bytes), 1);
    assert_eq!(scene.ack(&client, 1), Arrived);
}
