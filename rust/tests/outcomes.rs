//! Each outcome once, with what is handed out after it. Those that no test could wait for are tested in src/host.rs.
mod common;

use common::{ack, get, message, only, sent, set, shard, Scene, A, B, FEW, K};
use tagshards::wire::{Body, Datagram};
use tagshards::{Limits, Outcome};

fn handed(scene: &Scene) -> usize {
    scene.host.sends().count()
}

#[test]
fn receiving() {
    let mut scene = Scene::new(FEW, A);
    let host = &mut scene.host;
    assert_eq!(host.receive(K, b"no datagram"), Outcome::Invalid);
    assert_eq!(host.receive(K, &message(1, B, get(5))), Outcome::Elsewhere);
    assert_eq!(host.receive(K, &message(2, A, get(5))), Outcome::Future);
    assert_eq!(host.receive(K, &ack(1)), Outcome::Stale);
    assert_eq!(host.sends().count(), 0);
    assert_eq!(host.receive(K, &message(1, A, get(5))), Outcome::Taken);
    assert_eq!(sent(host), [(K.to_vec(), Datagram::Ack(1))]);
    assert!(host.is_busy());
    assert_eq!(host.receive(K, &message(2, A, get(6))), Outcome::Full);
    assert_eq!(host.sends().count(), 0);
    assert_eq!(host.process(), Outcome::Replied);
    assert_eq!(host.receive(K, &message(1, A, get(5))), Outcome::Again);
    assert_eq!(sent(host), [(K.to_vec(), Datagram::Ack(1))]);
    assert_eq!(host.receive(K, &ack(1)), Outcome::Arrived);
    assert_eq!(host.receive(K, &ack(1)), Outcome::Stale);
    assert_eq!(host.retransmit(), Outcome::Resent);
    assert_eq!(host.sends().count(), 0);
    assert!(host.audit());
}

#[test]
fn requests() {
    let mut scene = Scene::new(FEW, A);
    assert_eq!(scene.host.process(), Outcome::Idle);
    assert_eq!(scene.ask_and_ack(K, set(5, b"x")), Outcome::Replied);
    assert_eq!(scene.ask(K, get(5)), Outcome::Replied);
    let value = Some(b"x".to_vec());
    let (to, datagram) = only(&scene.host);
    let reply = Body::Reply { key: 5, value };
    assert_eq!((to, datagram), (K.to_vec(), message(2, K, reply)));
    let reply = Body::Reply {
        key: 5,
        value: None,
    };
    assert_eq!(scene.ask(K, reply), Outcome::Dropped);
    assert_eq!(handed(&scene), 0);
    assert_eq!(scene.ask(K, set(6, &[0; 1024])), Outcome::Dropped);
}

#[test]
fn redirection() {
    let mut scene = Scene::new(FEW, B);
    assert_eq!(scene.ask(K, get(5)), Outcome::Redirected);
    let redirect = Body::Redirect {
        key: 5,
        to: A.to_vec(),
    };
    assert_eq!(only(&scene.host), (K.to_vec(), message(1, K, redirect)));
}

#[test]
fn a_transfer() {
    let mut one = Scene::new(FEW, A);
    let mut two = Scene::new(FEW, B);
    assert_eq!(one.ask_and_ack(K, set(15, b"x")), Outcome::Replied);
    assert_eq!(one.ask(K, shard(10, Some(20), B)), Outcome::Handed);
    let (to, delegate) = only(&one.host);
    let body = Body::Delegate {
        lo: Some(10),
        hi: Some(20),
        entries: vec![(15, b"x".to_vec())],
    };
    assert_eq!((to, &delegate), (B.to_vec(), &message(1, B, body)));
    assert_eq!(two.host.receive(A, &delegate), Outcome::Taken);
    assert_eq!(two.host.process(), Outcome::Accepted);
    assert_eq!(handed(&two), 0);
    let counts = |scene: &Scene| {
        (
            scene.host.entries(),
            scene.host.bounds(),
            scene.host.transfers(),
        )
    };
    assert_eq!((counts(&one), counts(&two)), ((0, 3, 2), (1, 3, 2)));
    assert_eq!(two.ask(K, get(15)), Outcome::Replied);
    assert_eq!(one.ask(K, get(15)), Outcome::Redirected);
}

/// A client that acknowledges what was never sent is taken at its word, and gets no answers any more.
#[test]
fn no_number_left() {
    let mut scene = Scene::new(FEW, A);
    assert_eq!(scene.ask(K, get(5)), Outcome::Replied);
    assert_eq!(scene.host.receive(K, &ack(u64::MAX)), Outcome::Arrived);
    assert_eq!(scene.ask(K, set(5, b"x")), Outcome::Unnumbered);
    assert_eq!((handed(&scene), scene.host.entries()), (0, 0));
}

#[test]
fn not_received() {
    let mut scene = Scene::new(FEW, A);
    for key in 0..3 {
        assert_eq!(scene.ask(K, get(key)), Outcome::Replied);
    }
    assert_eq!(scene.bring(K, get(3)), Outcome::Unreceived);
    assert_eq!(handed(&scene), 0);
}

/// Sending again hands out all that waits, to one peer after the other, in the order of the numbers, as often as it is
/// called.
#[test]
fn sending_again() {
    let limits = Limits {
        waiting: 200,
        ..FEW
    };
    let mut scene = Scene::new(limits, A);
    assert_eq!(scene.ask(K, shard(10, None, B)), Outcome::Handed);
    let mut want = vec![only(&scene.host)];
    for key in 0..150 {
        let key = key % 10;
        assert_eq!(scene.ask(K, set(key % 4, &[7; 1000])), Outcome::Replied);
        want.push(only(&scene.host));
    }
    for _ in 0..2 {
        assert_eq!(scene.host.retransmit(), Outcome::Resent);
        let sends = scene.host.sends();
        let again: Vec<_> = sends.map(|(to, it)| (to.to_vec(), it.to_vec())).collect();
        assert_eq!(again, want);
    }
}

/// A Delegate that is as large as one can be, which is longer than what is read at once.
#[test]
fn a_large_transfer() {
    let limits = Limits { entries: 61, ..FEW };
    let mut one = Scene::new(limits, A);
    let mut two = Scene::new(limits, B);
    for key in 0..61 {
        let value = vec![key as u8; 1023];
        assert_eq!(one.ask_and_ack(K, set(key, &value)), Outcome::Replied);
    }
    assert_eq!(one.ask(K, shard(0, Some(61), B)), Outcome::Handed);
    let (_, delegate) = only(&one.host);
    assert_eq!(two.host.receive(A, &delegate), Outcome::Taken);
    assert_eq!(two.host.process(), Outcome::Accepted);
    for key in 0..61 {
        assert_eq!(two.ask_and_ack(K, get(key)), Outcome::Replied);
    }
    assert_eq!((one.host.entries(), two.host.entries()), (0, 61));
}

#[test]
fn turns() {
    let mut scene = Scene::new(FEW, A);
    let host = &mut scene.host;
    let request = message(1, A, get(5));
    assert!(host.receives());
    assert_eq!(host.turn(Some((K, &request))), Outcome::Taken);
    assert_eq!(sent(host), [(K.to_vec(), Datagram::Ack(1))]);
    assert!(!host.receives());
    assert_eq!(host.turn(Some((K, &request))), Outcome::Replied);
    assert_eq!(host.sends().count(), 1);
    assert_eq!(host.turn(None), Outcome::Waits);
    assert_eq!(host.sends().count(), 0);
    assert_eq!(host.turn(None), Outcome::Waits);
    assert_eq!(host.turn(None), Outcome::Idle);
}

#[test]
fn outcomes_have_names() {
    assert_eq!(
        Outcome::Taken.to_string(),
        "a new message taken and acknowledged"
    );
    let unknown = Outcome::Unknown(99).to_string();
    assert_eq!(unknown, "the answer 99, which has no name");
}
