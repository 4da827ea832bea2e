//! Bytes that follow no rule: nothing panics, and a host that drops them is as it was.
mod common;
#[path = "../src/bin/night/draw.rs"]
#[allow(dead_code)]
mod draw;

use common::{ack, get, message, set, shard, Scene, A, B, FEW, K};
use draw::Draw;
use tagshards::wire::{read, write};
use tagshards::{Client, Limits, Outcome};

const ROUNDS: usize = 4_000;

/// Good datagrams to start from, of all kinds.
fn good() -> Vec<Vec<u8>> {
    let entries = vec![(9, b"x".to_vec()), (12, vec![7; 30])];
    let (lo, hi) = (Some(7), None);
    let delegate = tagshards::wire::Body::Delegate { lo, hi, entries };
    let bodies = [get(5), set(5, b"value"), shard(3, None, B), delegate];
    let messages = bodies.map(|body| message(1, B, body));
    messages.into_iter().chain([ack(7)]).collect()
}

/// Random bytes, or a good datagram that is cut, longer, or changed in a few places.
fn damaged(draw: &mut Draw, good: &[Vec<u8>]) -> Vec<u8> {
    let mut bytes = draw.of(good).clone();
    match draw.below(4) {
        0 => {
            let length = draw.below(40);
            bytes = (0..length).map(|_| draw.number() as u8).collect();
        }
        1 => bytes.truncate(draw.below(bytes.len() as u64) as usize),
        2 => bytes.push(draw.number() as u8),
        _ => {}
    }
    for _ in 0..draw.below(3) {
        let length = bytes.len() as u64;
        if let Some(byte) = bytes.get_mut(draw.below(length) as usize) {
            *byte = draw.number() as u8;
        }
    }
    bytes
}

fn waiting(scene: &mut Scene) -> Vec<(Vec<u8>, Vec<u8>)> {
    assert_eq!(scene.host.retransmit(), Outcome::Resent);
    let sends = scene.host.sends();
    sends.map(|(to, it)| (to.to_vec(), it.to_vec())).collect()
}

/// All of them are for another destination, so none may change the host, whatever it makes of them. This also holds the
/// client's reader to the proved one: a datagram is Invalid if and only if the reader reads none.
#[test]
fn a_host_drops_noise() {
    let mut scene = Scene::new(FEW, A);
    scene.ask(K, set(1, b"one"));
    scene.ask(K, shard(10, Some(20), B));
    let before = waiting(&mut scene);
    assert_eq!(before.len(), 2);
    let mut draw = Draw::new(1);
    let good = good();
    let mut read_some = 0;
    for _ in 0..ROUNDS {
        let bytes = damaged(&mut draw, &good);
        let outcome = scene.host.receive(b"stranger", &bytes);
        let quiet = [Outcome::Invalid, Outcome::Elsewhere, Outcome::Stale];
        assert!(
            quiet.contains(&outcome) || is_for_me(&bytes),
            "{outcome}: {bytes:?}"
        );
        let is_read = read(&bytes).is_some();
        assert_eq!(is_read, outcome != Outcome::Invalid, "{bytes:?}");
        read_some += usize::from(is_read);
    }
    assert!(ROUNDS / 10 < read_some && read_some < ROUNDS * 9 / 10);
    assert_eq!(waiting(&mut scene), before);
    assert_eq!((scene.host.entries(), scene.host.peers()), (1, 3));
}

/// Damage may turn the destination into the host's own.
fn is_for_me(bytes: &[u8]) -> bool {
    bytes.windows(A.len()).any(|part| part == A)
}

/// What is read is written as it was.
#[test]
fn what_is_read_is_written_again() {
    let mut draw = Draw::new(2);
    let good = good();
    for _ in 0..100_000 {
        let bytes = damaged(&mut draw, &good);
        if let Some(datagram) = read(&bytes) {
            assert_eq!(write(&datagram), Some(bytes));
        }
    }
}

#[test]
fn a_client_survives_noise() {
    let mut draw = Draw::new(3);
    let good = good();
    let mut client = Client::new(B, &[A, K]).expect("a client");
    for i in 0..20_000 {
        if i % 100 == 0 {
            client.get(draw.below(9));
        }
        let bytes = damaged(&mut draw, &good);
        let senders: [&[u8]; 3] = [A, K, b"stranger"];
        let from = *draw.of(&senders);
        client.receive(from, &bytes);
        client.resend();
        while client.send().is_some() {}
    }
    assert_eq!(client.unanswered(), 200);
}

/// Datagrams and addresses that are longer than anything that is lent.
#[test]
fn long_ones() {
    let mut scene = Scene::new(FEW, A);
    let host = &mut scene.host;
    for length in [65_535, 65_536, 65_537, 2_000_000] {
        assert_eq!(host.receive(K, &vec![0; length]), Outcome::Invalid);
        let long = message(1, A, set(5, &vec![1; length]));
        assert_eq!(host.receive(K, &long), Outcome::Unreceived);
        let from = vec![b'x'; length];
        let outcome = host.receive(&from, &message(1, A, get(5)));
        assert_eq!(outcome, Outcome::Unreceived);
    }
    assert_eq!((host.peers(), host.is_busy()), (2, false));
    let limits = Limits { peers: 3, ..FEW };
    let from = vec![b'x'; limits.address()];
    let mut scene = Scene::new(limits, A);
    assert_eq!(scene.ask(&from, get(5)), Outcome::Replied);
    assert_eq!(
        scene.host.sends().next().map(|(to, _)| to.len()),
        Some(from.len())
    );
}
