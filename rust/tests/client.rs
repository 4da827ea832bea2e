//! The client, without a network: what it sends, and what it makes of what it hears.
mod common;

use common::{ack, get, message, set, shard, A, B, K};
use tagshards::wire::Body;
use tagshards::{Answer, Client, Heard, Refusal, Unasked};

fn client() -> Client {
    Client::new(K, &[A, B]).expect("a client")
}

fn reply(number: u64, key: u64, value: Option<&[u8]>) -> Vec<u8> {
    let value = value.map(<[u8]>::to_vec);
    message(number, K, Body::Reply { key, value })
}

fn redirect(number: u64, key: u64, to: &[u8]) -> Vec<u8> {
    let to = to.to_vec();
    message(number, K, Body::Redirect { key, to })
}

fn sends(client: &mut Client) -> Vec<(Vec<u8>, Vec<u8>)> {
    std::iter::from_fn(|| client.send()).collect()
}

fn answers(client: &mut Client) -> Vec<(u64, Answer)> {
    let answers = std::iter::from_fn(|| client.answer());
    answers.map(|it| (it.key, it.answer)).collect()
}

#[test]
fn requests_are_numbered_and_sent_again() {
    let mut client = client();
    client.get(5);
    client.set(6, Some(b"x")).expect("a request");
    client.shard(A, 10, None, B).expect("a request");
    let bodies = [get(5), set(6, b"x"), shard(10, None, B)];
    let number = |(i, body)| (A.to_vec(), message(i as u64 + 1, A, body));
    let want: Vec<_> = bodies.into_iter().enumerate().map(number).collect();
    assert_eq!(sends(&mut client), want);
    assert_eq!(sends(&mut client), []);
    client.resend();
    client.resend();
    assert_eq!(sends(&mut client), want);
    assert_eq!(client.receive(A, &ack(2)), Heard::Ack);
    client.resend();
    assert_eq!(sends(&mut client), want[2..]);
    assert_eq!((client.unanswered(), client.unacknowledged()), (2, 1));
}

#[test]
fn answers_are_taken_once_and_acknowledged() {
    let mut client = client();
    client.get(5);
    sends(&mut client);
    let early = reply(2, 5, None);
    let good = reply(1, 5, Some(b"x"));
    assert_eq!(client.receive(A, &early), Heard::Nothing);
    assert_eq!(client.receive(b"stranger", &good), Heard::Nothing);
    let other = message(1, A, get(5));
    assert_eq!(client.receive(A, &other), Heard::Nothing);
    assert_eq!(sends(&mut client), []);
    assert_eq!(client.receive(A, &good), Heard::Reply);
    assert_eq!(client.receive(A, &good), Heard::Again);
    let acknowledged = (A.to_vec(), ack(1));
    assert_eq!(sends(&mut client), [acknowledged.clone(), acknowledged]);
    let value = Answer::Value(Some(b"x".to_vec()));
    assert_eq!(answers(&mut client), [(5, value)]);
    assert_eq!(client.receive(A, &early), Heard::Other);
    assert_eq!(answers(&mut client), []);
}

#[test]
fn redirections_are_followed_and_remembered() {
    let mut client = client();
    client.get(5);
    sends(&mut client);
    assert_eq!(client.receive(A, &redirect(1, 5, B)), Heard::Redirect);
    let want = [(A.to_vec(), ack(1)), (B.to_vec(), message(1, B, get(5)))];
    assert_eq!(sends(&mut client), want);
    assert_eq!(client.receive(B, &reply(1, 5, None)), Heard::Reply);
    sends(&mut client);
    client.get(5);
    let want = [(B.to_vec(), message(2, B, get(5)))];
    assert_eq!(sends(&mut client), want);
    assert_eq!(client.receive(B, &redirect(2, 5, b"far")), Heard::Redirect);
    let elsewhere = Answer::Elsewhere(b"far".to_vec());
    assert_eq!(
        answers(&mut client),
        [(5, Answer::Value(None)), (5, elsewhere)]
    );
}

/// Of the requests for one key one is under way at a time.
#[test]
fn one_key_at_a_time() {
    let mut client = client();
    let one = client.set(5, Some(b"x")).expect("a request");
    let two = client.get(5);
    assert!(one < two);
    assert_eq!(sends(&mut client).len(), 1);
    client.receive(A, &reply(1, 5, Some(b"x")));
    let want = [(A.to_vec(), ack(1)), (A.to_vec(), message(2, A, get(5)))];
    assert_eq!(sends(&mut client), want);
    assert_eq!(client.unanswered(), 1);
}

/// A host answers in order, so what it has passed over was dropped.
#[test]
fn what_is_passed_over_was_dropped() {
    let mut client = client();
    client.set(5, Some(b"x")).expect("a request");
    client.set(6, Some(b"y")).expect("a request");
    client.get(7);
    client.receive(A, &reply(1, 7, None));
    let dropped = |key| (key, Answer::Dropped);
    let want = [dropped(5), dropped(6), (7, Answer::Value(None))];
    assert_eq!(answers(&mut client), want);
}

/// Eight messages to a host are under way at a time; an Ack makes room for more.
#[test]
fn a_window() {
    let mut client = client();
    for key in 0..20 {
        client.get(key);
    }
    let sent = |range: std::ops::Range<u64>| {
        let number = |key| (A.to_vec(), message(key + 1, A, get(key)));
        range.map(number).collect::<Vec<_>>()
    };
    assert_eq!(sends(&mut client), sent(0..8));
    assert_eq!((client.unanswered(), client.unacknowledged()), (20, 20));
    client.receive(A, &ack(3));
    assert_eq!(sends(&mut client), sent(8..11));
    client.resend();
    assert_eq!(sends(&mut client), sent(3..11));
    // What is not under way cannot be acknowledged.
    client.receive(A, &ack(12));
    assert_eq!(
        (sends(&mut client), client.unacknowledged()),
        (Vec::new(), 17)
    );
}

/// An Ack of what was never sent says nothing.
#[test]
fn acks_from_the_future() {
    let mut client = client();
    client.get(5);
    for number in [2, 3, u64::MAX] {
        client.receive(A, &ack(number));
        assert_eq!(client.unacknowledged(), 1);
    }
    client.receive(A, &ack(1));
    assert_eq!(client.unacknowledged(), 0);
}

#[test]
fn what_is_not_asked() {
    assert_eq!(Client::new(K, &[]).err(), Some(Refusal::NoHosts));
    let long = vec![0; 0x10_0000];
    assert_eq!(Client::new(K, &[A, &long]).err(), Some(Refusal::Long(1)));
    let mut client = client();
    assert_eq!(client.set(5, Some(&[0; 1024])), Err(Unasked::LongValue));
    assert!(client.set(5, Some(&[0; 1023])).is_ok());
    assert_eq!(client.shard(K, 0, None, A), Err(Unasked::NoHost));
    assert_eq!(client.shard(A, 0, None, K), Err(Unasked::NoHost));
    let why: Box<dyn std::error::Error> = Box::new(Unasked::NoHost);
    assert_eq!(why.to_string(), "the host is not on the client's list");
}
