//! The audit. That it finds a host in memory after each step is looked at wherever memory is (`Look::EachTime`); here
//! it finds none in memory that is damaged in one place, and changes nothing.
use crate::{set, shard, Scene, A, B, C, FEW, K};
use judges::hosts::lent::Slice::{self, *};
use judges::hosts::lent::{
    ALL, BOUNDS, ENTRIES, LENGTH, PEERS, SENDER, SENDS, SIZE, TRANSFERS, TURNS, WIDTH, WORDS,
};
use judges::hosts::proved::{Proved, KEPT, NOT_KEPT, UNFIT};
use judges::library::Memory;
use judges::models::host::Outcome;
use judges::models::messages::Body;

/// What stands where in `Numbers`, beside what `lent` names.
const ME: usize = 0;
const HOSTS: usize = 1;

/// The numbers of the peers of `busy`.
const OF_B: usize = 1;
const OF_K: usize = 3;

/// A host with two bounds, two entries, a client, two Replies and a Delegate that wait, and a message in the room.
fn busy() -> Scene {
    let mut scene = Scene::new(A, FEW);
    scene.ask(K, set(5, b"x"));
    scene.ask(K, set(6, b"yz"));
    scene.ask(K, shard(100, None, B));
    assert_eq!(scene.receive(K, Body::Get(5)), Outcome::Taken);
    scene
}

/// The answer of the audit, which changes nothing.
fn audit(proved: &mut Proved) -> u64 {
    let before = proved.memory();
    let answer = proved.audit();
    assert!(before == proved.memory(), "the audit changed memory");
    answer
}

/// The words of a slice.
fn words(proved: &mut Proved, slice: Slice) -> Vec<u64> {
    let column = proved.lent[slice];
    proved.library.read_numbers(column, column.len())
}

/// The answer of the audit while a word of a slice is another one.
fn with_word(proved: &mut Proved, slice: Slice, at: usize, word: u64) -> u64 {
    let column = proved.lent[slice];
    let was = words(proved, slice)[at];
    assert_ne!(was, word, "{slice:?} {at}: no damage");
    proved.library.write_numbers(column, at, &[word]);
    let answer = audit(proved);
    proved.library.write_numbers(column, at, &[was]);
    answer
}

/// The answer of the audit while one bit of a slice of bytes is another one.
fn with_bit(proved: &mut Proved, slice: Slice, at: usize) -> u64 {
    let byte = proved.lent[slice].part(at, 1);
    let was = proved.library.read(&[byte])[0][0];
    proved.library.write_bytes(byte, &[was ^ 1]);
    let answer = audit(proved);
    proved.library.write_bytes(byte, &[was]);
    answer
}

/// The place in which a peer's message with that number waits.
fn place(proved: &mut Proved, peer: usize, number: u64) -> usize {
    let places = words(proved, Places);
    let wanted = [peer as u64 + 1, number];
    let found = places.chunks(WORDS).position(|it| it[..2] == wanted);
    found.expect("the message waits")
}

/// One word that is another one: no host is kept.
#[test]
fn damaged_words() {
    let mut scene = busy();
    let proved = &mut scene.both.proved;
    let [reply, other, delegate] =
        [(OF_K, 1), (OF_K, 2), (OF_B, 1)].map(|(peer, number)| place(proved, peer, number));
    let slots = words(proved, Slots);
    let length = words(proved, Places)[reply * WORDS + 2];
    let free = words(proved, Places)
        .chunks(WORDS)
        .position(|place| place[0] == 0)
        .expect("a place is free");
    for (slice, at, word, what) in [
        (Lows, 0, 1, "the map begins at 1"),
        (Lows, 1, 0, "the bounds do not rise"),
        (Owners, 0, 3, "a client owns keys"),
        (Owners, 1, 9, "nobody owns keys"),
        (Keys, 1, 5, "a key twice"),
        (Keys, 0, 7, "the keys fall"),
        (Slots, 0, slots[1], "a slot twice"),
        (Slots, 60, slots[0], "a slot twice, once behind the entries"),
        (Slots, 0, 70, "a slot that is not lent"),
        (Lens, slots[0] as usize, 1024, "a value that is too long"),
        (NameLens, OF_K, 9, "an address longer than the width"),
        (NameLens, OF_K, 2, "another address for whom messages wait"),
        (Counts, OF_K * WORDS + 1, 1, "acknowledged, and it waits"),
        (Counts, OF_K * WORDS + 2, 3, "one more was sent than waits"),
        (Counts, OF_K * WORDS + 2, 1, "one more waits than was sent"),
        (Counts, OF_B * WORDS + 2, 0, "a Delegate that was not sent"),
        (Counts, 2 * WORDS + 2, 1, "sent to C, and nothing waits"),
        (Places, reply * WORDS, 0, "a Reply is not there"),
        (Places, reply * WORDS, 5, "a Reply for no peer"),
        (Places, reply * WORDS, 1, "a Reply for another peer"),
        (Places, reply * WORDS + 1, 2, "a number twice"),
        (Places, other * WORDS + 1, 3, "a number that was not given"),
        (Places, delegate * WORDS + 1, 0, "a number that is none"),
        (Places, reply * WORDS + 2, length - 1, "a byte too few"),
        (Places, reply * WORDS + 2, length + 1, "a byte too many"),
        (Places, reply * WORDS + 2, 65_537, "longer than a place"),
        (Places, free * WORDS, 4, "a free place is taken"),
        (Numbers, ME, 3, "the own number is a client's"),
        (Numbers, ME, 1, "what is in the room is for another host"),
        (Numbers, HOSTS, 0, "no hosts"),
        (Numbers, HOSTS, 5, "more hosts than peers"),
        (Numbers, PEERS, 3, "messages wait for nobody"),
        (Numbers, PEERS, 7, "more peers than are lent"),
        (Numbers, WIDTH, 7, "the addresses stand elsewhere"),
        (Numbers, WIDTH, 0x10_0000, "addresses that are too long"),
        (Numbers, SIZE, 65_535, "the datagrams stand elsewhere"),
        (Numbers, SIZE, 65_537, "the mail is too short"),
        (Numbers, BOUNDS, 0, "a map without bounds"),
        (Numbers, BOUNDS, 8, "more bounds than are lent"),
        (Numbers, ENTRIES, 71, "more entries than are lent"),
        (Numbers, LENGTH, 20, "a part of a message in the room"),
        (Numbers, LENGTH, 65_537, "more than there is room for"),
        (Numbers, SENDER, 4, "nobody has sent what is in the room"),
    ] {
        let answer = with_word(proved, slice, at, word);
        assert_eq!(answer, NOT_KEPT, "{slice:?} {at}: {what}");
    }
    assert_eq!(audit(proved), KEPT, "all is repaired");
}

/// One bit that is another one: no host is kept.
#[test]
fn damaged_bytes() {
    let mut scene = busy();
    let proved = &mut scene.both.proved;
    let at = place(proved, OF_K, 1) * FEW.size;
    for (slice, at, what) in [
        (Names, 2, "the own address, in the room's message"),
        (
            Names,
            OF_K * FEW.address,
            "an address to which messages wait",
        ),
        (Mail, at, "a Reply's kind: an Ack"),
        (Mail, at + 1, "a Reply's number"),
        (Mail, at + 8, "a Reply's number, the highest byte"),
        (Mail, at + 9, "the length of its destination"),
        (Mail, at + 17, "its destination"),
        (Room, 0, "an Ack in the room"),
        (Room, 17, "a message for another host in the room"),
    ] {
        assert_eq!(with_bit(proved, slice, at), NOT_KEPT, "{slice:?}: {what}");
    }
    // Two hosts of one address.
    let names = proved.lent[Names].part(OF_B * FEW.address, B.len());
    proved.library.write_bytes(names, C);
    assert_eq!(audit(proved), NOT_KEPT, "an address twice");
    proved.library.write_bytes(names, B);
    assert_eq!(audit(proved), KEPT, "all is repaired");
}

/// Where a host may have any number, or nothing stands, another one is another host's.
#[test]
fn other_hosts() {
    let mut scene = busy();
    let proved = &mut scene.both.proved;
    let slot = words(proved, Slots)[0] as usize;
    for (slice, at, word, what) in [
        (Owners, 1, 2, "keys are another host's"),
        (Keys, 0, 4, "an entry has another key"),
        (Lens, slot, 1023, "a value is longer"),
        (Counts, OF_K * WORDS, u64::MAX, "more was received"),
        (Numbers, BOUNDS, 1, "one bound fewer"),
        (Numbers, ENTRIES, 1, "one entry fewer"),
        (Numbers, LENGTH, 0, "the room is free"),
        (Numbers, SENDER, 1, "another peer has sent it"),
        (Numbers, TRANSFERS, u64::MAX, "many transfers"),
        (Numbers, TURNS, u64::MAX, "many turns"),
        (Numbers, SENDS, u64::MAX, "any place"),
    ] {
        let answer = with_word(proved, slice, at, word);
        assert_eq!(answer, KEPT, "{slice:?} {at}: {what}");
    }
    assert_eq!(with_bit(proved, Values, 0), KEPT, "a value's byte");
}

/// Too few words are told by another answer; of the other slices nothing is left of the host.
#[test]
fn too_little_lent() {
    let mut scene = busy();
    let proved = &mut scene.both.proved;
    for slice in ALL {
        let whole = proved.lent[slice];
        let wanted = if slice == Numbers { UNFIT } else { NOT_KEPT };
        proved.lent[slice] = whole.first(0);
        assert_eq!(audit(proved), wanted, "{slice:?}: nothing");
        if slice == Numbers {
            proved.lent[slice] = whole.first(SENDS);
            assert_eq!(audit(proved), UNFIT, "one word too few");
        }
        proved.lent[slice] = whole;
        assert_eq!(audit(proved), KEPT, "{slice:?}: all of it");
    }
}

/// Memory in which no host was started.
#[test]
fn no_host_at_all() {
    let mut proved = Proved::new(FEW);
    for byte in [0, 1, 0x5a, 0xff] {
        for slice in ALL {
            let column = proved.lent[slice];
            proved.library.fill(column, byte);
        }
        assert_eq!(audit(&mut proved), NOT_KEPT, "{byte}");
    }
}
