//! Starting a host, and what does not serve: document 01, sections 5 and 6.
use crate::{A, B, C, FEW, K};
use judges::hosts::lent::{Slice, ALL, SENDS, TURNS};
use judges::hosts::proved::{Proved, ACK, NO_HOST, NO_ROOM, STARTED, UNFIT};
use judges::messages::samples::message;
use judges::models::host::{Limits, ROUND};
use judges::models::messages::{written, Body};

fn hosts(addresses: &[&[u8]]) -> Vec<Vec<u8>> {
    addresses.iter().map(|address| address.to_vec()).collect()
}

/// Memory in which every byte has been something.
fn used(limits: Limits) -> Proved {
    let mut proved = Proved::new(limits);
    for slice in ALL {
        let column = proved.lent[slice];
        proved.library.fill(column, 0x5a);
    }
    proved
}

/// The answer is one of these, and where no host is started nothing has changed.
fn answers(proved: &mut Proved, wanted: &[u64], start: impl Fn(&mut Proved) -> u64, what: &str) {
    let before = proved.memory();
    let answer = start(proved);
    assert!(wanted.contains(&answer), "{what}: {answer}");
    if answer != STARTED {
        let same = proved.memory() == before;
        assert!(same, "{what}: a refusal changed memory");
    }
    proved.library.check_guards();
}

#[test]
fn lists_with_which_no_host_starts() {
    let mut proved = used(FEW);
    for (list, me, what) in [
        (&[][..], A, "no address"),
        (&[], b"", "no address, and the own one is empty"),
        (&[A, B, A], A, "the first twice"),
        (&[A, B, B], A, "the last twice"),
        (&[A, A], A, "no other"),
        (&[b"", b""], b"", "the empty one twice"),
        (&[A, B, C], K, "the own one is missing"),
        (&[A, B, C], b"", "the own one is empty"),
        (&[A, B, C], b"a:", "the own one is the front of one"),
        (&[A, B, C], b"a:11", "one is the front of the own one"),
    ] {
        let start = |proved: &mut Proved| proved.start(&hosts(list), me);
        answers(&mut proved, &[NO_HOST], start, what);
    }
    let start = |proved: &mut Proved| proved.start(&hosts(&[A, B, C]), C);
    answers(&mut proved, &[STARTED], start, "a good list");
}

/// Where an address stands, and its length, are numbers that may make no sense.
#[test]
fn lists_that_make_no_sense() {
    let mut proved = used(FEW);
    let bytes = b"a:1b:2";
    for (ats, lens, n, what) in [
        (&[0, 3][..], &[3, 3][..], 3, "more addresses than numbers"),
        (&[0], &[3, 3], 2, "more addresses than places"),
        (&[0, 3], &[3], 2, "more addresses than lengths"),
        (&[0, 4], &[3, 3], 2, "an end behind the bytes"),
        (&[0, 7], &[3, 0], 2, "a place behind the bytes"),
        (&[0, u64::MAX], &[3, 3], 2, "an end past the largest number"),
        (&[0, 3], &[3, u64::MAX], 2, "a length past the bytes"),
        (&[0, 3], &[3, 3], usize::MAX, "as many as there are numbers"),
    ] {
        let start = |proved: &mut Proved| proved.start_list(ats, lens, bytes, n, A);
        answers(&mut proved, &[NO_HOST, UNFIT], start, what);
    }
    // They may stand in any order, share bytes, and be fewer than there are.
    for (ats, lens, n) in [
        (&[3, 0][..], &[3, 3][..], 2),
        (&[0, 0], &[3, 2], 2),
        (&[0, 6], &[3, 0], 2),
        (&[0, 9], &[3, 9], 1),
    ] {
        let start = |proved: &mut Proved| proved.start_list(ats, lens, bytes, n, A);
        answers(&mut proved, &[STARTED], start, "a list that makes sense");
    }
}

/// What the hosts of a scene need at least: each slice so long serves, and one element shorter does not.
#[test]
fn memory_that_does_not_serve() {
    let limits = Limits {
        entries: 4,
        bounds: 1,
        peers: 3,
        waiting: 1,
        ..FEW
    };
    let start = |proved: &mut Proved| proved.start(&hosts(&[A, B, C]), B);
    answers(&mut used(limits), &[STARTED], start, "all of it");
    for slice in ALL {
        let mut proved = used(limits);
        let whole = proved.lent[slice];
        proved.lent[slice] = whole.first(whole.len() - 1);
        // A table with fewer slots is a smaller table.
        let wanted = match slice {
            Slice::Slots => STARTED,
            _ => UNFIT,
        };
        answers(&mut proved, &[wanted], start, &format!("{slice:?}"));
    }
}

#[test]
fn sizes_that_do_not_serve() {
    let wide = 63_390;
    for (address, size, wanted, what) in [
        (8, 65_536, STARTED, "the least size"),
        (8, 65_535, UNFIT, "less than the least size"),
        (
            2_113,
            65_536,
            STARTED,
            "the widest addresses for the least size",
        ),
        (2_114, 65_536, UNFIT, "no room for the largest Delegate"),
        (2_114, 65_537, STARTED, "room for the largest Delegate"),
        (
            wide,
            34 + 2 * wide,
            STARTED,
            "room for the largest Redirect",
        ),
        (
            wide,
            33 + 2 * wide,
            UNFIT,
            "no room for the largest Redirect",
        ),
        (3, 65_536, STARTED, "addresses exactly so wide"),
        (2, 65_536, UNFIT, "addresses that are wider"),
        (0, 65_536, UNFIT, "no bytes for an address"),
    ] {
        let limits = Limits {
            address,
            size,
            room: size,
            ..FEW
        };
        let start = |proved: &mut Proved| proved.start(&hosts(&[A, B, C]), B);
        answers(&mut used(limits), &[wanted], start, what);
    }
}

/// An address of 0x100000 bytes is too long, whatever is lent for it.
#[test]
fn addresses_that_are_too_long() {
    for (len, wanted) in [
        (0xf_ffff, &[STARTED][..]),
        (0x10_0000, &[NO_HOST, UNFIT]),
        (0x10_0001, &[NO_HOST, UNFIT]),
    ] {
        let limits = Limits {
            address: len,
            size: 34 + 2 * len,
            room: 34 + 2 * len,
            peers: 2,
            waiting: 1,
            ..FEW
        };
        let list = [A.to_vec(), vec![7; len]];
        let start = |proved: &mut Proved| proved.start(&list, A);
        answers(&mut used(limits), wanted, start, &len.to_string());
    }
}

/// A host that is started in used memory knows nothing of what was there.
#[test]
fn started_anew() {
    let mut proved = used(FEW);
    assert_eq!(proved.start(&hosts(&[A, B]), A), STARTED);
    let datagram = written(&message(1, A, Body::Get(5)));
    assert_eq!(proved.receive(K, &datagram).0, 13);
    assert_eq!(proved.process().0, 22);
    assert_eq!(
        proved.receive(K, &written(&message(2, A, Body::Get(5)))).0,
        13
    );
    assert_eq!(proved.start(&hosts(&[A, B]), A), STARTED);
    assert_eq!(proved.process().0, 20);
    assert_eq!(proved.retransmit().0, 0);
    assert_eq!(proved.receive(K, &datagram).0, 13);
}

/// A host with a message in its room and one that waits, on the turn of that kind.
fn busy(turns: u64) -> Proved {
    let mut proved = used(FEW);
    assert_eq!(proved.start(&hosts(&[A, B]), A), STARTED);
    for (number, processed) in [(1, true), (2, false)] {
        let datagram = written(&message(number, A, Body::Get(5)));
        assert_eq!(proved.receive(K, &datagram).0, 13);
        if processed {
            assert_eq!(proved.process().0, 22);
        }
    }
    let numbers = proved.lent[Slice::Numbers];
    proved.library.write_numbers(numbers, TURNS, &[turns]);
    proved
}

/// Eleven words are too few for a host's numbers.
#[test]
fn too_few_numbers() {
    type Step = fn(&mut Proved) -> u64;
    let steps: [(&str, Step, u64); 5] = [
        ("receive", |proved| proved.receive(K, b"").0, UNFIT),
        ("process", |proved| proved.process().0, UNFIT),
        ("retransmit", |proved| proved.retransmit().0, NO_ROOM),
        ("turn", |proved| proved.turn(Some((K, b""))).0, UNFIT),
        ("turn alone", |proved| proved.turn(None).0, UNFIT),
    ];
    for (what, step, wanted) in &steps {
        for turns in 0..3 {
            for words in [0, 11] {
                let mut proved = busy(turns);
                let numbers = proved.lent[Slice::Numbers];
                proved.lent[Slice::Numbers] = numbers.first(words);
                answers(&mut proved, &[*wanted], step, what);
            }
        }
    }
}

/// An Ack needs nine bytes, even where none would be sent.
#[test]
fn too_few_bytes_for_an_ack() {
    let datagram = written(&message(1, A, Body::Get(5)));
    for len in [0, 8] {
        let mut proved = busy(0);
        assert_eq!(proved.process().0, 22);
        proved.ack = proved.ack.first(len);
        let receive = |proved: &mut Proved| proved.receive(K, &datagram).0;
        answers(&mut proved, &[UNFIT], receive, "receive");
        let turn = |proved: &mut Proved| proved.turn(Some((K, &datagram))).0;
        answers(&mut proved, &[UNFIT], turn, "a turn for receiving");
    }
}

/// As many places must be lent as may wait, even if fewer do.
#[test]
fn too_few_places_to_send_again() {
    for len in [0, FEW.waiting - 1] {
        let mut proved = busy(ROUND - 1);
        let whole = proved.out;
        proved.out = whole.first(len);
        let again = |proved: &mut Proved| proved.retransmit().0;
        answers(&mut proved, &[NO_ROOM], again, "retransmit");
        let turn = |proved: &mut Proved| proved.turn(None).0;
        answers(&mut proved, &[UNFIT], turn, "a turn for sending again");
        proved.out = whole;
        assert_eq!(proved.retransmit().0, 1);
        let (answer, sends) = proved.turn(None);
        assert_eq!((answer, sends.len()), (30, 1));
    }
}

/// What the last step says in word 11 stands there until a step is taken. A refusal is none, on a turn of any kind.
#[test]
fn a_refusal_leaves_word_11() {
    const SAID: u64 = 77;
    let datagram = written(&message(3, A, Body::Get(5)));
    for (ack, out) in [(8, FEW.waiting), (9, FEW.waiting - 1), (0, 0)] {
        for (turns, answer, says) in [(0, 10, 0), (1, 22, 1), (2, 31, 0), (ROUND - 1, 30, 1)] {
            let mut proved = busy(turns);
            let numbers = proved.lent[Slice::Numbers];
            proved.library.write_numbers(numbers, SENDS, &[SAID]);
            let whole = (proved.ack, proved.out);
            (proved.ack, proved.out) = (whole.0.first(ack), whole.1.first(out));
            let turn = |proved: &mut Proved| proved.turn(Some((K, &datagram))).0;
            answers(&mut proved, &[UNFIT], turn, "a turn");
            let alone = |proved: &mut Proved| proved.turn(None).0;
            answers(&mut proved, &[UNFIT], alone, "a turn alone");
            if ack < ACK {
                let receive = |proved: &mut Proved| proved.receive(K, &datagram).0;
                answers(&mut proved, &[UNFIT], receive, "receive");
            }
            assert_eq!(proved.library.read_numbers(numbers, SENDS + 1)[SENDS], SAID);
            // With enough lent the turn is taken, and says its own.
            (proved.ack, proved.out) = whole;
            assert_eq!(turn(&mut proved), answer);
            assert_eq!(proved.library.read_numbers(numbers, SENDS + 1)[SENDS], says);
        }
    }
}
