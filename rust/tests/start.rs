//! What no host starts with, and that all else runs.
mod common;

use common::{A, B, FEW};
use tagshards::{Host, Limits, Refusal};

fn refused(limits: Limits, hosts: &[&[u8]], me: &[u8]) -> Refusal {
    Host::start(limits, hosts, me).expect_err("no host starts")
}

#[test]
fn lists_that_are_refused() {
    assert_eq!(refused(FEW, &[], A), Refusal::NoHosts);
    assert_eq!(refused(FEW, &[A, B, A], A), Refusal::Equal(0, 2));
    assert_eq!(refused(FEW, &[A, B], b"c:3"), Refusal::Unlisted);
    let five: [&[u8]; 5] = [A, B, b"c", b"d", b"e"];
    assert_eq!(refused(FEW, &five, A), Refusal::FewPeers);
    let longest = vec![b'x'; FEW.address()];
    assert!(Host::start(FEW, &[A, &longest], &longest).is_ok());
    let longer = vec![b'x'; FEW.address() + 1];
    assert_eq!(refused(FEW, &[A, &longer], A), Refusal::Long(1));
    assert_eq!(refused(FEW, &[&vec![b'x'; 0x10_0000]], A), Refusal::Long(0));
}

#[test]
fn limits_that_are_refused() {
    let with = |change: fn(&mut Limits)| {
        let mut limits = FEW;
        change(&mut limits);
        refused(limits, &[A, B], A)
    };
    assert_eq!(with(|it| it.bounds = 0), Refusal::NoBounds);
    assert_eq!(with(|it| it.waiting = 0), Refusal::NoWaiting);
    assert_eq!(with(|it| it.peers = 1), Refusal::FewPeers);
    for datagram in [0, 1, 33, 34, 63_423, 63_424, 65_535] {
        let limits = Limits { datagram, ..FEW };
        assert_eq!(refused(limits, &[A, B], A), Refusal::Datagram);
    }
}

/// Every limit that is far too large is refused, and nothing overflows on the way.
#[test]
fn limits_that_overflow() {
    let set: [fn(&mut Limits, usize); 5] = [
        |it, n| it.entries = n,
        |it, n| it.bounds = n,
        |it, n| it.peers = n,
        |it, n| it.waiting = n,
        |it, n| it.datagram = n,
    ];
    for set in set {
        for large in [usize::MAX, usize::MAX / 8, isize::MAX as usize, 1 << 50] {
            let mut limits = FEW;
            set(&mut limits, large);
            let refusal = refused(limits, &[A, B], A);
            assert!(
                matches!(refusal, Refusal::Overflow | Refusal::Memory),
                "{limits:?}"
            );
        }
    }
}

#[test]
fn the_least_limits_run() {
    let least = Limits {
        entries: 0,
        bounds: 1,
        peers: 1,
        waiting: 1,
        datagram: tagshards::LEAST_DATAGRAM,
    };
    let host = Host::start(least, &[A], A).expect("the host starts");
    assert_eq!((host.entries(), host.bounds(), host.peers()), (0, 1, 1));
    assert_eq!((host.transfers(), host.is_busy()), (1, false));
    assert_eq!(host.limits(), least);
}

#[test]
fn an_empty_address_is_one() {
    assert!(Host::start(FEW, &[b"", B], b"").is_ok());
}

#[test]
fn bytes_of_the_limits() {
    let bytes = Limits::default().bytes().expect("they can be counted");
    assert_eq!(bytes.entries, 3_000 * (3 * 8 + 1023));
    assert_eq!(bytes.bounds, 4_000 * 16);
    assert_eq!(bytes.peers, 64 * (2113 + 4 * 8));
    assert_eq!(bytes.waiting, 256 * (65_536 + 4 * 8));
    assert_eq!(bytes.datagram, 65_536 + 12 * 8 + 9);
    let parts = [bytes.entries, bytes.bounds, bytes.peers, bytes.waiting];
    let total = parts.iter().sum::<usize>() + bytes.datagram;
    assert_eq!(bytes.total(), Some(total));
    let large = Limits {
        entries: usize::MAX,
        ..FEW
    };
    assert_eq!(large.bytes(), None);
}

/// The longest address follows from the bytes of a datagram, and a host with larger datagrams runs too.
#[test]
fn addresses_by_datagram() {
    for (datagram, address) in [(0, 0), (63_423, 0), (65_536, 2_113), (200_000, 99_983)] {
        assert_eq!(Limits { datagram, ..FEW }.address(), address);
    }
    let limits = Limits {
        datagram: 200_000,
        ..FEW
    };
    assert!(Host::start(limits, &[A, B], B).is_ok());
    let huge = Limits {
        datagram: usize::MAX,
        ..FEW
    };
    assert_eq!(huge.address(), 0xf_ffff);
}

#[test]
fn refusals_are_errors() {
    let refusal: Box<dyn std::error::Error> = Box::new(refused(FEW, &[A, A], A));
    assert_eq!(
        refusal.to_string(),
        "hosts 0 and 1 of the list have the same address"
    );
}

/// A host may move to another thread.
#[test]
fn a_host_can_be_sent() {
    fn sends<T: Send>() {}
    sends::<Host>();
    sends::<tagshards::Client>();
}
