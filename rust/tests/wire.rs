//! Messages as bytes: document 01's worked datagrams, what may not be written, and what may not be read.
mod common;

use common::{ack, get, message};
use tagshards::wire::{read, write, Body, Datagram};

fn bytes(hex: &str) -> Vec<u8> {
    let digits: Vec<u8> = hex.bytes().filter(|it| *it != b' ').collect();
    let byte = |two: &[u8]| u8::from_str_radix(std::str::from_utf8(two).expect("text"), 16);
    digits
        .chunks(2)
        .map(|two| byte(two).expect("hex"))
        .collect()
}

fn entries(keys: &[u64]) -> Body {
    Body::Delegate {
        lo: Some(7),
        hi: None,
        entries: keys.iter().map(|key| (*key, b"x".to_vec())).collect(),
    }
}

#[test]
fn worked() {
    let none = Body::Set {
        key: 5,
        value: None,
    };
    let front = "00 0100000000000000 0300000000000000";
    let get_5 = format!("{front} 613a31 00 0500000000000000");
    let list = "0100000000000000 0900000000000000 0100000000000000 78";
    let delegate = format!("{front} 623a32 05 01 0700000000000000 00 {list}");
    let set = "00 0200000000000000 0300000000000000 613a31 01 0500000000000000 00";
    let table = [
        (message(1, b"a:1", get(5)), get_5.as_str()),
        (message(2, b"a:1", none), set),
        (ack(7), "01 0700000000000000"),
        (message(1, b"b:2", entries(&[9])), &delegate),
    ];
    for (written, hex) in table {
        assert_eq!(written, bytes(hex));
        let datagram = read(&written).expect("it is read");
        assert_eq!(write(&datagram), Some(written));
    }
}

/// No datagram is the front of another, and none goes on behind its end.
#[test]
fn cut_and_longer() {
    for whole in [message(1, b"a:1", entries(&[9, 10])), ack(7)] {
        for length in 0..whole.len() {
            assert_eq!(read(&whole[..length]), None);
        }
        assert_eq!(read(&[&whole[..], &[0]].concat()), None);
    }
}

#[test]
fn keys_that_do_not_rise() {
    let written = |keys: &[u64]| {
        write(&Datagram::Message {
            number: 1,
            to: Vec::new(),
            body: entries(keys),
        })
    };
    assert!(written(&[]).is_some() && written(&[0, u64::MAX]).is_some());
    assert!(written(&[3, 3]).is_none() && written(&[4, 3]).is_none());
    let mut equal = written(&[3, 4]).expect("it is written");
    let four = equal.iter().rposition(|byte| *byte == 4).expect("a 4");
    equal[four] = 3;
    assert_eq!(read(&equal), None);
}

/// An address has fewer than 0x100000 bytes, and a list at most as many.
#[test]
fn long_ones() {
    let to_address = |length: usize| Datagram::Message {
        number: 1,
        to: vec![b'x'; length],
        body: get(5),
    };
    assert!(write(&to_address(0xf_ffff)).is_some());
    assert!(write(&to_address(0x10_0000)).is_none());
    let list_of = |length: usize| Datagram::Message {
        number: 1,
        to: Vec::new(),
        body: Body::Delegate {
            lo: None,
            hi: None,
            entries: vec![(1, vec![0; length - 24])],
        },
    };
    let longest = write(&list_of(0x10_0000)).expect("it is written");
    assert_eq!(read(&longest), Some(list_of(0x10_0000)));
    assert!(write(&list_of(0x10_0001)).is_none());
    let mut longer = longest;
    longer.push(0);
    let at = longer.len() - 0x10_0001 + 16;
    longer[at..at + 8].copy_from_slice(&(0x10_0001u64 - 24).to_le_bytes());
    assert_eq!(read(&longer), None);
}

/// Lengths and counts that no memory has.
#[test]
fn huge_counts() {
    for huge in [u64::MAX, 1 << 63, 1 << 32] {
        let mut list = message(1, b"", entries(&[]));
        let count = list.len() - 8;
        list[count..].copy_from_slice(&huge.to_le_bytes());
        assert_eq!(read(&list), None);
        let mut get = message(1, b"", get(5));
        get[9..17].copy_from_slice(&huge.to_le_bytes());
        assert_eq!(read(&get), None);
    }
}
