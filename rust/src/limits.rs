//! How much memory a host has, and what it is used for.
use crate::Refusal;

/// The most bytes of a value: so many are lent for each entry.
pub const MOST_VALUE: usize = 1023;

/// The fewest bytes that a datagram may be limited to.
pub const LEAST_DATAGRAM: usize = 0x1_0000;

/// Addresses are shorter than this.
pub(crate) const MOST_ADDRESS: usize = 0x10_0000;

/// The bytes of the largest Delegate that a host sends, but for its destination.
const DELEGATE: usize = 63_423;

/// The bytes of a Redirect, but for its two addresses.
const REDIRECT: usize = 34;

/// The words of a peer's counts, of a waiting message's place, and of the host's numbers.
pub(crate) const COUNTS: usize = 3;
pub(crate) const PLACE: usize = 3;
pub(crate) const NUMBERS: usize = 12;

/// The bytes of an Ack.
pub(crate) const ACK: usize = 9;

const WORD: usize = 8;

/// What a host has room for. The host's memory is lent once, when it starts, and never grows.
///
/// ```
/// use tagshards::Limits;
/// let limits = Limits { entries: 100, ..Limits::default() };
/// assert_eq!(limits.address(), 2113);
/// assert_eq!(limits.bytes().unwrap().entries, 100 * (3 * 8 + 1023));
/// ```
#[derive(Clone, Copy, Debug, PartialEq, Eq, Hash)]
pub struct Limits {
    /// The most records that the host keeps. May be 0.
    pub entries: usize,
    /// The most ranges that the host's map tells apart. At least 1.
    pub bounds: usize,
    /// The most peers, hosts and clients together. At least as many as there are hosts.
    pub peers: usize,
    /// The most messages that wait until their receivers have acknowledged them. At least 1.
    pub waiting: usize,
    /// The most bytes of a datagram. At least 65,536.
    pub datagram: usize,
}

impl Default for Limits {
    /// 3,000 entries, 4,000 bounds, 64 peers, 256 waiting messages, datagrams of 65,536 bytes.
    fn default() -> Limits {
        Limits {
            entries: 3_000,
            bounds: 4_000,
            peers: 64,
            waiting: 256,
            datagram: LEAST_DATAGRAM,
        }
    }
}

/// The bytes of memory that are lent for each of the [`Limits`].
#[derive(Clone, Copy, Debug, PartialEq, Eq, Hash)]
pub struct Bytes {
    /// For the records.
    pub entries: usize,
    /// For the map.
    pub bounds: usize,
    /// For the peers' addresses and counts.
    pub peers: usize,
    /// For the waiting messages.
    pub waiting: usize,
    /// For the message that is received and not yet processed, an Ack, and the host's own numbers.
    pub datagram: usize,
}

impl Bytes {
    /// All of them together; none if that is more than can be counted.
    pub fn total(&self) -> Option<usize> {
        let parts = [self.entries, self.bounds, self.peers, self.waiting];
        let add = |sum: usize, part: &usize| sum.checked_add(*part);
        parts.iter().try_fold(self.datagram, add)
    }
}

impl Limits {
    /// The most bytes of a peer's address. Whatever a host may send has to fit into a datagram, with one address or
    /// two in it, so this follows from the bytes of a datagram.
    pub fn address(&self) -> usize {
        let one = self.datagram.saturating_sub(DELEGATE);
        let two = self.datagram.saturating_sub(REDIRECT) / 2;
        one.min(two).min(MOST_ADDRESS - 1)
    }

    /// How many bytes are lent for each limit; none if that is more than can be counted.
    pub fn bytes(&self) -> Option<Bytes> {
        let peer = self.address() + (1 + COUNTS) * WORD;
        // Each waiting message also has a word in the list of those to send.
        let message = self.datagram.checked_add((PLACE + 1) * WORD)?;
        Some(Bytes {
            entries: self.entries.checked_mul(3 * WORD + MOST_VALUE)?,
            bounds: self.bounds.checked_mul(2 * WORD)?,
            peers: self.peers.checked_mul(peer)?,
            waiting: self.waiting.checked_mul(message)?,
            datagram: self.datagram.checked_add(NUMBERS * WORD + ACK)?,
        })
    }

    /// The limits, if the lengths of all that they ask for can be counted. Whether a host runs in it is decided by
    /// the proved code; a limit that is too small for it is refused there.
    pub(crate) fn checked(self) -> Result<Limits, Refusal> {
        let total = self.bytes().and_then(|bytes| bytes.total());
        match total {
            Some(total) if isize::try_from(total).is_ok() => Ok(self),
            _ => Err(Refusal::Overflow),
        }
    }
}
