//! The part of a host's memory that its caller reads: where the datagrams to send stand. include/tagshards.h has the
//! layout.
use crate::limits::{Limits, ACK, NUMBERS, PLACE};
use crate::Refusal;

/// Words of `numbers`.
pub(crate) const PEERS: usize = 2;
pub(crate) const BOUNDS: usize = 5;
pub(crate) const ENTRIES: usize = 6;
pub(crate) const LENGTH: usize = 7;
pub(crate) const TRANSFERS: usize = 9;
pub(crate) const TURNS: usize = 10;
pub(crate) const HANDED: usize = 11;

pub(crate) struct Memory {
    pub width: usize,
    pub size: usize,
    pub numbers: Vec<u64>,
    pub places: Vec<u64>,
    pub mail: Vec<u8>,
    pub name_lens: Vec<u64>,
    pub names: Vec<u8>,
    /// No memory of the host, but what is lent for a step's answer: an Ack, and the places of the datagrams to send.
    pub ack: Vec<u8>,
    pub out: Vec<u64>,
}

impl Memory {
    /// The limits have been checked, so no length overflows.
    pub fn new(limits: &Limits) -> Result<Memory, Refusal> {
        let (width, size) = (limits.address(), limits.datagram);
        Ok(Memory {
            width,
            size,
            numbers: zeros(NUMBERS)?,
            places: zeros(limits.waiting * PLACE)?,
            mail: zeros(limits.waiting * size)?,
            name_lens: zeros(limits.peers)?,
            names: zeros(limits.peers * width)?,
            ack: zeros(ACK)?,
            out: zeros(limits.waiting)?,
        })
    }

    /// One of the host's numbers.
    pub fn number(&self, word: usize) -> u64 {
        self.numbers.get(word).copied().unwrap_or_default()
    }

    /// A place's words: the number of its peer plus 1, the message's number, and its length.
    pub fn place(&self, place: u64) -> Option<[u64; PLACE]> {
        let at = usize::try_from(place).ok()?.checked_mul(PLACE)?;
        self.places.get(at..)?.get(..PLACE)?.try_into().ok()
    }

    /// The datagram in a place, and the address that it is for.
    pub fn packet(&self, place: u64) -> Option<(&[u8], &[u8])> {
        let [peer, _, length] = self.place(place)?;
        let datagram = part(&self.mail, place, self.size, length)?;
        let peer = peer.checked_sub(1)?;
        let length = *self.name_lens.get(usize::try_from(peer).ok()?)?;
        Some((part(&self.names, peer, self.width, length)?, datagram))
    }
}

/// The first bytes of one of the parts of a column, which all have `stride` bytes.
fn part(column: &[u8], i: u64, stride: usize, length: u64) -> Option<&[u8]> {
    let at = usize::try_from(i).ok()?.checked_mul(stride)?;
    let length = usize::try_from(length).ok()?;
    column.get(at..)?.get(..length)
}

/// Memory that is all 0, or a refusal where there is none.
pub(crate) fn zeros<T: Clone + Default>(length: usize) -> Result<Vec<T>, Refusal> {
    let mut zeros = Vec::new();
    zeros
        .try_reserve_exact(length)
        .map_err(|_| Refusal::Memory)?;
    zeros.resize(length, T::default());
    Ok(zeros)
}
