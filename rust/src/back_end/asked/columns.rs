//! Where a host's memory lies in the arena of the program that has the proved code.
use crate::back_end::program::ARENA;
use crate::limits::{Limits, ACK, COUNTS, MOST_VALUE, NUMBERS, PLACE};

/// Everything starts at a multiple of this.
const ALIGNED: usize = 64;

/// Memory in the arena: where it starts, and how many elements it has.
#[derive(Clone, Copy, Default)]
pub struct Column {
    pub at: usize,
    pub length: usize,
}

/// The slices of the boundary by name, those of the host's memory first and in the boundary's order.
#[derive(Clone, Copy)]
pub enum Slice {
    Lows,
    Owners,
    Keys,
    Slots,
    Lens,
    Values,
    NameLens,
    Names,
    Counts,
    Places,
    Mail,
    Room,
    Numbers,
    Ack,
    Out,
}

use Slice::*;

pub const ALL: [Slice; 15] = [
    Lows, Owners, Keys, Slots, Lens, Values, NameLens, Names, Counts, Places, Mail, Room, Numbers,
    Ack, Out,
];

/// The host's memory: all but what is lent for a step's answer.
pub const MEMORY: usize = 13;

/// What receiving and sending again are lent of it.
pub const RECEIVING: [Slice; 10] = [
    Lows, Owners, Keys, Slots, NameLens, Names, Counts, Places, Room, Numbers,
];
pub const RESENDING: [Slice; 3] = [Counts, Places, Numbers];

/// Where each of the slices lies in the arena.
pub struct Columns {
    columns: [Column; ALL.len()],
    /// From here to the end of the arena there is room for what is lent for one call.
    free: usize,
}

impl Columns {
    /// The slices one behind the other; none if the arena is too small for them, and a datagram and its sender.
    pub fn new(limits: &Limits) -> Option<Columns> {
        let mut columns = [Column::default(); ALL.len()];
        let mut free: usize = 0;
        for slice in ALL {
            let (length, size) = extent(slice, limits);
            columns[slice as usize] = Column { at: free, length };
            free = free.checked_add(length.checked_mul(size)?)?;
            free = free.checked_next_multiple_of(ALIGNED)?;
        }
        let columns = Columns { columns, free };
        columns.fit([limits.address(), limits.datagram])?;
        Some(columns)
    }

    pub fn of(&self, slice: Slice) -> Column {
        self.columns[slice as usize]
    }

    pub fn at(&self, slice: Slice) -> usize {
        self.of(slice).at
    }

    /// Where strings of so many bytes, which are lent for one call alone, are to stand; none if they do not fit.
    pub fn fit<const N: usize>(&self, lengths: [usize; N]) -> Option<[usize; N]> {
        let mut ats = [0; N];
        let mut free = self.free;
        for (at, length) in ats.iter_mut().zip(lengths) {
            *at = free;
            free = free
                .checked_add(length)?
                .checked_next_multiple_of(ALIGNED)?;
        }
        (free <= ARENA).then_some(ats)
    }
}

/// How many elements a slice has, and the bytes of one. The limits have been checked, so nothing overflows.
fn extent(slice: Slice, limits: &Limits) -> (usize, usize) {
    match slice {
        Lows | Owners => (limits.bounds, 8),
        Keys | Slots | Lens => (limits.entries, 8),
        Values => (limits.entries * MOST_VALUE, 1),
        NameLens => (limits.peers, 8),
        Names => (limits.peers * limits.address(), 1),
        Counts => (limits.peers * COUNTS, 8),
        Places => (limits.waiting * PLACE, 8),
        Mail => (limits.waiting * limits.datagram, 1),
        Room => (limits.datagram, 1),
        Numbers => (NUMBERS, 8),
        Ack => (ACK, 1),
        Out => (limits.waiting, 8),
    }
}
