//! The memory of one host, slice by slice as the boundary takes it.
use crate::library::{Call, Column, Library};
use crate::models::host::Limits;
use std::ops::{Index, IndexMut};

/// The most bytes of a value: so many bytes each entry has in `Values`.
pub const VALUE: usize = 1023;

/// The words of a peer in `Counts`, and of a place in `Places`.
pub const WORDS: usize = 3;

/// What stands where in `Numbers`.
pub const PEERS: usize = 2;
pub const WIDTH: usize = 3;
pub const SIZE: usize = 4;
pub const BOUNDS: usize = 5;
pub const ENTRIES: usize = 6;
pub const LENGTH: usize = 7;
pub const SENDER: usize = 8;
pub const TRANSFERS: usize = 9;
pub const TURNS: usize = 10;
pub const SENDS: usize = 11;

#[derive(Clone, Copy, Debug, PartialEq, Eq)]
pub enum Slice {
    Lows,
    Owners,
    Keys,
    Slots,
    Lens,
    Values,
    NameLens,
    Names,
    Counts,
    Places,
    Mail,
    Room,
    Numbers,
}

use Slice::*;

/// All of them, in the boundary's order.
pub const ALL: [Slice; 13] = [
    Lows, Owners, Keys, Slots, Lens, Values, NameLens, Names, Counts, Places, Mail, Room, Numbers,
];

/// Those that receiving is lent.
pub const RECEIVING: [Slice; 10] = [
    Lows, Owners, Keys, Slots, NameLens, Names, Counts, Places, Room, Numbers,
];

/// Those that sending again is lent.
pub const RESENDING: [Slice; 3] = [Counts, Places, Numbers];

/// All but the values, the mail and the room, of which little is in use: these say where.
pub const WORDY: [Slice; 10] = [
    Numbers, Lows, Owners, Keys, Slots, Lens, NameLens, Counts, Places, Names,
];

#[derive(Clone, Copy, Debug)]
pub struct Lent {
    columns: [Column; ALL.len()],
}

impl Index<Slice> for Lent {
    type Output = Column;

    fn index(&self, slice: Slice) -> &Column {
        &self.columns[slice as usize]
    }
}

impl IndexMut<Slice> for Lent {
    fn index_mut(&mut self, slice: Slice) -> &mut Column {
        &mut self.columns[slice as usize]
    }
}

impl Lent {
    /// Memory that has exactly these limits.
    pub fn new(library: &mut Library, limits: Limits) -> Lent {
        let columns = ALL.map(|slice| match slice {
            Lows | Owners => library.numbers(limits.bounds),
            Keys | Slots | Lens => library.numbers(limits.entries),
            Values => library.bytes(limits.entries * VALUE),
            NameLens => library.numbers(limits.peers),
            Names => library.bytes(limits.peers * limits.address),
            Counts => library.numbers(limits.peers * WORDS),
            Places => library.numbers(limits.waiting * WORDS),
            Mail => library.bytes(limits.waiting * limits.size),
            Room => library.bytes(limits.room),
            Numbers => library.numbers(SENDS + 1),
        });
        Lent { columns }
    }

    /// The call with these slices lent.
    pub fn lend(&self, call: Call, slices: &[Slice]) -> Call {
        slices
            .iter()
            .fold(call, |call, slice| call.lend(self[*slice]))
    }
}
