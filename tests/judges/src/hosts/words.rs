//! A host's memory, read as far as it is in use.
use super::lent::{Lent, Slice, BOUNDS, ENTRIES, LENGTH, PEERS, SIZE, VALUE, WIDTH, WORDS, WORDY};
use super::seen::SeenPeer;
use crate::library::{numbers, Column, Memory};

/// All of it but the values, the mail and the room, which `parts` finds.
pub struct Words {
    pub numbers: Vec<u64>,
    pub lows: Vec<u64>,
    pub owners: Vec<u64>,
    pub keys: Vec<u64>,
    slots: Vec<u64>,
    lens: Vec<u64>,
    name_lens: Vec<u64>,
    names: Vec<u8>,
    counts: Vec<u64>,
    places: Vec<u64>,
}

impl Words {
    pub fn read(memory: &mut impl Memory, lent: &Lent) -> Words {
        let mut read = memory.read(&WORDY.map(|slice| lent[slice])).into_iter();
        let mut next = || read.next().expect("bytes for each slice");
        let words = numbers(&next());
        let mut first = |many: usize| {
            let mut column = numbers(&next());
            column.truncate(many);
            column
        };
        let [bounds, entries] = [BOUNDS, ENTRIES].map(|at| words[at] as usize);
        Words {
            lows: first(bounds),
            owners: first(bounds),
            keys: first(entries),
            slots: first(usize::MAX),
            lens: first(usize::MAX),
            name_lens: first(usize::MAX),
            counts: first(usize::MAX),
            places: first(usize::MAX),
            names: next(),
            numbers: words,
        }
    }

    pub fn peers(&self) -> usize {
        self.numbers[PEERS] as usize
    }

    /// The words of the places that are taken.
    pub fn taken(&self) -> impl Iterator<Item = &[u64]> {
        let places = self.places.chunks_exact(WORDS);
        places.filter(|place| place[0] != 0)
    }

    pub fn peer(&self, i: usize) -> SeenPeer {
        let [width, len] = [self.numbers[WIDTH], self.name_lens[i]].map(|n| n as usize);
        let counts = &self.counts[i * WORDS..(i + 1) * WORDS];
        SeenPeer {
            address: self.names[i * width..i * width + len].to_vec(),
            counts: counts.try_into().expect("the words of a peer"),
            waiting: Vec::new(),
        }
    }

    /// Where the bytes stand that are in use: the values in the order of the keys, the datagrams that wait in the order
    /// of their places, and the one in the room.
    pub fn parts(&self, lent: &Lent) -> Result<Vec<Column>, String> {
        self.fits(lent)?;
        let size = self.numbers[SIZE] as usize;
        let slots = self.slots[..self.keys.len()].iter().map(|s| *s as usize);
        let values = slots.map(|s| lent[Slice::Values].part(s * VALUE, self.lens[s] as usize));
        let places = self.places.chunks_exact(WORDS).enumerate();
        let mail = places
            .filter(|(_, place)| place[0] != 0)
            .map(|(p, place)| lent[Slice::Mail].part(p * size, place[2] as usize));
        let room = lent[Slice::Room].first(self.numbers[LENGTH] as usize);
        Ok(values.chain(mail).chain([room]).collect())
    }

    /// Is everything that points somewhere within what is lent?
    fn fits(&self, lent: &Lent) -> Result<(), String> {
        let fits = [
            (self.fits_map(), "the map has more bounds than are lent"),
            (self.fits_table(), "the table does not fit what is lent"),
            (self.fits_peers(), "the peers do not fit what is lent"),
            (self.fits_places(), "a place is no peer's, or too long"),
            (self.fits_room(lent), "the room is too small"),
        ];
        match fits.iter().find(|(fits, _)| !fits) {
            Some((_, what)) => Err(format!("memory keeps no host: {what}")),
            None => Ok(()),
        }
    }

    fn fits_map(&self) -> bool {
        let bounds = self.numbers[BOUNDS] as usize;
        self.lows.len() == bounds && self.owners.len() == bounds
    }

    /// The slots are a permutation, and each value that is in use is short enough.
    fn fits_table(&self) -> bool {
        let entries = self.numbers[ENTRIES] as usize;
        let mut slots = self.slots.clone();
        slots.sort_unstable();
        let len = |slot: &u64| self.lens.get(*slot as usize);
        let short = |slot: &u64| len(slot).is_some_and(|len| *len <= VALUE as u64);
        self.keys.len() == entries
            && entries <= slots.len()
            && slots.iter().copied().eq(0..slots.len() as u64)
            && self.slots[..entries].iter().all(short)
    }

    fn fits_peers(&self) -> bool {
        let (peers, width) = (self.peers(), self.numbers[WIDTH]);
        peers <= self.name_lens.len()
            && peers <= self.names.len() / width.max(1) as usize
            && peers <= self.counts.len() / WORDS
            && self.name_lens[..peers].iter().all(|len| *len <= width)
    }

    fn fits_places(&self) -> bool {
        let (peers, size) = (self.peers() as u64, self.numbers[SIZE]);
        let fits = |place: &[u64]| place[0] <= peers && place[2] <= size;
        self.taken().all(fits)
    }

    fn fits_room(&self, lent: &Lent) -> bool {
        self.numbers[LENGTH] <= lent[Slice::Room].len() as u64
    }
}
