//! What hosts have handed out for each other. Each datagram has a number, and each set of datagrams too, so that a
//! world has one number for all that may still be brought, now or later, once or often.
use super::quick::QuickMap;
use std::collections::HashMap;

pub struct Post {
    /// Which of the two hosts it is for, and its bytes.
    datagrams: Vec<(usize, Vec<u8>)>,
    numbers: HashMap<(usize, Vec<u8>), u16>,
    sets: Vec<Vec<u16>>,
    set_numbers: HashMap<Vec<u16>, u32>,
    unions: QuickMap<(u32, u32), u32>,
}

impl Default for Post {
    /// Set 0 is the empty one.
    fn default() -> Post {
        Post {
            datagrams: Vec::new(),
            numbers: HashMap::new(),
            sets: vec![Vec::new()],
            set_numbers: HashMap::from([(Vec::new(), 0)]),
            unions: QuickMap::default(),
        }
    }
}

impl Post {
    pub fn datagram(&self, number: u16) -> &(usize, Vec<u8>) {
        &self.datagrams[usize::from(number)]
    }

    pub fn set(&self, number: u32) -> &[u16] {
        &self.sets[number as usize]
    }

    pub fn datagrams(&self) -> usize {
        self.datagrams.len()
    }

    /// The number of a datagram for that host.
    pub fn number(&mut self, to: usize, bytes: &[u8]) -> u16 {
        let datagram = (to, bytes.to_vec());
        if let Some(number) = self.numbers.get(&datagram) {
            return *number;
        }
        let number = u16::try_from(self.datagrams.len()).expect("few datagrams");
        self.datagrams.push(datagram.clone());
        self.numbers.insert(datagram, number);
        number
    }

    /// The number of a set.
    pub fn set_number(&mut self, mut set: Vec<u16>) -> u32 {
        set.sort_unstable();
        set.dedup();
        if let Some(number) = self.set_numbers.get(&set) {
            return *number;
        }
        let number = self.sets.len() as u32;
        self.sets.push(set.clone());
        self.set_numbers.insert(set, number);
        number
    }

    /// The set of what is in one or the other.
    pub fn union(&mut self, one: u32, other: u32) -> u32 {
        if other == 0 || one == other {
            return one;
        }
        if let Some(number) = self.unions.get(&(one, other)) {
            return *number;
        }
        let number = self.set_number([self.set(one), self.set(other)].concat());
        self.unions.insert((one, other), number);
        number
    }
}
