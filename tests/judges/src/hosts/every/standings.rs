//! Hosts as they stand, each kept once under a number: the model as a value, the bytes of the proved host's memory, and
//! the last request that was taken from the client.
use super::holdings::Holdings;
use super::quick::QuickMap;
use super::steps::Pair;
use crate::models::host::Host;
use std::rc::Rc;

pub struct Standing {
    pub side: usize,
    /// What led to it first.
    pub by: Pair,
    pub model: Host,
    /// Which of `Holdings` this is.
    pub holding: u32,
    /// Memory, and behind it the last request.
    bytes: Rc<[u8]>,
    kept: usize,
}

#[derive(Default)]
pub struct Standings {
    all: Vec<Standing>,
    numbers: QuickMap<Rc<[u8]>, u32>,
    pub holdings: Holdings,
}

impl Standing {
    pub fn memory(&self) -> &[u8] {
        &self.bytes[..self.kept]
    }

    /// Nothing, if there was none.
    pub fn last_request(&self) -> &[u8] {
        &self.bytes[self.kept..]
    }
}

impl Standings {
    pub fn len(&self) -> usize {
        self.all.len()
    }

    pub fn is_empty(&self) -> bool {
        self.all.is_empty()
    }

    pub fn get(&self, number: u32) -> &Standing {
        &self.all[number as usize]
    }

    /// Those from that number on.
    pub fn since(&self, number: usize) -> &[Standing] {
        &self.all[number..]
    }

    /// The number of the host with that memory and that last request, if it is kept.
    pub fn find(&self, memory: &[u8], last: &[u8]) -> Option<u32> {
        self.numbers.get(&[memory, last].concat()[..]).copied()
    }

    /// Keeps a new one.
    pub fn keep(
        &mut self,
        (side, by): (usize, Pair),
        model: Host,
        memory: &[u8],
        last: &[u8],
    ) -> u32 {
        let number = self.all.len() as u32;
        let bytes: Rc<[u8]> = [memory, last].concat().into();
        self.numbers.insert(bytes.clone(), number);
        self.all.push(Standing {
            side,
            by,
            holding: self.holdings.number(&model),
            model,
            bytes,
            kept: memory.len(),
        });
        number
    }
}
