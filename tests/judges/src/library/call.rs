//! A call of a proved function: its arguments as the calling convention has them, a word each.
use super::{Column, ARGUMENTS};
use crate::bound::Bound;

/// A call of one of the functions, put together argument by argument.
#[derive(Clone, Copy, Debug)]
pub struct Call {
    pub(super) words: [u64; 1 + ARGUMENTS],
    pub(super) next: usize,
    pub(super) address: u64,
}

impl Call {
    pub fn number(mut self, number: u64) -> Call {
        self.words[self.next] = number;
        self.next += 1;
        self
    }

    pub fn count(self, count: usize) -> Call {
        self.number(count as u64)
    }

    /// A slice: its address and its length.
    pub fn lend(self, column: Column) -> Call {
        let address = self.address + column.at as u64;
        self.number(address).count(column.len)
    }

    /// A bound: is it end, and else its key.
    pub fn bound(self, bound: Bound) -> Call {
        match bound {
            Bound::Key(key) => self.number(0).number(key),
            Bound::End => self.number(1).number(0),
        }
    }
}
