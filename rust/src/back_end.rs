//! The two ways to the proved code: linked, where the machine can run it (`native`), or in a program of its own that is
//! asked over pipes (`asked`). build.rs says which.
#[cfg(not(tagshards_native))]
mod asked;
#[cfg(tagshards_native)]
mod native;
#[cfg(not(tagshards_native))]
mod program;

use crate::limits::Limits;
use crate::memory::Memory;
use crate::Refusal;

#[cfg(not(tagshards_native))]
pub(crate) use asked::Asked as Chosen;
#[cfg(tagshards_native)]
pub(crate) use native::Native as Chosen;

/// A list of hosts as the boundary takes it: where each address stands in the bytes, and its length.
pub(crate) struct List {
    pub ats: Vec<u64>,
    pub lens: Vec<u64>,
    pub bytes: Vec<u8>,
}

impl List {
    pub fn new(hosts: &[&[u8]]) -> List {
        let mut list = List {
            ats: Vec::with_capacity(hosts.len()),
            lens: Vec::with_capacity(hosts.len()),
            bytes: Vec::new(),
        };
        for host in hosts {
            list.ats.push(list.bytes.len() as u64);
            list.lens.push(host.len() as u64);
            list.bytes.extend_from_slice(host);
        }
        list
    }
}

/// The boundary over one host's memory. What a caller may read of it stands in `Memory` after a step; the rest is the
/// back end's own. Each function answers what the boundary's function of that name does; none if nothing answers.
pub(crate) trait BackEnd: Sized {
    fn new(limits: &Limits) -> Result<Self, Refusal>;

    fn start(&mut self, memory: &mut Memory, hosts: &List, me: &[u8]) -> Option<u64>;

    fn receive(&mut self, memory: &mut Memory, from: &[u8], datagram: &[u8]) -> Option<u64>;

    fn process(&mut self, memory: &mut Memory) -> Option<u64>;

    fn retransmit(&mut self, memory: &mut Memory) -> Option<u64>;

    /// What has arrived is lent where something has.
    fn turn(&mut self, memory: &mut Memory, arrived: Option<(&[u8], &[u8])>) -> Option<u64>;

    /// Changes nothing.
    fn audit(&mut self, memory: &Memory) -> Option<u64>;

    /// Sees that the datagrams in the first `many` places of `out` stand in memory.
    fn fetch(&mut self, memory: &mut Memory, many: usize) -> Option<()>;

    /// Changes one of the host's numbers from outside, to bring it where no test could wait for it to come.
    #[cfg(test)]
    fn set_number(&mut self, memory: &mut Memory, word: usize, number: u64);
}
