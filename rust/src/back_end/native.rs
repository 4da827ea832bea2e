//! The proved code, linked.
mod functions;

use super::{BackEnd, List};
use crate::limits::{Limits, COUNTS, MOST_VALUE};
use crate::memory::{zeros, Memory};
use crate::Refusal;
use functions::*;

/// The memory that nobody but the proved code looks at.
pub(crate) struct Native {
    lows: Vec<u64>,
    owners: Vec<u64>,
    keys: Vec<u64>,
    slots: Vec<u64>,
    lens: Vec<u64>,
    values: Vec<u8>,
    counts: Vec<u64>,
    room: Vec<u8>,
}

// What the header asks of a caller holds in each call below for the same reason. Each pointer and its count are those
// of one slice or vector, so the memory is there, aligned, and not null even where it is empty. The vectors are
// different ones, and what is written is borrowed mutably, so nothing overlaps that may not. All of it outlives the
// call, and nothing is kept between calls.
impl BackEnd for Native {
    fn new(limits: &Limits) -> Result<Native, Refusal> {
        Ok(Native {
            lows: zeros(limits.bounds)?,
            owners: zeros(limits.bounds)?,
            keys: zeros(limits.entries)?,
            slots: zeros(limits.entries)?,
            lens: zeros(limits.entries)?,
            values: zeros(limits.entries * MOST_VALUE)?,
            counts: zeros(limits.peers * COUNTS)?,
            room: zeros(limits.datagram)?,
        })
    }

    fn start(&mut self, memory: &mut Memory, hosts: &List, me: &[u8]) -> Option<u64> {
        // Sound: pointers and counts of slices that do not overlap, as said above.
        #[rustfmt::skip]
        let answer = unsafe {
            tagshards_start(
                self.lows.as_mut_ptr(), self.lows.len(),
                self.owners.as_mut_ptr(), self.owners.len(),
                self.keys.as_ptr(), self.keys.len(),
                self.slots.as_mut_ptr(), self.slots.len(),
                self.lens.as_ptr(), self.lens.len(),
                self.values.as_ptr(), self.values.len(),
                memory.name_lens.as_mut_ptr(), memory.name_lens.len(),
                memory.names.as_mut_ptr(), memory.names.len(),
                self.counts.as_mut_ptr(), self.counts.len(),
                memory.places.as_mut_ptr(), memory.places.len(),
                memory.mail.as_ptr(), memory.mail.len(),
                self.room.as_ptr(), self.room.len(),
                memory.numbers.as_mut_ptr(), memory.numbers.len(),
                memory.width,
                memory.size,
                hosts.ats.as_ptr(), hosts.ats.len(),
                hosts.lens.as_ptr(), hosts.lens.len(),
                hosts.bytes.as_ptr(), hosts.bytes.len(),
                hosts.ats.len(),
                me.as_ptr(), me.len(),
            )
        };
        Some(answer)
    }

    fn receive(&mut self, memory: &mut Memory, from: &[u8], datagram: &[u8]) -> Option<u64> {
        // Sound: pointers and counts of slices that do not overlap, as said above.
        #[rustfmt::skip]
        let answer = unsafe {
            tagshards_receive(
                self.lows.as_ptr(), self.lows.len(),
                self.owners.as_ptr(), self.owners.len(),
                self.keys.as_ptr(), self.keys.len(),
                self.slots.as_ptr(), self.slots.len(),
                memory.name_lens.as_mut_ptr(), memory.name_lens.len(),
                memory.names.as_mut_ptr(), memory.names.len(),
                self.counts.as_mut_ptr(), self.counts.len(),
                memory.places.as_mut_ptr(), memory.places.len(),
                self.room.as_mut_ptr(), self.room.len(),
                memory.numbers.as_mut_ptr(), memory.numbers.len(),
                from.as_ptr(), from.len(),
                datagram.as_ptr(), datagram.len(),
                memory.ack.as_mut_ptr(), memory.ack.len(),
            )
        };
        Some(answer)
    }

    fn process(&mut self, memory: &mut Memory) -> Option<u64> {
        // Sound: pointers and counts of slices that do not overlap, as said above.
        #[rustfmt::skip]
        let answer = unsafe {
            tagshards_process(
                self.lows.as_mut_ptr(), self.lows.len(),
                self.owners.as_mut_ptr(), self.owners.len(),
                self.keys.as_mut_ptr(), self.keys.len(),
                self.slots.as_mut_ptr(), self.slots.len(),
                self.lens.as_mut_ptr(), self.lens.len(),
                self.values.as_mut_ptr(), self.values.len(),
                memory.name_lens.as_ptr(), memory.name_lens.len(),
                memory.names.as_ptr(), memory.names.len(),
                self.counts.as_mut_ptr(), self.counts.len(),
                memory.places.as_mut_ptr(), memory.places.len(),
                memory.mail.as_mut_ptr(), memory.mail.len(),
                self.room.as_ptr(), self.room.len(),
                memory.numbers.as_mut_ptr(), memory.numbers.len(),
            )
        };
        Some(answer)
    }

    fn retransmit(&mut self, memory: &mut Memory) -> Option<u64> {
        // Sound: pointers and counts of slices that do not overlap, as said above.
        #[rustfmt::skip]
        let answer = unsafe {
            tagshards_retransmit(
                self.counts.as_ptr(), self.counts.len(),
                memory.places.as_ptr(), memory.places.len(),
                memory.numbers.as_ptr(), memory.numbers.len(),
                memory.out.as_mut_ptr(), memory.out.len(),
            )
        };
        Some(answer)
    }

    fn audit(&mut self, memory: &Memory) -> Option<u64> {
        // Sound: pointers and counts of slices that are only read, as said above.
        #[rustfmt::skip]
        let answer = unsafe {
            tagshards_audit(
                self.lows.as_ptr(), self.lows.len(),
                self.owners.as_ptr(), self.owners.len(),
                self.keys.as_ptr(), self.keys.len(),
                self.slots.as_ptr(), self.slots.len(),
                self.lens.as_ptr(), self.lens.len(),
                self.values.as_ptr(), self.values.len(),
                memory.name_lens.as_ptr(), memory.name_lens.len(),
                memory.names.as_ptr(), memory.names.len(),
                self.counts.as_ptr(), self.counts.len(),
                memory.places.as_ptr(), memory.places.len(),
                memory.mail.as_ptr(), memory.mail.len(),
                self.room.as_ptr(), self.room.len(),
                memory.numbers.as_ptr(), memory.numbers.len(),
            )
        };
        Some(answer)
    }

    fn turn(&mut self, memory: &mut Memory, arrived: Option<(&[u8], &[u8])>) -> Option<u64> {
        let (from, datagram) = arrived.unwrap_or_default();
        // Sound: pointers and counts of slices that do not overlap, as said above.
        #[rustfmt::skip]
        let answer = unsafe {
            tagshards_turn(
                self.lows.as_mut_ptr(), self.lows.len(),
                self.owners.as_mut_ptr(), self.owners.len(),
                self.keys.as_mut_ptr(), self.keys.len(),
                self.slots.as_mut_ptr(), self.slots.len(),
                self.lens.as_mut_ptr(), self.lens.len(),
                self.values.as_mut_ptr(), self.values.len(),
                memory.name_lens.as_mut_ptr(), memory.name_lens.len(),
                memory.names.as_mut_ptr(), memory.names.len(),
                self.counts.as_mut_ptr(), self.counts.len(),
                memory.places.as_mut_ptr(), memory.places.len(),
                memory.mail.as_mut_ptr(), memory.mail.len(),
                self.room.as_mut_ptr(), self.room.len(),
                memory.numbers.as_mut_ptr(), memory.numbers.len(),
                arrived.is_some(),
                from.as_ptr(), from.len(),
                datagram.as_ptr(), datagram.len(),
                memory.ack.as_mut_ptr(), memory.ack.len(),
                memory.out.as_mut_ptr(), memory.out.len(),
            )
        };
        Some(answer)
    }

    /// They were written there.
    fn fetch(&mut self, _: &mut Memory, _: usize) -> Option<()> {
        Some(())
    }

    #[cfg(test)]
    fn set_number(&mut self, memory: &mut Memory, word: usize, number: u64) {
        memory.numbers[word] = number;
    }
}
