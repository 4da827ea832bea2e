//! The proved code in a program of its own, one for each host. The host's memory lies in that program's arena. After a
//! step, what a caller may read of it is copied from there, as far as the step has something to send.
mod columns;
mod copying;

use super::program::{Call, Program};
use super::{BackEnd, List};
use crate::limits::Limits;
use crate::memory::Memory;
use crate::Refusal;
use columns::{Columns, Slice, ALL, MEMORY, RECEIVING, RESENDING};
use std::io::Result as Io;

/// The functions, by their places in build.rs's list.
const START: u64 = 0;
const RECEIVE: u64 = 1;
const PROCESS: u64 = 2;
const RETRANSMIT: u64 = 3;
const TURN: u64 = 4;
const AUDIT: u64 = 5;

/// What is lent does not serve: the answer to a list of hosts that does not fit into the arena.
const UNFIT: u64 = 2;

/// What a receive answers for a message that is not received.
const UNRECEIVED: u64 = 14;

/// What a turn answers that sends again.
const RESENT: u64 = 30;

pub(crate) struct Asked {
    program: Program,
    columns: Columns,
    /// The peers whose names have been copied. A peer's name stays as it is.
    named: usize,
}

impl BackEnd for Asked {
    fn new(limits: &Limits) -> Result<Asked, Refusal> {
        let columns = Columns::new(limits).ok_or(Refusal::Memory)?;
        let program = Program::start().map_err(|_| Refusal::Gone)?;
        let named = 0;
        Ok(Asked {
            program,
            columns,
            named,
        })
    }

    fn start(&mut self, memory: &mut Memory, hosts: &List, me: &[u8]) -> Option<u64> {
        let call = self.lend(START, &ALL[..MEMORY]);
        let call = call.count(memory.width).count(memory.size);
        let words = [&hosts.ats, &hosts.lens].map(|words| bytes(words));
        let parts = [&words[0][..], &words[1], &hosts.bytes, me];
        let Some(places) = self.columns.fit(parts.map(<[u8]>::len)) else {
            return Some(UNFIT);
        };
        self.put(places, parts).ok()?;
        let [ats, lens, addresses, own] = places;
        let count = hosts.ats.len();
        let call = call.slice(ats, count).slice(lens, count);
        let call = call.slice(addresses, hosts.bytes.len());
        let call = call.count(count).slice(own, me.len());
        let answer = self.step(&call, memory).ok()?;
        self.name_peers(memory).ok()?;
        Some(answer)
    }

    fn receive(&mut self, memory: &mut Memory, from: &[u8], datagram: &[u8]) -> Option<u64> {
        // There is room for every datagram that a host can take, so what does not fit is not received.
        let Some(places) = self.columns.fit([from.len(), datagram.len()]) else {
            return Some(UNRECEIVED);
        };
        self.put(places, [from, datagram]).ok()?;
        let call = self.lend(RECEIVE, &RECEIVING);
        let call = call.slice(places[0], from.len());
        let call = call.slice(places[1], datagram.len());
        let call = self.lend_more(call, &[Slice::Ack]);
        let answer = self.step(&call, memory).ok()?;
        self.name_peers(memory).ok()?;
        Some(answer)
    }

    fn process(&mut self, memory: &mut Memory) -> Option<u64> {
        let call = self.lend(PROCESS, &ALL[..MEMORY]);
        self.step(&call, memory).ok()
    }

    fn retransmit(&mut self, memory: &mut Memory) -> Option<u64> {
        let call = self.lend(RETRANSMIT, &RESENDING);
        let call = self.lend_more(call, &[Slice::Out]);
        let answer = self.step(&call, memory).ok()?;
        self.read_out(memory).ok()?;
        Some(answer)
    }

    fn turn(&mut self, memory: &mut Memory, arrived: Option<(&[u8], &[u8])>) -> Option<u64> {
        // What does not fit is not received, and the turn goes by as if nothing had arrived.
        let fits = |(from, datagram): &(&[u8], &[u8])| {
            self.columns.fit([from.len(), datagram.len()]).is_some()
        };
        let arrived = arrived.filter(fits);
        let (from, datagram) = arrived.unwrap_or_default();
        let places = self.columns.fit([from.len(), datagram.len()])?;
        self.put(places, [from, datagram]).ok()?;
        let call = self.lend(TURN, &ALL[..MEMORY]);
        let call = call.number(u64::from(arrived.is_some()));
        let call = call.slice(places[0], from.len());
        let call = call.slice(places[1], datagram.len());
        let call = self.lend_more(call, &[Slice::Ack, Slice::Out]);
        let answer = self.step(&call, memory).ok()?;
        self.name_peers(memory).ok()?;
        if answer == RESENT {
            self.read_out(memory).ok()?;
        }
        Some(answer)
    }

    fn audit(&mut self, _: &Memory) -> Option<u64> {
        let call = self.lend(AUDIT, &ALL[..MEMORY]);
        self.answer(&call).ok()
    }

    fn fetch(&mut self, memory: &mut Memory, many: usize) -> Option<()> {
        self.copy_datagrams(memory, many).ok()
    }

    #[cfg(test)]
    fn set_number(&mut self, memory: &mut Memory, word: usize, number: u64) {
        memory.numbers[word] = number;
        let at = self.columns.at(Slice::Numbers) + 8 * word;
        let written = self.program.write(at, &number.to_le_bytes());
        written.expect("the program has ended");
    }
}

fn bytes(words: &[u64]) -> Vec<u8> {
    words.iter().flat_map(|word| word.to_le_bytes()).collect()
}

impl Asked {
    #[cfg(test)]
    pub fn end(&mut self) {
        self.program.end();
    }

    fn lend(&self, function: u64, slices: &[Slice]) -> Call {
        self.lend_more(self.program.of(function), slices)
    }

    fn lend_more(&self, call: Call, slices: &[Slice]) -> Call {
        slices.iter().fold(call, |call, slice| {
            let column = self.columns.of(*slice);
            call.slice(column.at, column.length)
        })
    }

    fn put<const N: usize>(&mut self, ats: [usize; N], parts: [&[u8]; N]) -> Io<()> {
        let mut parts = ats.into_iter().zip(parts);
        parts.try_for_each(|(at, part)| self.program.write(at, part))
    }
}
