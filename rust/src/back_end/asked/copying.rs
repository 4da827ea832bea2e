//! What a caller may read of a host's memory, copied from the program that has the proved code.
use super::columns::Slice;
use super::Asked;
use crate::back_end::program::Call;
use crate::limits::{ACK, NUMBERS, PLACE};
use crate::memory::{Memory, PEERS};
use std::io::Result as Io;

/// So many bytes of a datagram are read together with its length. Most have fewer.
const GLANCE: usize = 2048;

/// More questions than this at once might not fit into the pipe while the answers fill the other.
const AT_ONCE: usize = 64;

impl Asked {
    /// Calls. The numbers and the Ack are small, so they are copied after every call.
    pub fn step(&mut self, call: &Call, memory: &mut Memory) -> Io<u64> {
        self.program.call(call)?;
        let [numbers, ack] = [Slice::Numbers, Slice::Ack].map(|it| self.columns.at(it));
        self.program.read(numbers, 8 * NUMBERS)?;
        self.program.read(ack, ACK)?;
        self.program.flush()?;
        let answer = self.program.word()?;
        self.program.words(&mut memory.numbers)?;
        self.program.take(&mut memory.ack)?;
        Ok(answer)
    }

    /// Calls what changes nothing.
    pub fn answer(&mut self, call: &Call) -> Io<u64> {
        self.program.call(call)?;
        self.program.flush()?;
        self.program.word()
    }

    /// Copies the names of the peers that have joined.
    pub fn name_peers(&mut self, memory: &mut Memory) -> Io<()> {
        let peers = usize::try_from(memory.number(PEERS)).unwrap_or_default();
        let [lens, names] = [Slice::NameLens, Slice::Names].map(|it| self.columns.at(it));
        for i in self.named..peers.min(memory.name_lens.len()) {
            let name = i * memory.width..(i + 1) * memory.width;
            self.program.read(lens + 8 * i, 8)?;
            self.program.read(names + name.start, memory.width)?;
            self.program.flush()?;
            memory.name_lens[i] = self.program.word()?;
            self.program.take(&mut memory.names[name])?;
            self.named = i + 1;
        }
        Ok(())
    }

    pub fn read_out(&mut self, memory: &mut Memory) -> Io<()> {
        let out = self.columns.of(Slice::Out);
        self.program.read(out.at, 8 * out.length)?;
        self.program.flush()?;
        self.program.words(&mut memory.out)
    }

    /// Copies the datagrams in the first places of `out`.
    pub fn copy_datagrams(&mut self, memory: &mut Memory, many: usize) -> Io<()> {
        let out: Vec<u64> = memory.out.iter().take(many).copied().collect();
        let mut some = out.chunks(AT_ONCE);
        some.try_for_each(|some| self.copy_some(memory, some))
    }

    /// Copies the places of some datagrams, and the datagrams: first a glance at each, then what is longer.
    fn copy_some(&mut self, memory: &mut Memory, out: &[u64]) -> Io<()> {
        let [places, mail] = [Slice::Places, Slice::Mail].map(|it| self.columns.at(it));
        let places_of = |place: &u64| usize::try_from(*place).ok();
        let out = out.iter().filter_map(places_of);
        let out: Vec<usize> = out.filter(|place| *place < memory.out.len()).collect();
        let glance = GLANCE.min(memory.size);
        for place in &out {
            self.program.read(places + 8 * PLACE * place, 8 * PLACE)?;
            self.program.read(mail + memory.size * place, glance)?;
        }
        self.program.flush()?;
        for place in &out {
            let words = PLACE * place..PLACE * (place + 1);
            self.program.words(&mut memory.places[words])?;
            let at = memory.size * place;
            self.program.take(&mut memory.mail[at..at + glance])?;
        }
        out.iter()
            .try_for_each(|place| self.copy_rest(memory, *place))
    }

    fn copy_rest(&mut self, memory: &mut Memory, place: usize) -> Io<()> {
        let length = memory.places[PLACE * place + 2];
        let length = usize::try_from(length).unwrap_or_default().min(memory.size);
        if length <= GLANCE {
            return Ok(());
        }
        let at = memory.size * place + GLANCE;
        let more = length - GLANCE;
        let mail = self.columns.at(Slice::Mail);
        self.program.read(mail + at, more)?;
        self.program.flush()?;
        self.program.take(&mut memory.mail[at..at + more])
    }
}
