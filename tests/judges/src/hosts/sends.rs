//! What a step hands out: the answer says how, and memory after the step says what.
use super::lent::{Lent, Slice, SENDS, WORDS};
use crate::library::{numbers, Column, Memory};
use crate::models::host::{Address, Limits, Packet};

/// Where a host's memory lies, and what is lent beside it for a step to write to.
#[derive(Clone, Copy)]
pub struct Outlets {
    pub lent: Lent,
    pub limits: Limits,
    pub ack: Column,
    pub out: Column,
}

/// What stands in memory after a call, as far as it says what is handed out.
struct After {
    sends: u64,
    places: Vec<u64>,
    name_lens: Vec<u64>,
    out: Vec<u64>,
    names: Vec<u8>,
    ack: Vec<u8>,
}

impl Outlets {
    /// The columns that `sends` and `resends` read whole.
    pub fn columns(&self) -> [Column; 6] {
        let lent = &self.lent;
        [
            lent[Slice::Numbers],
            lent[Slice::Places],
            lent[Slice::NameLens],
            self.out,
            lent[Slice::Names],
            self.ack,
        ]
    }

    /// What a step with that answer hands out, if it was one on what came from there.
    pub fn sends(&self, memory: &mut impl Memory, answer: u64, from: &[u8]) -> Vec<Packet> {
        let after = After::read(memory, self);
        match answer {
            13 | 15 => vec![Packet {
                to: from.to_vec(),
                bytes: after.ack.clone(),
            }],
            22 | 23 | 27 => self.packets(memory, &after, &[after.sends]),
            30 => self.packets(memory, &after, &after.out[..after.sends as usize]),
            _ => Vec::new(),
        }
    }

    /// What sending again hands out, if it wrote down so many places.
    pub fn resends(&self, memory: &mut impl Memory, many: u64) -> Vec<Packet> {
        let after = After::read(memory, self);
        self.packets(memory, &after, &after.out[..many as usize])
    }

    /// The datagrams in these places, and whom they are for.
    fn packets(&self, memory: &mut impl Memory, after: &After, places: &[u64]) -> Vec<Packet> {
        let mail = self.lent[Slice::Mail];
        let part = |p: &u64| {
            let len = after.places[*p as usize * WORDS + 2];
            mail.part(*p as usize * self.limits.size, len as usize)
        };
        let parts: Vec<Column> = places.iter().map(part).collect();
        let bytes = memory.read(&parts).into_iter();
        let to = |p: &u64| after.name(after.places[*p as usize * WORDS] - 1, self.limits.address);
        let packet = |(to, bytes)| Packet { to, bytes };
        places.iter().map(to).zip(bytes).map(packet).collect()
    }
}

impl After {
    fn read(memory: &mut impl Memory, outlets: &Outlets) -> After {
        let mut read = memory.read(&outlets.columns());
        let [ack, names] = [(); 2].map(|()| read.pop().expect("bytes for each column"));
        let words: Vec<Vec<u64>> = read.iter().map(|bytes| numbers(bytes)).collect();
        let [after, places, name_lens, out] = words.try_into().expect("four columns of numbers");
        After {
            sends: after.get(SENDS).copied().unwrap_or_default(),
            places,
            name_lens,
            out,
            names,
            ack,
        }
    }

    /// The address of peer i.
    fn name(&self, i: u64, width: usize) -> Address {
        let (at, len) = (i as usize * width, self.name_lens[i as usize] as usize);
        self.names[at..at + len].to_vec()
    }
}
