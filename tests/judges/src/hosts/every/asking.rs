//! Asks the proved code what an operation does to a host whose memory is kept here as bytes: the memory is written, the
//! function called, and memory read. Many such questions are under way at once.
use super::standings::Standing;
use super::steps::Pair;
use crate::hosts::answers::named;
use crate::hosts::image::{Image, Shape};
use crate::hosts::lent::{Slice, ALL, TRANSFERS, TURNS, VALUE};
use crate::hosts::operation::Operation;
use crate::hosts::proved::{Proved, NO_ROOM, STARTED};
use crate::library::{Column, Memory};
use crate::models::host::{Address, Limits, Step};
use std::collections::VecDeque;

/// So many bytes of each value, and of each place of the mail, are in use at most. What lies behind is never written,
/// which `check_rest` sees.
const SHORT: usize = 8;
const MAILED: usize = 128;

/// So many bytes of answers may be under way: the pipe has room for them.
const UNDER_WAY: usize = 60_000;

pub struct Asking {
    pub proved: Proved,
    /// The parts of a host's memory that are in use; and these with the Ack and the places that a step writes.
    memory: Shape,
    after: Shape,
    rest: Vec<Vec<u8>>,
    asked: VecDeque<(Pair, Operation)>,
}

/// What a question is answered: the call's answer, and memory with what lies beside it.
pub struct Answered {
    pub answer: u64,
    pub bytes: Vec<u8>,
}

impl Asking {
    /// So many bytes of the room are in use at most.
    pub fn new(limits: Limits, room: usize) -> Asking {
        let mut proved = Proved::new(limits);
        let used = ALL.map(|slice| used(&proved, slice, room)).concat();
        let beside = [proved.ack, proved.out];
        let after = Shape::of([&used[..], &beside].concat());
        proved.library.keep_parts(after.columns());
        for slice in ALL {
            let column = proved.lent[slice];
            proved.library.fill(column, 0);
        }
        let mut asking = Asking {
            proved,
            memory: Shape::of(used),
            after,
            rest: Vec::new(),
            asked: VecDeque::new(),
        };
        asking.rest = asking.read_rest();
        asking
    }

    /// The memory of a new host, with these counts of transfers and turns.
    pub fn start(&mut self, hosts: &[Address], me: &[u8], counts: (u64, u64)) -> Vec<u8> {
        let answer = self.proved.start(hosts, me);
        assert_eq!(answer, STARTED, "the proved host does not start");
        let numbers = self.proved.lent[Slice::Numbers];
        let library = &mut self.proved.library;
        library.write_numbers(numbers, TRANSFERS, &[counts.0]);
        library.write_numbers(numbers, TURNS, &[counts.1]);
        library.read(self.memory.columns()).concat()
    }

    /// So many bytes of memory are kept.
    pub fn kept(&self) -> usize {
        self.memory.len()
    }

    /// Asks; the pair says which question it was when the answer comes.
    pub fn ask(&mut self, pair: Pair, standing: &Standing, operation: Operation) {
        self.write(standing);
        let call = self.proved.call_of(&operation);
        self.proved.library.ask_call(call);
        self.proved.library.ask_parts();
        self.asked.push_back((pair, operation));
    }

    /// Beside the memory all becomes 0, so that what a step should write there and does not shows.
    fn write(&mut self, standing: &Standing) {
        let beside = vec![0; self.after.len() - self.memory.len()];
        self.proved
            .library
            .write_parts(&[standing.memory(), &beside]);
    }

    /// What the audit answers for each of these.
    pub fn audits(&mut self, standings: &[Standing]) -> Vec<u64> {
        let mut answers = Vec::with_capacity(standings.len());
        for some in standings.chunks(UNDER_WAY / 8) {
            for standing in some {
                self.write(standing);
                self.proved.library.ask_call(self.proved.audit_call());
            }
            self.flush();
            answers.extend(some.iter().map(|_| self.proved.library.answer()));
        }
        answers
    }

    /// Is so much under way that there is no room for more?
    pub fn is_full(&self) -> bool {
        UNDER_WAY < (self.asked.len() + 1) * (self.after.len() + 8)
    }

    /// Is so little under way that more should be asked before answers are taken?
    pub fn is_low(&self) -> bool {
        self.asked.len() * (self.after.len() + 8) < UNDER_WAY / 2
    }

    /// Whatever was asked reaches the program.
    pub fn flush(&mut self) {
        self.proved.library.flush();
    }

    /// The oldest question that is not answered yet, and its answer.
    pub fn answer(&mut self) -> Option<(Pair, Operation, Answered)> {
        let (pair, operation) = self.asked.pop_front()?;
        let library = &mut self.proved.library;
        let answer = library.answer();
        let mut bytes = vec![0; self.after.len()];
        library.receive(&mut bytes);
        Some((pair, operation, Answered { answer, bytes }))
    }

    /// What the answer says by the model's names.
    pub fn step(&self, operation: &Operation, answered: &Answered) -> Result<Step, String> {
        let (outlets, answer) = (self.proved.outlets(), answered.answer);
        let memory = &mut self.image(answered);
        let sends = match operation {
            Operation::Retransmit if answer == NO_ROOM => Vec::new(),
            Operation::Retransmit => outlets.resends(memory, answer),
            other => outlets.sends(memory, answer, other.sender()),
        };
        named(operation, (answer, sends))
    }

    pub fn image<'a>(&'a self, answered: &'a Answered) -> Image<'a> {
        let (shape, bytes) = (&self.after, &answered.bytes[..]);
        Image { shape, bytes }
    }

    /// The memory alone, without what lies beside it, which was made after it and so stands behind it.
    pub fn memory<'a>(&self, answered: &'a Answered) -> &'a [u8] {
        &answered.bytes[..self.memory.len()]
    }

    /// Nothing was written where nothing is in use, nor outside what was lent.
    pub fn check_rest(&mut self) {
        assert!(self.asked.is_empty(), "questions are under way");
        let rest = self.read_rest();
        assert!(self.rest == rest, "memory that is not in use changed");
        self.proved.library.check_guards();
    }

    /// All bytes of the values, the mail and the room; those in use as 0.
    fn read_rest(&mut self) -> Vec<Vec<u8>> {
        let slices = [Slice::Values, Slice::Mail, Slice::Room];
        let columns = slices.map(|slice| self.proved.lent[slice]);
        let mut all = self.proved.library.read(&columns);
        for (column, bytes) in columns.iter().zip(&mut all) {
            let (start, end) = column.span();
            for (from, to) in self.memory.columns().iter().map(|part| part.span()) {
                if start <= from && to <= end {
                    bytes[from - start..to - start].fill(0);
                }
            }
        }
        all
    }
}

/// The parts of a slice that are in use.
fn used(proved: &Proved, slice: Slice, room: usize) -> Vec<Column> {
    let (column, limits) = (proved.lent[slice], proved.limits);
    let parts = |many: usize, size: usize, used: usize| -> Vec<Column> {
        (0..many).map(|i| column.part(i * size, used)).collect()
    };
    match slice {
        Slice::Values => parts(limits.entries, VALUE, SHORT),
        Slice::Mail => parts(limits.waiting, limits.size, MAILED),
        Slice::Room => vec![column.first(room)],
        _ => vec![column],
    }
}
