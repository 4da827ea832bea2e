//! The proved host: the functions of crate `boundary` over memory that is lent.
use super::image::{Kept, Shape};
use super::lent::{Lent, Slice, ALL, RECEIVING, RESENDING, WORDY};
use super::operation::Operation;
use super::seen::Seen;
use super::sends::Outlets;
use crate::library::{Call, Column, Library, Memory};
use crate::models::host::{Address, Limits, Packet};

/// Answers of the boundary that are no outcome of a step.
pub const STARTED: u64 = 0;
pub const NO_HOST: u64 = 1;
pub const UNFIT: u64 = 2;

/// What the audit answers: memory keeps a host, or none.
pub const KEPT: u64 = 1;
pub const NOT_KEPT: u64 = 0;

/// What sending again answers if what is lent for the places is too short.
pub const NO_ROOM: u64 = u64::MAX;

/// An Ack has so many bytes.
pub const ACK: usize = 9;

/// So many bytes can be lent for a datagram, for the sender's address, and for the hosts' addresses together.
const DATAGRAM: usize = 0x14_0000;
const SENDER: usize = 0x1_0000;
const ADDRESSES: usize = 0x10_1000;

/// So many addresses can be lent as the list of hosts.
const HOSTS: usize = 128;

pub struct Proved {
    pub library: Library,
    pub lent: Lent,
    pub limits: Limits,
    /// What is lent beside the host's memory.
    pub ack: Column,
    pub out: Column,
    from: Column,
    datagram: Column,
    ats: Column,
    address_lens: Column,
    addresses: Column,
    own: Column,
    /// How many bytes the last sender and the last datagram had.
    last: (usize, usize),
}

/// The answer of a call, and what it hands out.
pub type Answer = (u64, Vec<Packet>);

impl Proved {
    /// Memory with exactly these limits, in which no host is started yet.
    pub fn new(limits: Limits) -> Proved {
        Proved::new_in(Library::start(), limits)
    }

    /// The same in the memory of that program.
    pub fn new_in(mut library: Library, limits: Limits) -> Proved {
        Proved {
            lent: Lent::new(&mut library, limits),
            limits,
            ack: library.bytes(ACK),
            out: library.numbers(limits.waiting),
            from: library.bytes(SENDER),
            datagram: library.bytes(DATAGRAM),
            ats: library.numbers(HOSTS),
            address_lens: library.numbers(HOSTS),
            addresses: library.bytes(ADDRESSES),
            own: library.bytes(SENDER),
            last: (0, 0),
            library,
        }
    }

    fn call(&self, function: &str, slices: &[Slice]) -> Call {
        self.lent.lend(self.library.of_boundary(function), slices)
    }

    /// Starts the host with the own address `me` of that list.
    pub fn start(&mut self, hosts: &[Address], me: &[u8]) -> u64 {
        let lens: Vec<u64> = hosts.iter().map(|host| host.len() as u64).collect();
        let at = |i: usize| lens[..i].iter().sum();
        let ats: Vec<u64> = (0..lens.len()).map(at).collect();
        self.start_list(&ats, &lens, &hosts.concat(), hosts.len(), me)
    }

    /// The same with a list that may make no sense: where each address stands in the bytes, their lengths, and how many
    /// there are said to be.
    pub fn start_list(
        &mut self,
        ats: &[u64],
        lens: &[u64],
        bytes: &[u8],
        n: usize,
        me: &[u8],
    ) -> u64 {
        self.library.write_numbers(self.ats, 0, ats);
        self.library.write_numbers(self.address_lens, 0, lens);
        self.library.write_bytes(self.addresses, bytes);
        self.library.write_bytes(self.own, me);
        let call = self.call("start", &ALL);
        let call = call.count(self.limits.address).count(self.limits.size);
        let call = call
            .lend(self.ats.first(ats.len()))
            .lend(self.address_lens.first(lens.len()))
            .lend(self.addresses.first(bytes.len()));
        let call = call.count(n).lend(self.own.first(me.len()));
        self.library.call(call)
    }

    pub fn receive(&mut self, from: &[u8], datagram: &[u8]) -> Answer {
        self.answered(&Operation::Receive {
            from: from.to_vec(),
            datagram: datagram.to_vec(),
        })
    }

    pub fn process(&mut self) -> Answer {
        self.answered(&Operation::Process)
    }

    /// How many places were written down, and the datagrams in them.
    pub fn retransmit(&mut self) -> Answer {
        self.answered(&Operation::Retransmit)
    }

    pub fn turn(&mut self, arrived: Option<(&[u8], &[u8])>) -> Answer {
        let arrived = arrived.map(|(from, datagram)| (from.to_vec(), datagram.to_vec()));
        self.answered(&Operation::Turn(arrived))
    }

    /// Does memory keep a host?
    pub fn audit(&mut self) -> u64 {
        self.library.call(self.audit_call())
    }

    /// All that is lent, to see what changes nothing.
    pub fn memory(&mut self) -> Vec<Vec<u8>> {
        let slices = ALL.map(|slice| self.lent[slice]);
        let beside = [self.ack, self.out];
        self.library.read(&[&slices[..], &beside].concat())
    }

    /// The call that an operation is; what arrives with it is written. Where nothing has arrived on a turn, what
    /// arrived last is lent once more, and not to be looked at.
    pub fn call_of(&mut self, operation: &Operation) -> Call {
        match operation {
            Operation::Receive { from, datagram } => {
                let call = self.call("receive", &RECEIVING);
                self.arrival(call, from, datagram).lend(self.ack)
            }
            Operation::Process => self.call("process", &ALL),
            Operation::Retransmit => self.call("retransmit", &RESENDING).lend(self.out),
            Operation::Turn(arrived) => {
                let call = self.call("turn", &ALL);
                let call = call.number(u64::from(arrived.is_some()));
                let call = match arrived {
                    Some((from, datagram)) => self.arrival(call, from, datagram),
                    None => self.last_arrival(call),
                };
                call.lend(self.ack).lend(self.out)
            }
            other => panic!("{other:?} is no call"),
        }
    }

    pub fn audit_call(&self) -> Call {
        self.call("audit", &ALL)
    }

    pub fn outlets(&self) -> Outlets {
        Outlets {
            lent: self.lent,
            limits: self.limits,
            ack: self.ack,
            out: self.out,
        }
    }

    /// The call with a datagram and its sender.
    fn arrival(&mut self, call: Call, from: &[u8], datagram: &[u8]) -> Call {
        self.library.write_bytes(self.from, from);
        self.library.write_bytes(self.datagram, datagram);
        self.last = (from.len(), datagram.len());
        self.last_arrival(call)
    }

    fn last_arrival(&self, call: Call) -> Call {
        call.lend(self.from.first(self.last.0))
            .lend(self.datagram.first(self.last.1))
    }

    /// Calls, and reads the datagrams that the answer hands out.
    pub fn answered(&mut self, operation: &Operation) -> Answer {
        let shape = Shape::of(self.outlets().columns().to_vec());
        let call = self.call_of(operation);
        self.library.ask_call(call);
        self.library.ask_for(shape.columns());
        self.library.flush();
        let answer = self.library.answer();
        let after = Kept::receive(shape, &mut self.library);
        self.handed(operation, answer, &after)
    }

    /// The same; and what the audit then answers, and what can be seen. The host's words are read in the exchange in
    /// which it is called and audited, since each exchange takes longer than what is asked in it.
    pub fn answered_and_seen(
        &mut self,
        operation: &Operation,
    ) -> (Answer, u64, Result<Seen, String>) {
        let words = WORDY.map(|slice| self.lent[slice]);
        let shape = Shape::of([&words[..], &[self.out, self.ack]].concat());
        let call = self.call_of(operation);
        self.library.ask_call(call);
        self.library.ask_call(self.audit_call());
        self.library.ask_for(shape.columns());
        self.library.flush();
        let [answer, audit] = [(); 2].map(|()| self.library.answer());
        let after = Kept::receive(shape, &mut self.library);
        let handed = self.handed(operation, answer, &after);
        let seen = Seen::of_memory(&mut after.near(&mut self.library), &self.lent);
        (handed, audit, seen)
    }

    /// The answer, and what it hands out.
    fn handed(&mut self, operation: &Operation, answer: u64, after: &Kept) -> Answer {
        // So that an Ack that is not written next time shows. A refusal must not have written one.
        if answer != UNFIT {
            self.library.fill(self.ack, 0);
        }
        let outlets = self.outlets();
        let mut memory = after.near(&mut self.library);
        let sends = match operation {
            Operation::Retransmit if answer == NO_ROOM => Vec::new(),
            Operation::Retransmit => outlets.resends(&mut memory, answer),
            other => outlets.sends(&mut memory, answer, other.sender()),
        };
        (answer, sends)
    }
}
