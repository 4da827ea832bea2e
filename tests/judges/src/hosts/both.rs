//! The proved host and the model, taken through the same operations. Whatever differs ends the test, with the shortest
//! script that shows it.
use super::answers::named;
use super::lent::{Slice, TRANSFERS, TURNS, WORDS};
use super::operation::Operation;
use super::proved::{Proved, KEPT, STARTED};
use super::seen::Seen;
use super::shortest::shortest;
use crate::library::Library;
use crate::messages::hex;
use crate::models::host::{Address, Host, Limits, Outcome, Packet, Step};

/// Is memory audited and compared after each operation, or only when a test asks for it?
#[derive(Clone, Copy, Debug, PartialEq, Eq)]
pub enum Look {
    EachTime,
    WhenAsked,
}

pub struct Both {
    pub model: Host,
    pub proved: Proved,
    hosts: Vec<Address>,
    look: Look,
    journal: Vec<Operation>,
    /// What a failure says first: which test, script or world this is.
    pub name: String,
}

impl Both {
    /// The host with the own address `me`, in memory with exactly these limits.
    pub fn start(limits: Limits, hosts: &[&[u8]], me: &[u8], look: Look) -> Both {
        Both::start_in(Library::start(), limits, hosts, me, look)
    }

    /// The same in the memory of that program.
    pub fn start_in(
        library: Library,
        limits: Limits,
        hosts: &[&[u8]],
        me: &[u8],
        look: Look,
    ) -> Both {
        let hosts: Vec<Address> = hosts.iter().map(|host| host.to_vec()).collect();
        let model = Host::start(limits, &hosts, me).expect("the model starts");
        let mut both = Both {
            proved: Proved::new_in(library, limits),
            model,
            hosts,
            look,
            journal: Vec::new(),
            name: String::new(),
        };
        both.restart();
        both
    }

    /// Both hosts anew, in the same memory.
    pub fn restart(&mut self) {
        let me = self.model.me.clone();
        let model = Host::start(self.model.limits, &self.hosts, &me);
        self.model = model.expect("the model starts");
        let answer = self.proved.start(&self.hosts, &me);
        assert_eq!(answer, STARTED, "the proved host does not start");
        self.journal.clear();
        self.look().expect("the new hosts are the same");
    }

    pub fn receive(&mut self, from: &[u8], datagram: &[u8]) -> Step {
        self.play(Operation::Receive {
            from: from.to_vec(),
            datagram: datagram.to_vec(),
        })
    }

    pub fn process(&mut self) -> Step {
        self.play(Operation::Process)
    }

    pub fn retransmit(&mut self) -> Step {
        self.play(Operation::Retransmit)
    }

    pub fn turn(&mut self, arrived: Option<(&[u8], &[u8])>) -> Step {
        let arrived = arrived.map(|(from, datagram)| (from.to_vec(), datagram.to_vec()));
        self.play(Operation::Turn(arrived))
    }

    /// What both do.
    pub fn play(&mut self, operation: Operation) -> Step {
        let played = self.try_play(&operation);
        self.journal.push(operation);
        played.unwrap_or_else(|difference| self.fail(difference))
    }

    /// Ends the test: the hosts differ after the operations of the journal.
    fn fail(&mut self, difference: String) -> ! {
        let journal = std::mem::take(&mut self.journal);
        // A difference that was found late shows sooner, so that the script becomes shorter.
        self.look = Look::EachTime;
        let script = shortest(self, journal, difference);
        let name = &self.name;
        panic!("{name}: the proved host differs from the model\n{script}");
    }

    /// What both do, or where they differ.
    pub fn try_play(&mut self, operation: &Operation) -> Result<Step, String> {
        let want = Both::play_model(&mut self.model, operation);
        if self.look == Look::WhenAsked || operation.is_change() {
            let found = self.play_proved(operation)?;
            same_step(&found, &want)?;
            return Ok(want);
        }
        let (answer, audit, seen) = self.proved.answered_and_seen(operation);
        same_step(&named(operation, answer)?, &want)?;
        same_host(audit, seen, &self.model)?;
        Ok(want)
    }

    /// What the model does. A change from outside is no step, and waits.
    pub fn play_model(model: &mut Host, operation: &Operation) -> Step {
        match operation {
            Operation::Receive { from, datagram } => return model.receive(from, datagram),
            Operation::Process => return model.process(),
            Operation::Retransmit => return model.retransmit(),
            Operation::Turn(arrived) => return model.turn(slices(arrived)),
            Operation::Numbers {
                of,
                received,
                acknowledged,
            } => {
                let peer = model.peer_mut(of).expect("the address has a place");
                assert!(peer.waiting.is_empty(), "nothing waits for the address");
                (peer.received, peer.acknowledged) = (*received, *acknowledged);
            }
            Operation::Transfers(count) => model.transfers = *count,
            Operation::Turns(count) => model.turns = *count,
        }
        Step::still(Outcome::Waits)
    }

    fn play_proved(&mut self, operation: &Operation) -> Result<Step, String> {
        let lent = self.proved.lent;
        let (slice, at, words) = match operation {
            Operation::Numbers {
                of,
                received,
                acknowledged,
            } => {
                let place = self.model.peers.iter().position(|peer| &peer.address == of);
                let place = place.expect("the address has a place");
                let words = vec![*received, *acknowledged, *acknowledged];
                (Slice::Counts, place * WORDS, words)
            }
            Operation::Transfers(count) => (Slice::Numbers, TRANSFERS, vec![*count]),
            Operation::Turns(count) => (Slice::Numbers, TURNS, vec![*count]),
            step => return named(step, self.proved.answered(step)),
        };
        self.proved.library.write_numbers(lent[slice], at, &words);
        if self.look == Look::EachTime {
            self.look()?;
        }
        Ok(Step::still(Outcome::Waits))
    }

    /// All that can be seen of the hosts is the same.
    pub fn check(&mut self) {
        if let Err(difference) = self.look() {
            self.fail(difference);
        }
    }

    /// Does memory keep a host, and is all that can be seen of the hosts the same?
    fn look(&mut self) -> Result<(), String> {
        let audit = self.proved.audit();
        let seen = Seen::of_memory(&mut self.proved.library, &self.proved.lent);
        same_host(audit, seen, &self.model)
    }
}

fn slices(arrived: &Option<(Address, Vec<u8>)>) -> Option<(&[u8], &[u8])> {
    let arrived = arrived.as_ref();
    arrived.map(|(from, datagram)| (&from[..], &datagram[..]))
}

/// Does memory keep a host, and is all that can be seen of it what it should be?
pub fn same_host(audit: u64, seen: Result<Seen, String>, model: &Host) -> Result<(), String> {
    if audit != KEPT {
        return Err(format!("the audit answers {audit}"));
    }
    match seen?.difference(&Seen::of_model(model)) {
        Some(difference) => Err(difference),
        None => Ok(()),
    }
}

pub fn same_step(found: &Step, want: &Step) -> Result<(), String> {
    if found.outcome != want.outcome {
        return Err(format!("{:?} instead of {:?}", found.outcome, want.outcome));
    }
    if found.sends != want.sends {
        let (found, want) = (packets(&found.sends), packets(&want.sends));
        return Err(format!("sent: {found}\ninstead of: {want}"));
    }
    Ok(())
}

fn packets(packets: &[Packet]) -> String {
    let packet = |packet: &Packet| format!("{} to {:?}", hex(&packet.bytes), packet.to);
    packets
        .iter()
        .map(packet)
        .collect::<Vec<String>>()
        .join("; ")
}
