//! What is measured of a host: its steps, and what they hand out. The proved host and the plain one are called alike.
use tagshards::{Host, Limits, Outcome};

pub trait Served {
    fn start(limits: Limits, hosts: &[&[u8]], me: &[u8]) -> Self;

    fn receive(&mut self, from: &[u8], datagram: &[u8]) -> Outcome;

    fn process(&mut self) -> Outcome;

    /// What the last step hands out, and to whom. Receiving and processing hand out one datagram at most.
    fn sent(&self) -> Option<(&[u8], &[u8])>;

    /// How many entries, bounds and peers there are.
    fn counts(&self) -> [u64; 3];
}

impl Served for Host {
    fn start(limits: Limits, hosts: &[&[u8]], me: &[u8]) -> Host {
        Host::start(limits, hosts, me).expect("the host starts")
    }

    fn receive(&mut self, from: &[u8], datagram: &[u8]) -> Outcome {
        Host::receive(self, from, datagram)
    }

    fn process(&mut self) -> Outcome {
        Host::process(self)
    }

    fn sent(&self) -> Option<(&[u8], &[u8])> {
        self.sends().next()
    }

    fn counts(&self) -> [u64; 3] {
        [self.entries(), self.bounds(), self.peers()]
    }
}
