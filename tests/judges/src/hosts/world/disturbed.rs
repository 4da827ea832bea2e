//! Datagrams that come out of nowhere: good ones in a wrong place, damaged ones, and bytes that follow no rule.
use super::{drawn, Senders, World, CLIENTS, HOSTS};
use crate::hosts::operation::Operation;
use crate::messages;
use crate::models::host::Address;
use crate::models::messages::written;

impl World {
    /// A datagram comes out of nowhere: a good one in a wrong place, a damaged one, or bytes that follow no rule.
    pub(super) fn disturb(&mut self, host: usize) {
        let from = self.disturber();
        let flying = self.draw.below(self.flying.len());
        let datagram = match self.flying.get(flying) {
            Some(flying) if 0 < self.draw.below(4) => flying.datagram.clone(),
            _ => messages::drawn::bytes(&mut self.draw),
        };
        let datagram = match self.draw.below(4) {
            0 => datagram,
            1 => self.misplaced(host, &from),
            _ => {
                self.damaged += 1;
                messages::drawn::changed(&mut self.draw, &datagram)
            }
        };
        self.act(host, Operation::Receive { from, datagram });
    }

    /// A good message with a number near the one that the host expects next of the sender.
    fn misplaced(&mut self, host: usize, from: &[u8]) -> Vec<u8> {
        let model = &self.hosts[host].model;
        let last = model.peer(from).map_or(0, |peer| peer.received);
        let number = last.saturating_add(self.draw.below(3) as u64);
        let to = model.me.clone();
        let body = match self.plan.senders {
            Senders::Known => drawn::request(&mut self.draw, &HOSTS[..self.plan.hosts]),
            Senders::Forged => drawn::any(&mut self.draw, &HOSTS[..self.plan.hosts]),
        };
        written(&messages::samples::message(number, &to, body))
    }

    fn disturber(&mut self) -> Address {
        let strangers: [&[u8]; 3] = [b"x:1", b"x:22", b"x:1234567"];
        let others = match self.plan.senders {
            Senders::Known => &[],
            Senders::Forged => &HOSTS[..self.plan.hosts],
        };
        let all = [&CLIENTS[..self.plan.clients], &strangers, others].concat();
        all[self.draw.below(all.len())].to_vec()
    }
}
