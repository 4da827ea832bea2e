//! What a client knows of one host: messages are delivered once in both directions.
use std::collections::VecDeque;

/// So many messages to a host are under way at a time. It takes them in order, one by one, and if one gets lost those
/// behind it are in vain.
const WINDOW: usize = 8;

#[derive(Clone, Debug, Default)]
pub struct Link {
    /// The number of the last message that was taken.
    received: u64,
    /// How many messages the host has acknowledged, and the datagrams of those after them.
    acknowledged: u64,
    waiting: VecDeque<Vec<u8>>,
    /// How many of these are under way.
    flying: usize,
    /// The keys of the requests that the host has not answered, in the order in which it was asked.
    pub asked: VecDeque<u64>,
}

impl Link {
    /// The number of the next message, if there is one left.
    pub fn next(&self) -> Option<u64> {
        self.last().checked_add(1)
    }

    fn last(&self) -> u64 {
        self.acknowledged.saturating_add(self.waiting.len() as u64)
    }

    /// The message with the next number waits.
    pub fn post(&mut self, datagram: Vec<u8>) {
        self.waiting.push_back(datagram);
    }

    /// How many messages were not acknowledged.
    pub fn waiting(&self) -> usize {
        self.waiting.len()
    }

    /// The next message that may be sent for the first time. It is under way then.
    pub fn release(&mut self) -> Option<Vec<u8>> {
        let next = self.waiting.get(self.flying)?;
        (self.flying < WINDOW).then(|| {
            self.flying += 1;
            next.clone()
        })
    }

    /// The messages that are under way.
    pub fn flying(&self) -> impl Iterator<Item = &[u8]> {
        self.waiting.iter().take(self.flying).map(Vec::as_slice)
    }

    /// Messages up to this number wait no longer. An Ack of one that was never sent says nothing.
    pub fn confirm(&mut self, number: u64) {
        let many = number.saturating_sub(self.acknowledged);
        if let Some(many) = usize::try_from(many)
            .ok()
            .filter(|many| *many <= self.flying)
        {
            self.waiting.drain(..many);
            self.flying -= many;
            self.acknowledged += many as u64;
        }
    }

    /// Is the message with this number new? Then it is taken.
    pub fn take(&mut self, number: u64) -> bool {
        let is_new = self.received.checked_add(1) == Some(number);
        if is_new {
            self.received = number;
        }
        is_new
    }

    pub fn has_taken(&self, number: u64) -> bool {
        number <= self.received
    }
}
