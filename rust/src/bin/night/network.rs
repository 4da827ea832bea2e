//! A network in memory that loses, repeats, delays and reorders datagrams by a fixed rule.
use crate::draw::Draw;
use std::collections::BTreeMap;

/// What the network does to datagrams: so many in a hundred get lost or arrive twice, and each takes so many ticks at
/// most.
#[derive(Clone, Copy)]
pub struct Weather {
    pub lost: u64,
    pub repeated: u64,
    pub delay: u64,
}

pub struct Packet {
    pub from: Vec<u8>,
    pub to: Vec<u8>,
    pub datagram: Vec<u8>,
}

pub struct Network {
    pub weather: Weather,
    draw: Draw,
    pub now: u64,
    /// By the time of arrival, and then by the order of sending.
    flying: BTreeMap<(u64, u64), Packet>,
    pub sent: u64,
    pub lost: u64,
    pub repeated: u64,
}

impl Network {
    pub fn new(weather: Weather, seed: u64) -> Network {
        Network {
            weather,
            draw: Draw::new(seed),
            now: 0,
            flying: BTreeMap::new(),
            sent: 0,
            lost: 0,
            repeated: 0,
        }
    }

    pub fn send(&mut self, from: &[u8], to: &[u8], datagram: &[u8]) {
        self.sent += 1;
        if self.draw.percent(self.weather.lost) {
            self.lost += 1;
            return;
        }
        self.fly(from, to, datagram, 0);
        if self.draw.percent(self.weather.repeated) {
            self.repeated += 1;
            self.fly(from, to, datagram, 1);
        }
    }

    fn fly(&mut self, from: &[u8], to: &[u8], datagram: &[u8], copy: u64) {
        let arrives = self.now + 1 + self.draw.below(self.weather.delay);
        let packet = Packet {
            from: from.to_vec(),
            to: to.to_vec(),
            datagram: datagram.to_vec(),
        };
        self.flying.insert((arrives, 2 * self.sent + copy), packet);
    }

    /// The next datagram that has arrived by now.
    pub fn arrived(&mut self) -> Option<Packet> {
        let first = self.flying.first_entry()?;
        (first.key().0 <= self.now).then(|| first.remove())
    }

    pub fn is_empty(&self) -> bool {
        self.flying.is_empty()
    }
}
