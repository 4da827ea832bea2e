//! Which host owned which tags when, as the hosts' steps say it.

/// The owner of tags that are on their way from one host to another.
pub const NOBODY: usize = usize::MAX;

/// Tags with the same owner for some time. Tags are counted in rising order.
pub struct Bar {
    pub tags: (usize, usize),
    pub time: (u64, u64),
    pub owner: usize,
}

pub struct Owners {
    pub tags: Vec<u64>,
    /// The owner of each tag, and since when.
    now: Vec<(usize, u64)>,
    pub bars: Vec<Bar>,
    /// How many ranges have left a host, and how many have arrived.
    pub left: u64,
    pub arrived: u64,
    /// The ends of all ranges that were moved, where an owner may change.
    pub ends: Vec<u64>,
}

impl Owners {
    /// The first host has all tags, which rise.
    pub fn new(tags: Vec<u64>) -> Owners {
        Owners {
            now: vec![(0, 0); tags.len()],
            tags,
            bars: Vec::new(),
            left: 0,
            arrived: 0,
            ends: Vec::new(),
        }
    }

    pub fn of(&self, tag: usize) -> usize {
        self.now[tag].0
    }

    pub fn leave(&mut self, lo: Option<u64>, hi: Option<u64>, time: u64) {
        self.left += 1;
        self.ends.extend([lo, hi].into_iter().flatten());
        self.change(lo, hi, NOBODY, time);
    }

    pub fn arrive(&mut self, lo: Option<u64>, hi: Option<u64>, owner: usize, time: u64) {
        self.arrived += 1;
        self.change(lo, hi, owner, time);
    }

    fn change(&mut self, lo: Option<u64>, hi: Option<u64>, owner: usize, time: u64) {
        let below = |end: u64| self.tags.partition_point(|tag| *tag < end);
        let end = self.tags.len();
        let (from, to) = (lo.map_or(end, below), hi.map_or(end, below));
        self.draw(from, to, time);
        self.now[from..to].fill((owner, time));
    }

    /// Ends the bars of some tags: one for those beside each other that have had the same owner for the same time.
    fn draw(&mut self, from: usize, to: usize, time: u64) {
        let mut start = from;
        for tag in from..to {
            let last = tag + 1 == to || self.now[tag + 1] != self.now[tag];
            if last {
                let (owner, since) = self.now[tag];
                self.bars.push(Bar {
                    tags: (start, tag + 1),
                    time: (since, time),
                    owner,
                });
                start = tag + 1;
            }
        }
    }

    pub fn end(&mut self, time: u64) {
        self.draw(0, self.tags.len(), time);
    }
}
