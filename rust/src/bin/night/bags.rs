//! The bags. Each goes through some of the nineteen airports. At each, one desk reads its record, which must be the one
//! that was written last, and another desk writes a new one.
use crate::draw::Draw;
use crate::world::{World, HOSTS};
use std::collections::{BTreeMap, BTreeSet};
use tagshards::{Answer, Answered, Refusal, Request, Unasked};

const AIRPORTS: [&str; 19] = [
    "OSL", "CPH", "ARN", "HEL", "KEF", "BGO", "TRD", "GOT", "AMS", "FRA", "MUC", "ZRH", "VIE",
    "CDG", "LHR", "DUB", "MAD", "LIS", "FCO",
];

/// The desks of an airport.
const DESKS: usize = 2;

const HOUR: u64 = 3_600;

/// Bags are checked in in the first hours. A leg takes so many seconds, and then so many more at most.
const CHECK_IN: u64 = 5 * HOUR;
const LEG: u64 = HOUR / 3;
const MORE: u64 = HOUR / 2;

/// A bag visits two airports and so many more at most.
const MORE_STOPS: u64 = 3;

pub struct Bag {
    pub tag: u64,
    route: Vec<usize>,
    stop: usize,
    /// The record that was written last, and the one that is being written.
    pub record: Option<Vec<u8>>,
    next: Option<Vec<u8>>,
    is_writing: bool,
}

pub struct Bags {
    pub bags: Vec<Bag>,
    /// The bags that arrive somewhere, by time.
    due: BTreeSet<(u64, usize)>,
    /// The bag that each request is about.
    asked: BTreeMap<(usize, Request), usize>,
    pub home: usize,
    pub gets: u64,
    pub sets: u64,
    /// Answers that were wrong. There are none.
    pub wrong: Vec<String>,
}

/// So many tags, which rise.
pub fn tags(draw: &mut Draw, many: usize) -> Vec<u64> {
    let mut tags = BTreeSet::new();
    while tags.len() < many {
        // Ten digits: a digit, the airline's three, and six.
        let airline = 1 + draw.below(9);
        tags.insert(airline * 100_000_000 + 17_000_000 + draw.below(1_000_000));
    }
    tags.into_iter().collect()
}

impl Bags {
    /// All bags of the night, and a client for each desk.
    pub fn new(world: &mut World) -> Result<Bags, Refusal> {
        for airport in AIRPORTS {
            for desk in 1..=DESKS {
                world.join(&format!("{airport} desk {desk}"), &HOSTS)?;
            }
        }
        let tags = world.owners.tags.clone();
        let bags: Vec<Bag> = tags
            .iter()
            .map(|tag| Bag::new(&mut world.draw, *tag))
            .collect();
        let due = (0..bags.len()).map(|bag| (1 + world.draw.below(CHECK_IN), bag));
        Ok(Bags {
            due: due.collect(),
            bags,
            asked: BTreeMap::new(),
            home: 0,
            gets: 0,
            sets: 0,
            wrong: Vec::new(),
        })
    }

    /// Bags that are due arrive, and desks go on with what was answered.
    pub fn tick(&mut self, world: &mut World) -> Result<(), Unasked> {
        while let Some((time, bag)) = self.due.first().copied() {
            if world.network.now < time {
                break;
            }
            self.due.pop_first();
            self.read(world, bag);
        }
        for client in 0..AIRPORTS.len() * DESKS {
            while let Some(answered) = world.clients[client].answer() {
                self.answer(world, client, answered)?;
            }
        }
        Ok(())
    }

    fn read(&mut self, world: &mut World, bag: usize) {
        let it = &mut self.bags[bag];
        it.is_writing = false;
        let desk = it.desk(0);
        let request = world.clients[desk].get(it.tag);
        self.asked.insert((desk, request), bag);
        self.gets += 1;
    }

    fn write(&mut self, world: &mut World, bag: usize) -> Result<(), Unasked> {
        let it = &mut self.bags[bag];
        it.is_writing = true;
        it.next = it.new_record(world.network.now);
        let desk = it.desk(1);
        let request = world.clients[desk].set(it.tag, it.next.as_deref())?;
        self.asked.insert((desk, request), bag);
        self.sets += 1;
        Ok(())
    }

    fn answer(
        &mut self,
        world: &mut World,
        client: usize,
        answered: Answered,
    ) -> Result<(), Unasked> {
        let Some(bag) = self.asked.remove(&(client, answered.request)) else {
            self.wrong
                .push(format!("tag {} was answered twice", answered.key));
            return Ok(());
        };
        let it = &mut self.bags[bag];
        let want = if it.is_writing { &it.next } else { &it.record };
        if answered.answer != Answer::Value(want.clone()) {
            let what = format!("tag {}: {:?} instead of {want:?}", it.tag, answered.answer);
            self.wrong.push(what);
        }
        if !it.is_writing {
            return self.write(world, bag);
        }
        it.record = it.next.take();
        it.stop += 1;
        if it.stop == it.route.len() {
            self.home += 1;
        } else {
            let arrives = world.network.now + LEG + world.draw.below(MORE);
            self.due.insert((arrives, bag));
        }
        Ok(())
    }
}

impl Bag {
    fn new(draw: &mut Draw, tag: u64) -> Bag {
        let stops = 2 + draw.below(MORE_STOPS);
        let airport = |_| draw.below(AIRPORTS.len() as u64) as usize;
        Bag {
            tag,
            route: (0..stops).map(airport).collect(),
            stop: 0,
            record: None,
            next: None,
            is_writing: false,
        }
    }

    /// The client that is one of the two desks where the bag is.
    fn desk(&self, which: usize) -> usize {
        let airport = self.route[self.stop.min(self.route.len() - 1)];
        airport * DESKS + which
    }

    /// Where the bag is, and where it goes; none if its owner has taken it, which some do at the last airport.
    fn new_record(&self, now: u64) -> Option<Vec<u8>> {
        let name = |stop: usize| self.route.get(stop).map(|airport| AIRPORTS[*airport]);
        let here = name(self.stop)?;
        match name(self.stop + 1) {
            Some(to) => Some(format!("{} {here}, goes to {to}", clock(now)).into_bytes()),
            None if self.tag.is_multiple_of(3) => {
                Some(format!("{} {here}, on the belt", clock(now)).into_bytes())
            }
            None => None,
        }
    }
}

/// The time of day. The night begins at 22 o'clock.
pub fn clock(now: u64) -> String {
    let minutes = 22 * 60 + now / 60;
    format!("{:02}:{:02}", minutes / 60 % 24, minutes % 60)
}
