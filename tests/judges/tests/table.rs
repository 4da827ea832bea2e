//! Random scripts on the table, what a full table refuses and in which order, and memory that keeps no table.
use judges::bound::{Bound, Spread};
use judges::draw::Draw;
use judges::models::table::Model;
use judges::script::At;
use judges::table::{List, Stored, Table, BUFFER, MOST};

/// So many keys take part in a script.
const SPACE: usize = 4096;

/// So many entries fit the table.
const ROOM: usize = 3000;

/// What an operation does, with keys by their number in the script and SPACE for end.
#[derive(Clone, Copy, Debug)]
enum Operation {
    Set { key: usize, len: usize, seed: u8 },
    Delete { key: usize },
    Remove { lo: usize, hi: usize },
    Replace { lo: usize, hi: usize, plan: Plan },
    Count { lo: usize, hi: usize },
    Pick { lo: usize, hi: usize },
}

/// A list of entries: the key of entry i is `first + i * step`, and its value follows from the seed. What the
/// fault spoils, it spoils at the entry `spot`.
#[derive(Clone, Copy, Debug)]
struct Plan {
    first: usize,
    step: usize,
    many: usize,
    seed: u64,
    fault: Fault,
    spot: usize,
}

#[derive(Clone, Copy, Debug, PartialEq, Eq)]
enum Fault {
    None,
    /// Two keys are equal.
    Equal,
    /// A key lies below the one before.
    Falling,
    /// A value ends one byte behind the buffer.
    Outside,
    /// So far behind that the sum of place and length would wrap.
    FarOutside,
    /// A value is too long by one byte.
    Long,
    /// More entries than the columns have.
    Many,
    /// A value is too long, and two keys are equal.
    LongAndEqual,
    /// A value is too long, and it ends behind the buffer.
    LongAndOutside,
}

/// Byte i of the value that follows from the seed.
fn value(seed: u8, len: usize) -> Vec<u8> {
    (0..len).map(|i| seed.wrapping_add((i * 7) as u8)).collect()
}

/// A value's length: mostly short, sometimes any, sometimes the longest or one too long.
fn length(draw: &mut Draw) -> usize {
    match draw.below(32) {
        0 => 1024,
        1 => 1023,
        2..=7 => draw.below(1024),
        _ => draw.below(24),
    }
}

/// Where a range ends: mostly near, sometimes far, at end, or the wrong way round.
fn high(draw: &mut Draw, lo: usize) -> usize {
    match draw.below(256) {
        0 => SPACE,
        1..=7 => lo + draw.below(800),
        8..=40 => draw.below(lo),
        _ => lo + draw.below(100),
    }
}

/// The table grows for 5,000 operations, the last of them full, and then shrinks for 1,000.
fn drawn(draw: &mut Draw, number: usize) -> Operation {
    let [set, delete, remove] = match number % 6000 {
        0..=4999 => [44, 44, 44],
        _ => [16, 40, 46],
    };
    let key = draw.below(SPACE);
    let at = draw.below(64);
    if at < set {
        let (len, seed) = (length(draw), draw.number() as u8);
        return Operation::Set { key, len, seed };
    }
    let (lo, hi) = (key, high(draw, key));
    match at {
        _ if at < delete => Operation::Delete { key },
        _ if at < remove => Operation::Remove { lo, hi },
        _ if at < 52 => replacing(draw),
        _ if at < 58 => Operation::Count { lo, hi },
        _ => Operation::Pick { lo, hi },
    }
}

/// A list, and a range that mostly has about as many keys as the list: some entries lie outside it, or all.
fn replacing(draw: &mut Draw) -> Operation {
    let step = match draw.below(64) {
        0 => 60,
        1..=12 => 2,
        _ => 1,
    };
    let plan = Plan {
        first: draw.below(SPACE - MOST * step),
        step,
        many: [MOST, MOST, 2 + draw.below(MOST - 2)][draw.below(3)],
        seed: draw.number(),
        fault: fault(draw),
        spot: 0,
    };
    // An entry that has one before it, among those that count.
    let spot = 1 + draw.below(plan.many - 1);
    let lo = match draw.below(512) {
        0 => draw.below(SPACE + 64),
        1..=240 => plan.first,
        _ => plan.first + draw.below(20) * step,
    };
    let hi = match draw.below(512) {
        0 => SPACE,
        1 => draw.below(SPACE),
        2..=240 => plan.first + MOST * step,
        _ => plan.first + (30 + draw.below(30)) * step,
    };
    let plan = Plan { spot, ..plan };
    Operation::Replace { lo, hi, plan }
}

fn fault(draw: &mut Draw) -> Fault {
    match draw.below(32) {
        0 => Fault::Equal,
        1 => Fault::Falling,
        2 => Fault::Outside,
        3 => Fault::FarOutside,
        4 | 5 => Fault::Long,
        6 => Fault::Many,
        7 => Fault::LongAndEqual,
        8 => Fault::LongAndOutside,
        _ => Fault::None,
    }
}

/// The list that the plan describes. Value i starts at byte 1,024 * i or a little later, but the last one ends with
/// the buffer.
fn list(plan: Plan, spread: Spread) -> List {
    let mut draw = Draw::new(plan.seed);
    let mut bytes: Vec<u8> = (0..BUFFER).map(|i| (i / 3) as u8).collect();
    let shift = draw.below(1000);
    let mut list = List {
        keys: Vec::new(),
        places: Vec::new(),
        lens: Vec::new(),
        many: plan.many,
        bytes: Vec::new(),
    };
    for i in 0..MOST {
        let len = [1023, draw.below(1024), draw.below(24)][draw.below(64).min(2)];
        let at = match i + 1 {
            MOST => BUFFER - len,
            _ => shift + 1024 * i,
        };
        bytes[at..at + len].copy_from_slice(&value(draw.number() as u8, len));
        list.keys
            .push(spread.key(plan.first + i * plan.step, SPACE));
        list.places.push(at as u64);
        list.lens.push(len as u64);
    }
    list.bytes = bytes;
    spoil(&mut list, plan);
    list
}

fn spoil(list: &mut List, plan: Plan) {
    let spot = plan.spot;
    if matches!(
        plan.fault,
        Fault::Long | Fault::LongAndEqual | Fault::LongAndOutside
    ) {
        list.lens[spot] = 1024;
        list.places[spot] = list.places[spot].min((BUFFER - 1024) as u64);
    }
    let end = BUFFER as u64 - list.lens[spot];
    match plan.fault {
        Fault::None | Fault::Long => {}
        Fault::Equal | Fault::LongAndEqual => list.keys[spot] = list.keys[spot - 1],
        Fault::Falling => list.keys.swap(spot - 1, spot),
        Fault::Outside | Fault::LongAndOutside => list.places[spot] = end + 1,
        Fault::FarOutside => {
            list.places[spot] = u64::MAX;
            list.lens[spot] = list.lens[spot].max(1);
        }
        Fault::Many => list.many = MOST + 1,
    }
}

/// How often each thing happened.
#[derive(Debug, Default)]
struct Counts {
    full: usize,
    full_lists: usize,
    long: usize,
    long_lists: usize,
    malformed: usize,
    malformed_though_long: usize,
    malformed_though_full: usize,
    long_though_full: usize,
    crowded_picks: usize,
    most: usize,
}

/// A script under way.
struct Run {
    table: Table,
    model: Model,
    spread: Spread,
    counts: Counts,
}

impl Run {
    fn new(spread: Spread) -> Run {
        let mut table = Table::new(ROOM);
        assert!(table.start(), "the memory does not fit together");
        Run {
            table,
            model: Model::new(ROOM),
            spread,
            counts: Counts::default(),
        }
    }

    fn key(&self, k: usize) -> u64 {
        self.spread.key(k, SPACE)
    }

    fn bound(&self, k: usize) -> Bound {
        self.spread.bound(k, SPACE)
    }

    fn step(&mut self, operation: Operation, at: At) {
        let n = self.model.entries();
        match operation {
            Operation::Set { key, len, seed } => self.set(key, &value(seed, len), at),
            Operation::Replace { lo, hi, plan } => self.replace(lo, hi, plan, at),
            Operation::Delete { key } => {
                let left = self.table.delete(n, self.key(key));
                assert_eq!(left, self.model.delete(self.key(key)), "{at}");
            }
            Operation::Remove { lo, hi } => {
                let (lo, hi) = (self.bound(lo), self.bound(hi));
                let left = self.table.remove(n, lo, hi);
                assert_eq!(left, self.model.remove(lo, hi), "{at}");
            }
            Operation::Count { lo, hi } => {
                let (lo, hi) = (self.bound(lo), self.bound(hi));
                let count = self.table.count(n, lo, hi);
                assert_eq!(count, self.model.count(lo, hi), "{at}");
            }
            Operation::Pick { lo, hi } => self.pick(lo, hi, at),
        }
    }

    fn set(&mut self, key: usize, value: &[u8], at: At) {
        let n = self.model.entries();
        let key = self.key(key);
        let before = self.table.columns();
        let full = n == ROOM && self.model.get(key).is_none();
        let want = self.model.set(key, value);
        assert_eq!(self.table.set(n, key, value), want, "{at}");
        self.counts.full += usize::from(want == Stored::Full);
        self.counts.long += usize::from(want == Stored::TooLong);
        self.counts.long_though_full += usize::from(want == Stored::TooLong && full);
        self.settled(want, before, at);
    }

    fn replace(&mut self, lo: usize, hi: usize, plan: Plan, at: At) {
        let n = self.model.entries();
        let (lo, hi) = (self.bound(lo), self.bound(hi));
        let list = list(plan, self.spread);
        // How many entries there would be is told beforehand, for every list whose keys differ and are there.
        let differ = !matches!(plan.fault, Fault::Equal | Fault::Many | Fault::LongAndEqual);
        let mut full = false;
        if differ {
            let said = self.table.left(n, lo, hi, &list);
            full = ROOM < said;
            let want = self.model.left(lo, hi, &list.keys[..list.many]);
            assert_eq!(said, want, "the entries told beforehand; {at}");
        }
        let before = self.table.columns();
        let want = self.model.replace(lo, hi, &list);
        assert_eq!(self.table.replace(n, lo, hi, &list), want, "{at}");
        let long = list.lens.iter().any(|len| 1023 < *len);
        self.counts.full_lists += usize::from(want == Stored::Full);
        self.counts.long_lists += usize::from(want == Stored::TooLong);
        self.counts.malformed += usize::from(want == Stored::Malformed);
        self.counts.malformed_though_long += usize::from(want == Stored::Malformed && long);
        self.counts.malformed_though_full += usize::from(want == Stored::Malformed && full);
        self.counts.long_though_full += usize::from(want == Stored::TooLong && full);
        self.settled(want, before, at);
    }

    /// After a refusal memory is as it was.
    fn settled(&mut self, answer: Stored, before: [Vec<u64>; 3], at: At) {
        self.counts.most = self.counts.most.max(self.model.entries());
        if !matches!(answer, Stored::Entries(_)) {
            let same = self.table.columns() == before;
            assert!(same, "a refusal changed memory; {at}");
        }
    }

    fn pick(&mut self, lo: usize, hi: usize, at: At) {
        let n = self.model.entries();
        let (lo, hi) = (self.bound(lo), self.bound(hi));
        let want = self.model.range(lo, hi);
        let found = self.table.pick(n, lo, hi);
        if want.len() <= MOST {
            assert_eq!(found, Some(want), "{at}");
        } else {
            assert_eq!(found, None, "{at}");
            self.counts.crowded_picks += 1;
        }
    }

    fn check_key(&mut self, k: usize, at: At) {
        let key = self.key(k);
        let found = self.table.get(self.model.entries(), key);
        assert_eq!(found.as_ref(), self.model.get(key), "key {key}; {at}");
    }

    /// Every key's value is the model's, byte for byte, and the audit finds a table.
    fn check_everything(&mut self, at: At) {
        let n = self.model.entries();
        let keys: Vec<u64> = (0..SPACE).map(|k| self.key(k)).collect();
        let places = self.table.places(n, &keys);
        let values = self.table.all_values();
        for (key, place) in keys.iter().zip(places) {
            let found = place.map(|(at, len)| &values[at..at + len]);
            let want = self.model.get(*key).map(Vec::as_slice);
            assert_eq!(found, want, "key {key}; {at}");
        }
        assert!(self.table.valid(n), "the audit finds no table; {at}");
        self.table.library.check_guards();
    }
}

fn play(seed: u64, operations: usize, spread: Spread) -> Counts {
    let mut run = Run::new(spread);
    let mut draw = Draw::new(seed);
    for number in 0..operations {
        let operation = drawn(&mut draw, number);
        let at = At {
            seed,
            number,
            operation: &operation,
        };
        run.step(operation, at);
        if let Operation::Set { key, .. } | Operation::Delete { key } = operation {
            run.check_key(key, at);
        }
        run.check_key(draw.below(SPACE), at);
        if number % 400 == 0 || number + 1 == operations {
            run.check_everything(at);
        }
    }
    println!("{operations} operations");
    run.counts
}

#[test]
fn scripts_in_which_every_refusal_happens() {
    for (seed, spread) in [(1, Spread::Close), (2, Spread::Wide)] {
        let counts = play(seed, 12_000, spread);
        let refusals = [
            counts.full,
            counts.full_lists,
            counts.long,
            counts.long_lists,
            counts.malformed,
            counts.malformed_though_long,
            counts.malformed_though_full,
            counts.long_though_full,
            counts.crowded_picks,
        ];
        assert!(!refusals.contains(&0), "seed {seed}: {counts:?}");
        assert_eq!(counts.most, ROOM, "seed {seed}: {counts:?}");
        println!("seed {seed}: {counts:?}");
    }
}

/// An operation of a script that is written down and not drawn.
fn fixed(operation: &Operation) -> At<'_> {
    At {
        seed: 0,
        number: 0,
        operation,
    }
}

fn set(run: &mut Run, key: usize, len: usize) {
    let seed = key as u8;
    let operation = Operation::Set { key, len, seed };
    run.step(operation, fixed(&operation));
}

/// The keys that fill the table, one after the other, in no order: 5 is odd, so they differ.
fn filling(i: usize) -> usize {
    i * 5 % SPACE
}

/// A table with 3,000 entries, their values of all lengths.
fn filled(spread: Spread) -> Run {
    let mut run = Run::new(spread);
    for i in 0..ROOM {
        set(&mut run, filling(i), i % 1024);
    }
    assert_eq!(run.model.entries(), ROOM);
    run
}

/// A new key is refused, an old one is still set, and once a key is deleted another one is taken, but no second.
#[test]
fn exactly_full_and_one_over() {
    for spread in [Spread::Close, Spread::Wide] {
        let mut run = filled(spread);
        let end = Operation::Delete { key: filling(8) };
        run.check_everything(fixed(&end));
        set(&mut run, filling(ROOM), 9);
        set(&mut run, filling(7), 1023);
        assert_eq!(run.counts.full, 1);
        run.step(end, fixed(&end));
        set(&mut run, filling(ROOM), 9);
        assert_eq!(run.model.entries(), ROOM);
        set(&mut run, filling(ROOM + 1), 9);
        assert_eq!(run.counts.full, 2);
        run.check_everything(fixed(&end));
    }
}

/// So many entries from the key `first` on, each in the place of no other.
fn plan(first: usize, many: usize, fault: Fault) -> Plan {
    Plan {
        first,
        step: 1,
        many,
        seed: 1,
        fault,
        spot: 1,
    }
}

/// A list that leaves the table exactly full is taken; one with an entry more is not.
#[test]
fn a_list_for_a_full_table() {
    let mut run = Run::new(Spread::Close);
    for k in 0..ROOM {
        set(&mut run, k, 3);
    }
    for (lo, hi, first, entries, full) in [
        (10, 20, 3000, 2990 + 11, 1),
        (10, 20, 3000, 2990 + 10, 0),
        (100, 111, 100, ROOM, 0),
        (100, 100, 4000, ROOM + 1, 1),
    ] {
        let taken = entries - (run.model.entries() - run.model.count(run.bound(lo), run.bound(hi)));
        let plan = plan(first, taken, Fault::None);
        let operation = Operation::Replace { lo, hi, plan };
        run.counts = Counts::default();
        run.step(operation, fixed(&operation));
        assert_eq!(run.counts.full_lists, full, "{operation:?}");
        run.check_everything(fixed(&operation));
    }
    assert_eq!(run.model.entries(), ROOM);
}

/// What is wrong with the request itself is told before what is wrong with the memory at hand, and a list that makes
/// no sense before a value that is too long.
#[test]
fn the_order_of_refusals() {
    let mut run = filled(Spread::Close);
    let n = ROOM;
    let new = run.key(filling(ROOM));
    assert_eq!(run.table.set(n, new, &[1; 1024]), Stored::TooLong);
    assert_eq!(run.table.set(n, new, &[1; 1023]), Stored::Full);
    let nowhere = Bound::Key(5);
    let mut answers = Vec::new();
    for fault in [
        Fault::None,
        Fault::Long,
        Fault::Equal,
        Fault::Outside,
        Fault::LongAndEqual,
        Fault::LongAndOutside,
    ] {
        // The range is empty, and some of the 61 keys are new, so that there is no room for any of these lists.
        let list = list(plan(1000, MOST, fault), run.spread);
        assert!(ROOM < run.table.left(n, nowhere, nowhere, &list));
        answers.push(run.table.replace(n, nowhere, nowhere, &list));
    }
    let want = [
        Stored::Full,
        Stored::TooLong,
        Stored::Malformed,
        Stored::Malformed,
        Stored::Malformed,
        Stored::Malformed,
    ];
    assert_eq!(answers, want);
    run.check_everything(fixed(&Operation::Delete { key: 0 }));
}

/// The audit finds no table in memory in which one thing is wrong, and finds it again once that is put right.
#[test]
fn damaged_memory_keeps_no_table() {
    let mut run = filled(Spread::Close);
    let left = run.table.remove(ROOM, Bound::Key(4000), Bound::End);
    let table = &mut run.table;
    let [keys, slots, _] = table.columns();
    let (first, last) = (0, ROOM - 1);
    assert!(left < ROOM, "the last place is free");
    let slot = |place: usize| slots[place] as usize;
    for (column, at, wrong, found) in [
        // Two places share a slot, one of them free; a slot that is none, at a free place and at one in use.
        (table.slots, last, slots[first], false),
        (table.slots, last, ROOM as u64, false),
        (table.slots, first, ROOM as u64, false),
        (table.slots, first, slots[1], false),
        (table.slots, first, u64::MAX, false),
        // Keys that do not rise.
        (table.keys, 1, keys[0], false),
        (table.keys, left - 1, 0, false),
        // A length that is too long, at a slot in use and at a free one, which has none.
        (table.lens, slot(first), 1024, false),
        (table.lens, slot(left - 1), u64::MAX, false),
        (table.lens, slot(last), 1024, true),
        // A key behind those in use is none.
        (table.keys, left, 0, true),
    ] {
        let was = table.library.read_numbers(column, at + 1)[at];
        table.library.write_numbers(column, at, &[wrong]);
        assert_eq!(table.valid(left), found, "{wrong} instead of {was} at {at}");
        table.library.write_numbers(column, at, &[was]);
        assert!(table.valid(left));
    }
    assert!(!table.valid(ROOM + 1));
    assert!(!table.valid(usize::MAX));
}

/// Columns that do not fit together: nothing is started, nothing is set, and the audit finds no table.
#[test]
fn memory_that_does_not_fit_together() {
    let enough = 10 * 1023;
    for (keys, slots, lens, values) in [
        (9, 10, 10, enough),
        (10, 10, 9, enough),
        (10, 10, 10, enough - 1),
        (0, 1, 1, enough),
    ] {
        let mut table = Table::with(keys, slots, lens, values);
        assert!(!table.start());
        assert!(!table.valid(0));
        assert_eq!(table.set(0, 7, &[1]), Stored::Full);
        assert_eq!(table.get(1, 7), None);
        assert!(table.columns().concat().iter().all(|word| *word == 0));
        table.library.check_guards();
    }
    for (keys, slots, lens, values) in [(10, 10, 10, enough), (11, 10, 12, enough + 5)] {
        let mut table = Table::with(keys, slots, lens, values);
        assert!(table.start() && table.valid(0) && !table.valid(11));
        assert_eq!(table.set(0, 7, &[1]), Stored::Entries(1));
        assert_eq!(table.get(1, 7), Some(vec![1]));
        table.library.check_guards();
    }
    let mut table = Table::new(0);
    assert!(table.start() && table.valid(0));
    assert_eq!(table.set(0, 7, &[]), Stored::Full);
    assert_eq!(table.set(0, 7, &[1; 1024]), Stored::TooLong);
    table.library.check_guards();
}
