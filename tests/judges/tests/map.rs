//! Random scripts on the map, and what a full map refuses.
use judges::bound::{Bound, Spread};
use judges::draw::Draw;
use judges::map::{Changed, Map};
use judges::models::map::Model;
use judges::script::At;

/// So many keys have an owner of their own in the model.
const SPACE: usize = 8192;

/// One change: the stretches from lo up to hi, SPACE and more for end, go to the owner.
#[derive(Clone, Copy, Debug)]
struct Give {
    lo: usize,
    hi: usize,
    owner: u64,
}

/// A script under way, and what it has seen.
struct Run {
    map: Map,
    model: Model,
    room: usize,
    spread: Spread,
    bounds: usize,
    refused: usize,
    most: usize,
    wholes: usize,
    empty: usize,
}

impl Run {
    /// All keys to the owner 1.
    fn new(room: usize, spread: Spread) -> Run {
        let mut map = Map::new(room);
        assert_eq!(map.start(1), Changed::Bounds(1));
        Run {
            map,
            model: Model::new(SPACE, spread, 1),
            room,
            spread,
            bounds: 1,
            refused: 0,
            most: 1,
            wholes: 0,
            empty: 0,
        }
    }

    fn bound(&self, k: usize) -> Bound {
        self.spread.bound(k, SPACE)
    }

    /// One change of the map and of the model, which stays as it was where there is no room.
    fn give(&mut self, give: Give, at: At) {
        let mut next = self.model.clone();
        next.set(give.lo, give.hi, give.owner);
        let want = next.list();
        let (lo, hi) = (self.bound(give.lo), self.bound(give.hi));
        let said = self.map.bounds_after(self.bounds, lo, hi, give.owner);
        assert_eq!(said, want.len(), "the bounds told beforehand; {at}");
        let answer = self.map.set(self.bounds, lo, hi, give.owner);
        if want.len() <= self.room {
            assert_eq!(answer, Changed::Bounds(want.len()), "{at}");
            self.model = next;
            self.bounds = want.len();
            self.most = self.most.max(self.bounds);
        } else {
            assert_eq!(answer, Changed::NoRoom, "{at}");
            self.refused += 1;
        }
        self.empty += usize::from(give.hi <= give.lo);
    }

    /// Memory has the model's bounds and no others, which after a refusal are those from before.
    fn check_list(&mut self, at: At) {
        let found = self.map.list(self.bounds);
        assert_eq!(found, self.model.list(), "the bounds; {at}");
    }

    fn check_owners(&mut self, stretches: &[usize], at: At) {
        let mut keys = Vec::new();
        let mut want = Vec::new();
        for &k in stretches {
            // The first key of the stretch, and the last one.
            keys.push(self.spread.key(k, SPACE));
            keys.push(match k + 1 {
                SPACE => u64::MAX,
                next => self.spread.key(next, SPACE) - 1,
            });
            want.extend([self.model.owner(k); 2]);
        }
        let found = self.map.owners(self.bounds, &keys);
        for (key, (found, want)) in keys.iter().zip(found.iter().zip(&want)) {
            assert_eq!(found, want, "the owner of {key}; {at}");
        }
    }

    fn check_whole(&mut self, lo: usize, hi: usize, owner: u64, at: At) {
        let (from, to) = (self.bound(lo), self.bound(hi));
        let found = self.map.whole(self.bounds, from, to, owner);
        let want = self.model.whole(lo, hi, owner);
        assert_eq!(found, want, "whole {from:?} {to:?} {owner}; {at}");
        self.wholes += usize::from(found);
    }

    fn check_everything(&mut self, at: At) {
        self.check_list(at);
        self.check_owners(&(0..SPACE).collect::<Vec<usize>>(), at);
        self.map.library.check_guards();
    }
}

/// Where a range ends: a few ranges go up to end, a few are long, some lie the wrong way round.
fn high(draw: &mut Draw, lo: usize, width: usize) -> usize {
    match draw.below(4096) {
        0 => SPACE,
        1..=4 => lo + draw.below(2048),
        5..=120 => draw.below(lo),
        _ => lo + draw.below(width),
    }
}

fn drawn(draw: &mut Draw, width: usize) -> Give {
    let lo = draw.below(SPACE + 8);
    let hi = high(draw, lo, width);
    let owner = 1 + draw.below(4) as u64;
    Give { lo, hi, owner }
}

/// A look at some owners and at whether some range is one owner's; at times, at everything.
fn look(run: &mut Run, draw: &mut Draw, give: Give, at: At) {
    let some = [
        draw.below(SPACE),
        draw.below(SPACE),
        draw.below(SPACE),
        give.lo.min(SPACE - 1),
    ];
    run.check_owners(&some, at);
    let lo = draw.below(SPACE + 8);
    let hi = high(draw, lo, 8);
    run.check_whole(lo, hi, run.model.owner(lo), at);
    run.check_whole(lo, hi, 1 + draw.below(4) as u64, at);
    if at.number % 20 == 0 {
        run.check_list(at);
    }
    if at.number % 1000 == 0 {
        run.check_everything(at);
    }
}

/// So many random changes, in memory for so many bounds, of ranges that are mostly narrower than the width.
fn play(seed: u64, operations: usize, room: usize, spread: Spread, width: usize) -> Run {
    let mut run = Run::new(room, spread);
    let mut draw = Draw::new(seed);
    for number in 0..operations {
        let give = drawn(&mut draw, width);
        let at = At {
            seed,
            number,
            operation: &give,
        };
        let refused = run.refused;
        run.give(give, at);
        if run.refused != refused {
            run.check_list(at);
        }
        look(&mut run, &mut draw, give, at);
    }
    let at = At {
        seed,
        number: operations,
        operation: &"the end",
    };
    run.check_everything(at);
    println!("{operations} operations");
    run
}

#[test]
fn script_with_room_for_4000_bounds() {
    let run = play(1, 12_000, 4000, Spread::Close, 4);
    assert!(run.most > 2000, "{} bounds at most", run.most);
    assert!(run.wholes > 0 && run.empty > 0);
}

#[test]
fn script_over_all_64_bits() {
    let run = play(2, 10_000, 4000, Spread::Wide, 5);
    assert!(run.most > 2000, "{} bounds at most", run.most);
    assert!(run.wholes > 0 && run.empty > 0);
}

#[test]
fn script_with_room_for_40_bounds_is_refused_at_times() {
    for (seed, spread) in [(3, Spread::Close), (4, Spread::Wide)] {
        let run = play(seed, 10_000, 40, spread, 600);
        assert_eq!(run.most, 40);
        assert!(run.refused > 0, "nothing was refused");
        assert!(run.refused < 10_000, "everything was refused");
    }
}

/// The keys 0 to 3999 alternate between two owners, which takes every bound that there is room for. When 3,999 are
/// taken two more are refused, one more is not. Then one more is refused, and what joins its neighbours is not.
#[test]
fn exactly_full_and_one_over() {
    let mut run = Run::new(4000, Spread::Close);
    let odd = |i: usize| (2 * i + 1, 2 * i + 2, 2, 2 * i + 3);
    let last = [
        (3999, 4000, 2, 3999),
        (3999, SPACE, 2, 4000),
        (5000, SPACE, 1, 4000),
        (5000, 5001, 1, 4000),
        (2001, 2002, 1, 3998),
        (5000, SPACE, 1, 3999),
        (0, SPACE, 1, 1),
    ];
    for (number, (lo, hi, owner, bounds)) in (0..1999).map(odd).chain(last).enumerate() {
        let give = Give { lo, hi, owner };
        let at = At {
            seed: 0,
            number,
            operation: &give,
        };
        run.give(give, at);
        assert_eq!(run.bounds, bounds, "{at}");
        if number % 500 == 0 || 1995 < number {
            run.check_everything(at);
        }
    }
    assert_eq!(run.most, 4000);
    assert_eq!(run.refused, 3);
}

/// The largest key is the only one in [2^64 - 1, end), and the only one not in [0, 2^64 - 1).
#[test]
fn end_is_no_key() {
    let mut map = Map::new(8);
    let last = Bound::Key(u64::MAX);
    assert_eq!(map.start(1), Changed::Bounds(1));
    assert_eq!(map.set(1, last, Bound::End, 2), Changed::Bounds(2));
    assert_eq!(map.owners(2, &[u64::MAX - 1, u64::MAX]), [1, 2]);
    assert_eq!(map.set(2, Bound::Key(0), last, 3), Changed::Bounds(2));
    assert_eq!(map.owners(2, &[0, u64::MAX - 1, u64::MAX]), [3, 3, 2]);
    assert!(map.whole(2, last, Bound::End, 2));
    assert!(!map.whole(2, Bound::Key(0), Bound::End, 3));
}

/// Memory that has no room for a bound, and counts of bounds that do not fit what is lent.
#[test]
fn what_does_not_fit_is_refused() {
    let (zero, end) = (Bound::Key(0), Bound::End);
    for (lows, owners) in [(0, 0), (0, 4), (4, 0)] {
        let mut map = Map::with(lows, owners);
        assert_eq!(map.start(1), Changed::NoRoom);
        assert_eq!(map.set(1, zero, end, 1), Changed::NoRoom);
        assert_eq!(map.bounds_after(1, zero, end, 1), 0);
        assert!(!map.whole(1, zero, end, 1));
        assert_eq!(map.owners(1, &[7]), [0]);
        map.library.check_guards();
    }
    for (lows, owners) in [(4, 4), (4, 9), (9, 4)] {
        let mut map = Map::with(lows, owners);
        assert_eq!(map.start(1), Changed::Bounds(1));
        for n in [0, 5, usize::MAX] {
            assert_eq!(map.set(n, zero, end, 2), Changed::NoRoom, "{n} bounds");
            assert_eq!(map.bounds_after(n, zero, end, 2), 0, "{n} bounds");
            assert!(!map.whole(n, zero, end, 1), "{n} bounds");
        }
        assert_eq!(map.list(1), [(0, 1)]);
        map.library.check_guards();
    }
}
