//! Every script of a few events over two hosts and three keys. What is covered is printed, and examples/every.rs walks
//! further.
use crate::worlds::HAPPENS;
use judges::hosts::every::alphabet::Alphabet;
use judges::hosts::every::{walk, Covered, Scripts, LATE, LEAST, LITTLE, NEW};
use judges::models::host::Outcome;

const WHOLE: Scripts = Scripts {
    limits: LITTLE,
    counts: NEW,
    alphabet: Alphabet::Whole,
    events: 6,
};

fn walked(scripts: Scripts) -> Covered {
    let covered = walk(scripts, |_| {});
    println!("{scripts:?}\n{covered}");
    covered
}

fn happened(covered: &Covered, wanted: &[Outcome]) {
    for outcome in wanted {
        let many = covered.outcomes.get(outcome);
        assert!(many.is_some(), "never {outcome:?}: {:?}", covered.outcomes);
    }
}

#[test]
fn every_script_of_ten_events() {
    let covered = walked(Scripts {
        alphabet: Alphabet::Small,
        events: 10,
        ..WHOLE
    });
    let moved = [Outcome::Handed, Outcome::Accepted, Outcome::Unreceived];
    happened(&covered, &moved);
}

/// All that happens in worlds; and here an Ack may skip all numbers.
#[test]
fn every_script_of_the_whole_alphabet() {
    let covered = walked(WHOLE);
    happened(&covered, &HAPPENS);
    happened(&covered, &[Outcome::Unnumbered]);
}

#[test]
fn every_script_with_the_least_limits() {
    let covered = walked(Scripts {
        limits: LEAST,
        ..WHOLE
    });
    happened(&covered, &HAPPENS);
}

/// Hosts whose counts of transfers and turns are about to reach their limits.
#[test]
fn every_script_of_late_hosts() {
    let covered = walked(Scripts {
        counts: LATE,
        events: 5,
        ..WHOLE
    });
    happened(&covered, &[Outcome::Stuck, Outcome::Resent]);
}
