//! Walks every script of so many events, ten if no number is given, and tells what was covered:
//! `every [EVENTS] [small|whole] [little|least] [new|late]`.
use judges::hosts::every::alphabet::Alphabet;
use judges::hosts::every::{walk, Scripts, LATE, LEAST, LITTLE, NEW};
use std::time::Instant;

fn main() {
    let words: Vec<String> = std::env::args().skip(1).collect();
    let has = |word: &str| words.iter().any(|other| other == word);
    let events = words.iter().find_map(|word| word.parse().ok());
    let scripts = Scripts {
        limits: if has("least") { LEAST } else { LITTLE },
        counts: if has("late") { LATE } else { NEW },
        alphabet: match has("small") {
            true => Alphabet::Small,
            false => Alphabet::Whole,
        },
        events: events.unwrap_or(10),
    };
    println!("{scripts:?}");
    let began = Instant::now();
    let covered = walk(scripts, |walk| {
        let (worlds, hosts) = (walk.worlds.len(), walk.steps.standings.len());
        let (asked, seconds) = (walk.steps.asked, began.elapsed().as_secs());
        println!("{worlds} worlds, {hosts} hosts, {asked} asked, {seconds} s");
    });
    println!("{covered}");
}
