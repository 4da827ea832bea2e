//! The boundary's answers by the model's names.
use super::operation::Operation;
use super::proved::{Answer, NO_ROOM};
use crate::models::host::{Outcome, Step};

/// A step of the proved host by the model's names.
pub fn named(operation: &Operation, answer: Answer) -> Result<Step, String> {
    match operation {
        Operation::Retransmit => resent(answer),
        _ => step(answer),
    }
}

/// The outcome that a number of the boundary names.
fn outcome(answer: u64) -> Result<Outcome, String> {
    Ok(match answer {
        10 => Outcome::Full,
        11 => Outcome::Invalid,
        12 => Outcome::Elsewhere,
        13 => Outcome::Taken,
        14 => Outcome::Unreceived,
        15 => Outcome::Again,
        16 => Outcome::Future,
        17 => Outcome::Arrived,
        18 => Outcome::Stale,
        20 => Outcome::Idle,
        21 => Outcome::Stuck,
        22 => Outcome::Replied,
        23 => Outcome::Redirected,
        24 => Outcome::Dropped,
        25 => Outcome::Unnumbered,
        26 => Outcome::Accepted,
        27 => Outcome::Handed,
        30 => Outcome::Resent,
        31 => Outcome::Waits,
        other => return Err(format!("the answer {other}, which names no outcome")),
    })
}

/// Sending again answers how many places it wrote down.
fn resent((answer, sends): Answer) -> Result<Step, String> {
    match answer {
        NO_ROOM => Err("no room for the places".to_string()),
        _ => Ok(Step {
            outcome: Outcome::Resent,
            sends,
        }),
    }
}

fn step((answer, sends): Answer) -> Result<Step, String> {
    let outcome = outcome(answer)?;
    Ok(Step { outcome, sends })
}
