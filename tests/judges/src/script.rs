//! What a failure prints: the script's seed, the operation's number in it, and the operation.
use std::fmt::{Debug, Display, Formatter, Result};

#[derive(Clone, Copy)]
pub struct At<'a> {
    pub seed: u64,
    pub number: usize,
    pub operation: &'a dyn Debug,
}

impl Display for At<'_> {
    fn fmt(&self, f: &mut Formatter<'_>) -> Result {
        write!(
            f,
            "seed {}, operation {}: {:?}",
            self.seed, self.number, self.operation
        )
    }
}
