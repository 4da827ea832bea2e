//! What each key of a world should hold: what the last Set that was carried out has put there.
use crate::hosts::owned;
use crate::models::host::{Outcome, Step};
use crate::models::messages::Body;
use std::collections::BTreeMap;

#[derive(Default)]
pub struct Ledger {
    pub values: BTreeMap<u64, Vec<u8>>,
}

impl Ledger {
    /// A request that was carried out is entered, or its answer is held to what stands here.
    pub fn enter(&mut self, request: Option<Body>, step: &Step) -> Result<(), String> {
        if step.outcome != Outcome::Replied {
            return Ok(());
        }
        match (request, owned::body(&step.sends[0].bytes)) {
            (Some(Body::Set(key, Some(value))), _) => drop(self.values.insert(key, value)),
            (Some(Body::Set(key, None)), _) => drop(self.values.remove(&key)),
            (Some(Body::Get(_)), Some(Body::Reply(key, value))) => {
                let stands = self.values.get(&key);
                if stands != value.as_ref() {
                    return Err(format!(
                        "the value of {key}: {value:?} instead of {stands:?}"
                    ));
                }
            }
            other => return Err(format!("a reply to nothing: {other:?}")),
        }
        Ok(())
    }
}
