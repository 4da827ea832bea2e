//! What one table would hold that carries out every Set as it is carried out somewhere: a number for each key's value.
use super::alphabet::VALUES;
use super::events::KEYS;
use crate::hosts::owned;
use crate::models::host::{Host, Outcome, Step};
use crate::models::messages::Body;

/// What a step means for the ledger: a value was put, or told. Keys and values are those of `KEYS` and `VALUES`.
#[derive(Clone, Copy, Debug, PartialEq, Eq)]
pub enum Effect {
    Nothing,
    Put { key: u8, value: u8 },
    Told { key: u8, value: u8 },
}

#[derive(Clone, Copy, Debug, Default, PartialEq, Eq, Hash)]
pub struct Ledger {
    values: [u8; KEYS.len()],
}

impl Effect {
    /// Of a step of the host.
    pub fn of(before: &Host, step: &Step) -> Result<Effect, String> {
        if step.outcome != Outcome::Replied {
            return Ok(Effect::Nothing);
        }
        let request = before.room.as_ref().map(|letter| &letter.body);
        let told = owned::body(&step.sends[0].bytes);
        match (request, told) {
            (Some(Body::Set(key, put)), _) => Ok(Effect::Put {
                key: key_number(*key)?,
                value: value_number(put)?,
            }),
            (Some(Body::Get(_)), Some(Body::Reply(key, value))) => Ok(Effect::Told {
                key: key_number(key)?,
                value: value_number(&value)?,
            }),
            other => Err(format!("a reply to nothing: {other:?}")),
        }
    }
}

impl Ledger {
    /// The ledger after that. An error says that another value was told than stands there.
    pub fn after(mut self, effect: Effect) -> Result<Ledger, String> {
        match effect {
            Effect::Nothing => {}
            Effect::Put { key, value } => self.values[usize::from(key)] = value,
            Effect::Told { key, value } => {
                let stands = self.values[usize::from(key)];
                if stands != value {
                    let [told, stands] = [value, stands].map(|it| VALUES[usize::from(it)]);
                    let key = KEYS[usize::from(key)];
                    return Err(format!(
                        "the value of {key}: {told:?} instead of {stands:?}"
                    ));
                }
            }
        }
        Ok(self)
    }
}

fn key_number(key: u64) -> Result<u8, String> {
    let place = KEYS.iter().position(|other| *other == key);
    let place = place.ok_or(format!("a reply about {key}, which nobody asked for"))?;
    Ok(place as u8)
}

fn value_number(value: &Option<Vec<u8>>) -> Result<u8, String> {
    let place = VALUES.iter().position(|other| *other == value.as_deref());
    let place = place.ok_or(format!("the value {value:?}, which nobody has put"))?;
    Ok(place as u8)
}
