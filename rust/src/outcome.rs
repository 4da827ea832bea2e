//! What became of a step.
use std::fmt::{Display, Formatter, Result};

/// What became of a step of a [`Host`](crate::Host). What there is to send after it,
/// [`sends`](crate::Host::sends) has.
#[derive(Clone, Copy, Debug, PartialEq, Eq, PartialOrd, Ord, Hash)]
#[non_exhaustive]
pub enum Outcome {
    /// Received: the room is taken; the datagram is dropped, an Ack too.
    Full,
    /// Received: not a datagram of the protocol; dropped.
    Invalid,
    /// Received: a message for another destination; dropped.
    Elsewhere,
    /// Received: a new message, which is now in the room. Its Ack is to be sent.
    Taken,
    /// Received: a new message for which there might be no room. It is not acknowledged, so its sender tries again.
    Unreceived,
    /// Received: a message that was taken before. Its Ack is to be sent again.
    Again,
    /// Received: a message from the future, neither taken nor acknowledged.
    Future,
    /// Received: an Ack; what it acknowledges waits no longer.
    Arrived,
    /// Received: an Ack that acknowledges nothing new, or from no peer.
    Stale,
    /// Processed: there is no message in the room.
    Idle,
    /// Processed: the count of transfers is at its limit, so the Delegate or Shard stays in the room.
    Stuck,
    /// Processed: a Get or Set was carried out. A Reply is to be sent.
    Replied,
    /// Processed: another host owns the key. A Redirect is to be sent.
    Redirected,
    /// Processed: the message is dropped.
    Dropped,
    /// Processed: there is no number left for an answer; a Get or Set is not carried out.
    Unnumbered,
    /// Processed: a Delegate; its range is this host's now.
    Accepted,
    /// Processed: a Shard; its range is the recipient's, and a Delegate is to be sent.
    Handed,
    /// All waiting messages are to be sent again.
    Resent,
    /// There was nothing to do on this turn.
    Waits,
    /// What is lent does not serve. Does not happen: a [`Host`](crate::Host) lends what it should.
    Unfit,
    /// An answer of the proved code that has no name here. Does not happen.
    Unknown(u64),
    /// The program in which the proved code runs has ended. Only where the machine cannot run the proved code itself.
    /// No step does anything any more.
    Gone,
}

impl Outcome {
    /// The outcome that an answer of the boundary names.
    pub(crate) fn of(answer: u64) -> Outcome {
        match answer {
            2 => Outcome::Unfit,
            10 => Outcome::Full,
            11 => Outcome::Invalid,
            12 => Outcome::Elsewhere,
            13 => Outcome::Taken,
            14 => Outcome::Unreceived,
            15 => Outcome::Again,
            16 => Outcome::Future,
            17 => Outcome::Arrived,
            18 => Outcome::Stale,
            20 => Outcome::Idle,
            21 => Outcome::Stuck,
            22 => Outcome::Replied,
            23 => Outcome::Redirected,
            24 => Outcome::Dropped,
            25 => Outcome::Unnumbered,
            26 => Outcome::Accepted,
            27 => Outcome::Handed,
            30 => Outcome::Resent,
            31 => Outcome::Waits,
            other => Outcome::Unknown(other),
        }
    }
}

impl Display for Outcome {
    fn fmt(&self, f: &mut Formatter<'_>) -> Result {
        f.write_str(match self {
            Outcome::Full => "dropped, since the room is taken",
            Outcome::Invalid => "dropped, since it is no datagram of the protocol",
            Outcome::Elsewhere => "dropped, since it is for another destination",
            Outcome::Taken => "a new message taken and acknowledged",
            Outcome::Unreceived => {
                "a new message not received, since there might be no room for it"
            }
            Outcome::Again => "a message acknowledged again",
            Outcome::Future => "a message from the future, not taken",
            Outcome::Arrived => "an Ack",
            Outcome::Stale => "an Ack of nothing new",
            Outcome::Idle => "no message to process",
            Outcome::Stuck => "a transfer that has to stay, since their count is at its limit",
            Outcome::Replied => "a request carried out and answered",
            Outcome::Redirected => "a request redirected to the key's owner",
            Outcome::Dropped => "a message dropped",
            Outcome::Unnumbered => "no number left for an answer",
            Outcome::Accepted => "a range accepted",
            Outcome::Handed => "a range handed over",
            Outcome::Resent => "all waiting messages sent again",
            Outcome::Waits => "nothing to do on this turn",
            Outcome::Unfit => "the memory does not serve",
            Outcome::Unknown(answer) => return write!(f, "the answer {answer}, which has no name"),
            Outcome::Gone => "the program that has the proved code has ended",
        })
    }
}
