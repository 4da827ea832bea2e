//! What a client is told, and what it tells.
use std::error::Error;
use std::fmt::{Display, Formatter};

/// Tells the requests of a client apart. Later ones are greater.
#[derive(Clone, Copy, Debug, PartialEq, Eq, PartialOrd, Ord, Hash)]
pub struct Request(pub(super) u64);

/// What came of a request.
#[derive(Clone, Debug, PartialEq, Eq)]
pub enum Answer {
    /// It was carried out. After a Get this is the record, if there is one; after a Set, what was set.
    Value(Option<Vec<u8>>),
    /// The host has dropped it. So it was a Set, and the host had no room for another record. This shows only when
    /// the host answers a later request of this client for another key.
    Dropped,
    /// The host says that another owns the key, which is not on the client's list.
    Elsewhere(Vec<u8>),
}

/// A request and what came of it.
#[derive(Clone, Debug, PartialEq, Eq)]
pub struct Answered {
    /// The request.
    pub request: Request,
    /// Its key.
    pub key: u64,
    /// What came of it.
    pub answer: Answer,
}

/// What a client makes of a datagram that has arrived.
#[derive(Clone, Copy, Debug, PartialEq, Eq, Hash)]
pub enum Heard {
    /// Nothing: it is no datagram of the protocol, not for this client or from no host, or it came too early.
    Nothing,
    /// An Ack, also of nothing new.
    Ack,
    /// A message that was taken before. It is acknowledged again.
    Again,
    /// The answer to a request.
    Reply,
    /// A redirection. The request goes to the other host.
    Redirect,
    /// A message that answers no request. It is acknowledged all the same.
    Other,
}

/// Why a request was not made.
#[derive(Clone, Copy, Debug, PartialEq, Eq, Hash)]
#[non_exhaustive]
pub enum Unasked {
    /// The value has more than 1,023 bytes. A host would drop the request without an answer.
    LongValue,
    /// A host that the request names is not on the client's list.
    NoHost,
    /// All numbers for requests to this host are used up.
    NoNumber,
}

impl Display for Unasked {
    fn fmt(&self, f: &mut Formatter<'_>) -> std::fmt::Result {
        f.write_str(match self {
            Unasked::LongValue => "the value has more than 1,023 bytes",
            Unasked::NoHost => "the host is not on the client's list",
            Unasked::NoNumber => "there is no number left for a request to this host",
        })
    }
}

impl Error for Unasked {}
