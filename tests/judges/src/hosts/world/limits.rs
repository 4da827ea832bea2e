//! How much room the hosts of a world have.
use crate::models::host::Limits;

/// Room for whatever a world of few keys can bring.
pub const ROOMY: Limits = Limits {
    entries: 12,
    bounds: 24,
    peers: 12,
    waiting: 8,
    address: 8,
    size: 65_536,
    room: 65_536,
};

/// So little that every limit is reached again and again.
pub const TIGHT: Limits = Limits {
    entries: 4,
    bounds: 4,
    peers: 7,
    waiting: 3,
    ..ROOMY
};

/// As little as lets five hosts and one other do anything at all: every limit is reached most of the time.
pub const LEAST: Limits = Limits {
    entries: 1,
    bounds: 2,
    peers: 6,
    waiting: 1,
    ..ROOMY
};

/// Little of one kind: entries, bounds, waiting messages, peers.
pub const FEW_ENTRIES: Limits = Limits {
    entries: 3,
    ..ROOMY
};
pub const FEW_BOUNDS: Limits = Limits { bounds: 4, ..ROOMY };
pub const FEW_WAITING: Limits = Limits {
    waiting: 2,
    ..ROOMY
};
pub const FEW_PEERS: Limits = Limits { peers: 6, ..ROOMY };
