// The functions that can be called, of each crate without the prefix that its names have. The lists are read
// twice: by build.rs, which makes the table of src/caller.c of them, and by src/library.rs, which finds a
// function's number in it. A function that is in no archive fails the link.

/// `crates/judged` and `crates/judged_messages`: `tagshards_judged_..`.
pub const JUDGED: &[&str] = &[
    "map_start",
    "map_owner",
    "map_set",
    "map_bounds_after",
    "map_whole",
    "table_start",
    "table_get_place",
    "table_get_length",
    "table_set",
    "table_delete",
    "table_remove",
    "table_count",
    "table_left",
    "table_pick",
    "table_replace",
    "table_valid",
    "parse",
    "row",
    "ack",
    "get",
    "set",
    "reply",
    "redirect",
    "shard",
    "delegate",
];

/// `crates/boundary`, the host: `tagshards_..`.
pub const BOUNDARY: &[&str] = &[
    "start",
    "receive",
    "process",
    "retransmit",
    "turn",
    "audit",
];

/// The whole names, in the order of the table.
pub fn functions() -> Vec<String> {
    let judged = JUDGED.iter().map(|name| format!("tagshards_judged_{name}"));
    let boundary = BOUNDARY.iter().map(|name| format!("tagshards_{name}"));
    judged.chain(boundary).collect()
}
