//! The judges: the proved code under random scripts and datagrams, each answer held to a simple model.
//!
//! `library` starts the program that has the proved code and calls its functions; `draw` is the pseudo-random
//! rule; `bound` is what all layers share. A layer has a file here with its functions under Rust types, a file
//! in `models` with what it should do, written as plainly as can be, and a file in tests/ with its scripts.
//! `worked` has the documents' worked examples, which examples/worked.rs prints. `hosts` has the host, which stands on
//! all layers, and its model beside it step by step; examples/soak.rs runs worlds of hosts for a million events, and
//! examples/every.rs follows every script of ten.
//!
//! All that is random follows a fixed rule, so every run does the same. A failure names the seed and the operation,
//! or prints the datagram.
pub mod bound;
pub mod draw;
pub mod hosts;
pub mod library;
pub mod map;
pub mod messages;
pub mod models;
pub mod script;
pub mod table;
pub mod worked;
