//! What each layer should do, written as plainly as can be and with nothing of the proved code.
pub mod host;
pub mod map;
pub mod messages;
pub mod owners;
pub mod table;
