//! The proved host (`proved`, in memory that is `lent`, with its `answers`) and the model of document 01 in lock step:
//! `both` takes them through one `operation` after the other and compares what they hand out (`sends`) and all that can
//! be `seen` of them, for which `words` reads memory or an `image` of it. `shortest` makes a script in which they
//! differ as short as it can. `world` has several hosts, clients, and a network between them, `owned` says whether
//! every key has exactly one owner there, and `soak` runs worlds of every kind. `every` follows all scripts of a few
//! events.
pub mod answers;
pub mod both;
pub mod every;
pub mod image;
pub mod lent;
pub mod operation;
pub mod owned;
pub mod proved;
pub mod seen;
pub mod sends;
pub mod shortest;
pub mod soak;
pub mod words;
pub mod world;
