//! A key-value host that is proved, in memory that is lent to it, and a client for it.
//!
//! Records are spread over several hosts by ranges of keys, and ranges are moved from one host to another while
//! requests run. That no record gets lost on the way, and that no key has two owners, is proved of the host's code,
//! which is written in Rattle; crates/ of the repository has it. This crate lends it its memory and calls it. The
//! [`Client`] and the [`wire`] format that it speaks are plain Rust, and not proved.
//!
//! Neither touches the network: whoever uses them carries the datagrams. They may get lost, arrive twice, late, or in
//! another order, as they do over UDP.
//!
//! # Two hosts and a client
//!
//! A client sets the record of bag 7 at the first host. Then that host gives bags 0 to 99 to the second. The client
//! still asks the first, is redirected, and finds the record at the second.
//!
//! ```
//! use std::error::Error;
//! use tagshards::{Answer, Client, Host, Limits};
//!
//! const HOSTS: [&[u8]; 2] = [b"one", b"two"];
//! const ME: &[u8] = b"client";
//!
//! /// Carries all datagrams, and those that answer them, until there are none.
//! fn carry(hosts: &mut [Host], client: &mut Client) {
//!     while let Some((to, datagram)) = client.send() {
//!         let mut flying = vec![(ME.to_vec(), to, datagram)];
//!         while let Some((from, to, datagram)) = flying.pop() {
//!             let Some(i) = HOSTS.iter().position(|name| *name == to) else {
//!                 client.receive(&from, &datagram);
//!                 continue;
//!             };
//!             let fly = |(to, datagram): (&[u8], &[u8])| (HOSTS[i].to_vec(), to.to_vec(), datagram.to_vec());
//!             hosts[i].receive(&from, &datagram);
//!             flying.extend(hosts[i].sends().map(fly));
//!             hosts[i].process();
//!             flying.extend(hosts[i].sends().map(fly));
//!         }
//!     }
//! }
//!
//! fn main() -> Result<(), Box<dyn Error>> {
//!     let limits = Limits { entries: 100, waiting: 8, ..Limits::default() };
//!     let start = |me| Host::start(limits, &HOSTS, me);
//!     let mut hosts = [start(HOSTS[0])?, start(HOSTS[1])?];
//!     let mut client = Client::new(ME, &HOSTS)?;
//!
//!     client.set(7, Some(b"Oslo"))?;
//!     carry(&mut hosts, &mut client);
//!     assert_eq!(client.answer().unwrap().answer, Answer::Value(Some(b"Oslo".to_vec())));
//!     assert_eq!([hosts[0].entries(), hosts[1].entries()], [1, 0]);
//!
//!     client.shard(HOSTS[0], 0, Some(100), HOSTS[1])?;
//!     carry(&mut hosts, &mut client);
//!     assert_eq!([hosts[0].entries(), hosts[1].entries()], [0, 1]);
//!
//!     client.get(7);
//!     carry(&mut hosts, &mut client);
//!     assert_eq!(client.answer().unwrap().answer, Answer::Value(Some(b"Oslo".to_vec())));
//!     Ok(())
//! }
//! ```
//!
//! # Machines
//!
//! The proved code is compiled for x86-64 and linked there. On other machines each host starts a program that has it,
//! under an emulator, and asks it over pipes: that is for tests, and slow.
#![deny(missing_docs)]
#![deny(unsafe_op_in_unsafe_fn)]
#![cfg_attr(not(tagshards_native), forbid(unsafe_code))]

mod back_end;
mod client;
mod host;
mod limits;
mod memory;
mod outcome;
mod refusal;
pub mod wire;

pub use client::{Answer, Answered, Client, Heard, Request, Unasked};
pub use host::Host;
pub use limits::{Bytes, Limits, LEAST_DATAGRAM, MOST_VALUE};
pub use outcome::Outcome;
pub use refusal::Refusal;
