//! DFS path resolution (MS-DFSC): which server and share a UNC path stands for.
//!
//! The library, `libdfsc.a`, is proved against its rules and does no I/O. A host starts a [`Walk`] with a path, is asked a [`Question`] (a referral
//! request to send, or an I/O operation to try), brings back the status and the reply, and goes on until the walk has its [`End`]. What the replies
//! say is kept in two caches, [`ReferralCache`] and [`DomainCache`], which the host owns.
//!
//! ```
//! use dfsc::{units, Network, NtStatus, Outcome, Refusal, Resolver, Text};
//!
//! // a host has an SMB client here; this one reaches nobody
//! struct Nobody;
//! impl Network for Nobody {
//!     fn referral(&mut self, server: &Text, request: &[u8], _size: u32) -> (NtStatus, Vec<u8>) {
//!         assert!(*server == "files" && request.len() == 22);
//!         (std::io::ErrorKind::ConnectionRefused.into(), vec![])
//!     }
//!     fn io(&mut self, _path: &Text) -> NtStatus {
//!         NtStatus::CONNECTION_REFUSED
//!     }
//!     fn clock(&mut self) -> u32 {
//!         100
//!     }
//! }
//!
//! let end = Resolver::new("dc1").follow(&units(r"\\files\s1"), &mut Nobody, 8)?;
//! assert!(end.outcome == Outcome::NotDfs && end.path == r"\files\s1" && end.moves == 1);
//! # Ok::<(), Refusal>(())
//! ```
//!
//! [`Resolver`] owns both caches. A host that shares them between threads, or has to go on while a server answers, keeps the caches itself and calls
//! [`Walk`]: examples/resolve.rs goes so through a root, a link and two targets with replies of a server.
#![deny(unsafe_code)]
#![warn(missing_docs)]

mod caches;
#[cfg(not(feature = "raw"))]
#[allow(unsafe_code)]
mod calls;
#[cfg(feature = "raw")]
#[doc(hidden)]
#[allow(unsafe_code)]
pub mod calls;
mod entries;
mod refusal;
mod resolver;
mod status;
mod text;
mod walk;

pub use caches::{DomainCache, ReferralCache, MOST_PLACES, PLACE_UNITS};
pub use entries::{DomainEntry, ReferralEntry, Target};
pub use refusal::Refusal;
pub use resolver::{Network, Resolver};
pub use status::NtStatus;
pub use text::{units, Text, TEXT_UNITS};
pub use walk::{End, Kind, Outcome, Question, Rest, Settings, Walk, REQUEST_BYTES, WALK_UNITS};

/// The version of the library that is linked: 10000 * major + 100 * minor + patch.
pub fn version() -> u32 {
    calls::version()
}
