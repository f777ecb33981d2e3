#![doc = include_str!("../README.md")]
//!
//! ## The parts
//!
//! - [`Cache`] keeps keys and values of any types. The core decides what is cached, who may go on and who waits, by numbers; the
//!   objects are beside it.
//! - [`BytesCache`] keeps keys of at most 32 and values of at most 256 bytes in the core itself.
//! - [`Expiry`] says how long entries live.
//! - [`fleet`] keeps the caches of several instances true to one store.
//! - [`call`] has the phases of a call, for async code.
//! - [`core`] is the library's own interface: one stripe.
#![deny(missing_docs, missing_debug_implementations)]

mod at;
mod builder;
mod bulk;
mod bytes;
mod cache;
pub mod call;
pub mod core;
mod debug;
mod error;
mod expiry;
mod first;
pub mod fleet;
mod hashing;
mod invalidate;
mod invoke;
mod invoke_all;
mod lives;
mod op;
mod outside;
mod processing;
mod refresh;
mod side;
mod sizes;
mod step;
mod stripe;
mod table;
mod waiting;
mod with;

pub use crate::core::Statistics;
pub use at::At;
pub use builder::Builder;
pub use bytes::{BytesBuilder, BytesCache, BytesError};
pub use cache::{Cache, CacheBegun, CacheError};
pub use error::{BuildError, BulkError, Error};
pub use expiry::Expiry;
pub use invoke::Entry;
pub use invoke_all::Invoked;
pub use op::{Expected, Op, Reply};
pub use outside::{ByCall, Found, Loader, NoLoader, NoWriter, Shared, Unwritten, Writer};
pub use refresh::Job;
