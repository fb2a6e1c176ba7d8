//! A client of `bivrangd` and `cached`, cache servers with a line protocol (`docs/PROTOCOL.md` of the
//! repository).
//!
//! Its calls block. It needs only the standard library.
//!
//! ```no_run
//! use bivrang::{Options, Pool, Reply, Request};
//!
//! fn main() -> Result<(), bivrang::Error> {
//!     let cache = Pool::new("127.0.0.1:7411", Options::default());
//!     cache.set("a", "two words", None)?;
//!     assert_eq!(cache.get("a")?, Some(b"two words".to_vec()));
//!     assert_eq!(cache.incr("n", 40, None)?, Some(40));
//!     let replies = cache.pipeline(&[Request::Has { key: b"a" }, Request::Sync])?;
//!     assert_eq!(replies[0], Ok(Reply::Present(true)));
//!     Ok(())
//! }
//! ```
//!
//! [`Pool`] is a pool of connections to one server, for many threads. [`Connection`] is one
//! connection. [`Servers`] spreads keys over several servers. Each has a method for each line of
//! the protocol. Keys and values are bytes, or texts, which are sent as UTF-8.
//!
//! A process that [`std::process::Command`] starts inherits no connection. One made by `fork`,
//! which the standard library does not have, does: there a [`Connection`] counts as closed, and a
//! [`Pool`] opens its own; the parent and the server do not notice. But a pool that another thread
//! was using during the `fork` may not be used in the child, like anything that a
//! [`std::sync::Mutex`] guards.

mod commands;
mod connection;
mod error;
mod hash;
mod pool;
mod request;
mod servers;
mod stream;

pub use connection::{Connection, Options, Replies, Results};
pub use error::{Error, ErrorKind, ServerError};
pub use hash::{hash_bytes, mix};
pub use pool::Pool;
pub use request::{Held, Reply, Request};
pub use servers::{BadServers, Server, Servers};

/// The maximum number of bytes of a request before its line feed.
pub const LONGEST_LINE: usize = 8192;

/// The maximum number of bytes of a key or prefix.
pub const LONGEST_KEY: usize = 250;

/// The longest time to live of a value, in milliseconds.
pub const LONGEST_LIFE: u64 = 999_999_999_999;

/// The example of `clients/README.md` compiles.
#[cfg(doctest)]
#[doc = include_str!("../../README.md")]
struct Readme;
