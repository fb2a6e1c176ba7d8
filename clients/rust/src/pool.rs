//! A pool of connections to one server.

use std::fmt;
use std::sync::{Arc, Condvar, Mutex, MutexGuard, PoisonError};
use std::time::Duration;

use crate::commands::{keyed_commands, whole_commands};
use crate::connection::{lines_of, only, results, Connection, Options, Replies};
use crate::request::{deletes_of, gets_of, never, sets_of, Held, Reply, Request};
use crate::{Error, ErrorKind};

/// The connections of a pool.
struct Shelf {
    idle: Vec<Connection>,
    in_use: usize,
}

/// A pool of connections to one namespace, which threads share. Connections are made when they are
/// needed, and kept.
///
/// A connection that broke, timed out or sent an invalid reply is closed and never used again. A
/// request that only reads (`Get`, `Has`, `Keys`), or a pipeline of such, is sent once more, on a
/// new connection, if the first broke before a byte of a reply was received; no other request is,
/// since it may have run.
///
/// A clone is the same pool, with the same connections.
#[derive(Clone)]
pub struct Pool {
    shared: Arc<Shared>,
}

/// What all clones of a pool have in common.
struct Shared {
    address: String,
    options: Options,
    shelf: Mutex<Shelf>,
    returned: Condvar,
}

/// Prints no bytes that were received, and does not wait for the pool's lock.
impl fmt::Debug for Pool {
    fn fmt(&self, out: &mut fmt::Formatter<'_>) -> fmt::Result {
        out.debug_struct("Pool")
            .field("address", &self.shared.address)
            .field("options", &self.shared.options)
            .finish_non_exhaustive()
    }
}

impl Pool {
    /// Creates a pool of connections to an address, such as `127.0.0.1:7411`. Does not connect yet.
    pub fn new(address: impl Into<String>, options: Options) -> Pool {
        let shared = Shared {
            address: address.into(),
            options,
            shelf: Mutex::new(Shelf {
                idle: Vec::new(),
                in_use: 0,
            }),
            returned: Condvar::new(),
        };
        Pool {
            shared: Arc::new(shared),
        }
    }

    /// Returns the address.
    pub fn address(&self) -> &str {
        &self.shared.address
    }

    /// Returns how many connections are open and not in use.
    pub fn idle(&self) -> usize {
        self.shelf().idle.len()
    }

    /// Closes the connections that are open and not in use.
    pub fn close_idle(&self) {
        self.shelf().idle.clear();
    }

    /// Like [`Connection::pipeline`], on one connection.
    pub fn pipeline(&self, requests: &[Request<'_>]) -> Result<Replies, Error> {
        self.run(requests, &lines_of(requests)?)
    }

    /// Sends requests, given as lines, and reads their replies.
    pub(crate) fn run(
        &self,
        requests: &[Request<'_>],
        lines: &[Vec<u8>],
    ) -> Result<Replies, Error> {
        let unsent = |kind: ErrorKind| kind.asking(&self.shared.address, requests);
        let _ticket = self.enter().map_err(unsent)?;
        let told = self.run_on(self.take().map_err(unsent)?, requests, lines);
        match told {
            Err(error) if error.is_before_replies() && requests.iter().all(Request::is_read) => {
                self.run_on(self.open().map_err(unsent)?, requests, lines)
            }
            told => told,
        }
    }

    fn ask(&self, request: &Request<'_>) -> Result<Reply, Error> {
        self.ask_all(std::slice::from_ref(request)).map(only)
    }

    fn ask_all(&self, requests: &[Request<'_>]) -> Result<Vec<Reply>, Error> {
        let replies = self.pipeline(requests)?;
        results(&self.shared.address, requests, replies)
            .into_iter()
            .collect()
    }

    keyed_commands!(self, &Self);
    whole_commands!(self, &Self);

    fn shelf(&self) -> MutexGuard<'_, Shelf> {
        self.shared
            .shelf
            .lock()
            .unwrap_or_else(PoisonError::into_inner)
    }

    fn open(&self) -> Result<Connection, ErrorKind> {
        Connection::made(&self.shared.address, &self.shared.options)
    }

    /// Waits until a connection may be used.
    fn enter(&self) -> Result<Ticket<'_>, ErrorKind> {
        let most = self.shared.options.connections.max(1);
        let (mut shelf, _) = self
            .shared
            .returned
            .wait_timeout_while(self.shelf(), self.shared.options.wait, |shelf| {
                shelf.in_use >= most
            })
            .unwrap_or_else(PoisonError::into_inner);
        if shelf.in_use >= most {
            return Err(ErrorKind::PoolTimeout);
        }
        shelf.in_use += 1;
        Ok(Ticket { pool: self })
    }

    /// The connection that was used last, if it is still quiet, or a new one.
    fn take(&self) -> Result<Connection, ErrorKind> {
        loop {
            let last = self.shelf().idle.pop();
            match last {
                Some(connection) if connection.is_quiet() => return Ok(connection),
                Some(_) => {}
                None => return self.open(),
            }
        }
    }

    fn run_on(
        &self,
        mut connection: Connection,
        requests: &[Request<'_>],
        lines: &[Vec<u8>],
    ) -> Result<Replies, Error> {
        let told = connection.exchange(requests, lines);
        if connection.is_open() {
            self.shelf().idle.push(connection);
        }
        told
    }
}

/// The permission to use a connection of a pool.
struct Ticket<'a> {
    pool: &'a Pool,
}

impl Drop for Ticket<'_> {
    fn drop(&mut self) {
        self.pool.shelf().in_use -= 1;
        self.pool.shared.returned.notify_one();
    }
}
