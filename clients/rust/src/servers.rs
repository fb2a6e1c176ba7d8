//! Several servers, over which keys are spread.

use std::collections::HashSet;
use std::fmt;
use std::sync::{Arc, Mutex, MutexGuard, PoisonError};
use std::time::{Duration, Instant};

use crate::commands::keyed_commands;
use crate::connection::{lines_of, only, results, Options, Results};
use crate::hash::{hash_bytes, mix};
use crate::pool::Pool;
use crate::request::{deletes_of, gets_of, never, sets_of, Held, Reply, Request};
use crate::{Error, ErrorKind};

/// One of several servers.
#[derive(Clone, Debug, PartialEq, Eq)]
pub struct Server {
    /// The name that determines its keys. With a name of its own it can move and keep its keys.
    pub name: String,
    /// Its address, such as `127.0.0.1:7411`.
    pub address: String,
    /// Its share of the keys relative to the other servers' weights, 1 to 1000.
    pub weight: u32,
}

impl Server {
    /// A server of weight 1 with its address as its name.
    pub fn at(address: impl Into<String>) -> Server {
        let address = address.into();
        Server {
            name: address.clone(),
            address,
            weight: 1,
        }
    }
}

/// The servers are refused: there are none, two have one name, or a weight is not 1 to 1000.
#[derive(Clone, Copy, Debug, PartialEq, Eq)]
pub struct BadServers;

impl fmt::Display for BadServers {
    fn fmt(&self, out: &mut fmt::Formatter<'_>) -> fmt::Result {
        out.write_str("servers are at least one, of different names, with weights of 1 to 1000")
    }
}

impl std::error::Error for BadServers {}

/// Whether one server is asked. After it did not answer, it is left alone for a time; then one
/// call tries it, while others leave it alone for as long again.
#[derive(Debug, Default)]
struct BackOff {
    until: Mutex<Option<Instant>>,
}

impl BackOff {
    fn until(&self) -> MutexGuard<'_, Option<Instant>> {
        self.until.lock().unwrap_or_else(PoisonError::into_inner)
    }

    /// Whether the server may be asked now.
    fn enter(&self, retry_after: Duration) -> bool {
        let mut until = self.until();
        let now = Instant::now();
        match *until {
            Some(moment) if now < moment => return false,
            Some(_) => *until = now.checked_add(retry_after),
            None => {}
        }
        true
    }

    /// Takes note of a call's error, if it had one. Any reply ends the time.
    fn leave(&self, error: Option<&Error>, retry_after: Duration) {
        match error {
            Some(error) if error.is_silence() => {
                *self.until() = Instant::now().checked_add(retry_after);
            }
            Some(error) if error.is_of_link() => {}
            _ => *self.until() = None,
        }
    }
}

/// One of the pools of [`Servers`].
#[derive(Debug)]
struct Member {
    name: String,
    pool: Pool,
    back_off: BackOff,
}

/// Several servers, each a [`Pool`], over which keys are spread by rendezvous hashing.
///
/// A server of weight w counts as w virtual ones, `NAME#0` to `NAME#(w - 1)`, and a key belongs
/// to the server of the virtual one with the highest score for it. So if a server is added, the
/// only keys that move are those that it gets, and if one is removed, those that it had. The
/// Python client gives each key to the same server. There are no replicas: if a server is
/// down, calls for its keys fail.
///
/// A server that could not be reached, or did not reply in time, is left alone for a second: calls
/// for its keys then fail with `Away` at once.
///
/// A clone has the same pools, and leaves the same servers alone.
#[derive(Clone)]
pub struct Servers {
    members: Arc<[Member]>,
    /// The hash of each virtual server's name, and the place of its pool.
    seeds: Arc<[(u64, usize)]>,
    retry_after: Duration,
    are_errors_misses: bool,
}

/// Prints no bytes that were received.
impl fmt::Debug for Servers {
    fn fmt(&self, out: &mut fmt::Formatter<'_>) -> fmt::Result {
        out.debug_struct("Servers")
            .field("members", &self.members)
            .field("retry_after", &self.retry_after)
            .field("are_errors_misses", &self.are_errors_misses)
            .finish_non_exhaustive()
    }
}

impl Servers {
    /// Uses these servers, each with a pool with these options.
    pub fn new(servers: &[Server], options: Options) -> Result<Servers, BadServers> {
        let names: HashSet<&str> = servers.iter().map(|server| server.name.as_str()).collect();
        let are_weights = servers
            .iter()
            .all(|server| (1..=1000).contains(&server.weight));
        if servers.is_empty() || names.len() < servers.len() || !are_weights {
            return Err(BadServers);
        }
        let member = |server: &Server| Member {
            name: server.name.clone(),
            pool: Pool::new(server.address.clone(), options),
            back_off: BackOff::default(),
        };
        let seeds = servers.iter().enumerate().flat_map(|(place, server)| {
            let seed = |number| hash_bytes(format!("{}#{number}", server.name).as_bytes());
            (0..server.weight).map(move |number| (seed(number), place))
        });
        Ok(Servers {
            seeds: seeds.collect(),
            members: servers.iter().map(member).collect(),
            retry_after: Duration::from_secs(1),
            are_errors_misses: false,
        })
    }

    /// Leaves a server that does not answer alone for this long, in place of a second. Zero: it is
    /// asked each time.
    pub fn with_retry_after(self, retry_after: Duration) -> Servers {
        Servers {
            retry_after,
            ..self
        }
    }

    /// Takes a look-up (`get`, `get_many`, `has`, `touch`) without a complete reply as a miss.
    pub fn with_errors_as_misses(self) -> Servers {
        Servers {
            are_errors_misses: true,
            ..self
        }
    }

    /// Returns the name and the pool of the server that a key belongs to.
    pub fn server_of(&self, key: &[u8]) -> (&str, &Pool) {
        let member = &self.members[self.place_of(key)];
        (&member.name, &member.pool)
    }

    /// Returns the names and pools of all servers.
    pub fn pools(&self) -> impl Iterator<Item = (&str, &Pool)> {
        self.members
            .iter()
            .map(|member| (member.name.as_str(), &member.pool))
    }

    /// Sends each server its requests as one pipeline, one server after the other. The results are
    /// in the order of the requests; if a server fails, so does each of its requests, and no other.
    ///
    /// Fails as a whole if a request cannot be sent, or with `NoKey`: then nothing was sent.
    pub fn pipeline(&self, requests: &[Request<'_>]) -> Result<Results, Error> {
        let mut shares = vec![Vec::new(); self.members.len()];
        for (number, (request, line)) in requests.iter().zip(lines_of(requests)?).enumerate() {
            let key = request.key().ok_or_else(|| ErrorKind::NoKey.at(request))?;
            shares[self.place_of(key)].push((number, (*request, line)));
        }
        let mut told = Vec::with_capacity(requests.len());
        for (member, share) in self.members.iter().zip(shares) {
            let (numbers, share): (Vec<_>, Vec<_>) = share.into_iter().unzip();
            if !share.is_empty() {
                told.extend(numbers.into_iter().zip(self.run_share(member, share)));
            }
        }
        told.sort_by_key(|(number, _)| *number);
        Ok(told.into_iter().map(|(_, result)| result).collect())
    }

    keyed_commands!(self, &Self);

    /// Calls [`Pool::clear`] of each server, even if one of them fails: then the first error is
    /// returned after the last server.
    pub fn clear(&self) -> Result<(), Error> {
        self.all_of(Pool::clear).map(|_| ())
    }

    /// Calls [`Pool::drop_if`] of each server, like `clear`.
    pub fn drop_if(&self, prefix: impl AsRef<[u8]>) -> Result<(), Error> {
        let prefix = prefix.as_ref();
        self.all_of(|pool| pool.drop_if(prefix)).map(|_| ())
    }

    /// Returns the live keys of all servers, in byte order. A key that two servers have, since the
    /// list of servers changed, is returned once. Errors as in `clear`; `each(Pool::keys)` returns
    /// those of the other servers all the same.
    pub fn keys(&self) -> Result<Vec<Vec<u8>>, Error> {
        let mut keys = self.all_of(Pool::keys)?.concat();
        keys.sort_unstable();
        keys.dedup();
        Ok(keys)
    }

    /// Calls [`Pool::sync`] of each server, in their order. Errors as in `keys`.
    pub fn sync(&self) -> Result<Vec<Held>, Error> {
        self.all_of(Pool::sync)
    }

    /// Returns whether each server answers, by name.
    pub fn ping(&self) -> Vec<(&str, bool)> {
        let told = self.each(Pool::ping).into_iter();
        told.map(|(name, result)| (name, result.is_ok())).collect()
    }

    /// Makes a call of each server, one after the other. Returns the results by name.
    pub fn each<T>(
        &self,
        call: impl Fn(&Pool) -> Result<T, Error>,
    ) -> Vec<(&str, Result<T, Error>)> {
        let one = |member: &Member| self.guarded(member, &[], || call(&member.pool));
        self.members
            .iter()
            .map(|member| (member.name.as_str(), one(member)))
            .collect()
    }

    fn all_of<T>(&self, call: impl Fn(&Pool) -> Result<T, Error>) -> Result<Vec<T>, Error> {
        let told = self.each(call).into_iter();
        told.map(|(_, result)| result).collect()
    }

    fn ask(&self, request: &Request<'_>) -> Result<Reply, Error> {
        self.ask_all(std::slice::from_ref(request)).map(only)
    }

    fn ask_all(&self, requests: &[Request<'_>]) -> Result<Vec<Reply>, Error> {
        self.pipeline(requests)?.into_iter().collect()
    }

    /// Makes a call of a server, unless it is left alone.
    fn guarded<T>(
        &self,
        member: &Member,
        requests: &[Request<'_>],
        call: impl FnOnce() -> Result<T, Error>,
    ) -> Result<T, Error> {
        if !member.back_off.enter(self.retry_after) {
            return Err(ErrorKind::Away.asking(member.pool.address(), requests));
        }
        let told = call();
        member.back_off.leave(told.as_ref().err(), self.retry_after);
        told
    }

    /// Makes the calls of one server. Their results, in their order.
    fn run_share(&self, member: &Member, share: Vec<(Request<'_>, Vec<u8>)>) -> Results {
        let (requests, lines): (Vec<_>, Vec<_>) = share.into_iter().unzip();
        let told = self.guarded(member, &requests, || member.pool.run(&requests, &lines));
        match told {
            Ok(replies) => results(member.pool.address(), &requests, replies),
            Err(error) => {
                let failed = |request| self.failed(request, &error);
                requests.iter().map(failed).collect()
            }
        }
    }

    /// The result of a request whose server failed.
    fn failed(&self, request: &Request<'_>, error: &Error) -> Result<Reply, Error> {
        match request.miss() {
            Some(miss) if self.are_errors_misses && error.is_of_link() => Ok(miss),
            _ => Err(error.clone()),
        }
    }

    fn place_of(&self, key: &[u8]) -> usize {
        let hash = hash_bytes(key);
        let (mut best, mut chosen) = (0, 0);
        for (seed, place) in self.seeds.iter() {
            let score = mix(hash ^ seed);
            if score > best {
                (best, chosen) = (score, *place);
            }
        }
        chosen
    }
}
