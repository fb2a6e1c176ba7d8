//! One connection, and what goes over it.

use std::fmt;
use std::io::{self, Read, Write};
use std::sync::Arc;
use std::time::{Duration, Instant};

use crate::commands::{keyed_commands, whole_commands};
use crate::request::{
    deletes_of, gets_of, is_key, never, number_of, read_first, sets_of, Held, Reply, Request,
};
use crate::stream::{is_timeout, Stream};
use crate::{Error, ErrorKind, ServerError};

/// A reply line with more bytes than this is not of the protocol, whose values fit a line of 8192.
const LONGEST_REPLY_LINE: usize = 16384;

/// At most this many bytes of requests are sent before their replies are read, or one request. The
/// server reads nothing while replies to it are unsent; what it has not read stays in the
/// sockets' buffers, which hold that much.
const WINDOW: usize = 16384;

const RECEIVED_AT_ONCE: usize = 65536;

/// Time limits, each above zero, and the size of a pool.
#[derive(Clone, Copy, Debug, PartialEq, Eq)]
pub struct Options {
    /// The time limit for connecting to each socket address of a host and port. 2 s by default.
    /// Connecting to a path has no limit: it waits only while the server's queue of connections
    /// that it has not accepted yet is full.
    pub connect: Duration,
    /// The time limit for sending, and for each line of a reply, counted from the sending
    /// or from the line before. 5 s by default.
    pub reply: Duration,
    /// How long a call waits at most for a connection while all are in use. 5 s by default.
    pub wait: Duration,
    /// The maximum number of connections of a pool; 0 counts as 1. 8 by default.
    pub connections: usize,
}

impl Default for Options {
    fn default() -> Options {
        Options {
            connect: Duration::from_secs(2),
            reply: Duration::from_secs(5),
            wait: Duration::from_secs(5),
            connections: 8,
        }
    }
}

/// A result for each request of a pipeline, in their order.
pub type Replies = Vec<Result<Reply, ServerError>>;

/// A result for each request of a pipeline over several servers, in their order.
pub type Results = Vec<Result<Reply, Error>>;

/// One connection to one namespace. After an error other than a refused argument or `Server` it is
/// closed, and stays closed.
pub struct Connection {
    address: String,
    /// The process that opened it. Another one, made by `fork`, would read its replies.
    process: u32,
    stream: Option<Stream>,
    received: Vec<u8>,
    /// How many bytes at the front of `received` were already used.
    taken: usize,
    reply: Duration,
}

/// Prints no bytes that were received.
impl fmt::Debug for Connection {
    fn fmt(&self, out: &mut fmt::Formatter<'_>) -> fmt::Result {
        out.debug_struct("Connection")
            .field("address", &self.address)
            .field("is_open", &self.is_open())
            .finish_non_exhaustive()
    }
}

impl Connection {
    /// Connects to an address, such as `127.0.0.1:7411`, or to the path of a Unix socket, from `/`
    /// on, for which there is no time limit. Fails with `Connect` or `ConnectTimeout`.
    pub fn open(address: &str, options: &Options) -> Result<Connection, Error> {
        Connection::made(address, options).map_err(|kind| kind.asking(address, &[]))
    }

    pub(crate) fn made(address: &str, options: &Options) -> Result<Connection, ErrorKind> {
        let made = Stream::connect(address, options.connect).and_then(|stream| {
            stream.set_write_timeout(options.reply)?;
            Ok(stream)
        });
        match made {
            Ok(stream) => Ok(Connection {
                address: address.to_string(),
                process: std::process::id(),
                stream: Some(stream),
                received: Vec::new(),
                taken: 0,
                reply: options.reply,
            }),
            Err(error) if is_timeout(&error) => Err(ErrorKind::ConnectTimeout),
            Err(error) => Err(ErrorKind::Connect(Arc::new(error))),
        }
    }

    /// Returns whether it can be used: it was not closed, and each reply was complete.
    pub fn is_open(&self) -> bool {
        self.stream.is_some()
    }

    /// Returns whether it can be used and nothing came that nobody asked for, neither bytes nor the
    /// end of the connection. Does not wait.
    pub fn is_quiet(&self) -> bool {
        let Some(stream) = &self.stream else {
            return false;
        };
        self.process == std::process::id()
            && self.taken >= self.received.len()
            && stream.is_silent()
    }

    /// `QUIT`: the server replies `OK` and closes the connection; then so does the client.
    pub fn quit(&mut self) -> Result<(), Error> {
        let told = self.exchange_lines(b"QUIT\n", true, |connection| {
            match connection.line(true)?.as_slice() {
                b"OK" => Ok(()),
                line => Err(ErrorKind::BadReply(line.to_vec())),
            }
        });
        self.stream = None;
        told.map_err(|kind| kind.asking(&self.address, &[]))
    }

    /// Sends requests without waiting for each one's reply. If one of them cannot be sent, none
    /// is.
    ///
    /// Fails as a whole if a reply is incomplete: then any number of requests, from the first on,
    /// may have run.
    pub fn pipeline(&mut self, requests: &[Request<'_>]) -> Result<Replies, Error> {
        self.exchange(requests, &lines_of(requests)?)
    }

    /// Sends requests, given as lines, and reads their replies.
    pub(crate) fn exchange(
        &mut self,
        requests: &[Request<'_>],
        lines: &[Vec<u8>],
    ) -> Result<Replies, Error> {
        let mut replies = Vec::with_capacity(requests.len());
        while replies.len() < requests.len() {
            let start = replies.len();
            let end = start + window(&lines[start..]);
            let text = lines[start..end].concat();
            let told = self.exchange_lines(&text, start == 0, |connection| {
                for request in &requests[start..end] {
                    replies.push(connection.read_reply(request, replies.is_empty())?);
                }
                Ok(())
            });
            told.map_err(|kind| kind.asking(&self.address, &requests[replies.len()..]))?;
        }
        Ok(replies)
    }

    fn ask(&mut self, request: &Request<'_>) -> Result<Reply, Error> {
        self.ask_all(std::slice::from_ref(request)).map(only)
    }

    fn ask_all(&mut self, requests: &[Request<'_>]) -> Result<Vec<Reply>, Error> {
        let replies = self.pipeline(requests)?;
        results(&self.address, requests, replies)
            .into_iter()
            .collect()
    }

    keyed_commands!(self, &mut Self);
    whole_commands!(self, &mut Self);

    /// Sends lines and reads their replies; `is_first`: they are the first of their call. An early
    /// end closes the connection.
    fn exchange_lines<T>(
        &mut self,
        text: &[u8],
        is_first: bool,
        read: impl FnOnce(&mut Connection) -> Result<T, ErrorKind>,
    ) -> Result<T, ErrorKind> {
        if self.process != std::process::id() {
            self.stream = None;
        }
        let told = self.send(text, is_first).and_then(|()| read(self));
        if told.is_err() {
            self.stream = None;
        }
        told
    }

    fn send(&mut self, text: &[u8], is_first: bool) -> Result<(), ErrorKind> {
        let Some(stream) = &mut self.stream else {
            return Err(ErrorKind::Spent);
        };
        if self.taken < self.received.len() {
            // Bytes came that nobody asked for.
            return Err(ErrorKind::BadReply(self.received[self.taken..].to_vec()));
        }
        match stream.write_all(text) {
            Ok(()) => Ok(()),
            Err(error) if is_timeout(&error) => Err(ErrorKind::ReplyTimeout),
            Err(error) => Err(ErrorKind::Broken {
                has_reply_begun: !is_first,
                cause: Some(Arc::new(error)),
            }),
        }
    }

    fn read_reply(
        &mut self,
        request: &Request<'_>,
        is_first: bool,
    ) -> Result<Result<Reply, ServerError>, ErrorKind> {
        let line = self.line(is_first)?;
        if let Some(text) = line.strip_prefix(b"ERR ") {
            return Ok(Err(ServerError::of_text(text)));
        }
        match read_first(request, &line) {
            Some(Reply::Keys(keys)) => Ok(Ok(Reply::Keys(self.read_keys(&line, keys)?))),
            Some(reply) => Ok(Ok(reply)),
            None => Err(ErrorKind::BadReply(line)),
        }
    }

    /// The lines after a line `KEYS n`.
    fn read_keys(
        &mut self,
        line: &[u8],
        mut keys: Vec<Vec<u8>>,
    ) -> Result<Vec<Vec<u8>>, ErrorKind> {
        let count = line.strip_prefix(b"KEYS ").and_then(number_of);
        for _ in 0..count.unwrap_or(0) {
            let key = self.line(false)?;
            if !is_key(&key) {
                return Err(ErrorKind::BadReply(key));
            }
            keys.push(key);
        }
        Ok(keys)
    }

    /// The next line of the replies, without its line feed; whether it is the first of its call.
    fn line(&mut self, is_first: bool) -> Result<Vec<u8>, ErrorKind> {
        let start = Instant::now();
        let mut scanned = self.taken;
        loop {
            let found = self.received[scanned..].iter().position(|b| *b == b'\n');
            if let Some(place) = found {
                let line = self.received[self.taken..scanned + place].to_vec();
                self.taken = scanned + place + 1;
                return Ok(line);
            }
            self.received.drain(..self.taken);
            self.taken = 0;
            scanned = self.received.len();
            if scanned > LONGEST_REPLY_LINE {
                return Err(ErrorKind::BadReply(self.received[..80].to_vec()));
            }
            self.receive(self.reply.saturating_sub(start.elapsed()), is_first)?;
        }
    }

    /// Receives more bytes, if they come within this time. Fails with `ReplyTimeout` if no time is
    /// left.
    fn receive(&mut self, left: Duration, is_first: bool) -> Result<(), ErrorKind> {
        let Some(stream) = &mut self.stream else {
            return Err(ErrorKind::Spent);
        };
        let has_reply_begun = !is_first || !self.received.is_empty();
        if left.is_zero() {
            return Err(ErrorKind::ReplyTimeout);
        }
        let start = self.received.len();
        self.received.resize(start + RECEIVED_AT_ONCE, 0);
        let told = stream
            .set_read_timeout(left)
            .and_then(|()| stream.read(&mut self.received[start..]));
        self.received
            .truncate(start + told.as_ref().map_or(0, |count| *count));
        match told {
            Ok(0) => Err(ErrorKind::Broken {
                has_reply_begun,
                cause: None,
            }),
            Ok(_) => Ok(()),
            // (a system's timer may end a tick early: the caller asks again for what is left)
            Err(error) if is_timeout(&error) => Ok(()),
            Err(error) if error.kind() == io::ErrorKind::Interrupted => Ok(()),
            Err(error) => Err(ErrorKind::Broken {
                has_reply_begun,
                cause: Some(Arc::new(error)),
            }),
        }
    }
}

/// The lines of requests. Fails if one of them cannot be sent.
pub(crate) fn lines_of(requests: &[Request<'_>]) -> Result<Vec<Vec<u8>>, Error> {
    requests.iter().map(Request::line).collect()
}

/// How many lines are sent before their replies are read: those that fit the window, and at least
/// one.
fn window(lines: &[Vec<u8>]) -> usize {
    let mut size = 0;
    let fitting = lines.iter().take_while(|line| {
        size += line.len();
        size <= WINDOW
    });
    fitting.count().max(1)
}

/// The reply to the one request that was sent.
pub(crate) fn only(mut replies: Vec<Reply>) -> Reply {
    replies.pop().unwrap_or_else(never)
}

/// The replies of a server to requests; each error says to which.
pub(crate) fn results(address: &str, requests: &[Request<'_>], replies: Replies) -> Results {
    let one = |(request, reply): (&Request<'_>, Result<Reply, ServerError>)| {
        let asked = std::slice::from_ref(request);
        reply.map_err(|error| ErrorKind::Server(error).asking(address, asked))
    };
    requests.iter().zip(replies).map(one).collect()
}
