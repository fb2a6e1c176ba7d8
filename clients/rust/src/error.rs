//! Why a call failed.

use std::fmt;
use std::io;
use std::sync::Arc;

use crate::Request;

/// At most this many bytes of a line that is no reply are told.
const TOLD: usize = 80;

/// An `ERR ..` reply of the server. The connection stays open. `{:?}` prints no bytes of it.
#[derive(Clone, PartialEq, Eq)]
pub enum ServerError {
    /// `ERR command`: the server does not know the command.
    Command,
    /// `ERR syntax`: too few or too many words, or a byte that is not allowed.
    Syntax,
    /// `ERR deadline`: the namespace does not have `deadlines = true`.
    Deadline,
    /// `ERR number`: the key's value is not a number, or the sum is above 2^64 - 1. The value is
    /// unchanged.
    Number,
    /// `ERR id`: no identifier was free for the prefix. It hides nothing.
    Identifiers,
    /// `ERR load text`: the server could not find the value elsewhere, and says why.
    LoadFailed(Vec<u8>),
    /// `ERR abandoned`: loading the value was given up each time it was tried.
    LoadAbandoned,
    /// An `ERR` reply with a word that this client does not know: all bytes after `ERR `.
    Other(Vec<u8>),
}

impl ServerError {
    pub(crate) fn of_text(text: &[u8]) -> ServerError {
        match text {
            b"command" => ServerError::Command,
            b"syntax" => ServerError::Syntax,
            b"deadline" => ServerError::Deadline,
            b"number" => ServerError::Number,
            b"id" => ServerError::Identifiers,
            b"abandoned" => ServerError::LoadAbandoned,
            _ => match text.strip_prefix(b"load ") {
                Some(cause) => ServerError::LoadFailed(cause.to_vec()),
                None => ServerError::Other(text.to_vec()),
            },
        }
    }
}

impl fmt::Display for ServerError {
    fn fmt(&self, out: &mut fmt::Formatter<'_>) -> fmt::Result {
        match self {
            ServerError::Command => out.write_str("ERR command"),
            ServerError::Syntax => out.write_str("ERR syntax"),
            ServerError::Deadline => out.write_str("ERR deadline"),
            ServerError::Number => out.write_str("ERR number"),
            ServerError::Identifiers => out.write_str("ERR id"),
            ServerError::LoadFailed(cause) => write!(out, "ERR load {}", cause.escape_ascii()),
            ServerError::LoadAbandoned => out.write_str("ERR abandoned"),
            ServerError::Other(text) => write!(out, "ERR {}", text.escape_ascii()),
        }
    }
}

/// A variant without the bytes that it has from the server.
fn without_bytes(out: &mut fmt::Formatter<'_>, variant: &str, text: &[u8]) -> fmt::Result {
    write!(out, "{variant}({} bytes)", text.len())
}

impl fmt::Debug for ServerError {
    fn fmt(&self, out: &mut fmt::Formatter<'_>) -> fmt::Result {
        match self {
            ServerError::Command => out.write_str("Command"),
            ServerError::Syntax => out.write_str("Syntax"),
            ServerError::Deadline => out.write_str("Deadline"),
            ServerError::Number => out.write_str("Number"),
            ServerError::Identifiers => out.write_str("Identifiers"),
            ServerError::LoadFailed(cause) => without_bytes(out, "LoadFailed", cause),
            ServerError::LoadAbandoned => out.write_str("LoadAbandoned"),
            ServerError::Other(text) => without_bytes(out, "Other", text),
        }
    }
}

impl std::error::Error for ServerError {}

/// Why a call failed, and at which server and key.
#[derive(Clone)]
pub struct Error {
    kind: ErrorKind,
    address: Option<String>,
    key: Option<Vec<u8>>,
}

/// Why a call failed. `{:?}` prints no bytes that were received; `{}` prints what the server says
/// of an error, and the beginning of a line that is no reply.
#[derive(Clone)]
#[non_exhaustive]
pub enum ErrorKind {
    /// A key or prefix is not 1 to 250 bytes, each from `!` to `~`. Nothing was sent.
    Key,
    /// A value has a line end (byte 10 or 13). Nothing was sent.
    Value,
    /// A value makes its line longer than 8192 bytes. Nothing was sent.
    TooLong {
        /// How many bytes the value has.
        bytes: usize,
        /// How many there is room for, with this key and time to live.
        room: usize,
    },
    /// A time to live is above 999,999,999,999 milliseconds. Nothing was sent.
    Deadline,
    /// A pipeline over several servers has a request without a key. Nothing was sent.
    NoKey,
    /// The connection could not be made. Nothing was sent.
    Connect(Arc<io::Error>),
    /// The connection could not be made within the time limit. Nothing was sent.
    ConnectTimeout,
    /// All connections of the pool were in use during the time limit. Nothing was sent.
    PoolTimeout,
    /// The connection was already closed, by an earlier error or `quit`, or belongs to the parent
    /// process. Nothing was sent.
    Spent,
    /// One of several servers did not answer a short time ago. Nothing was sent.
    Away,
    /// The connection was closed or reset before the reply was complete. The request, or some of a
    /// pipeline's, may have run.
    Broken {
        /// Whether a byte of a reply was received.
        has_reply_begun: bool,
        /// The error of the system; `None` if the server closed the connection normally.
        cause: Option<Arc<io::Error>>,
    },
    /// A line of the reply was not complete within the time limit. The request may have run.
    ReplyTimeout,
    /// The bytes received are not a reply to the request. The request may have run.
    BadReply(Vec<u8>),
    /// The server replied `ERR ..`.
    Server(ServerError),
}

impl Error {
    /// Returns why the call failed.
    pub fn kind(&self) -> &ErrorKind {
        &self.kind
    }

    /// Returns the server's address, if a server was asked.
    pub fn address(&self) -> Option<&str> {
        self.address.as_deref()
    }

    /// Returns the key of the request; in a pipeline, of the first request without a reply.
    pub fn key(&self) -> Option<&[u8]> {
        self.key.as_deref()
    }

    /// Whether the request, or with a pipeline some of its requests, may have run although no
    /// complete reply was received.
    pub fn may_have_run(&self) -> bool {
        matches!(
            self.kind,
            ErrorKind::Broken { .. } | ErrorKind::ReplyTimeout | ErrorKind::BadReply(_)
        )
    }

    /// Whether no complete reply was received, so that a look-up may count as a miss.
    pub(crate) fn is_of_link(&self) -> bool {
        self.may_have_run()
            || matches!(
                self.kind,
                ErrorKind::Connect(_)
                    | ErrorKind::ConnectTimeout
                    | ErrorKind::PoolTimeout
                    | ErrorKind::Spent
                    | ErrorKind::Away
            )
    }

    /// Whether the connection broke before a byte of a reply came.
    pub(crate) fn is_before_replies(&self) -> bool {
        matches!(
            self.kind,
            ErrorKind::Broken {
                has_reply_begun: false,
                ..
            }
        )
    }

    /// Whether the server could not be reached, or did not reply in time.
    pub(crate) fn is_silence(&self) -> bool {
        matches!(
            self.kind,
            ErrorKind::Connect(_) | ErrorKind::ConnectTimeout | ErrorKind::ReplyTimeout
        )
    }
}

impl ErrorKind {
    /// The error at a request.
    pub(crate) fn at(self, request: &Request<'_>) -> Error {
        Error {
            kind: self,
            address: None,
            key: request.key().map(<[u8]>::to_vec),
        }
    }

    /// The error at a server and the first of these requests.
    pub(crate) fn asking(self, address: &str, requests: &[Request<'_>]) -> Error {
        Error {
            kind: self,
            address: Some(address.to_string()),
            key: requests.first().and_then(Request::key).map(<[u8]>::to_vec),
        }
    }
}

impl fmt::Debug for ErrorKind {
    fn fmt(&self, out: &mut fmt::Formatter<'_>) -> fmt::Result {
        match self {
            ErrorKind::Key => out.write_str("Key"),
            ErrorKind::Value => out.write_str("Value"),
            ErrorKind::TooLong { bytes, room } => out
                .debug_struct("TooLong")
                .field("bytes", bytes)
                .field("room", room)
                .finish(),
            ErrorKind::Deadline => out.write_str("Deadline"),
            ErrorKind::NoKey => out.write_str("NoKey"),
            ErrorKind::Connect(cause) => out.debug_tuple("Connect").field(cause).finish(),
            ErrorKind::ConnectTimeout => out.write_str("ConnectTimeout"),
            ErrorKind::PoolTimeout => out.write_str("PoolTimeout"),
            ErrorKind::Spent => out.write_str("Spent"),
            ErrorKind::Away => out.write_str("Away"),
            ErrorKind::Broken {
                has_reply_begun,
                cause,
            } => out
                .debug_struct("Broken")
                .field("has_reply_begun", has_reply_begun)
                .field("cause", cause)
                .finish(),
            ErrorKind::ReplyTimeout => out.write_str("ReplyTimeout"),
            ErrorKind::BadReply(line) => without_bytes(out, "BadReply", line),
            ErrorKind::Server(error) => out.debug_tuple("Server").field(error).finish(),
        }
    }
}

impl fmt::Debug for Error {
    fn fmt(&self, out: &mut fmt::Formatter<'_>) -> fmt::Result {
        let key = self.key.as_ref().map(|key| key.escape_ascii().to_string());
        out.debug_struct("Error")
            .field("kind", &self.kind)
            .field("address", &self.address)
            .field("key", &key)
            .finish()
    }
}

impl fmt::Display for ErrorKind {
    fn fmt(&self, out: &mut fmt::Formatter<'_>) -> fmt::Result {
        match self {
            ErrorKind::Key => out.write_str("a key is 1 to 250 bytes, each from ! to ~"),
            ErrorKind::Value => {
                out.write_str("a value has no line end: write it in base64, or with escapes")
            }
            ErrorKind::TooLong { bytes, room } => write!(
                out,
                "a value of {bytes} bytes is above {room}, the longest of this key: compress it, \
                 or divide it among several keys"
            ),
            ErrorKind::Deadline => {
                out.write_str("a time to live is at most 999999999999 milliseconds")
            }
            ErrorKind::NoKey => out.write_str("a request without a key is of no one server"),
            ErrorKind::Connect(cause) => write!(out, "no connection: {cause}"),
            ErrorKind::ConnectTimeout => out.write_str("no connection within the time limit"),
            ErrorKind::PoolTimeout => out.write_str("all connections were in use"),
            ErrorKind::Spent => out.write_str("the connection is closed"),
            ErrorKind::Away => out.write_str("the server did not answer a short time ago"),
            ErrorKind::Broken { cause: None, .. } => {
                out.write_str("the server closed the connection")
            }
            ErrorKind::Broken {
                cause: Some(cause), ..
            } => write!(out, "the connection broke: {cause}"),
            ErrorKind::ReplyTimeout => {
                out.write_str("no whole line of a reply within the time limit")
            }
            ErrorKind::BadReply(line) => {
                let told = &line[..line.len().min(TOLD)];
                write!(out, "no reply to this: {}", told.escape_ascii())
            }
            ErrorKind::Server(ServerError::Deadline) => {
                out.write_str("ERR deadline: the namespace needs `deadlines = true`")
            }
            ErrorKind::Server(error) => error.fmt(out),
        }
    }
}

impl fmt::Display for Error {
    fn fmt(&self, out: &mut fmt::Formatter<'_>) -> fmt::Result {
        self.kind.fmt(out)?;
        let key = self
            .key
            .as_ref()
            .map(|key| format!("key {}", key.escape_ascii()));
        let server = self.address.as_ref().map(|place| format!("server {place}"));
        let places: Vec<String> = key.into_iter().chain(server).collect();
        if places.is_empty() {
            return Ok(());
        }
        write!(out, " ({})", places.join(", "))
    }
}

impl std::error::Error for Error {
    fn source(&self) -> Option<&(dyn std::error::Error + 'static)> {
        match &self.kind {
            ErrorKind::Connect(cause) => Some(cause),
            ErrorKind::Broken { cause, .. } => cause
                .as_ref()
                .map(|cause| cause as &(dyn std::error::Error + 'static)),
            ErrorKind::Server(error) => Some(error),
            _ => None,
        }
    }
}
