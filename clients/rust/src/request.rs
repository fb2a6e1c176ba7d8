//! Requests as lines, and replies by their first lines.

use std::time::Duration;

use crate::{Error, ErrorKind, LONGEST_KEY, LONGEST_LIFE, LONGEST_LINE};

/// A request, for `pipeline`. The method of the same name of [`Pool`](crate::Pool) says what it
/// does.
#[derive(Clone, Copy, Debug, PartialEq, Eq)]
pub enum Request<'a> {
    /// `SET key deadline value`
    Set {
        key: &'a [u8],
        value: &'a [u8],
        /// How long the value lives at most, rounded up to milliseconds; `None` is sent as `-`.
        ttl: Option<Duration>,
    },
    /// `GET key`
    Get { key: &'a [u8] },
    /// `HAS key`
    Has { key: &'a [u8] },
    /// `GET key`, of whose reply only the kind counts
    Touch { key: &'a [u8] },
    /// `LOAD key`
    Load { key: &'a [u8] },
    /// `DEL key`
    Delete { key: &'a [u8] },
    /// `ADD key deadline number`
    Incr {
        key: &'a [u8],
        number: u64,
        /// How long the sum lives at most, rounded up to milliseconds; `None` is sent as `-`.
        ttl: Option<Duration>,
    },
    /// `CLEAR`
    Clear,
    /// `DROPIF prefix`
    DropIf { prefix: &'a [u8] },
    /// `KEYS`
    Keys,
    /// `SYNC`
    Sync,
    /// `HAS` of some key, whatever the reply: the protocol has no `PING`.
    Ping,
}

/// What is held after maintenance.
#[derive(Clone, Copy, Debug, PartialEq, Eq)]
pub struct Held {
    /// How many values are held.
    pub values: u64,
    /// Their total weight: their number, or their bytes with `weight = "bytes"`.
    pub weight: u64,
}

/// The reply to a request of a pipeline.
#[derive(Clone, Debug, PartialEq, Eq)]
pub enum Reply {
    /// To `Set`: whether the value was stored; false if the capacity is 0.
    Stored(bool),
    /// To `Get` and `Load`: the value, if there is one.
    Value(Option<Vec<u8>>),
    /// To `Has` and `Touch`: whether there is a value.
    Present(bool),
    /// To `Incr`: the sum; `None` if the capacity is 0.
    Sum(Option<u64>),
    /// To `Delete`, `Clear`, `DropIf` and `Ping`.
    Done,
    /// To `Keys`: the keys, in byte order.
    Keys(Vec<Vec<u8>>),
    /// To `Sync`.
    Held(Held),
}

pub(crate) fn is_key(key: &[u8]) -> bool {
    (1..=LONGEST_KEY).contains(&key.len()) && key.iter().all(|byte| (b'!'..=b'~').contains(byte))
}

fn check_key(key: &[u8]) -> Result<(), ErrorKind> {
    if is_key(key) {
        Ok(())
    } else {
        Err(ErrorKind::Key)
    }
}

fn deadline_text(ttl: Option<Duration>) -> Result<String, ErrorKind> {
    match ttl.map(|life| life.as_nanos().div_ceil(1_000_000)) {
        None => Ok("-".to_string()),
        Some(life) if life <= u128::from(LONGEST_LIFE) => Ok(life.to_string()),
        Some(_) => Err(ErrorKind::Deadline),
    }
}

impl<'a> Request<'a> {
    /// The key, if the request has one.
    pub fn key(&self) -> Option<&'a [u8]> {
        match *self {
            Request::Set { key, .. }
            | Request::Get { key }
            | Request::Has { key }
            | Request::Touch { key }
            | Request::Load { key }
            | Request::Delete { key }
            | Request::Incr { key, .. } => Some(key),
            Request::Clear
            | Request::DropIf { .. }
            | Request::Keys
            | Request::Sync
            | Request::Ping => None,
        }
    }

    /// Whether it changes no value, so that it may be sent again if a connection broke.
    pub fn is_read(&self) -> bool {
        matches!(
            self,
            Request::Get { .. }
                | Request::Has { .. }
                | Request::Touch { .. }
                | Request::Keys
                | Request::Ping
        )
    }

    /// The bytes to send. Fails with `Key`, `Value`, `TooLong` or `Deadline`.
    pub fn line(&self) -> Result<Vec<u8>, Error> {
        let mut line = self.text().map_err(|kind| kind.at(self))?;
        line.push(b'\n');
        Ok(line)
    }

    /// The bytes to send, without the line feed.
    fn text(&self) -> Result<Vec<u8>, ErrorKind> {
        match *self {
            Request::Set { key, value, ttl } => set_line(key, value, ttl),
            Request::Get { key } | Request::Touch { key } => word_line("GET", key),
            Request::Has { key } => word_line("HAS", key),
            Request::Load { key } => word_line("LOAD", key),
            Request::Delete { key } => word_line("DEL", key),
            Request::Incr { key, number, ttl } => {
                keyed_line("ADD", key, ttl, number.to_string().as_bytes())
            }
            Request::Clear => Ok(b"CLEAR".to_vec()),
            Request::DropIf { prefix } => word_line("DROPIF", prefix),
            Request::Keys => Ok(b"KEYS".to_vec()),
            Request::Sync => Ok(b"SYNC".to_vec()),
            Request::Ping => Ok(b"HAS ping".to_vec()),
        }
    }

    /// The reply that a look-up gets at a miss. `None` for other requests.
    pub(crate) fn miss(&self) -> Option<Reply> {
        match self {
            Request::Get { .. } => Some(Reply::Value(None)),
            Request::Has { .. } | Request::Touch { .. } => Some(Reply::Present(false)),
            _ => None,
        }
    }
}

/// A line with a word and a key.
fn word_line(word: &str, key: &[u8]) -> Result<Vec<u8>, ErrorKind> {
    check_key(key)?;
    Ok([word.as_bytes(), key].join(&b' '))
}

/// A line with a word, a key, a deadline and more bytes.
fn keyed_line(
    word: &str,
    key: &[u8],
    ttl: Option<Duration>,
    rest: &[u8],
) -> Result<Vec<u8>, ErrorKind> {
    check_key(key)?;
    let deadline = deadline_text(ttl)?;
    Ok([word.as_bytes(), key, deadline.as_bytes(), rest].join(&b' '))
}

fn set_line(key: &[u8], value: &[u8], ttl: Option<Duration>) -> Result<Vec<u8>, ErrorKind> {
    if value.iter().any(|byte| matches!(byte, b'\n' | b'\r')) {
        return Err(ErrorKind::Value);
    }
    let line = keyed_line("SET", key, ttl, value)?;
    if line.len() > LONGEST_LINE {
        let bytes = value.len();
        let room = LONGEST_LINE - (line.len() - bytes);
        return Err(ErrorKind::TooLong { bytes, room });
    }
    Ok(line)
}

/// A number of 1 to 20 digits.
pub(crate) fn number_of(text: &[u8]) -> Option<u64> {
    if text.is_empty() || !text.iter().all(u8::is_ascii_digit) {
        return None;
    }
    std::str::from_utf8(text).ok()?.parse().ok()
}

/// The first line of a reply, as the request allows it. After `KEYS` come as many lines as
/// `Keys` is to hold. `None` if it is not a reply to the request.
pub(crate) fn read_first(request: &Request<'_>, line: &[u8]) -> Option<Reply> {
    match request {
        Request::Set { .. } => match line {
            b"OK" => Some(Reply::Stored(true)),
            b"OFF" => Some(Reply::Stored(false)),
            _ => None,
        },
        Request::Get { .. } | Request::Load { .. } => match line {
            b"NONE" => Some(Reply::Value(None)),
            _ => Some(Reply::Value(Some(line.strip_prefix(b"VAL ")?.to_vec()))),
        },
        Request::Has { .. } => match line {
            b"YES" => Some(Reply::Present(true)),
            b"NO" => Some(Reply::Present(false)),
            _ => None,
        },
        Request::Touch { .. } => match line {
            b"NONE" => Some(Reply::Present(false)),
            _ => line.starts_with(b"VAL ").then_some(Reply::Present(true)),
        },
        Request::Incr { .. } => match line {
            b"OFF" => Some(Reply::Sum(None)),
            _ => Some(Reply::Sum(Some(number_of(line.strip_prefix(b"VAL ")?)?))),
        },
        Request::Delete { .. } | Request::Clear | Request::DropIf { .. } => {
            (line == b"OK").then_some(Reply::Done)
        }
        Request::Ping => matches!(line, b"YES" | b"NO").then_some(Reply::Done),
        Request::Keys => {
            number_of(line.strip_prefix(b"KEYS ")?)?;
            Some(Reply::Keys(Vec::new()))
        }
        Request::Sync => {
            let mut words = line.strip_prefix(b"SYNC ")?.split(|byte| *byte == b' ');
            let (values, weight) = (number_of(words.next()?)?, number_of(words.next()?)?);
            let held = Reply::Held(Held { values, weight });
            words.next().is_none().then_some(held)
        }
    }
}

/// A reply of a kind that its request does not have is impossible: `read_first` returned it.
pub(crate) fn never<T>() -> T {
    unreachable!("a reply is read by its request")
}

/// A look-up of each key.
pub(crate) fn gets_of<K: AsRef<[u8]>>(keys: &[K]) -> Vec<Request<'_>> {
    let keys = keys.iter().map(AsRef::as_ref);
    keys.map(|key| Request::Get { key }).collect()
}

/// A request that stores each key's value.
pub(crate) fn sets_of<K: AsRef<[u8]>, V: AsRef<[u8]>>(
    values: &[(K, V)],
    ttl: Option<Duration>,
) -> Vec<Request<'_>> {
    let values = values
        .iter()
        .map(|(key, value)| (key.as_ref(), value.as_ref()));
    values
        .map(|(key, value)| Request::Set { key, value, ttl })
        .collect()
}

/// A request that deletes each key's value.
pub(crate) fn deletes_of<K: AsRef<[u8]>>(keys: &[K]) -> Vec<Request<'_>> {
    let keys = keys.iter().map(AsRef::as_ref);
    keys.map(|key| Request::Delete { key }).collect()
}
