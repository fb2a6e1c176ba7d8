//! Lines of a connection, and what they do to the cache.
use crate::cache::Cache;
use std::io::Write;

/// The most bytes that a line has before its line feed, and the most that are read at once.
pub const LONGEST_LINE: usize = 8192;

/// As many lines at most run in one hold of the lock.
const LINES_A_HOLD: usize = 16;

/// How a connection goes on.
#[derive(Clone, Copy, Debug, PartialEq, Eq)]
pub enum Next {
    /// More lines may stand unread.
    More,
    /// More bytes are wanted.
    Read,
    /// The connection is to be closed.
    Close,
}

/// The bytes of a connection that were read and not run, and replies that were not written.
pub struct Connection {
    unread: Vec<u8>,
    begin: usize,
    pub replies: Vec<u8>,
}

impl Connection {
    pub fn new() -> Connection {
        Connection {
            unread: Vec::new(),
            begin: 0,
            replies: Vec::new(),
        }
    }

    /// Takes a piece of bytes.
    pub fn take(&mut self, piece: &[u8]) {
        self.unread.drain(..self.begin);
        self.begin = 0;
        self.unread.extend_from_slice(piece);
    }

    /// Runs the next lines.
    pub fn run(&mut self, cache: &mut Cache) -> Next {
        for _ in 0..LINES_A_HOLD {
            let rest = &self.unread[self.begin..];
            let Some(end) = rest.iter().position(|byte| *byte == b'\n') else {
                let is_long = rest.len() > LONGEST_LINE;
                return if is_long { Next::Close } else { Next::Read };
            };
            if end > LONGEST_LINE {
                return Next::Close;
            }
            let line = &rest[..end];
            let line = line.strip_suffix(b"\r").unwrap_or(line);
            let goes_on = run_line(cache, line, &mut self.replies);
            self.begin += end + 1;
            if !goes_on {
                return Next::Close;
            }
        }
        Next::More
    }
}

/// Runs a line, writes its reply, and answers whether the connection goes on.
fn run_line(cache: &mut Cache, line: &[u8], replies: &mut Vec<u8>) -> bool {
    let (word, rest) = split(line);
    match (word, rest) {
        (b"SET", rest) => replies.extend_from_slice(set(cache, rest)),
        (b"GET", Some(key)) if is_key(key) => match cache.get(key) {
            Some(value) => {
                replies.extend_from_slice(b"VAL ");
                replies.extend_from_slice(value);
                replies.push(b'\n');
            }
            None => replies.extend_from_slice(b"NONE\n"),
        },
        (b"HAS", Some(key)) if is_key(key) => {
            let reply: &[u8] = if cache.has(key) { b"YES\n" } else { b"NO\n" };
            replies.extend_from_slice(reply);
        }
        (b"DEL", Some(key)) if is_key(key) => {
            cache.remove(key);
            replies.extend_from_slice(b"OK\n");
        }
        (b"CLEAR", None) => {
            cache.clear();
            replies.extend_from_slice(b"OK\n");
        }
        (b"KEYS", None) => {
            let keys = cache.keys();
            let _ = writeln!(replies, "KEYS {}", keys.len());
            for key in keys {
                replies.extend_from_slice(key);
                replies.push(b'\n');
            }
        }
        (b"SYNC", None) => {
            let _ = writeln!(replies, "SYNC {0} {0}", cache.len());
        }
        (b"QUIT", None) => {
            replies.extend_from_slice(b"OK\n");
            return false;
        }
        (b"GET" | b"HAS" | b"DEL" | b"CLEAR" | b"KEYS" | b"SYNC" | b"QUIT", _) => {
            replies.extend_from_slice(b"ERR syntax\n");
        }
        _ => replies.extend_from_slice(b"ERR command\n"),
    }
    true
}

/// Stores what stands behind the word `SET`, and answers the reply.
fn set(cache: &mut Cache, rest: Option<&[u8]>) -> &'static [u8] {
    let (key, rest) = split(rest.unwrap_or(b""));
    let (deadline, value) = split(rest.unwrap_or(b""));
    let Some(value) = value else {
        return b"ERR syntax\n";
    };
    if !is_key(key) || value.contains(&b'\r') {
        return b"ERR syntax\n";
    }
    if deadline != b"-" {
        return b"ERR deadline\n";
    }
    if cache.set(key, value) {
        b"OK\n"
    } else {
        b"OFF\n"
    }
}

/// What stands before the first space, and what stands behind it.
fn split(text: &[u8]) -> (&[u8], Option<&[u8]>) {
    match text.iter().position(|byte| *byte == b' ') {
        Some(place) => (&text[..place], Some(&text[place + 1..])),
        None => (text, None),
    }
}

fn is_key(text: &[u8]) -> bool {
    (1..=250).contains(&text.len()) && text.iter().all(|byte| (b'!'..=b'~').contains(byte))
}
