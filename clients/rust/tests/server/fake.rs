//! Servers that break their replies.

use crate::{OPTIONS, PATIENCE, SHORT};
use bivrang::Pool;
use std::io::{Read, Write};
use std::net::{TcpListener, TcpStream};
use std::sync::atomic::{AtomicUsize, Ordering};
use std::sync::{Arc, Barrier, Mutex};
use std::thread::{self, JoinHandle};
use std::time::{Duration, Instant};

/// What a fake server does with one connection.
#[derive(Clone)]
pub enum Act {
    /// Answers a line with each of these, and then waits for the client's end.
    Replies(Vec<&'static [u8]>),
    /// Answers a line so, and then closes the connection.
    Ends(&'static [u8]),
    /// Answers each of so many lines with `NONE`, and then closes the connection.
    EndsBehind(usize),
    /// Answers a byte at a time, without an end.
    Trickles,
    /// Answers a line so, once another thread meets it there, and then waits for the client's end.
    Meets(Arc<Barrier>, &'static [u8]),
}

/// A listener that deals with one connection behind the other by the acts it is given.
pub struct Fake {
    pub address: String,
    pub received: Arc<Mutex<Vec<Vec<u8>>>>,
    /// How many connections it has closed.
    pub closed: Arc<AtomicUsize>,
    pub thread: Option<JoinHandle<()>>,
}

/// Reads to the next line end, at least. Whether the client goes on.
pub fn read_line(link: &mut TcpStream, received: &Mutex<Vec<Vec<u8>>>) -> bool {
    loop {
        let mut piece = [0; 65536];
        let count = link.read(&mut piece).unwrap_or(0);
        let mut received = received.lock().expect("nobody panics");
        let told = received.last_mut().expect("a connection");
        told.extend(&piece[..count]);
        if count == 0 || told.ends_with(b"\n") {
            return count > 0;
        }
    }
}

pub fn play(act: Act, link: &mut TcpStream, received: &Mutex<Vec<Vec<u8>>>) {
    match act {
        Act::Replies(replies) => {
            for reply in replies {
                read_line(link, received);
                let _ = link.write_all(reply);
            }
            read_line(link, received);
        }
        Act::Ends(reply) => {
            read_line(link, received);
            let _ = link.write_all(reply);
        }
        Act::EndsBehind(count) => {
            let lines = || {
                let received = received.lock().expect("nobody panics");
                let told = received.last().expect("a connection");
                told.iter().filter(|byte| **byte == b'\n').count()
            };
            while lines() < count && read_line(link, received) {}
            let _ = link.write_all(&b"NONE\n".repeat(count));
        }
        Act::Trickles => {
            read_line(link, received);
            for _ in 0..100 {
                if link.write_all(b"V").is_err() {
                    return;
                }
                thread::sleep(SHORT / 4);
            }
        }
        Act::Meets(barrier, reply) => {
            read_line(link, received);
            barrier.wait();
            let _ = link.write_all(reply);
            read_line(link, received);
        }
    }
}

impl Fake {
    pub fn start(acts: &[Act]) -> Fake {
        let listener = TcpListener::bind("127.0.0.1:0").expect("a port is free");
        let address = listener.local_addr().expect("it has an address");
        let received = Arc::new(Mutex::new(Vec::new()));
        let closed = Arc::new(AtomicUsize::new(0));
        let (acts, theirs, count) = (acts.to_vec(), received.clone(), closed.clone());
        let thread = thread::spawn(move || {
            for act in acts {
                let Ok((mut link, _)) = listener.accept() else {
                    return;
                };
                let _ = link.set_read_timeout(Some(PATIENCE));
                theirs.lock().expect("nobody panics").push(Vec::new());
                play(act, &mut link, &theirs);
                drop(link);
                count.fetch_add(1, Ordering::SeqCst);
            }
        });
        Fake {
            address: address.to_string(),
            received,
            closed,
            thread: Some(thread),
        }
    }

    pub fn pool(&self) -> Pool {
        Pool::new(self.address.clone(), OPTIONS)
    }

    pub fn received(&self) -> Vec<Vec<u8>> {
        self.received.lock().expect("nobody panics").clone()
    }

    /// Waits until these are the connections that came, and what each sent.
    pub fn receives(&self, lines: &[&[u8]]) {
        let start = Instant::now();
        while self.received() != lines {
            assert!(start.elapsed() < PATIENCE, "{:?}", self.received());
            thread::sleep(Duration::from_millis(1));
        }
    }
}

impl Drop for Fake {
    /// Wakes the listener for each act that is left, and waits for its end.
    fn drop(&mut self) {
        if let Some(thread) = self.thread.take() {
            while !thread.is_finished() {
                let _ = TcpStream::connect(&self.address);
                thread::sleep(Duration::from_millis(1));
            }
            let _ = thread.join();
        }
    }
}
