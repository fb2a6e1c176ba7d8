//! A yardstick for `cached`: the same lines, served by a plain cache, with the standard library alone.
//!
//! ```text
//! plain_server --script < LINES            as `cached --script`: replies on standard output, notes on standard error at the end
//! plain_server --port PORT [CAPACITY]      as `cached --config` with one namespace `main` under LRU, on 127.0.0.1
//! ```
//!
//! It has `SET` (without a deadline), `GET`, `HAS`, `DEL`, `CLEAR`, `KEYS`, `SYNC` and `QUIT`. A cache of one lock, a hash map and a
//! list in the order of use: nothing of it is proved, and it has no TinyLFU, times, weights, predicates, loads or journals.
mod cache;
mod lines;

use cache::{Cache, Note};
use lines::{Connection, Next, LONGEST_LINE};
use std::io::{self, Read, Write};
use std::net::{Ipv4Addr, TcpListener, TcpStream};
use std::process::ExitCode;
use std::sync::{Arc, Mutex};
use std::thread;

/// The lines of notes, each behind a prefix.
fn note_lines(notes: &[Note], prefix: &[u8]) -> Vec<u8> {
    let mut text = Vec::new();
    for note in notes {
        text.extend_from_slice(prefix);
        note.write_to(&mut text);
    }
    text
}

/// Runs what was read, and answers whether the connection goes on. Notes are told before the replies of their hold.
fn run_piece(
    connection: &mut Connection,
    cache: &Mutex<Cache>,
    writer: &mut impl Write,
    tell: impl Fn(&mut Cache) -> io::Result<()>,
) -> io::Result<bool> {
    loop {
        let mut held = cache.lock().unwrap();
        let next = connection.run(&mut held);
        tell(&mut held)?;
        drop(held);
        writer.write_all(&connection.replies)?;
        connection.replies.clear();
        match next {
            Next::More => {}
            Next::Read => return Ok(true),
            Next::Close => return Ok(false),
        }
    }
}

/// Serves a connection to its end.
fn serve(
    reader: &mut impl Read,
    writer: &mut impl Write,
    cache: &Mutex<Cache>,
    tell: impl Fn(&mut Cache) -> io::Result<()> + Copy,
) -> io::Result<()> {
    let mut connection = Connection::new();
    let mut piece = [0; LONGEST_LINE];
    loop {
        let read = reader.read(&mut piece)?;
        if read == 0 {
            return Ok(());
        }
        connection.take(&piece[..read]);
        if !run_piece(&mut connection, cache, writer, tell)? {
            return Ok(());
        }
    }
}

fn run_script() -> io::Result<()> {
    let cache = Mutex::new(Cache::new(None));
    serve(
        &mut io::stdin().lock(),
        &mut io::stdout().lock(),
        &cache,
        |_| Ok(()),
    )?;
    let notes = cache.lock().unwrap().take_notes();
    let told = io::stderr().write_all(&note_lines(&notes, b""));
    // As `cached --script`, it leaves what is held to the system.
    std::mem::forget((notes, cache));
    told
}

fn serve_stream(stream: TcpStream, cache: &Mutex<Cache>) -> io::Result<()> {
    stream.set_nodelay(true)?;
    serve(&mut &stream, &mut &stream, cache, |held| {
        let notes = held.take_notes();
        if notes.is_empty() {
            return Ok(());
        }
        io::stdout().lock().write_all(&note_lines(&notes, b"main "))
    })
}

fn run_server(port: u16, capacity: Option<usize>) -> io::Result<()> {
    let listener = TcpListener::bind((Ipv4Addr::LOCALHOST, port))?;
    println!("listening main 127.0.0.1:{port}");
    let cache = Arc::new(Mutex::new(Cache::new(capacity)));
    for stream in listener.incoming() {
        let (stream, cache) = (stream?, cache.clone());
        thread::spawn(move || {
            let _ = serve_stream(stream, &cache);
        });
    }
    Ok(())
}

/// Does what the words say, if they say anything.
fn run_words(words: &[&str]) -> Option<io::Result<()>> {
    match words {
        ["--script"] => Some(run_script()),
        ["--port", port] => Some(run_server(port.parse().ok()?, None)),
        ["--port", port, capacity] => {
            Some(run_server(port.parse().ok()?, Some(capacity.parse().ok()?)))
        }
        _ => None,
    }
}

fn main() -> ExitCode {
    let words: Vec<String> = std::env::args().skip(1).collect();
    let words: Vec<&str> = words.iter().map(String::as_str).collect();
    match run_words(&words) {
        Some(Ok(())) => ExitCode::SUCCESS,
        Some(Err(error)) => {
            eprintln!("plain_server: {error}");
            ExitCode::from(1)
        }
        None => {
            eprintln!("usage: plain_server --script | --port PORT [CAPACITY]");
            ExitCode::from(2)
        }
    }
}
