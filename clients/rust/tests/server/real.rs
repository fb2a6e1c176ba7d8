//! `cached --config`, or another server of lines.

use crate::{OPTIONS, PATIENCE};
use bivrang::Pool;
use std::ffi::OsStr;
use std::io::{stderr, BufRead, BufReader, Read, Write};
use std::net::TcpListener;
use std::path::PathBuf;
use std::process::{Child, Command, Stdio};
use std::sync::mpsc::{channel, Receiver, Sender};
use std::thread;

const CONFIGURATION: &[(&str, &str)] = &[
    ("main", "capacity = 100000"),
    ("timed", "deadlines = true"),
    ("zero", "capacity = 0"),
    ("bytes", "weight = \"bytes\""),
    ("loads", "[namespace.loads]\nk = \"found elsewhere\""),
];

/// Ports that nobody listens on now, all different.
pub fn free_ports(count: usize) -> Vec<u16> {
    let bind = |_| TcpListener::bind("127.0.0.1:0").expect("a port is free");
    let probes: Vec<_> = (0..count).map(bind).collect();
    let port = |probe: &TcpListener| probe.local_addr().expect("it has an address").port();
    probes.iter().map(port).collect()
}

pub fn free_port() -> u16 {
    free_ports(1)[0]
}

/// `cached --config`, until it is dropped.
pub struct Real {
    pub process: Child,
    pub ports: Vec<u16>,
    pub file: PathBuf,
    pub notices: Receiver<String>,
}

/// Sends each line that the server prints.
pub fn read_lines(output: impl Read + Send + 'static, lines: Sender<String>) {
    thread::spawn(move || {
        for line in BufReader::new(output).split(b'\n').map_while(Result::ok) {
            // Where nobody wants them any more, the server is still to be read.
            let _ = lines.send(String::from_utf8_lossy(&line).into_owned());
        }
    });
}

impl Real {
    /// A server with those namespaces. None, and a printed line, where `CACHED` is not set.
    pub fn start(test: &str) -> Option<Real> {
        let Some(program) = std::env::var_os("CACHED") else {
            // Past the capture of a test's output, which hides what `println!` prints.
            let _ = writeln!(stderr(), "{test}: skipped, CACHED does not name the server");
            return None;
        };
        // Between its choice and the server's start another process may take a port.
        let real = (0..5).find_map(|_| Real::try_start(test, &program));
        Some(real.expect("the server listens"))
    }

    pub fn try_start(test: &str, program: &OsStr) -> Option<Real> {
        let ports = free_ports(CONFIGURATION.len());
        let spaces = CONFIGURATION
            .iter()
            .zip(&ports)
            .map(|((name, rest), port)| {
                format!("[[namespace]]\nname = \"{name}\"\nport = {port}\n{rest}\n")
            });
        let name = format!("bivrang-{}-{test}.toml", std::process::id());
        let file = std::env::temp_dir().join(name);
        std::fs::write(&file, spaces.collect::<String>()).expect("the file is written");
        let mut process = Command::new(program)
            .arg("--config")
            .arg(&file)
            .stdin(Stdio::null())
            .stdout(Stdio::piped())
            .spawn()
            .expect("the server starts");
        let (sender, notices) = channel();
        read_lines(process.stdout.take().expect("its output is there"), sender);
        let real = Real {
            process,
            ports,
            file,
            notices,
        };
        for _ in CONFIGURATION {
            let line = real.notices.recv_timeout(3 * PATIENCE).ok()?;
            assert!(line.starts_with("listening "), "{line}");
        }
        Some(real)
    }

    pub fn address(&self, name: &str) -> String {
        let place = CONFIGURATION.iter().position(|(space, _)| *space == name);
        format!("127.0.0.1:{}", self.ports[place.expect("a namespace")])
    }

    pub fn pool(&self, name: &str) -> Pool {
        Pool::new(self.address(name), OPTIONS)
    }

    pub fn notice(&self) -> String {
        let told = self.notices.recv_timeout(3 * PATIENCE);
        told.expect("the server tells a line")
    }
}

impl Drop for Real {
    fn drop(&mut self) {
        let _ = self.process.kill();
        let _ = self.process.wait();
        let _ = std::fs::remove_file(&self.file);
    }
}
