//! A connection's socket.

use std::io::{self, Read, Write};
use std::net::{TcpStream, ToSocketAddrs};
#[cfg(unix)]
use std::os::unix::net::UnixStream;
use std::time::Duration;

/// The socket of a connection: to a port, or to a path.
pub(crate) enum Stream {
    Tcp(TcpStream),
    #[cfg(unix)]
    Unix(UnixStream),
}

impl Stream {
    /// A connection to a path, or else to the first socket address that accepts it.
    pub(crate) fn connect(address: &str, limit: Duration) -> io::Result<Stream> {
        #[cfg(unix)]
        if address.starts_with('/') {
            return UnixStream::connect(address).map(Stream::Unix);
        }
        let mut failed = io::Error::new(io::ErrorKind::NotFound, "the address names no place");
        for place in address.to_socket_addrs()? {
            match TcpStream::connect_timeout(&place, limit) {
                Ok(stream) => {
                    stream.set_nodelay(true)?;
                    return Ok(Stream::Tcp(stream));
                }
                Err(error) => failed = error,
            }
        }
        Err(failed)
    }

    pub(crate) fn set_read_timeout(&self, limit: Duration) -> io::Result<()> {
        match self {
            Stream::Tcp(stream) => stream.set_read_timeout(Some(limit)),
            #[cfg(unix)]
            Stream::Unix(stream) => stream.set_read_timeout(Some(limit)),
        }
    }

    pub(crate) fn set_write_timeout(&self, limit: Duration) -> io::Result<()> {
        match self {
            Stream::Tcp(stream) => stream.set_write_timeout(Some(limit)),
            #[cfg(unix)]
            Stream::Unix(stream) => stream.set_write_timeout(Some(limit)),
        }
    }

    fn set_nonblocking(&self, is_nonblocking: bool) -> io::Result<()> {
        match self {
            Stream::Tcp(stream) => stream.set_nonblocking(is_nonblocking),
            #[cfg(unix)]
            Stream::Unix(stream) => stream.set_nonblocking(is_nonblocking),
        }
    }

    /// Whether neither bytes nor the end have come, without waiting. Of a path, a byte that has
    /// come is lost.
    pub(crate) fn is_silent(&self) -> bool {
        if self.set_nonblocking(true).is_err() {
            return false;
        }
        let came = match self {
            Stream::Tcp(stream) => stream.peek(&mut [0]),
            #[cfg(unix)]
            Stream::Unix(stream) => (&*stream).read(&mut [0]),
        };
        let is_silent = matches!(came, Err(error) if error.kind() == io::ErrorKind::WouldBlock);
        is_silent && self.set_nonblocking(false).is_ok()
    }
}

impl Read for Stream {
    fn read(&mut self, room: &mut [u8]) -> io::Result<usize> {
        match self {
            Stream::Tcp(stream) => stream.read(room),
            #[cfg(unix)]
            Stream::Unix(stream) => stream.read(room),
        }
    }
}

impl Write for Stream {
    fn write(&mut self, text: &[u8]) -> io::Result<usize> {
        match self {
            Stream::Tcp(stream) => stream.write(text),
            #[cfg(unix)]
            Stream::Unix(stream) => stream.write(text),
        }
    }

    fn flush(&mut self) -> io::Result<()> {
        Ok(())
    }
}

pub(crate) fn is_timeout(error: &io::Error) -> bool {
    matches!(
        error.kind(),
        io::ErrorKind::WouldBlock | io::ErrorKind::TimedOut
    )
}
