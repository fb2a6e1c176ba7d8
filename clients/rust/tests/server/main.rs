//! Tests against the real server, whose path is in the environment variable `CACHED`, and against
//! fake ones that break their replies. Without `CACHED` the former are skipped, each with a printed
//! line. All is on 127.0.0.1, on free ports, and ends by itself.

mod commands;
mod exchanges;
mod fake;
mod processes;
mod real;
mod several;

use bivrang::{Error, ErrorKind, Options};
use std::time::Duration;

const PATIENCE: Duration = Duration::from_secs(60);
const SHORT: Duration = Duration::from_millis(200);
const LONGER: Duration = Duration::from_secs(3);

const OPTIONS: Options = Options {
    connect: PATIENCE,
    reply: PATIENCE,
    wait: PATIENCE,
    connections: 8,
};

/// Why a call failed, if it did.
fn kind<T>(told: &Result<T, Error>) -> Option<&ErrorKind> {
    told.as_ref().err().map(Error::kind)
}
