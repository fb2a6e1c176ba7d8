//! Requests and replies, errors and time limits, on fake servers.

use crate::fake::{Act, Fake};
use crate::real::free_port;
use crate::{kind, OPTIONS, PATIENCE, SHORT};
use bivrang::{
    Connection, Error, ErrorKind, Options, Pool, Reply, Request, Server, ServerError, Servers,
};
use std::io::{Read, Write};
use std::sync::atomic::Ordering;
use std::sync::{Arc, Barrier};
use std::thread;
use std::time::{Duration, Instant};

type Call = fn(&Pool) -> Result<Reply, Error>;

const READS: &[(Call, &[u8])] = &[
    (|cache| cache.get(b"a").map(Reply::Value), b"VAL x\n"),
    (|cache| cache.has(b"a").map(Reply::Present), b"YES\n"),
    (|cache| cache.touch(b"a").map(Reply::Present), b"VAL x\n"),
    (|cache| cache.keys().map(Reply::Keys), b"KEYS 1\na\n"),
    (|cache| cache.ping().map(|()| Reply::Done), b"YES\n"),
    (
        |cache| cache.get_many(&["a", "b"]).map(|_| Reply::Done),
        b"VAL x\nNONE\n",
    ),
];

const OTHERS: &[Call] = &[
    |cache| cache.set(b"a", b"1", None).map(Reply::Stored),
    |cache| cache.load(b"a").map(Reply::Value),
    |cache| cache.delete(b"a").map(|()| Reply::Done),
    |cache| cache.delete_many(&["a", "b"]).map(|()| Reply::Done),
    |cache| cache.incr(b"a", 1, None).map(Reply::Sum),
    |cache| cache.clear().map(|()| Reply::Done),
    |cache| cache.drop_if(b"a").map(|()| Reply::Done),
    |cache| cache.sync().map(Reply::Held),
];

#[test]
fn reads_are_sent_once_more() {
    for (call, reply) in READS {
        let fake = Fake::start(&[Act::Ends(b""), Act::Replies(vec![reply])]);
        assert!(call(&fake.pool()).is_ok());
        let received = fake.received();
        assert_eq!(received.len(), 2);
        assert_eq!(received[0], received[1]);
        let fake = Fake::start(&[Act::Ends(b""), Act::Ends(b"")]);
        let told = call(&fake.pool());
        assert!(
            matches!(kind(&told), Some(ErrorKind::Broken { .. })),
            "{told:?}"
        );
        assert_eq!(fake.received().len(), 2);
    }
}

#[test]
fn reads_with_half_a_reply_are_not_sent_again() {
    for (call, reply) in READS {
        let fake = Fake::start(&[Act::Ends(&reply[..reply.len() - 1])]);
        let pool = fake.pool();
        let told = call(&pool);
        let begun = matches!(
            kind(&told),
            Some(ErrorKind::Broken {
                has_reply_begun: true,
                ..
            })
        );
        assert!(begun, "{told:?}");
        assert_eq!(pool.idle(), 0);
        assert_eq!(fake.received().len(), 1);
    }
}

#[test]
fn a_long_pipeline_of_reads_with_replies_is_not_sent_again() {
    // A window holds 64 of them.
    for count in [100, 200] {
        let fake = Fake::start(&[Act::EndsBehind(64)]);
        let requests = vec![Request::Get { key: &[b'k'; 250] }; count];
        let told = fake.pool().pipeline(&requests);
        assert!(
            matches!(kind(&told), Some(ErrorKind::Broken { .. })),
            "{told:?}"
        );
        assert_eq!(fake.received().len(), 1);
    }
}

#[test]
fn others_are_never_sent_again() {
    for call in OTHERS {
        let fake = Fake::start(&[Act::Ends(b"")]);
        let told = call(&fake.pool());
        let may_have_run = told.as_ref().is_err_and(Error::may_have_run);
        assert!(may_have_run, "{told:?}");
        assert_eq!(fake.received().len(), 1);
    }
}

#[test]
fn no_replies_of_the_protocol() {
    const ROWS: &[(Call, &[u8])] = &[
        (|cache| cache.get(b"a").map(Reply::Value), b"OK\n"),
        (|cache| cache.get(b"a").map(Reply::Value), b"VAL\n"),
        (|cache| cache.get(b"a").map(Reply::Value), b"ERR\n"),
        (|cache| cache.get(b"a").map(Reply::Value), b"\n"),
        (|cache| cache.get(b"a").map(Reply::Value), &[b'V'; 20_000]),
        (
            |cache| cache.set(b"a", b"1", None).map(Reply::Stored),
            b"OK\r\n",
        ),
        (|cache| cache.has(b"a").map(Reply::Present), b"MAYBE\n"),
        (
            |cache| cache.incr(b"a", 1, None).map(Reply::Sum),
            b"VAL -1\n",
        ),
        (
            |cache| cache.incr(b"a", 1, None).map(Reply::Sum),
            b"VAL +1\n",
        ),
        (|cache| cache.incr(b"a", 1, None).map(Reply::Sum), b"NONE\n"),
        (|cache| cache.keys().map(Reply::Keys), b"KEYS\n"),
        (|cache| cache.keys().map(Reply::Keys), b"KEYS x\n"),
        (
            |cache| cache.keys().map(Reply::Keys),
            b"KEYS 1\ntwo words\n",
        ),
        (|cache| cache.sync().map(Reply::Held), b"SYNC 1\n"),
        (|cache| cache.sync().map(Reply::Held), b"SYNC 1 2 3\n"),
        (|cache| cache.delete(b"a").map(|()| Reply::Done), b"NONE\n"),
    ];
    for (call, reply) in ROWS {
        let fake = Fake::start(&[Act::Replies(vec![reply])]);
        let pool = fake.pool();
        let told = call(&pool);
        assert!(
            matches!(kind(&told), Some(ErrorKind::BadReply(_))),
            "{told:?}"
        );
        assert_eq!(pool.idle(), 0);
    }
}

#[test]
fn each_error() {
    let rows: [(&'static [u8], ServerError); 9] = [
        (b"ERR command\n", ServerError::Command),
        (b"ERR syntax\n", ServerError::Syntax),
        (b"ERR deadline\n", ServerError::Deadline),
        (b"ERR number\n", ServerError::Number),
        (b"ERR id\n", ServerError::Identifiers),
        (b"ERR abandoned\n", ServerError::LoadAbandoned),
        (
            b"ERR load the cause\n",
            ServerError::LoadFailed(b"the cause".to_vec()),
        ),
        (b"ERR load \n", ServerError::LoadFailed(Vec::new())),
        (b"ERR other\n", ServerError::Other(b"other".to_vec())),
    ];
    let replies = rows.iter().map(|(reply, _)| *reply).collect();
    let fake = Fake::start(&[Act::Replies(replies)]);
    let pool = fake.pool();
    for (reply, error) in &rows {
        assert_eq!(format!("{error}\n").as_bytes(), *reply);
        match kind(&pool.load(b"a")) {
            Some(ErrorKind::Server(told)) => assert_eq!(told, error),
            told => panic!("{told:?}"),
        }
    }
    assert_eq!(fake.received().len(), 1);
    drop(pool);
}

/// Neither an error nor what holds replies prints bytes that came, as letters or as numbers.
#[test]
fn no_received_bytes_are_printed_for_debugging() {
    const ROWS: &[(&[u8], &str)] = &[
        (b"\xfe\xfdhush\n", "BadReply(6 bytes)"),
        (b"ERR load \xfe\xfdhush\n", "LoadFailed(6 bytes)"),
        (b"ERR \xfe\xfdhush\n", "Other(6 bytes)"),
    ];
    let is_silent = |text: &str| !text.contains("hush") && !text.contains("254, 253");
    for (reply, wanted) in ROWS {
        let fake = Fake::start(&[Act::Replies(vec![reply])]);
        let error = fake.pool().load("a").expect_err("it is none");
        let text = format!("{error:?} {:?}", error.kind());
        assert!(text.contains(wanted) && is_silent(&text), "{text}");
        assert!(error.to_string().contains("hush"), "{error}");
    }
    let stray = Act::Ends(b"VAL \xfe\xfdhush\n\xfe\xfdhush");
    let fake = Fake::start(&[stray.clone(), stray]);
    let mut connection = Connection::open(&fake.address, &OPTIONS).expect("it listens");
    assert!(connection.get("a").is_ok());
    let pool = fake.pool();
    assert!(pool.get("a").is_ok());
    let servers = Servers::new(&[Server::at("h")], OPTIONS).expect("it is one");
    let text = format!("{connection:?} {pool:?} {servers:?}");
    assert!(text.contains(&fake.address) && is_silent(&text), "{text}");
}

#[test]
fn a_long_line_that_is_no_reply_is_told_in_part() {
    let line: &'static [u8] = Box::leak([[b'x'; 9000].as_slice(), b"\n"].concat().into());
    let fake = Fake::start(&[Act::Replies(vec![line])]);
    let text = fake.pool().get("a").expect_err("it is none").to_string();
    assert!(text.contains(&"x".repeat(80)), "{text}");
    assert!(!text.contains(&"x".repeat(81)), "{text}");
}

#[test]
fn unasked_and_late_replies_are_never_seen() -> Result<(), Error> {
    let stray = Act::Replies(vec![b"VAL mine\nVAL stray\n"]);
    let fake = Fake::start(&[stray, Act::Replies(vec![b"VAL next\n"])]);
    let pool = fake.pool();
    assert_eq!(pool.get(b"a")?, Some(b"mine".to_vec()));
    thread::sleep(SHORT);
    assert_eq!(pool.get(b"b")?, Some(b"next".to_vec()));
    assert_eq!(fake.received(), [b"GET a\n", b"GET b\n"]);
    drop(pool);
    let fake = Fake::start(&[Act::Replies(vec![b"VAL mine\nVAL stray\n", b"VAL next\n"])]);
    let mut connection = Connection::open(&fake.address, &OPTIONS)?;
    assert_eq!(connection.get(b"a")?, Some(b"mine".to_vec()));
    assert!(matches!(
        kind(&connection.get(b"b")),
        Some(ErrorKind::BadReply(_))
    ));
    assert!(!connection.is_open());
    Ok(())
}

#[test]
fn a_connection_that_ended_while_idle_is_not_used() -> Result<(), Error> {
    let fake = Fake::start(&[Act::Ends(b"OK\n"), Act::Replies(vec![b"OK\n"])]);
    let pool = fake.pool();
    pool.set(b"a", b"1", None)?;
    while fake.closed.load(Ordering::SeqCst) == 0 {
        thread::sleep(Duration::from_millis(1));
    }
    pool.set(b"a", b"2", None)?;
    assert_eq!(fake.received(), [b"SET a - 1\n", b"SET a - 2\n"]);
    drop(pool);
    Ok(())
}

#[test]
fn time_limits() {
    let options = Options {
        reply: SHORT,
        ..OPTIONS
    };
    for act in [
        Act::Replies(vec![b""]),
        Act::Replies(vec![b"VAL hal"]),
        Act::Trickles,
    ] {
        let fake = Fake::start(&[act]);
        let pool = Pool::new(fake.address.clone(), options);
        let start = Instant::now();
        let told = pool.get(b"a");
        assert!(
            matches!(kind(&told), Some(ErrorKind::ReplyTimeout)),
            "{told:?}"
        );
        assert!((SHORT..PATIENCE).contains(&start.elapsed()));
        assert_eq!(pool.idle(), 0);
        // (it may see the connection late)
        fake.receives(&[b"GET a\n"]);
    }
}

#[test]
fn nobody_listens() {
    let told = Pool::new(format!("127.0.0.1:{}", free_port()), OPTIONS).get(b"a");
    assert!(
        matches!(kind(&told), Some(ErrorKind::Connect(_))),
        "{told:?}"
    );
}

#[test]
fn all_connections_in_use() {
    let meeting = Arc::new(Barrier::new(2));
    let fake = Fake::start(&[Act::Meets(meeting.clone(), b"VAL of a\n")]);
    let options = Options {
        wait: SHORT,
        connections: 1,
        ..OPTIONS
    };
    let pool = Pool::new(fake.address.clone(), options);
    let (first, second) = thread::scope(|scope| {
        let first = scope.spawn(|| pool.get(b"a"));
        fake.receives(&[b"GET a\n"]);
        let second = pool.get(b"b");
        meeting.wait();
        (first.join().expect("no panic"), second)
    });
    assert!(matches!(kind(&second), Some(ErrorKind::PoolTimeout)));
    assert!(matches!(first, Ok(Some(told)) if told == b"of a"));
}

#[test]
fn refused_arguments() {
    let pool = Pool::new("127.0.0.1:1", OPTIONS);
    for key in [&b""[..], b"two words", &[b'k'; 251], b"\x7f", b"a\n"] {
        assert!(matches!(kind(&pool.get(key)), Some(ErrorKind::Key)));
        assert!(matches!(
            kind(&pool.set(key, b"1", None)),
            Some(ErrorKind::Key)
        ));
        assert!(matches!(kind(&pool.drop_if(key)), Some(ErrorKind::Key)));
    }
    for value in [&b"1\nCLEAR"[..], b"1\r"] {
        assert!(matches!(
            kind(&pool.set(b"a", value, None)),
            Some(ErrorKind::Value)
        ));
    }
    let long = [b'x'; 8185];
    let refused = pool.set(b"a", long, None);
    let text = refused.as_ref().expect_err("it is too long").to_string();
    assert!(matches!(
        kind(&refused),
        Some(ErrorKind::TooLong {
            bytes: 8185,
            room: 8184
        })
    ));
    assert!(
        text.contains("compress it") && text.ends_with("(key a)"),
        "{text}"
    );
    let life = Some(Duration::from_millis(999_999_999_999) + Duration::from_nanos(1));
    let refused = pool.set(b"a", b"1", life);
    assert!(matches!(kind(&refused), Some(ErrorKind::Deadline)));
    let refused = pool.incr(b"a", 1, life);
    assert!(matches!(kind(&refused), Some(ErrorKind::Deadline)));
    let refused = pool.set_many(&[("a", "1"), ("b", "2\n")], None);
    assert_eq!(refused.expect_err("it is refused").key(), Some(&b"b"[..]));
}

#[test]
fn times_to_live() -> Result<(), Error> {
    let lives = [
        (Some(Duration::from_secs(60)), "60000"),
        (Some(Duration::from_micros(1500)), "2"),
        (Some(Duration::from_nanos(1)), "1"),
        (Some(Duration::ZERO), "0"),
        (None, "-"),
    ];
    for (ttl, word) in lives {
        let set = Request::Set {
            key: b"a",
            value: b"x",
            ttl,
        };
        assert_eq!(set.line()?, format!("SET a {word} x\n").into_bytes());
        let incr = Request::Incr {
            key: b"n",
            number: 3,
            ttl,
        };
        assert_eq!(incr.line()?, format!("ADD n {word} 3\n").into_bytes());
    }
    Ok(())
}

#[test]
#[allow(deprecated)]
fn the_old_name_of_incr() -> Result<(), Error> {
    let fake = Fake::start(&[Act::Replies(vec![b"VAL 3\n"])]);
    assert_eq!(fake.pool().add(b"n", 3, Some(5))?, Some(3));
    assert_eq!(fake.received(), [b"ADD n 5 3\n"]);
    Ok(())
}

#[test]
fn errors_name_server_and_key() {
    let rows: [(Act, Call, Option<&[u8]>); 5] = [
        (
            Act::Replies(vec![b"ERR number\n"]),
            |cache| cache.incr("n", 1, None).map(Reply::Sum),
            Some(b"n"),
        ),
        (
            Act::Replies(vec![b"OK\n"]),
            |cache| cache.get("a").map(Reply::Value),
            Some(b"a"),
        ),
        (
            Act::Replies(vec![b"NONE\nOK\n"]),
            |cache| cache.get_many(&["a", "b"]).map(|_| Reply::Done),
            Some(b"b"),
        ),
        (
            Act::Ends(b""),
            |cache| cache.set("a", "x", None).map(Reply::Stored),
            Some(b"a"),
        ),
        (
            Act::Ends(b""),
            |cache| cache.clear().map(|()| Reply::Done),
            None,
        ),
    ];
    for (act, call, key) in rows {
        let fake = Fake::start(&[act]);
        let error = call(&fake.pool()).expect_err("it fails");
        says(&error, &fake.address, key);
    }
    let address = format!("127.0.0.1:{}", free_port());
    let error = Pool::new(&address, OPTIONS)
        .get("a")
        .expect_err("nobody listens");
    says(&error, &address, Some(b"a"));
}

fn says(error: &Error, address: &str, key: Option<&[u8]>) {
    assert!(format!("{error:?}").contains(address));
    assert_eq!((error.address(), error.key()), (Some(address), key));
    let key = key.map(|key| format!("key {}, ", key.escape_ascii()));
    let ending = format!(" ({}server {address})", key.unwrap_or_default());
    assert!(error.to_string().ends_with(&ending), "{error}");
}

#[test]
fn path_of_a_unix_socket() {
    let folder = std::env::temp_dir().join(format!("bivrang-{}", std::process::id()));
    std::fs::create_dir_all(&folder).expect("a folder");
    let path = folder.join("socket");
    let address = path.to_str().expect("it is text").to_string();
    let listener = std::os::unix::net::UnixListener::bind(&path).expect("the path is free");
    let serving = thread::spawn(move || {
        let (mut link, _) = listener.accept().expect("a client");
        for reply in [&b"OK\n"[..], b"VAL 1\n"] {
            let mut piece = [0; 100];
            let count = link.read(&mut piece).expect("a request");
            assert!(piece[..count].ends_with(b"\n"));
            link.write_all(reply).expect("a client that waits");
        }
    });
    let cache = Pool::new(&address, Options::default());
    cache.set("a", "1", None).expect("it is stored");
    assert_eq!(cache.get("a").expect("a reply"), Some(b"1".to_vec()));
    serving.join().expect("both requests came");
    std::fs::remove_dir_all(&folder).expect("the folder goes");
    let failed = Pool::new(&address, Options::default()).get("a");
    assert!(failed
        .expect_err("nobody listens")
        .to_string()
        .contains(&address));
}
