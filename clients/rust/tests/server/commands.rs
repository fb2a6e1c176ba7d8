//! What each call does, on the real server.

use crate::real::Real;
use crate::{kind, OPTIONS, PATIENCE};
use bivrang::{
    Connection, Error, ErrorKind, Held, Options, Pool, Reply, Request, Server, ServerError, Servers,
};
use std::io::{Read, Write};
use std::net::{Shutdown, TcpStream};
use std::thread;
use std::time::Duration;

#[test]
fn example_of_the_protocol() -> Result<(), Error> {
    let Some(real) = Real::start("example_of_the_protocol") else {
        return Ok(());
    };
    let cache = real.pool("main");
    assert!(cache.set(b"a", b"1", None)?);
    assert!(cache.set(b"a", b"two words", None)?);
    assert_eq!(real.notice(), "main NOTE Replaced a 1");
    assert_eq!(cache.get(b"a")?, Some(b"two words".to_vec()));
    cache.delete(b"a")?;
    assert_eq!(cache.get(b"a")?, None);
    let refused = cache.set(b"a", b"x", Some(Duration::from_millis(5)));
    assert!(matches!(
        kind(&refused),
        Some(ErrorKind::Server(ServerError::Deadline))
    ));
    assert_eq!(cache.incr(b"n", 2, None)?, Some(2));
    assert_eq!(cache.incr(b"n", 40, None)?, Some(42));
    assert!(cache.has(b"n")?);
    assert!(cache.set(b"nn", b"x", None)?);
    assert_eq!(cache.keys()?, [b"n".to_vec(), b"nn".to_vec()]);
    cache.drop_if(b"nn")?;
    assert!(!cache.has(b"nn")?);
    cache.clear()?;
    assert_eq!(
        cache.sync()?,
        Held {
            values: 0,
            weight: 0
        }
    );
    assert_eq!(cache.idle(), 1);
    Ok(())
}

#[test]
fn values_and_lives() -> Result<(), Error> {
    let Some(real) = Real::start("values_and_lives") else {
        return Ok(());
    };
    let cache = real.pool("main");
    for value in [&b""[..], b" two  words ", b"\0\xff", &[b'x'; 8184]] {
        assert!(cache.set(b"k", value, None)?);
        assert_eq!(cache.get(b"k")?, Some(value.to_vec()));
    }
    assert!(cache.set([b'k'; 250], [b'x'; 7935], None)?);
    let timed = real.pool("timed");
    timed.set(b"long", b"x", Some(Duration::from_millis(999_999_999_999)))?;
    timed.set(b"short", b"x", Some(Duration::from_millis(1)))?;
    timed.incr(b"sum", 3, Some(Duration::from_millis(1)))?;
    thread::sleep(Duration::from_millis(50));
    assert!(timed.has(b"long")?);
    assert!(!timed.has(b"short")?);
    assert_eq!(timed.incr(b"sum", 4, None)?, Some(4));
    let zero = real.pool("zero");
    assert!(!zero.set(b"a", b"1", None)?);
    let many = zero.set_many(&[("a", "1"), ("b", "2")], None)?;
    assert_eq!(many, [false, false]);
    assert_eq!(zero.incr(b"a", 1, None)?, None);
    let bytes = real.pool("bytes");
    bytes.set(b"a", b"12345", None)?;
    bytes.set(b"b", b"123", None)?;
    assert_eq!(
        bytes.sync()?,
        Held {
            values: 2,
            weight: 8
        }
    );
    Ok(())
}

#[test]
fn many_at_once() -> Result<(), Error> {
    let Some(real) = Real::start("many_at_once") else {
        return Ok(());
    };
    let cache = real.pool("main");
    cache.ping()?;
    let stored = cache.set_many(&[("a", &b"1"[..]), ("b", b"")], None)?;
    assert_eq!(stored, [true, true]);
    let told = cache.get_many(&["b", "nothing", "a"])?;
    assert_eq!(told, [Some(Vec::new()), None, Some(b"1".to_vec())]);
    assert_eq!(cache.get_many::<&str>(&[])?, Vec::<Option<Vec<u8>>>::new());
    cache.delete_many(&["a", "nothing"])?;
    cache.delete_many::<&str>(&[])?;
    assert_eq!(cache.get_many(&["a", "b"])?, [None, Some(Vec::new())]);
    assert!(cache.touch("b")?);
    assert!(!cache.touch("a")?);
    let refused = cache.set_many(&[("a", "1")], Some(Duration::from_secs(1)));
    assert!(matches!(
        kind(&refused),
        Some(ErrorKind::Server(ServerError::Deadline))
    ));
    let text = refused.expect_err("it is refused").to_string();
    assert!(text.contains("deadlines = true"), "{text}");
    Ok(())
}

#[test]
fn loads_and_numbers() -> Result<(), Error> {
    let Some(real) = Real::start("loads_and_numbers") else {
        return Ok(());
    };
    let loads = real.pool("loads");
    assert_eq!(loads.get(b"k")?, None);
    assert_eq!(loads.load(b"k")?, Some(b"found elsewhere".to_vec()));
    assert_eq!(loads.get(b"k")?, Some(b"found elsewhere".to_vec()));
    assert_eq!(loads.load(b"another")?, None);
    let cache = real.pool("main");
    assert_eq!(cache.incr(b"n", u64::MAX, None)?, Some(u64::MAX));
    let too_great = cache.incr(b"n", 1, None);
    assert!(matches!(
        kind(&too_great),
        Some(ErrorKind::Server(ServerError::Number))
    ));
    Ok(())
}

#[test]
fn pipelines() -> Result<(), Error> {
    let Some(real) = Real::start("pipelines") else {
        return Ok(());
    };
    let mut cache = Connection::open(&real.address("main"), &OPTIONS)?;
    let keys: Vec<_> = (0..2000).map(|number| format!("key-{number:05}")).collect();
    let sets: Vec<_> = keys
        .iter()
        .map(|key| Request::Set {
            key: key.as_bytes(),
            value: b"x",
            ttl: None,
        })
        .collect();
    let stored = cache.pipeline(&sets)?;
    assert_eq!(stored, vec![Ok(Reply::Stored(true)); 2000]);
    let told: Vec<_> = keys.iter().map(|key| key.clone().into_bytes()).collect();
    assert_eq!(cache.keys()?, told);
    cache.set(b"a", [b'y'; 8000], None)?;
    let long = cache.pipeline(&vec![Request::Get { key: b"a" }; 2000])?;
    assert_eq!(long, vec![Ok(Reply::Value(Some(vec![b'y'; 8000]))); 2000]);
    let mixed = cache.pipeline(&[
        Request::Incr {
            key: b"a",
            number: 1,
            ttl: None,
        },
        Request::Has { key: b"b" },
        Request::DropIf { prefix: b"key" },
        Request::Keys,
        Request::Delete { key: b"a" },
        Request::Load { key: b"a" },
        Request::Clear,
        Request::Sync,
    ])?;
    let held = Held {
        values: 0,
        weight: 0,
    };
    let expected = [
        Err(ServerError::Number),
        Ok(Reply::Present(false)),
        Ok(Reply::Done),
        Ok(Reply::Keys(vec![b"a".to_vec()])),
        Ok(Reply::Done),
        Ok(Reply::Value(None)),
        Ok(Reply::Done),
        Ok(Reply::Held(held)),
    ];
    assert_eq!(mixed, expected);
    cache.quit()?;
    assert!(matches!(kind(&cache.get(b"a")), Some(ErrorKind::Spent)));
    Ok(())
}

#[test]
fn threads_share_a_pool() -> Result<(), Error> {
    let Some(real) = Real::start("threads_share_a_pool") else {
        return Ok(());
    };
    let options = Options {
        connections: 3,
        ..OPTIONS
    };
    let cache = Pool::new(real.address("main"), options);
    let work = |number: usize| {
        let key = format!("k{number}");
        for turn in 0..100 {
            let value = format!("{number} {turn}");
            cache.set(key.as_bytes(), value.as_bytes(), None)?;
            assert_eq!(cache.get(key.as_bytes())?, Some(value.into_bytes()));
            cache.incr(b"all", 1, None)?;
        }
        Ok(())
    };
    thread::scope(|scope| {
        let work = &work;
        let threads: Vec<_> = (0..8).map(|n| scope.spawn(move || work(n))).collect();
        let mut ended = threads.into_iter().map(|one| one.join().expect("no panic"));
        ended.try_for_each(|told: Result<(), Error>| told)
    })?;
    assert_eq!(cache.get(b"all")?, Some(b"800".to_vec()));
    assert!((1..=3).contains(&cache.idle()));
    Ok(())
}

#[test]
fn clones_share_a_pool() -> Result<(), Error> {
    let Some(real) = Real::start("clones_share_a_pool") else {
        return Ok(());
    };
    let cache = real.pool("main");
    let other = cache.clone();
    let thread = thread::spawn(move || other.set("a", "1", None).map(|_| other.idle()));
    assert_eq!(thread.join().expect("no panic")?, 1);
    assert_eq!(cache.idle(), 1);
    assert_eq!(cache.get("a")?, Some(b"1".to_vec()));
    let servers = Servers::new(&[Server::at(real.address("main"))], OPTIONS).expect("it is one");
    let thread = {
        let servers = servers.clone();
        thread::spawn(move || servers.get("a"))
    };
    assert_eq!(thread.join().expect("no panic")?, Some(b"1".to_vec()));
    assert_eq!(servers.server_of(b"a").1.idle(), 1);
    Ok(())
}

#[test]
fn several_servers() -> Result<(), Error> {
    let Some(real) = Real::start("several_servers") else {
        return Ok(());
    };
    let places: Vec<_> = [("main", 1), ("bytes", 1), ("loads", 2)]
        .iter()
        .map(|(name, weight)| Server {
            name: name.to_string(),
            address: real.address(name),
            weight: *weight,
        })
        .collect();
    let servers = Servers::new(&places, OPTIONS).expect("these can be taken");
    let keys: Vec<_> = (0..1000)
        .map(|n| format!("key-{n:04}").into_bytes())
        .collect();
    let sets: Vec<_> = keys
        .iter()
        .map(|key| Request::Set {
            key,
            value: key,
            ttl: None,
        })
        .collect();
    let told: Result<Vec<_>, _> = servers.pipeline(&sets)?.into_iter().collect();
    assert_eq!(told?, vec![Reply::Stored(true); 1000]);
    let gets: Vec<_> = keys.iter().map(|key| Request::Get { key }).collect();
    let told: Result<Vec<_>, _> = servers.pipeline(&gets)?.into_iter().collect();
    let values = keys.iter().map(|key| Reply::Value(Some(key.clone())));
    assert_eq!(told?, values.collect::<Vec<_>>());
    let told = servers.get_many(&keys)?;
    assert!(told.into_iter().flatten().eq(keys.iter().cloned()));
    assert_eq!(servers.keys()?, keys);
    let held = servers.sync()?;
    assert_eq!(held.iter().map(|one| one.values).sum::<u64>(), 1000);
    assert!(held.iter().all(|one| one.values > 150), "{held:?}");
    servers.drop_if(b"key-00")?;
    assert_eq!(servers.keys()?, keys[100..]);
    let keyless = servers.pipeline(&[Request::Get { key: b"a" }, Request::Clear]);
    assert!(matches!(kind(&keyless), Some(ErrorKind::NoKey)));
    servers.clear()?;
    assert_eq!(servers.incr(b"n", 3, None)?, Some(3));
    assert_eq!(servers.server_of(b"n").1.get(b"n")?, Some(b"3".to_vec()));
    Ok(())
}

#[test]
fn half_close() -> std::io::Result<()> {
    let Some(real) = Real::start("half_close") else {
        return Ok(());
    };
    let mut link = TcpStream::connect(real.address("main"))?;
    link.set_read_timeout(Some(PATIENCE))?;
    link.write_all(b"SET a - 1\nGET a\nGET")?;
    link.shutdown(Shutdown::Write)?;
    let mut told = String::new();
    link.read_to_string(&mut told)?;
    assert_eq!(told, "OK\nVAL 1\n");
    Ok(())
}
