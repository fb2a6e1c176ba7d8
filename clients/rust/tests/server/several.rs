//! Several servers.

use crate::fake::{Act, Fake};
use crate::real::free_port;
use crate::{kind, LONGER, OPTIONS, PATIENCE};
use bivrang::{
    hash_bytes, mix, BadServers, Error, ErrorKind, Options, Pool, Reply, Request, Server,
    ServerError, Servers,
};
use std::thread;
use std::time::Duration;

#[test]
fn published_hashes() {
    assert_eq!(hash_bytes(b""), 0xcbf2_9ce4_8422_2325);
    assert_eq!(hash_bytes(b"a"), 0xaf63_dc4c_8601_ec8c);
    assert_eq!(hash_bytes(b"foobar"), 0x8594_4171_f739_67e8);
    let step = 0x9e37_79b9_7f4a_7c15_u64;
    let drawn = (1..=5).map(|turn| mix(step.wrapping_mul(turn).wrapping_add(1_234_567)));
    let published = [
        6_457_827_717_110_365_317,
        3_203_168_211_198_807_973,
        9_817_491_932_198_370_423,
        4_593_380_528_125_082_431,
        16_408_922_859_458_223_821,
    ];
    assert!(drawn.eq(published));
}

#[test]
fn keys_and_servers() {
    let places: Vec<_> = (1..=3)
        .map(|n| Server::at(format!("127.0.0.1:{n}")))
        .collect();
    let servers = |places: &[Server]| Servers::new(places, OPTIONS).expect("these can be taken");
    let (before, behind) = (servers(&places[..2]), servers(&places));
    let keys: Vec<_> = (0..3000).map(|n| format!("key-{n}").into_bytes()).collect();
    let name = |servers: &Servers, key: &[u8]| servers.server_of(key).0.to_string();
    let moved = keys
        .iter()
        .filter(|key| name(&before, key) != name(&behind, key));
    let moved: Vec<_> = moved.map(|key| name(&behind, key)).collect();
    assert!((850..1150).contains(&moved.len()), "{}", moved.len());
    assert!(moved.iter().all(|name| name == "127.0.0.1:3"));
    let heavy = Server {
        weight: 3,
        ..places[1].clone()
    };
    let weighted = servers(&[places[0].clone(), heavy]);
    let count = keys
        .iter()
        .filter(|key| name(&weighted, key) == "127.0.0.1:2");
    assert!((2100..2400).contains(&count.count()));
}

/// The servers of keys, as a program in C finds them, and as the Python client's test has them.
const OWNERS: &[(&str, &str)] = &[
    ("a", "east"),
    ("b", "127.0.0.1:7411"),
    ("session:17", "127.0.0.1:7411"),
    ("user/4711", "127.0.0.1:7411"),
    ("~", "127.0.0.1:7411"),
    ("!x", "west"),
    ("count", "west"),
    ("key-0001", "127.0.0.1:7411"),
];

#[test]
fn both_clients_ask_the_same_server() {
    let named = |name: &str, weight| Server {
        name: name.to_string(),
        weight,
        ..Server::at("127.0.0.1:1")
    };
    let places = [
        named("east", 1),
        named("west", 2),
        named("127.0.0.1:7411", 3),
    ];
    let servers = Servers::new(&places, OPTIONS).expect("these can be taken");
    for (key, name) in OWNERS {
        assert_eq!(servers.server_of(key.as_bytes()).0, *name, "{key}");
    }
}

#[test]
fn servers_that_cannot_be_taken() {
    let one = Server::at("127.0.0.1:1");
    let weighing = |weight| Server {
        weight,
        ..one.clone()
    };
    let rows = [
        vec![],
        vec![one.clone(), one.clone()],
        vec![weighing(0)],
        vec![weighing(1001)],
    ];
    for servers in rows {
        assert_eq!(Servers::new(&servers, OPTIONS).err(), Some(BadServers));
    }
}

/// Servers of which one is a fake and one does not listen, and a key of each.
fn there_and_gone(fake: &Fake) -> (Servers, String, String) {
    let named = |name: &str, address: String| Server {
        name: name.to_string(),
        ..Server::at(address)
    };
    let gone = format!("127.0.0.1:{}", free_port());
    let places = [named("there", fake.address.clone()), named("gone", gone)];
    let servers = Servers::new(&places, OPTIONS).expect("these can be taken");
    let servers = servers.with_retry_after(PATIENCE);
    let key_of = |name: &str| {
        let mut keys = (0..).map(|number| format!("k{number}"));
        keys.find(|key| servers.server_of(key.as_bytes()).0 == name)
            .expect("a key belongs to it")
    };
    let (theirs, its) = (key_of("there"), key_of("gone"));
    (servers, theirs, its)
}

#[test]
fn a_server_that_is_gone_is_left_alone() {
    let fake = Fake::start(&[]);
    let (servers, _, its) = there_and_gone(&fake);
    let told = servers.get(&its);
    assert!(
        matches!(kind(&told), Some(ErrorKind::Connect(_))),
        "{told:?}"
    );
    let told = servers.delete(&its);
    assert!(matches!(kind(&told), Some(ErrorKind::Away)), "{told:?}");
    let error = told.expect_err("it fails");
    assert_eq!(error.key(), Some(its.as_bytes()));
    assert_eq!(
        error.address(),
        Some(servers.server_of(its.as_bytes()).1.address())
    );
}

#[test]
fn a_server_that_is_gone_can_be_asked_each_time() {
    let fake = Fake::start(&[]);
    let (servers, _, its) = there_and_gone(&fake);
    let servers = servers.with_retry_after(Duration::ZERO);
    for _ in 0..2 {
        let told = servers.delete(&its);
        assert!(
            matches!(kind(&told), Some(ErrorKind::Connect(_))),
            "{told:?}"
        );
    }
}

#[test]
fn a_server_is_asked_again() -> Result<(), Error> {
    let fake = Fake::start(&[
        Act::Replies(vec![b""]),
        Act::Replies(vec![b"ERR number\n", b"VAL 1\n"]),
    ]);
    let options = Options {
        reply: LONGER,
        ..OPTIONS
    };
    let servers = Servers::new(&[Server::at(&fake.address)], options).expect("it can be taken");
    let servers = servers.with_retry_after(LONGER);
    let told = servers.get("a");
    assert!(
        matches!(kind(&told), Some(ErrorKind::ReplyTimeout)),
        "{told:?}"
    );
    let told = servers.get("a");
    assert!(matches!(kind(&told), Some(ErrorKind::Away)), "{told:?}");
    thread::sleep(LONGER);
    let told = servers.each(|pool| pool.incr("n", 1, None));
    assert!(matches!(
        kind(&told[0].1),
        Some(ErrorKind::Server(ServerError::Number))
    ));
    assert_eq!(servers.get("a")?, Some(b"1".to_vec()));
    drop(servers);
    Ok(())
}

#[test]
fn results_of_the_other_server_stand() -> Result<(), Error> {
    let replies: Vec<&[u8]> = vec![b"VAL 1\nOK\n", b"KEYS 1\nk\n", b"NO\n", b"OK\n"];
    let fake = Fake::start(&[Act::Replies(replies)]);
    let (servers, theirs, its) = there_and_gone(&fake);
    let (theirs, its) = (theirs.as_bytes(), its.as_bytes());
    let told = servers.pipeline(&[
        Request::Get { key: its },
        Request::Get { key: theirs },
        Request::Delete { key: its },
        Request::Delete { key: theirs },
    ])?;
    assert!(matches!(kind(&told[0]), Some(ErrorKind::Connect(_))));
    assert!(matches!(&told[1], Ok(Reply::Value(Some(value))) if value == b"1"));
    assert!(matches!(kind(&told[2]), Some(ErrorKind::Connect(_))));
    assert!(matches!(told[3], Ok(Reply::Done)));
    let keys = servers.each(Pool::keys);
    assert!(matches!(&keys[0], ("there", Ok(keys)) if *keys == [b"k"]));
    assert!(matches!(kind(&keys[1].1), Some(ErrorKind::Away)));
    assert_eq!(servers.ping(), [("there", true), ("gone", false)]);
    assert!(matches!(kind(&servers.clear()), Some(ErrorKind::Away)));
    assert!(fake.received()[0].ends_with(b"CLEAR\n"));
    drop(servers);
    Ok(())
}

#[test]
fn errors_as_misses() -> Result<(), Error> {
    let fake = Fake::start(&[Act::Replies(vec![b"VAL 1\n"])]);
    let (servers, theirs, its) = there_and_gone(&fake);
    let servers = servers.with_errors_as_misses();
    assert_eq!(servers.get(&its)?, None);
    assert!(!servers.has(&its)?);
    assert!(!servers.touch(&its)?);
    let told = servers.get_many(&[&its, &theirs])?;
    assert_eq!(told, [None, Some(b"1".to_vec())]);
    assert!(matches!(kind(&servers.load(&its)), Some(ErrorKind::Away)));
    assert!(matches!(
        kind(&servers.incr(&its, 1, None)),
        Some(ErrorKind::Away)
    ));
    drop(servers);
    Ok(())
}
