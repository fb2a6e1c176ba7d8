//! Processes made by `fork`.

use crate::fake::{Act, Fake};
use crate::{kind, OPTIONS, SHORT};
use bivrang::{Connection, Error, ErrorKind};
use std::thread;

extern "C" {
    fn fork() -> i32;
    fn waitpid(process: i32, status: *mut i32, options: i32) -> i32;
    fn _exit(status: i32) -> !;
}

/// Whether a call returns true in a child process.
fn in_child(call: impl FnOnce() -> bool) -> bool {
    // SAFETY: these are the C library's own signatures, and the child does nothing but the call.
    unsafe {
        let child = fork();
        if child == 0 {
            let told = std::panic::catch_unwind(std::panic::AssertUnwindSafe(call));
            _exit(if matches!(told, Ok(true)) { 0 } else { 1 });
        }
        let mut status = 0;
        assert_eq!(waitpid(child, &mut status, 0), child);
        status == 0
    }
}

#[test]
fn a_child_makes_a_connection_of_its_own() -> Result<(), Error> {
    let first = Act::Replies(vec![b"VAL of a\n", b"VAL later\n"]);
    let fake = Fake::start(&[first, Act::Replies(vec![b"VAL of b\n"])]);
    let pool = fake.pool();
    assert_eq!(pool.get("a")?, Some(b"of a".to_vec()));
    // One connection behind the other: the child's is served once the parent's has ended.
    thread::scope(|scope| {
        let child =
            scope.spawn(|| in_child(|| matches!(pool.get("b"), Ok(Some(told)) if told == b"of b")));
        thread::sleep(SHORT);
        assert_eq!(pool.get("c")?, Some(b"later".to_vec()));
        assert_eq!(pool.idle(), 1);
        pool.close_idle();
        assert!(child.join().expect("no panic"));
        Ok(())
    })?;
    assert_eq!(fake.received(), [&b"GET a\nGET c\n"[..], b"GET b\n"]);
    Ok(())
}

#[test]
fn a_single_connection_is_not_for_a_child() -> Result<(), Error> {
    let fake = Fake::start(&[Act::Replies(vec![b"VAL of a\n", b"VAL of b\n"])]);
    let mut connection = Connection::open(&fake.address, &OPTIONS)?;
    connection.get("a")?;
    let refused = in_child(|| {
        let told = connection.get("b");
        matches!(kind(&told), Some(ErrorKind::Spent)) && !connection.is_open()
    });
    assert!(refused);
    assert_eq!(connection.get("b")?, Some(b"of b".to_vec()));
    Ok(())
}
