"""Processes that share a client."""
import asyncio
import concurrent.futures
import copy
import multiprocessing
import pickle
import threading
import time

from support import HOST, PATIENCE, PATIENT, SHORT, Fake, FakeCase, Forked, RealCase
from support import free_port, replies
import bivrang
from bivrang import Connection, Server, Servers, aio


class ForkedWithServer(RealCase):
    """Processes that share a client of the real server, as `multiprocessing` and preloading web
    servers make them."""

    KEYS = [f"key-{number}" for number in range(100)]

    def warm(self, cache):
        """Stores each key as its own value, and leaves an idle connection behind."""
        cache.set_many({key: key for key in self.KEYS})

    def wrong(self, cache, turns):
        """How many of so many look-ups return another value than the key's."""
        keys = [self.KEYS[turn % len(self.KEYS)] for turn in range(turns)]
        return sum(cache.get(key) != key.encode() for key in keys)

    def test_fork(self):
        cache = self.client()
        self.warm(cache)
        children = [Forked(lambda: self.wrong(cache, 300) == 0) for _ in range(3)]
        self.assertEqual(self.wrong(cache, 300), 0)
        for child in children:
            self.assertEqual(child.status(), 0)

    def test_multiprocessing(self):
        cache = self.client()
        self.warm(cache)
        # A pool's functions are found by name, in each of its processes.
        global in_process
        in_process = lambda turns: self.wrong(cache, turns)  # noqa: E731
        with multiprocessing.get_context("fork").Pool(4) as pool:
            told = pool.map_async(run_in_process, [150] * 4, chunksize=1)
            self.assertEqual(told.get(PATIENCE), [0] * 4)
        self.assertEqual(self.wrong(cache, 100), 0)


class Pickled(RealCase):
    """Clients that another process gets as bytes."""

    def test_a_process_pool(self):
        cache = self.client()
        cache.set_many({"a": "1", "b": "2"})
        spawn = multiprocessing.get_context("spawn")
        with concurrent.futures.ProcessPoolExecutor(2, mp_context=spawn) as pool:
            self.assertEqual(list(pool.map(cache.get, "abc")), [b"1", b"2", None])
        self.assertEqual(cache.get("a"), b"1")

    def test_a_copy_has_the_settings_and_connects_anew(self):
        cache = self.client(connections=3, reply_seconds=41, wait_seconds=42, codec=bivrang.JSON)
        cache.set("a", [1])
        for made in (pickle.loads(pickle.dumps(cache)), copy.copy(cache), copy.deepcopy(cache)):
            self.addCleanup(made.close)
            self.assertEqual(len(made._idle), 0)
            for name in ("host", "port", "_connections", "_reply_seconds", "_wait_seconds"):
                self.assertEqual(getattr(made, name), getattr(cache, name))
            self.assertEqual(made.get("a"), [1])
            self.assertEqual((len(made._idle), len(cache._idle)), (1, 1))
            child = Forked(lambda it=made: not it._idle and it.get("a") == [1])
            self.assertEqual(child.status(), 0)

    def test_several_servers(self):
        places = [Server(HOST, self.server.ports[name]) for name in ("main", "timed")]
        servers = self.servers_of(*places, codec=bivrang.JSON, errors_as_misses=True)
        servers.clear()
        servers.set_many({"a": [1], "b": [2], "c": [3]})
        made = pickle.loads(pickle.dumps(servers))
        self.addCleanup(made.close)
        self.assertEqual(made.get_many("abcd".split("x")), {})
        self.assertEqual(made.get_many(["a", "b", "c"]), {"a": [1], "b": [2], "c": [3]})
        self.assertEqual([made.server_of(key) for key in "abc"], [*map(servers.server_of, "abc")])

    def test_a_server_that_was_left_alone_is_asked(self):
        servers = self.servers_of(Server(HOST, free_port()), retry_after=1000)
        with self.assertRaises(bivrang.ConnectFailed):
            servers.get("a")
        with self.assertRaises(bivrang.ServerAway):
            servers.get("a")
        made = pickle.loads(pickle.dumps(servers))
        self.addCleanup(made.close)
        with self.assertRaises(bivrang.ConnectFailed):
            made.get("a")

    def test_asyncio(self):
        cache = aio.Client(HOST, self.server.ports["main"], **PATIENT)
        self.client().set("a", "1")

        async def look():
            async with pickle.loads(pickle.dumps(cache)) as made:
                return await made.get("a"), await cache.get("a")

        self.assertEqual(asyncio.run(look()), (b"1", b"1"))
        cache.close()

    def test_what_is_closed_stays_so(self):
        cache = self.client()
        cache.close()
        with self.assertRaises(bivrang.PoolClosed):
            pickle.loads(pickle.dumps(cache)).get("a")

    def test_a_connection_is_of_one_process(self):
        for call in (pickle.dumps, copy.copy):
            with self.assertRaisesRegex(TypeError, "pickle or copy a Client"):
                call(self.connection())


def run_in_process(turns):
    """What `in_process` returns, in a process of a pool."""
    return in_process(turns)


class Forks(FakeCase):
    """What a child process does with what it inherits."""

    def test_a_child_makes_a_connection_of_its_own(self):
        fake = Fake(self, replies(b"VAL of a\n", b"VAL later\n"), replies(b"VAL of b\n"))
        # One server behind the other: the child's connection waits for the end of the parent's.
        cache = self.pool(fake)
        self.assertEqual(cache.get("a"), b"of a")
        child = Forked(lambda: cache.get("b") == b"of b")
        time.sleep(SHORT)
        self.assertEqual(cache.get("c"), b"later")
        cache.close()
        self.assertEqual(child.status(), 0)
        self.assertEqual(fake.received, [b"GET a\nGET c\n", b"GET b\n"])

    def test_several_servers(self):
        fake = Fake(self, replies(b"VAL of a\n"), replies(b"VAL of b\n"))
        with Servers([Server(HOST, fake.port)], reply_seconds=PATIENCE) as servers:
            self.assertEqual(servers.get("a"), b"of a")
            child = Forked(lambda: servers.get("b") == b"of b")
        self.assertEqual(child.status(), 0)
        self.assertEqual(fake.received, [b"GET a\n", b"GET b\n"])

    def test_a_single_connection_is_not_for_a_child(self):
        fake = Fake(self, replies(b"VAL of a\n", b"VAL of b\n"))

        def refuses():
            try:
                connection.get("b")
            except bivrang.ConnectionSpent as error:
                return not error.may_have_run and not connection.is_open

        with Connection(HOST, fake.port, reply_seconds=PATIENCE) as connection:
            self.assertEqual(connection.get("a"), b"of a")
            self.assertEqual(Forked(refuses).status(), 0)
            self.assertEqual(Forked(lambda: connection.close() is None).status(), 0)
            self.assertEqual(connection.get("b"), b"of b")

    def test_a_call_of_another_thread_is_not_of_the_child(self):
        asked, told = threading.Event(), threading.Event()

        def act(fake, link):
            fake.line(link)
            asked.set()
            told.wait(PATIENCE)
            link.sendall(b"VAL of a\n")
            link.close()

        fake = Fake(self, act, replies(b"VAL of b\n"))
        cache = self.pool(fake, connections=1, wait_seconds=SHORT)
        thread = threading.Thread(target=cache.get, args=("a",))
        thread.start()
        self.assertTrue(asked.wait(PATIENCE))
        # The only connection is in use, and a thread holds the lock: neither is so in the child.
        with cache._lock:
            child = Forked(lambda: cache.get("b") == b"of b")
        told.set()
        thread.join()
        self.assertEqual(child.status(), 0)
        self.assertEqual(fake.received, [b"GET a\n", b"GET b\n"])
