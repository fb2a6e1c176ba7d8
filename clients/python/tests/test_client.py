"""The client on the real server, and on fake ones that break their replies."""
import datetime
import math
import pickle
import socket
import threading
import time

from support import HOST, PATIENCE, PATIENT, SHORT, Fake, FakeAtPath, FakeCase, RealCase, RealServer
from support import free_port, read_all, read_all_or_reset
from support import replies, replies_and_ends, resets, trickles, wait_until
import bivrang
from bivrang import Connection, Held, Request, Server


class Commands(RealCase):
    def test_protocol_example(self):
        cache = self.client()
        self.assertIs(cache.set("a", "1"), True)
        self.assertIs(cache.set("a", "two words"), True)
        self.assertEqual(cache.get("a"), b"two words")
        self.assertIsNone(cache.delete("a"))
        self.assertIsNone(cache.get("a"))
        with self.assertRaisesRegex(bivrang.DeadlineError, "needs `deadlines = true`"):
            cache.set("a", "x", ttl=0.005)
        self.assertEqual(cache.incr("n", 2), 2)
        self.assertEqual(cache.incr("n", 40), 42)
        self.assertIs(cache.has("n"), True)
        self.assertIs(cache.set("nn", "x"), True)
        self.assertEqual(cache.keys(), [b"n", b"nn"])
        self.assertIsNone(cache.drop_if("nn"))
        self.assertIs(cache.has("nn"), False)
        self.assertIsNone(cache.clear())
        self.assertEqual(cache.sync(), Held(0, 0))

    def test_values_are_any_bytes_but_line_ends(self):
        cache = self.client()
        for value in [b"", b" ", b"  two  spaces  ", bytes(set(range(256)) - {10, 13}), b"VAL x"]:
            cache.set(b"key", value)
            self.assertEqual(cache.get(b"key"), value)
        cache.set("key", "dürer")
        self.assertEqual(cache.get("key"), "dürer".encode())

    def test_longest_keys_and_values(self):
        cache = self.client()
        for key in [b"a", b"k" * 250]:
            longest = b"x" * (8192 - len(b"SET  - ") - len(key))
            cache.set(key, longest)
            self.assertEqual(cache.get(key), longest)
            with self.assertRaises(bivrang.ValueRefused):
                cache.set(key, longest + b"x")
        self.assertEqual(len(longest), 7935)

    def test_deadlines(self):
        cache = self.client("timed")
        cache.set("long", "x", ttl=999_999_999.999)
        cache.set("short", "x", ttl=0.001)
        cache.incr("sum", 3, ttl=0.001)
        time.sleep(0.05)
        self.assertIsNone(cache.get("short"))
        self.assertEqual(cache.incr("sum", 4), 4)
        self.assertEqual(cache.get("long"), b"x")
        cache.set("none", "x", ttl=0)
        self.assertIs(cache.has("none"), False)

    def test_capacity_of_none(self):
        cache = self.client("zero")
        self.assertIs(cache.set("a", "1"), False)
        self.assertEqual(cache.set_many({"a": "1", "b": "2"}), ["a", "b"])
        self.assertIsNone(cache.incr("a", 1))
        self.assertIsNone(cache.get("a"))

    def test_loads(self):
        cache = self.client("loads")
        self.assertIsNone(cache.get("k"))
        self.assertEqual(cache.load("k"), b"found elsewhere")
        self.assertEqual(cache.get("k"), b"found elsewhere")
        self.assertEqual(cache.load("long"), b"x" * 8192)
        self.assertIsNone(cache.load("another"))

    def test_numbers(self):
        cache = self.client()
        cache.set("n", "18446744073709551614")
        self.assertEqual(cache.incr("n", 1), 2**64 - 1)
        with self.assertRaises(bivrang.NumberError):
            cache.incr("n", 1)
        cache.set("n", "no number")
        with self.assertRaises(bivrang.NumberError):
            cache.incr("n", 1)
        self.assertEqual(cache.get("n"), b"no number")
        self.assertEqual(cache.incr("other", 2**64 - 1), 2**64 - 1)

    def test_defaults(self):
        cache = self.client()
        self.assertEqual(cache.get("a", b"none"), b"none")
        self.assertEqual(cache.get("a", default=0), 0)
        self.assertEqual(cache.incr("n"), 1)
        self.assertEqual(cache.get("n", 0), b"1")
        self.assertEqual(cache.pipeline([Request.get("a", 0), Request.get("n", 0)]), [0, b"1"])

    def test_many_at_once(self):
        cache = self.client("timed")
        self.assertEqual(cache.set_many({"a": "1", "b": b"2"}, ttl=1000), [])
        self.assertEqual(cache.set_many({b"c": ""}), [])
        self.assertEqual(cache.get_many(["b", "nothing", "a"]), {"b": b"2", "a": b"1"})
        self.assertEqual(cache.get_many(iter([b"c"])), {b"c": b""})
        self.assertEqual(cache.get_many([]), {})
        self.assertIsNone(cache.delete_many(iter(["a", "nothing"])))
        self.assertIsNone(cache.delete_many([]))
        self.assertEqual(cache.get_many(["a", "b"]), {"b": b"2"})
        self.assertEqual(cache.set_many({}), [])
        with self.assertRaises(bivrang.DeadlineError):
            self.client().set_many({"a": "1"}, ttl=1000)

    def test_touch(self):
        cache = self.client("small")
        cache.set("a", "1")
        cache.set("b", "2")
        # (a use before maintenance has taken the value in does not count)
        cache.sync()
        self.assertIs(cache.touch("a"), True)
        self.assertIs(cache.touch("c"), False)
        # Of two values the one that was used least recently leaves.
        cache.set("c", "3")
        cache.sync()
        self.assertEqual(cache.keys(), [b"a", b"c"])
        both = [Request.touch("a"), Request.touch("b")]
        self.assertEqual(cache.pipeline(both), [True, False])

    def test_ping(self):
        cache = self.client()
        self.assertIs(cache.ping(), True)
        cache.set("ping", "1")
        self.assertIs(cache.ping(), True)

    def test_codecs(self):
        for codec, value in [
            (bivrang.JSON, {"lines": ["1\n", "2\r\n", "\u2028"], "n": 0.5, "none": None}),
            (bivrang.BASE64, bytes(range(256))),
        ]:
            text = self.client()
            cache = self.made(self.server.ports["main"], codec=codec)
            cache.set("a", value)
            self.assertEqual(cache.get("a"), value)
            self.assertEqual(cache.load("a"), value)
            self.assertEqual(cache.get_many(["a", "b"]), {"a": value})
            both = [Request.set("b", value), Request.get("b"), Request.get("c", 0)]
            self.assertEqual(cache.pipeline(both), [True, value, 0])
            text.set("b", 'no code"')
            told = cache.pipeline([Request.get("b"), Request.get("a")])
            self.assertIsInstance(told[0], bivrang.DecodeError)
            place = (HOST, self.server.ports["main"], b"b")
            self.assertEqual((told[0].host, told[0].port, told[0].key, told[1]), (*place, value))
            for call in (cache.get, cache.load, lambda key: cache.get_many(["a", key])):
                with self.assertRaises(bivrang.DecodeError):
                    call("b")
            self.assertEqual(len(cache._idle), 1)

    def test_json_has_none_and_numbers(self):
        cache = self.made(self.server.ports["main"], codec=bivrang.JSON)
        cache.set("none", None)
        self.assertIsNone(cache.get("none", 0))
        self.assertEqual(cache.get_many(["none", "miss"]), {"none": None})
        cache.set("n", 41)
        self.assertEqual(cache.incr("n"), 42)
        self.assertEqual(cache.get("n"), 42)

    def test_a_codec_of_ones_own(self):
        class Hexadecimal:
            def encode(self, value):
                return value.hex().encode()

            def decode(self, stored):
                return bytes.fromhex(stored.decode())

        cache = self.made(self.server.ports["main"], codec=Hexadecimal())
        cache.set("a", b"\n\r")
        self.assertEqual(cache.get("a"), b"\n\r")

    def test_weights(self):
        cache = self.client("bytes")
        cache.set("a", "12345")
        cache.set("b", "123")
        self.assertEqual(cache.sync(), Held(2, 8))

    def test_notices(self):
        cache = self.client("small")
        # What an earlier test left is told late, but before this.
        cache.set("last", "x")
        cache.delete("last")
        while self.server.notices("small", 1) != [b"small NOTE Explicit last x\n"]:
            pass
        cache.set("a", "1")
        cache.set("a", "2")
        cache.delete("a")
        told = [b"small NOTE Replaced a 1\n", b"small NOTE Explicit a 2\n"]
        self.assertEqual(self.server.notices("small", 2), told)
        for key in "bcd":
            cache.set(key, "of " + key)
        cache.sync()
        self.assertEqual(self.server.notices("small", 1), [b"small NOTE Size b of b\n"])

    def test_many_keys(self):
        cache = self.client()
        keys = [b"key-%05d" % number for number in range(2000)]
        self.assertEqual(cache.pipeline(Request.set(key, "x") for key in keys), [True] * len(keys))
        self.assertEqual(cache.keys(), keys)
        cache.drop_if("key-000")
        self.assertEqual(cache.keys(), keys[100:])

    def test_quit(self):
        connection = self.connection()
        connection.set("a", "1")
        connection.quit()
        self.assertFalse(connection.is_open)
        with self.assertRaises(bivrang.ConnectionSpent) as caught:
            connection.get("a")
        self.assertFalse(caught.exception.may_have_run)


class Pipelines(RealCase):
    def test_errors_stand_in_their_places(self):
        cache = self.client()
        told = cache.pipeline(
            [
                Request.set("a", "1"),
                Request.set("a", "1", ttl=0.005),
                Request.has("b"),
                Request.incr("a", 4),
                Request.keys(),
                Request.sync(),
                Request.load("c"),
                Request.drop_if("a"),
                Request.clear(),
                Request.delete("a"),
                Request.get("a"),
            ]
        )
        self.assertIsInstance(told.pop(1), bivrang.DeadlineError)
        expected = [True, False, 5, [b"a"], Held(1, 1), None, None, None, None, None]
        self.assertEqual(told, expected)

    def test_none(self):
        self.assertEqual(self.client().pipeline([]), [])

    def test_long_replies(self):
        cache = self.client()
        value = b"y" * 8000
        cache.set("a", value)
        self.assertEqual(cache.pipeline([Request.get("a")] * 2000), [value] * 2000)

    def test_long_requests(self):
        cache = self.client()
        requests = [Request.set(b"k%d" % number, b"z" * 8000) for number in range(1000)]
        self.assertEqual(cache.pipeline(requests), [True] * 1000)
        self.assertEqual(cache.sync().values, 1000)

    def test_loads_in_a_pipeline(self):
        cache = self.client("loads")
        requests = [Request.load("k"), Request.get("k"), Request.delete("k"), Request.load("none")]
        expected = [b"found elsewhere", b"found elsewhere", None, None]
        self.assertEqual(cache.pipeline(requests * 500), expected * 500)


class Pools(RealCase):
    def test_threads_share_a_pool(self):
        cache = self.client(connections=3, wait_seconds=PATIENCE)
        wrong = []

        def work(number):
            for turn in range(100):
                cache.set(f"k{number}", f"{number} {turn}")
                if cache.get(f"k{number}") != f"{number} {turn}".encode():
                    wrong.append((number, turn))
                cache.incr("all", 1)

        threads = [threading.Thread(target=work, args=(number,)) for number in range(8)]
        for thread in threads:
            thread.start()
        for thread in threads:
            thread.join()
        self.assertEqual(wrong, [])
        self.assertEqual(cache.get("all"), b"800")
        self.assertLessEqual(len(cache._idle), 3)

    def test_closed(self):
        cache = self.client()
        cache.close()
        with self.assertRaises(bivrang.PoolClosed):
            cache.get("a")

    def test_server_that_begins_anew(self):
        own = RealServer({"main": "capacity = 10"})
        self.addCleanup(own.stop)
        cache = self.made(own.ports["main"])
        cache.set("a", "1")
        own.end()
        with self.assertRaises(bivrang.ConnectFailed):
            cache.get("a")
        self.assertTrue(own.start())
        self.assertIs(cache.set("b", "2"), True)
        self.assertEqual(cache.pipeline([Request.get("a"), Request.get("b")]), [None, b"2"])


class ServerItself(RealCase):
    """What docs/PROTOCOL.md says of bytes, without a client."""

    def test_half_close(self):
        link = self.raw()
        link.sendall(b"SET a - 1\nGET a\nGET")
        link.shutdown(socket.SHUT_WR)
        self.assertEqual(read_all(link), b"OK\nVAL 1\n")

    def test_half_close_with_long_replies(self):
        link = self.raw()
        link.sendall(b"SET a - " + b"x" * 8000 + b"\n" + b"GET a\n" * 2000)
        link.shutdown(socket.SHUT_WR)
        self.assertEqual(read_all(link), b"OK\n" + (b"VAL " + b"x" * 8000 + b"\n") * 2000)

    def test_half_close_behind_a_load(self):
        self.client("loads")
        link = self.raw("loads")
        link.sendall(b"LOAD k\nLOAD none\nHAS k\n")
        link.shutdown(socket.SHUT_WR)
        self.assertEqual(read_all(link), b"VAL found elsewhere\nNONE\nYES\n")

    def test_longest_line(self):
        longest = b"SET a - " + b"x" * 8184
        for line, told in [
            (longest + b"\n", b"OK\n"),
            (longest[:-1] + b"\r\n", b"OK\n"),
            (longest + b"\r\n", b""),
            (longest + b"x\n", b""),
        ]:
            link = self.raw()
            link.sendall(b"HAS nothing\n" + line + b"QUIT\n")
            wanted = b"NO\n" + told + (b"OK\n" if told else b"")
            self.assertEqual(read_all_or_reset(link), wanted)

    def test_errors(self):
        rows = [
            (b"get a", b"ERR command"),
            (b"", b"ERR command"),
            (b"GET", b"ERR syntax"),
            (b"GET  a", b"ERR syntax"),
            (b"GET a b", b"ERR syntax"),
            (b"SET a -", b"ERR syntax"),
            (b"SET a - x\ry", b"ERR syntax"),
            (b"GET " + b"k" * 251, b"ERR syntax"),
            (b"SET a 1x y", b"ERR deadline"),
            (b"SET a 5 y", b"ERR deadline"),
            (b"ADD a - -1", b"ERR number"),
            (b"ADD a - 18446744073709551616", b"ERR number"),
        ]
        link = self.raw()
        link.sendall(b"".join(line + b"\n" for line, _ in rows) + b"QUIT\n")
        wanted = b"".join(reply + b"\n" for _, reply in rows) + b"OK\n"
        self.assertEqual(read_all(link), wanted)


# Fake servers.


NO_REPLY = replies_and_ends(b"")

TWO_READS = [Request.get("a"), Request.has("a")]

READS = [
    (lambda cache: cache.get("a"), b"VAL x\n", b"x"),
    (lambda cache: cache.has("a"), b"YES\n", True),
    (lambda cache: cache.keys(), b"KEYS 1\na\n", [b"a"]),
    (lambda cache: cache.touch("a"), b"VAL x\n", True),
    (lambda cache: cache.ping(), b"NO\n", True),
    (lambda cache: cache.get_many(["a", "b"]), b"VAL x\nNONE\n", {"a": b"x"}),
    (lambda cache: cache.pipeline(TWO_READS), b"NONE\nNO\n", [None, False]),
]

OTHERS = [
    lambda cache: cache.set("a", "1"),
    lambda cache: cache.load("a"),
    lambda cache: cache.delete("a"),
    lambda cache: cache.incr("a", 1),
    lambda cache: cache.clear(),
    lambda cache: cache.drop_if("a"),
    lambda cache: cache.sync(),
    lambda cache: cache.set_many({"a": "1", "b": "2"}),
    lambda cache: cache.delete_many(["a", "b"]),
    lambda cache: cache.pipeline([Request.get("a"), Request.delete("a")]),
]


class Retries(FakeCase):
    def test_reads_are_sent_once_more(self):
        for call, reply, result in READS:
            for breaks in (NO_REPLY, resets):
                fake = Fake(self, breaks, replies(reply))
                self.assertEqual(call(self.pool(fake)), result)
                self.assertEqual(len(fake.received), 2)
                self.assertEqual(fake.received[0], fake.received[1])

    def test_reads_are_sent_twice_at_most(self):
        for call, _, _ in READS:
            fake = Fake(self, NO_REPLY, NO_REPLY, replies(b"NONE\n"))
            self.fails(bivrang.ConnectionBroken, call, fake)
            self.assertEqual(len(fake.received), 2)

    def test_reads_with_half_a_reply_are_not_sent_again(self):
        for call, reply, _ in READS:
            fake = Fake(self, replies_and_ends(reply[:-1]), replies(reply))
            error = self.fails(bivrang.ConnectionBroken, call, fake)
            self.assertTrue(error.has_reply_begun)
            self.assertEqual(len(fake.received), 1)

    def test_others_are_never_sent_again(self):
        for call in OTHERS:
            fake = Fake(self, NO_REPLY, replies(b"OK\n"))
            error = self.fails(bivrang.ConnectionBroken, call, fake)
            self.assertTrue(error.may_have_run)
            self.assertFalse(error.has_reply_begun)
            self.assertEqual(len(fake.received), 1)

    def test_a_long_pipeline_of_reads_with_replies_is_not_sent_again(self):
        def act(fake, link):
            while fake.received[-1].count(b"\n") < 64:
                fake.line(link)
            link.sendall(b"NONE\n" * 64)

        # A window holds 64 of them; the connection breaks in the second, the last or not.
        for count in (100, 200):
            requests = [Request.get("k" * 250)] * count
            fake = Fake(self, act, replies(b"NONE\n"))
            self.fails(bivrang.ConnectionBroken, lambda cache: cache.pipeline(requests), fake)
            self.assertEqual(len(fake.received), 1)

    def test_a_connection_that_ended_while_idle_is_not_used(self):
        fake = Fake(self, replies_and_ends(b"OK\n"), replies(b"OK\n"))
        cache = self.pool(fake)
        cache.set("a", "1")
        wait_until(lambda: not cache._idle[0].is_quiet())
        cache.set("a", "2")
        self.assertEqual(fake.received, [b"SET a - 1\n", b"SET a - 2\n"])


class Paths(FakeCase):
    def test_path_of_a_unix_socket(self):
        fake = FakeAtPath(self, replies(b"OK\n", b"VAL 1\n"), replies(b"ERR number\n"))
        cache = self.make(fake.path, **PATIENT)
        self.addCleanup(cache.close)
        cache.set("a", "1")
        self.assertEqual(cache.get("a"), b"1")
        self.assertEqual(fake.received, [b"SET a - 1\nGET a\n"])
        self.assertIn(f"<Client {fake.path}, 1 idle", repr(cache))
        cache._idle.pop().close()
        with self.assertRaisesRegex(bivrang.ServerError, f"server {fake.path}\\)"):
            cache.incr("a", 1)

    def test_path_at_which_nobody_listens(self):
        cache = self.make("/nowhere/socket", **PATIENT)
        self.addCleanup(cache.close)
        with self.assertRaisesRegex(bivrang.ConnectFailed, "server /nowhere/socket"):
            cache.get("a")


class BrokenReplies(FakeCase):
    def test_no_replies_of_the_protocol(self):
        rows = [
            (lambda cache: cache.get("a"), b"OK\n"),
            (lambda cache: cache.get("a"), b"VAL\n"),
            (lambda cache: cache.get("a"), b"\n"),
            (lambda cache: cache.get("a"), b"ERR\n"),
            (lambda cache: cache.set("a", "1"), b"ok\n"),
            (lambda cache: cache.set("a", "1"), b"OK\r\n"),
            (lambda cache: cache.has("a"), b"MAYBE\n"),
            (lambda cache: cache.incr("a", 1), b"VAL x\n"),
            (lambda cache: cache.incr("a", 1), b"VAL -1\n"),
            (lambda cache: cache.incr("a", 1), b"NONE\n"),
            (lambda cache: cache.keys(), b"KEYS\n"),
            (lambda cache: cache.keys(), b"KEYS x\n"),
            (lambda cache: cache.keys(), b"KEYS 1\ntwo words\n"),
            (lambda cache: cache.sync(), b"SYNC 1\n"),
            (lambda cache: cache.sync(), b"SYNC 1 2 3\n"),
            (lambda cache: cache.sync(), b"SYNC 1  2\n"),
            (lambda cache: cache.delete("a"), b"NONE\n"),
            (lambda cache: cache.get("a"), b"VAL " + b"x" * 20_000),
        ]
        for call, reply in rows:
            error = self.fails(bivrang.BadReply, call, Fake(self, replies(reply)))
            self.assertTrue(error.may_have_run)

    def test_each_error(self):
        rows = [
            (b"ERR command\n", bivrang.CommandError),
            (b"ERR syntax\n", bivrang.LineError),
            (b"ERR deadline\n", bivrang.DeadlineError),
            (b"ERR number\n", bivrang.NumberError),
            (b"ERR id\n", bivrang.IdentifiersError),
            (b"ERR abandoned\n", bivrang.LoadAbandoned),
            (b"ERR load the cause\n", bivrang.LoadFailed),
            (b"ERR load \n", bivrang.LoadFailed),
            (b"ERR something else\n", bivrang.ServerError),
        ]
        fake = Fake(self, replies(*[reply for reply, _ in rows]))
        cache = self.pool(fake)
        causes = []
        for reply, kind in rows:
            with self.assertRaises(bivrang.ServerError) as caught:
                cache.load("a")
            self.assertIs(type(caught.exception), kind)
            self.assertEqual(caught.exception.reply, reply[:-1])
            causes.append(getattr(caught.exception, "cause", None))
        self.assertEqual(causes, [None] * 6 + [b"the cause", b"", None])
        self.assertEqual(len(fake.received), 1)

    def test_keys_that_end_too_early(self):
        fake = Fake(self, replies_and_ends(b"KEYS 3\na\nb\n"))
        error = self.fails(bivrang.ConnectionBroken, lambda cache: cache.keys(), fake)
        self.assertTrue(error.has_reply_begun)

    def test_bytes_that_nobody_asked_for(self):
        fake = Fake(self, replies(b"VAL mine\nVAL stray\n"), replies(b"VAL next\n"))
        cache = self.pool(fake)
        self.assertEqual(cache.get("a"), b"mine")
        wait_until(lambda: not cache._idle[0].is_quiet())
        self.assertEqual(cache.get("b"), b"next")
        self.assertEqual(fake.received, [b"GET a\n", b"GET b\n"])

    def test_bytes_that_nobody_asked_for_on_one_connection(self):
        fake = Fake(self, replies(b"VAL mine\nVAL stray\n", b"VAL next\n"))
        with Connection(HOST, fake.port, reply_seconds=PATIENCE) as connection:
            self.assertEqual(connection.get("a"), b"mine")
            with self.assertRaises(bivrang.BadReply):
                connection.get("b")
            self.assertFalse(connection.is_open)
        fake.end()
        self.assertEqual(fake.received, [b"GET a\n"])

    def test_replies_in_pieces(self):
        def act(fake, link):
            fake.line(link)
            for byte in b"KEYS 2\na\nb\n":
                link.sendall(bytes([byte]))
                time.sleep(0.005)
            fake.line(link)

        fake = Fake(self, act)
        self.assertEqual(self.pool(fake).keys(), [b"a", b"b"])


class TimeLimits(FakeCase):
    def test_no_reply(self):
        for act in (replies(b""), replies(b"VAL hal"), trickles):
            fake = Fake(self, act)
            start = time.monotonic()
            error = self.fails(
                bivrang.ReplyTimeout, lambda cache: cache.get("a"), fake, reply_seconds=SHORT
            )
            self.assertTrue(SHORT <= time.monotonic() - start < PATIENCE)
            self.assertTrue(error.may_have_run)
            # (it may see the connection late)
            wait_until(lambda: fake.received == [b"GET a\n"])

    def test_a_late_reply_is_never_seen(self):
        fake = Fake(self, replies(b""), replies(b"VAL of b\n"))
        cache = self.pool(fake, reply_seconds=SHORT)
        with self.assertRaises(bivrang.ReplyTimeout):
            cache.get("a")
        cache._reply_seconds = PATIENCE
        self.assertEqual(cache.get("b"), b"of b")

    def test_connecting(self):
        with socket.socket() as listener:
            listener.bind((HOST, 0))
            listener.listen(0)
            waiting = []
            for _ in range(8):
                link = socket.socket()
                link.setblocking(False)
                link.connect_ex(listener.getsockname())
                waiting.append(link)
            time.sleep(SHORT)
            with self.assertRaises(bivrang.ConnectTimeout) as caught:
                Connection(HOST, listener.getsockname()[1], connect_seconds=SHORT)
            self.assertFalse(caught.exception.may_have_run)
            for link in waiting:
                link.close()

    def test_nobody_listens(self):
        with self.assertRaises(bivrang.ConnectFailed) as caught:
            self.made(free_port()).get("a")
        self.assertNotIsInstance(caught.exception, bivrang.ConnectTimeout)

    def test_all_connections_in_use(self):
        asked, go_on = threading.Event(), threading.Event()

        def act(fake, link):
            fake.line(link)
            asked.set()
            go_on.wait(PATIENCE)
            link.sendall(b"NONE\n")
            fake.line(link)
            link.sendall(b"VAL later\n")
            fake.line(link)

        cache = self.pool(Fake(self, act), connections=1, wait_seconds=SHORT)
        thread = threading.Thread(target=cache.get, args=("a",))
        thread.start()
        self.assertTrue(asked.wait(PATIENCE))
        with self.assertRaises(bivrang.PoolTimeout):
            cache.get("b")
        go_on.set()
        thread.join()
        self.assertEqual(cache.get("c"), b"later")

    def test_limits_are_above_nothing(self):
        for limit in (0, -1, float("inf"), float("nan")):
            with self.assertRaises(ValueError):
                self.make(reply_seconds=limit)
        with self.assertRaises(ValueError):
            self.make(connections=0)


class Arguments(FakeCase):
    def test_nothing_is_sent(self):
        rows = [
            (bivrang.KeyRefused, lambda cache: cache.get("")),
            (bivrang.KeyRefused, lambda cache: cache.get("two words")),
            (bivrang.KeyRefused, lambda cache: cache.get("k" * 251)),
            (bivrang.KeyRefused, lambda cache: cache.has("dürer")),
            (bivrang.KeyRefused, lambda cache: cache.delete(b"a\n")),
            (bivrang.KeyRefused, lambda cache: cache.load(b"\x7f")),
            (bivrang.KeyRefused, lambda cache: cache.drop_if("")),
            (bivrang.KeyRefused, lambda cache: cache.set("a b", "1")),
            (bivrang.KeyRefused, lambda cache: cache.incr("a\tb", 1)),
            (bivrang.ValueRefused, lambda cache: cache.set("a", "1\nCLEAR")),
            (bivrang.ValueRefused, lambda cache: cache.set("a", b"1\r")),
            (bivrang.ValueRefused, lambda cache: cache.set("a", "x" * 8185)),
            (bivrang.ValueRefused, lambda cache: cache.set("a", "\ud800")),
            (bivrang.DeadlineRefused, lambda cache: cache.set("a", "1", ttl=-0.001)),
            (bivrang.DeadlineRefused, lambda cache: cache.set("a", "1", ttl=10**9)),
            (bivrang.DeadlineRefused, lambda cache: cache.incr("a", 1, ttl=-0.001)),
            (bivrang.NumberRefused, lambda cache: cache.incr("a", -1)),
            (bivrang.NumberRefused, lambda cache: cache.incr("a", 2**64)),
            (bivrang.KeyRefused, lambda cache: cache.touch("")),
            (bivrang.KeyRefused, lambda cache: cache.get_many(["a", ""])),
            (bivrang.KeyRefused, lambda cache: cache.delete_many(["a", ""])),
            (TypeError, lambda cache: cache.get(5)),
            (TypeError, lambda cache: cache.get_many(5)),
            (TypeError, lambda cache: cache.get_many([5])),
            (TypeError, lambda cache: cache.set("a", 5)),
            (TypeError, lambda cache: cache.set("a", "1", ttl="1")),
            (TypeError, lambda cache: cache.incr("a", 0.5)),
        ]
        fake = Fake(self, replies())
        cache = self.pool(fake)
        for kind, call in rows:
            with self.assertRaises(kind) as caught:
                call(cache)
            self.assertIs(type(caught.exception), kind)
        self.assertEqual(fake.received, [])


class Lives(FakeCase):
    """Times to live, and what the old names of arguments and calls do."""

    def sent(self, *calls):
        """The lines of calls."""
        fake = Fake(self, replies(*[b"OK\n"] * len(calls)))
        cache = self.pool(fake)
        for call in calls:
            call(cache)
        return fake.received[0].decode().splitlines()

    def test_seconds_and_timedeltas(self):
        lives = [60, 1.5, 1.001, 0.07, 0.0001, 0, datetime.timedelta(days=1, microseconds=1), None]
        told = self.sent(*[lambda cache, ttl=ttl: cache.set("a", "x", ttl=ttl) for ttl in lives])
        words = ["60000", "1500", "1001", "70", "1", "0", "86400001", "-"]
        self.assertEqual(told, [f"SET a {word} x" for word in words])

    def test_out_of_range(self):
        cache = self.made(free_port())
        for ttl in (-0.001, 10**9, 10**30, math.nan, math.inf, datetime.timedelta(days=-1)):
            with self.assertRaises(bivrang.DeadlineRefused):
                cache.set("a", "x", ttl=ttl)
            with self.assertRaises(bivrang.DeadlineRefused):
                cache.incr("a", ttl=ttl)


class OldNames(FakeCase):
    def test_they_work_and_warn(self):
        fake = Fake(self, replies(b"OK\n", b"VAL 3\n", b"VAL 6\n", b"OK\nVAL 9\n"))
        cache = self.pool(fake)
        calls = [
            lambda: cache.set("a", "x", 1500),
            lambda: cache.add("n", 3),
            lambda: cache.add("n", 3, milliseconds=5),
            lambda: cache.pipeline([Request.set("a", "x", 10**12 - 1), Request.add("n", 3, 5)]),
        ]
        for call in calls:
            with self.assertWarns(DeprecationWarning) as caught:
                call()
            self.assertEqual(caught.filename, __file__)
        lines = b"SET a 1500 x\nADD n - 3\nADD n 5 3\nSET a 999999999999 x\nADD n 5 3\n"
        self.assertEqual(fake.received, [lines])

    def test_what_was_refused_is_refused(self):
        cache = self.made(free_port())
        for milliseconds in (-1, 10**12, 10**40, -(10**40)):
            with self.assertRaises(bivrang.DeadlineRefused), self.assertWarns(DeprecationWarning):
                cache.set("a", "x", milliseconds=milliseconds)
        for arguments in ({"milliseconds": 0.5}, {"milliseconds": 5, "ttl": 5}):
            with self.assertRaises(TypeError), self.assertWarns(DeprecationWarning):
                cache.set("a", "x", **arguments)


class Items(FakeCase):
    """A client as a mapping."""

    def test_key_in_client(self):
        fake = Fake(self, replies(b"YES\n", b"NO\n"))
        cache = self.pool(fake)
        self.assertTrue("a" in cache)
        self.assertFalse(b"b" in cache)
        self.assertEqual(fake.received, [b"HAS a\nHAS b\n"])

    def test_items(self):
        fake = Fake(self, replies(b"OK\n", b"VAL 1\n", b"OK\n", b"NONE\n"))
        cache = self.pool(fake)
        cache["a"] = "1"
        self.assertEqual(cache["a"], b"1")
        del cache[b"a"]
        with self.assertRaises(KeyError) as caught:
            cache["a"]
        self.assertEqual(caught.exception.args, ("a",))
        self.assertEqual(fake.received, [b"SET a - 1\nGET a\nDEL a\nGET a\n"])

    def test_a_stored_none_is_an_item(self):
        cache = self.pool(Fake(self, replies(b"VAL null\n")), codec=bivrang.JSON)
        self.assertIsNone(cache["a"])

    def test_it_is_no_sequence(self):
        with self.assertRaisesRegex(TypeError, "not iterable"):
            iter(self.made(free_port()))


class Urls(FakeCase):
    """Clients made from URLs."""

    def settings(self, url):
        """What the client of a URL is made with, as far as it is not the default."""
        cache, plain = self.from_url(url), self.make()
        names = ("host", "port", "_connections", "_connect_seconds", "_reply_seconds")
        told = {name: getattr(cache, name) for name in (*names, "_wait_seconds")}
        return {name: value for name, value in told.items() if value != getattr(plain, name)}

    def test_urls(self):
        rows = {
            "bivrang://": {},
            "bivrang://127.0.0.1:7411/": {},
            "bivrang://cache.example": {"host": "cache.example"},
            "bivrang://:7412": {"port": 7412},
            "bivrang://[::1]:7412": {"host": "::1", "port": 7412},
            "bivrang:///run/bivrangd/a%20b": {"host": "/run/bivrangd/a b"},
            "bivrang://h?connections=2&wait_seconds=3": {
                "host": "h",
                "_connections": 2,
                "_wait_seconds": 3.0,
            },
            "bivrang:///s?connect_seconds=0.5&reply_seconds=1e1": {
                "host": "/s",
                "_connect_seconds": 0.5,
                "_reply_seconds": 10.0,
            },
        }
        for url, wanted in rows.items():
            self.assertEqual(self.settings(url), wanted, url)

    def test_other_texts(self):
        rows = [
            ("127.0.0.1:7411", "neither"),
            ("redis://h", "neither"),
            ("bivrang:h", "neither"),
            ("bivrang://user@h", "neither"),
            ("bivrang://h/0", "neither"),
            ("bivrang://h#a", "neither"),
            ("bivrang://h:x", "x"),
            ("bivrang://h:65536", "65535"),
            ("bivrang://h?conections=2", "a setting 'conections'; there are connections,"),
            ("bivrang://h?connections", "connections"),
            ("bivrang://h?connections=x", "'x'"),
            ("bivrang://h?connections=0", "at least one"),
            ("bivrang://h?reply_seconds=0", "above 0"),
        ]
        for url, text in rows:
            with self.assertRaises(ValueError) as caught:
                self.from_url(url)
            self.assertIn(text, str(caught.exception), url)

    def test_a_url_of_a_server(self):
        fake = Fake(self, replies(b"OK\n", b"VAL [1]\n"))
        url = f"bivrang://{HOST}:{fake.port}?reply_seconds={PATIENCE}"
        cache = self.from_url(url, codec=bivrang.JSON)
        self.addCleanup(cache.close)
        cache.set("a", [1])
        self.assertEqual(cache.get("a"), [1])
        self.assertEqual(fake.received, [b"SET a - [1]\nGET a\n"])


class Texts(FakeCase):
    """What errors and representations say."""

    def test_errors_name_server_and_key(self):
        reading = lambda cache: cache.pipeline([Request.get("a"), Request.get("b")])  # noqa: E731
        rows = [
            (replies(b"ERR number\n"), lambda cache: cache.incr("n"), b"n"),
            (replies(b"OK\n"), lambda cache: cache.get("a"), b"a"),
            (replies(b"NONE\nOK\n"), reading, b"b"),
            (replies_and_ends(b"NONE\n"), reading, b"b"),
            (replies_and_ends(b""), lambda cache: cache.set("a", "x"), b"a"),
            (replies_and_ends(b""), lambda cache: cache.clear(), None),
        ]
        for act, call, key in rows:
            fake = Fake(self, act)
            with self.assertRaises(bivrang.BivrangError) as caught:
                call(self.pool(fake))
            self.says(caught.exception, fake.port, key)

    def test_errors_without_a_connection(self):
        port = free_port()
        with self.assertRaises(bivrang.ConnectFailed) as caught:
            self.made(port).get("a")
        self.says(caught.exception, port, b"a")
        cache = self.made(port)
        cache.close()
        with self.assertRaises(bivrang.PoolClosed) as caught:
            cache.get("a")
        self.says(caught.exception, port, b"a")

    def test_arguments_name_the_server(self):
        port = free_port()
        cache = self.made(port)
        rows = [
            (lambda: cache.get("two words"), None),
            (lambda: cache.get_many(["a", "two words"]), None),
            (lambda: cache.drop_if(""), None),
            (lambda: cache.set("a", "1\n"), b"a"),
            (lambda: cache.set_many({"a": "1", "b": "1\n"}), b"b"),
            (lambda: cache.set("a", "1", ttl=-1), b"a"),
            (lambda: cache.incr("a", -1), b"a"),
            (lambda: cache.pipeline([Request.set("a", "1\n")]), b"a"),
            (lambda: cache.pipeline(Request.get(key) for key in ["a", ""]), None),
        ]
        for call, key in rows:
            with self.assertRaises(bivrang.ArgumentError) as caught:
                call()
            self.says(caught.exception, port, key)

    def test_wrong_types_are_named(self):
        cache = self.made(free_port())
        rows = [
            (lambda: cache.get(5), "a key is text or bytes, not int"),
            (lambda: cache.get(None), "not NoneType"),
            (lambda: cache.get_many("abc"), "'abc' is one"),
            (lambda: cache.get_many(b"abc"), "b'abc' is one"),
            (lambda: cache.delete_many("abc"), "'abc' is one"),
            (lambda: cache.set_many([("a", "1")]), r"a dictionary or the like, not \[\('a'"),
            (lambda: cache.pipeline(["GET a"]), r"Request.get\(key\), not 'GET a'"),
        ]
        for call, text in rows:
            with self.assertRaisesRegex(TypeError, text):
                call()

    def says(self, error, port, key):
        self.assertEqual((error.host, error.port, error.key), (HOST, port, key))
        place = f"server {HOST}:{port})"
        ending = place if key is None else f"(key {key.decode()}, {place}"
        self.assertTrue(str(error).endswith(ending), str(error))

    def test_refused_values_name_key_limit_and_cure(self):
        cache = self.made(free_port())
        rows = [
            ("x" * 8185, ["key a", "8185 bytes", "8184", "compress"]),
            ("1\n", ["key a", "line end", "JSON", "BASE64"]),
        ]
        for value, words in rows:
            with self.assertRaises(bivrang.ValueRefused) as caught:
                cache.set("a", value)
            for word in words:
                self.assertIn(word, str(caught.exception))
        with self.assertRaises(bivrang.ValueRefused) as caught:
            self.made(free_port(), codec=bivrang.BASE64).set("a", "x" * 6139)
        self.assertIn("8188 bytes", str(caught.exception))
        with self.assertRaises(bivrang.KeyRefused) as caught:
            cache.get("two words")
        self.assertIn("'two words'", str(caught.exception))
        with self.assertRaisesRegex(TypeError, "not int: give the client a codec"):
            cache.set("a", 5)

    def test_errors_pass_between_processes(self):
        fake = Fake(self, replies(b"ERR load the cause\n"), replies_and_ends(b"VAL"))
        cache = self.pool(fake)
        with self.assertRaises(bivrang.LoadFailed) as caught:
            cache.load("a")
        told = pickle.loads(pickle.dumps(caught.exception))
        self.assertEqual(
            (type(told), told.cause, told.key), (bivrang.LoadFailed, b"the cause", b"a")
        )
        cache._idle.pop().close()
        with self.assertRaises(bivrang.ConnectionBroken) as caught:
            cache.get("a")
        told = pickle.loads(pickle.dumps(caught.exception))
        self.assertEqual((told.has_reply_begun, str(told)), (True, str(caught.exception)))

    def test_representations(self):
        fake = Fake(self, replies(b"NONE\n"))
        cache = self.pool(fake, connections=3)
        place = f"{HOST}:{fake.port}"
        self.assertEqual(repr(cache), f"<Client {place}, 0 idle of at most 3 connections>")
        cache.get("a")
        self.assertEqual(repr(cache), f"<Client {place}, 1 idle of at most 3 connections>")
        self.assertIn(f"Connection {place}, open>", repr(cache._idle[0]))
        cache.close()
        self.assertEqual(repr(cache), f"<Client {place}, closed>")
        self.assertEqual(repr(Request.get("a")), "<Request GET a>")
        stored = repr(Request.set("a", "x" * 1000, ttl=1))
        self.assertTrue(stored.startswith("<Request SET a 1000 'xxx"), stored)
        self.assertLess(len(stored), 80)
        self.assertIn("Client [::1]:7411, 0", repr(self.make("::1")))
        servers = self.servers_of(Server(HOST, 1), Server(HOST, 2, name="east"))
        self.assertEqual(repr(servers), f"<Servers {HOST}:1, east>")
