"""Keys over several servers."""
import unittest
import unittest.mock

from support import HOST, PATIENCE, SHORT, Fake, FakeCase, RealCase
from support import free_port, replies, replies_and_ends
import bivrang
from bivrang import Held, Request, Server, Servers
from bivrang._spread import BackOff



class Clock:
    """The clock by which a server is left alone in this test, which moves it."""

    def __init__(self, case):
        self.now = 0.0
        replaced = unittest.mock.patch("bivrang._spread.time", self)
        replaced.start()
        case.addCleanup(replaced.stop)

    def monotonic(self):
        return self.now


class SeveralServers(RealCase):
    def setUp(self):
        for name in ("main", "bytes", "loads"):
            self.client(name)
        places = [Server(HOST, self.server.ports[name], name=name) for name in ("main", "bytes")]
        places.append(Server(HOST, self.server.ports["loads"], weight=2, name="loads"))
        self.servers = self.servers_of(*places)

    def test_keys_are_spread(self):
        keys = [b"key-%04d" % number for number in range(1000)]
        told = self.servers.pipeline(Request.set(key, b"of " + key) for key in keys)
        self.assertEqual(told, [True] * 1000)
        self.assertEqual(self.servers.keys(), keys)
        theirs = self.servers.each(Request.keys())
        for key in keys[::100]:
            self.assertEqual(self.servers.get(key), b"of " + key)
            self.assertIn(key, theirs[self.servers.server_of(key)])
        held = self.servers.sync()
        self.assertEqual(sum(one.values for one in held.values()), 1000)
        self.assertTrue(all(one.values > 150 for one in held.values()), held)
        self.servers.drop_if("key-00")
        self.assertEqual(self.servers.keys(), keys[100:])
        self.servers.clear()
        self.assertEqual(self.servers.keys(), [])

    def test_each_command(self):
        for key in ("a", "b", "c", "d"):
            self.assertIs(self.servers.set(key, "1"), True)
            self.assertEqual(self.servers.incr(key, 2), 3)
            self.assertIs(self.servers.has(key), True)
            self.assertEqual(self.servers.load(key), b"3")
            self.servers.delete(key)
            self.assertIsNone(self.servers.get(key))

    def test_requests_without_a_key(self):
        with self.assertRaises(bivrang.ArgumentError):
            self.servers.pipeline([Request.set("a", "1"), Request.clear()])
        self.assertEqual(self.servers.keys(), [])

    def test_many_at_once(self):
        values = {f"key-{number}": b"of %d" % number for number in range(100)}
        self.assertEqual(self.servers.set_many(values), [])
        self.assertEqual(self.servers.get_many([*values, "nothing"]), values)

    def test_each_server_by_its_name(self):
        self.servers.set("a", "1")
        name = self.servers.server_of("a")
        held = self.servers.each(Request.sync())
        self.assertEqual(sorted(held), ["bytes", "loads", "main"])
        self.assertEqual({of for of, it in held.items() if it.values}, {name})
        self.assertEqual(self.servers.each(Request.keys())[name], [b"a"])
        self.assertEqual(self.servers.ping(), {"main": True, "bytes": True, "loads": True})

    def test_codecs(self):
        places = [Server(HOST, self.server.ports[name], name=name) for name in ("main", "bytes")]
        servers = self.servers_of(*places, codec=bivrang.JSON)
        values = {f"key-{number}": {"lines": ["\n"] * number} for number in range(20)}
        self.assertEqual(servers.set_many(values), [])
        self.assertEqual(servers.get_many(values), values)
        self.assertEqual(servers.get("key-2"), {"lines": ["\n", "\n"]})


class ServersThatFail(FakeCase):
    """One server that answers, and one that does not."""

    def both(self, fake, gone, **options):
        """Servers, a key of the one that answers, and one of the other."""
        there = Server(HOST, fake.port, name="there")
        options = {"retry_after": PATIENCE, **options}
        servers = self.servers_of(there, Server(HOST, gone, name="gone"), **options)
        keys = {servers.server_of(f"k{number}"): f"k{number}" for number in range(100)}
        return servers, keys["there"], keys["gone"]

    def test_calls_of_its_keys_fail(self):
        fake = Fake(self, replies(b"VAL 1\n"))
        port = free_port()
        servers, theirs, its = self.both(fake, port)
        with self.assertRaises(bivrang.ConnectFailed) as caught:
            servers.get(its)
        self.assertEqual(caught.exception.key, its.encode())
        for call in (servers.get, servers.has, servers.delete, lambda key: servers.get_many([key])):
            with self.assertRaises(bivrang.ServerAway) as caught:
                call(its)
            error = caught.exception
            self.assertEqual((error.port, error.key), (port, its.encode()))
            self.assertFalse(error.may_have_run)
        self.assertEqual(servers.get(theirs), b"1")

    def test_results_of_the_other_stand(self):
        fake = Fake(self, replies(b"VAL 1\nOK\n", b"KEYS 1\nk\n", b"SYNC 1 2\n", b"NO\n", b"OK\n"))
        servers, theirs, its = self.both(fake, free_port())
        asked = [
            Request.get(its),
            Request.get(theirs),
            Request.set(its, "1"),
            Request.delete(theirs),
        ]
        told = servers.pipeline(asked)
        self.assertEqual((told[1], told[3]), (b"1", None))
        self.assertIsInstance(told[0], bivrang.ConnectFailed)
        self.assertIs(told[2], told[0])
        told = servers.each(Request.keys())
        self.assertEqual(told["there"], [b"k"])
        self.assertIsInstance(told["gone"], bivrang.ServerAway)
        self.assertEqual(servers.each(Request.sync())["there"], Held(1, 2))
        self.assertEqual(servers.ping(), {"there": True, "gone": False})
        with self.assertRaises(bivrang.ServerAway):
            servers.clear()
        self.assertEqual(fake.received[0].splitlines()[-1], b"CLEAR")

    def test_errors_as_misses(self):
        fake = Fake(self, replies(b"VAL 1\n", b"VAL 2\nYES\n", b"KEYS 0\n"))
        servers, theirs, its = self.both(fake, free_port(), errors_as_misses=True)
        self.assertIsNone(servers.get(its))
        self.assertEqual(servers.get(its, 0), 0)
        self.assertIs(servers.has(its), False)
        self.assertIs(servers.touch(its), False)
        self.assertEqual(servers.get_many([theirs, its]), {theirs: b"1"})
        asked = [Request.get(its, 0), Request.get(theirs, 0), Request.has(its), Request.has(theirs)]
        self.assertEqual(servers.pipeline(asked), [0, b"2", False, True])
        for call in (servers.load, servers.delete, servers.incr):
            with self.assertRaises(bivrang.ServerAway):
                call(its)
        with self.assertRaises(bivrang.ServerAway):
            servers.keys()
        servers.close()
        with self.assertRaises(bivrang.PoolClosed):
            servers.get(theirs)

    def test_it_is_asked_again(self):
        clock = Clock(self)
        fake = Fake(self, replies(b""), replies(b"VAL 1\n"))
        servers = self.servers_of(Server(HOST, fake.port), reply_seconds=SHORT, retry_after=3.0)
        with self.assertRaises(bivrang.ReplyTimeout):
            servers.get("a")
        servers.clients[f"{HOST}:{fake.port}"]._reply_seconds = PATIENCE
        clock.now = 2.9
        with self.assertRaises(bivrang.ServerAway):
            servers.get("a")
        clock.now = 3.0
        self.assertEqual(servers.get("a"), b"1")
        self.assertEqual(fake.received, [b"GET a\n", b"GET a\n"])

    def test_one_call_alone_tries_it(self):
        clock = Clock(self)
        back_off = BackOff(3.0)
        back_off.enter()
        back_off.failed(bivrang.ConnectFailed())
        clock.now = 3.0
        back_off.enter()
        clock.now = 5.9
        with self.assertRaises(bivrang.ServerAway):
            back_off.enter()
        back_off.answered()
        back_off.enter()

    def test_it_can_be_asked_each_time(self):
        fake = Fake(self, replies(b""), replies(b"VAL 1\n"))
        servers = self.servers_of(Server(HOST, fake.port), reply_seconds=SHORT, retry_after=0)
        with self.assertRaises(bivrang.ReplyTimeout):
            servers.get("a")
        servers.clients[f"{HOST}:{fake.port}"]._reply_seconds = PATIENCE
        self.assertEqual(servers.get("a"), b"1")

    def test_errors_of_a_server_that_answers_do_not_leave_it_alone(self):
        fake = Fake(
            self, replies(b"ERR number\n", b"OK\n"), replies_and_ends(b""), replies(b"OK\n")
        )
        servers = self.servers_of(Server(HOST, fake.port))
        with self.assertRaises(bivrang.NumberError):
            servers.incr("a")
        with self.assertRaises(bivrang.BadReply):
            servers.get("a")
        with self.assertRaises(bivrang.ConnectionBroken):
            servers.delete("a")
        self.assertIsNone(servers.delete("a"))

    def test_a_refused_value_names_its_keys_server(self):
        fake = Fake(self, replies(b"OK\n"))
        port = free_port()
        servers, theirs, its = self.both(fake, port)
        for key, place in ((theirs, fake.port), (its, port)):
            with self.assertRaises(bivrang.ValueRefused) as caught:
                servers.set(key, "1\n")
            self.assertEqual(caught.exception.port, place)
        with self.assertRaises(bivrang.KeyRefused) as caught:
            servers.get("two words")
        self.assertIsNone(caught.exception.host)

    def test_nothing_is_sent_if_a_request_is_refused(self):
        fake = Fake(self, replies(b"OK\n"))
        servers, theirs, its = self.both(fake, free_port())
        for wrong in (Request.set(its, "1\n"), Request.clear()):
            with self.assertRaises(bivrang.ArgumentError):
                servers.pipeline([Request.set(theirs, "1"), wrong])
        self.assertEqual(fake.received, [])


# The servers of keys, as a program in C finds them, and as the Rust client's test has them.
OWNERS = {
    "a": "east",
    "b": "127.0.0.1:7411",
    "session:17": "127.0.0.1:7411",
    "user/4711": "127.0.0.1:7411",
    "~": "127.0.0.1:7411",
    "!x": "west",
    "count": "west",
    "key-0001": "127.0.0.1:7411",
}


class Hashing(unittest.TestCase):
    def test_published_hashes(self):
        published = {
            b"": 0xCBF29CE484222325,
            b"a": 0xAF63DC4C8601EC8C,
            b"foobar": 0x85944171F73967E8,
        }
        for text, value in published.items():
            self.assertEqual(bivrang.hash_bytes(text), value)
        step = 0x9E3779B97F4A7C15
        drawn = [bivrang.mix((1234567 + step * turn) % 2**64) for turn in range(1, 6)]
        self.assertEqual(
            drawn,
            [
                6457827717110365317,
                3203168211198807973,
                9817491932198370423,
                4593380528125082431,
                16408922859458223821,
            ],
        )

    def test_shares_follow_weights(self):
        servers = Servers([Server(HOST, 1, weight=1), Server(HOST, 2, weight=3)])
        count = sum(servers.server_of(f"key-{number}") == f"{HOST}:2" for number in range(4000))
        self.assertTrue(2800 < count < 3200, count)

    def test_only_keys_of_the_new_server_move(self):
        places = [Server(HOST, 1), Server(HOST, 2), Server(HOST, 3)]
        keys = [f"key-{number}" for number in range(3000)]
        before, behind = Servers(places[:2]), Servers(places)
        moved = 0
        for key in keys:
            if behind.server_of(key) != before.server_of(key):
                self.assertEqual(behind.server_of(key), f"{HOST}:3")
                moved += 1
        self.assertTrue(850 < moved < 1150, moved)

    def test_both_clients_ask_the_same_server(self):
        places = [
            Server(HOST, 1, weight=1, name="east"),
            Server(HOST, 2, weight=2, name="west"),
            Server(HOST, 7411, weight=3),
        ]
        servers = Servers(places)
        for key, name in OWNERS.items():
            self.assertEqual(servers.server_of(key), name)

    def test_wrong_lists(self):
        wrong = [
            [],
            [Server(HOST, 1), Server(HOST, 1)],
            [Server(HOST, 1, name="a"), Server(HOST, 2, name="a")],
            [Server(HOST, 1, weight=0)],
            [Server(HOST, 1, weight=1001)],
        ]
        for places in wrong:
            with self.assertRaises(ValueError):
                Servers(places)
        for seconds in (-1, float("nan")):
            with self.assertRaises(ValueError):
                Servers([Server(HOST, 1)], retry_after=seconds)
