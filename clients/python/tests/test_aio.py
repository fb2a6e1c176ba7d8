"""The client for asyncio: all cases of the one that blocks, and what is its own."""
import asyncio
import inspect
import threading
import unittest

import test_client
import test_servers
from support import HOST, PATIENCE, PATIENT, SHORT, Fake, FakeCase, Forked, RealCase
from support import free_port, replies
import bivrang
from bivrang import Server, aio


class Awaited:
    """A client of asyncio that is called like one that blocks."""

    def __init__(self, kind, *words, **options):
        self.__dict__["inner"] = kind(*words, **options)
        self.__dict__["loop"] = asyncio.new_event_loop()

    def __getattr__(self, name):
        found = getattr(self.inner, name)
        if not inspect.iscoroutinefunction(found):
            return found
        return lambda *words, **options: self.loop.run_until_complete(found(*words, **options))

    def __setattr__(self, name, value):
        setattr(self.inner, name, value)

    def __repr__(self):
        return repr(self.inner)


class AwaitedCase:
    """Makes the clients of a case ones of asyncio."""

    def awaited(self, *words, **options):
        client = Awaited(*words, **options)
        self.addCleanup(client.loop.close)
        return client

    def make(self, *words, **options):
        return self.awaited(aio.Client, *words, **options)

    def from_url(self, *words, **options):
        return self.awaited(aio.Client.from_url, *words, **options)

    def make_servers(self, *words, **options):
        return self.awaited(aio.Servers, *words, **options)


class Commands(AwaitedCase, test_client.Commands):
    test_quit = None
    test_many_keys = None


class Pipelines(AwaitedCase, test_client.Pipelines):
    test_loads_in_a_pipeline = None


class Paths(AwaitedCase, test_client.Paths):
    pass


class Pools(AwaitedCase, test_client.Pools):
    test_threads_share_a_pool = None


class Retries(AwaitedCase, test_client.Retries):
    pass


class BrokenReplies(AwaitedCase, test_client.BrokenReplies):
    test_bytes_that_nobody_asked_for_on_one_connection = None


class TimeLimits(AwaitedCase, test_client.TimeLimits):
    test_all_connections_in_use = None


class Arguments(AwaitedCase, test_client.Arguments):
    pass


class Lives(AwaitedCase, test_client.Lives):
    pass


class Urls(AwaitedCase, test_client.Urls):
    pass


class Texts(AwaitedCase, test_client.Texts):
    pass


class SeveralServers(AwaitedCase, test_servers.SeveralServers):
    pass


class ServersThatFail(AwaitedCase, test_servers.ServersThatFail):
    pass


class Alike(unittest.TestCase):
    def test_the_same_calls_with_the_same_arguments(self):
        old = {"add", "milliseconds", "__contains__"}
        for name in ("KeyedCommands", "Commands", "Client", "Servers"):
            blocking, awaited = getattr(bivrang, name), getattr(aio, name)
            calls = {name for name in dir(blocking) if not name.startswith("_")} - old
            self.assertEqual(calls, {name for name in dir(awaited) if not name.startswith("_")})
            for call in sorted(calls | {"__init__"}):
                if callable(getattr(blocking, call)):
                    self.assertTrue(call == "__init__" or getattr(awaited, call).__doc__, call)
                    theirs = [
                        [
                            str(it)
                            for it in inspect.signature(getattr(kind, call)).parameters.values()
                            if it.name not in old
                        ]
                        for kind in (blocking, awaited)
                    ]
                    self.assertEqual(*theirs, f"{name}.{call}")


async def until(holds):
    """Waits until this holds, as `support.wait_until` does."""
    ends = asyncio.get_running_loop().time() + PATIENCE
    while not holds():
        if asyncio.get_running_loop().time() > ends:
            raise AssertionError("it does not come to hold")
        await asyncio.sleep(0.001)


class Items(FakeCase):
    def test_items_are_awaited(self):
        async def main(fake):
            async with aio.Client(HOST, fake.port, **PATIENT) as cache:
                self.assertEqual(await cache["a"], b"1")
                with self.assertRaises(KeyError):
                    await cache["b"]
                with self.assertRaisesRegex(TypeError, "await client.has"):
                    "a" in cache  # noqa: B015
                with self.assertRaisesRegex(TypeError, "not iterable"):
                    iter(cache)

        fake = Fake(self, replies(b"VAL 1\n", b"NONE\n"))
        asyncio.run(main(fake))
        self.assertEqual(fake.received, [b"GET a\nGET b\n"])


class Tasks(RealCase):
    """What tasks that share a client of the real server do."""

    def test_they_share_a_pool(self):
        async def work(cache, number):
            for turn in range(25):
                await cache.set(f"k{number}", f"{number} {turn}")
                told = await cache.get(f"k{number}")
                self.assertEqual(told, f"{number} {turn}".encode())
                await cache.incr("all")

        async def main():
            port = self.server.ports["main"]
            async with aio.Client(HOST, port, 3, **PATIENT) as cache:
                # None is idle, so the first three connect at the same time: connecting always
                # waits for the event loop. (A reply may be there as soon as its request is sent.)
                await asyncio.gather(*(work(cache, number) for number in range(8)))
                self.assertEqual(await cache.get("all"), b"200")
                self.assertEqual(len(cache._idle), 3)

        self.client()
        asyncio.run(main())

    def test_another_event_loop_begins_anew(self):
        cache = aio.Client(HOST, self.server.ports["main"], **PATIENT)
        for turn in range(3):
            asyncio.run(cache.set("a", str(turn)))
            self.assertEqual(asyncio.run(cache.get("a")), b"%d" % turn)
        self.assertEqual(len(cache._idle), 1)
        cache.close()


class Waiting(FakeCase):
    """Calls that wait, and calls that are given up."""

    def test_all_connections_in_use(self):
        async def main(fake):
            limits = {**PATIENT, "wait_seconds": SHORT}
            async with aio.Client(HOST, fake.port, 1, **limits) as cache:
                first = asyncio.ensure_future(cache.get("a"))
                await asyncio.sleep(0)
                with self.assertRaises(bivrang.PoolTimeout) as caught:
                    await cache.get("b")
                self.assertEqual((caught.exception.port, caught.exception.key), (fake.port, b"b"))
                go_on.set()
                self.assertEqual(await first, b"of a")
                self.assertEqual(await cache.get("c"), b"of c")

        go_on = threading.Event()

        def act(fake, link):
            fake.line(link)
            go_on.wait(PATIENCE)
            link.sendall(b"VAL of a\n")
            fake.line(link)
            link.sendall(b"VAL of c\n")
            fake.line(link)

        asyncio.run(main(Fake(self, act)))

    def test_calls_that_wait_go_in_their_order(self):
        async def main(fake):
            async with aio.Client(HOST, fake.port, 1, **PATIENT) as cache:
                told = await asyncio.gather(*(cache.get(key) for key in "abcd"))
                self.assertEqual(told, [b"1", b"2", b"3", b"4"])

        fake = Fake(self, replies(b"VAL 1\n", b"VAL 2\n", b"VAL 3\n", b"VAL 4\n"))
        asyncio.run(main(fake))
        self.assertEqual(fake.received, [b"GET a\nGET b\nGET c\nGET d\n"])

    def test_a_cancelled_call_closes_its_connection(self):
        async def main(fake):
            async with aio.Client(HOST, fake.port, 1, **PATIENT) as cache:
                calls = [asyncio.ensure_future(cache.get(key)) for key in "abc"]
                await until(lambda: fake.received == [b"GET a\n"])
                calls[0].cancel()
                calls[1].cancel()
                self.assertEqual(await calls[2], b"of c")
                self.assertTrue(calls[0].cancelled() and calls[1].cancelled())
                self.assertEqual(len(cache._idle), 1)
                # The permit is there again, once.
                self.assertEqual(cache._permits._left, 1)

        fake = Fake(self, replies(b""), replies(b"VAL of c\n"))
        asyncio.run(main(fake))
        self.assertEqual(fake.received, [b"GET a\n", b"GET c\n"])

    def test_a_permit_handed_to_a_cancelled_call_is_given_back(self):
        async def main():
            permits = aio._Permits(1)
            self.assertTrue(await permits.take(PATIENCE))
            waiter = asyncio.ensure_future(permits.take(PATIENCE))
            await asyncio.sleep(0)
            permits.give_back()
            waiter.cancel()
            with self.assertRaises(asyncio.CancelledError):
                await waiter
            self.assertTrue(await permits.take(SHORT))
            self.assertFalse(await permits.take(SHORT))

        asyncio.run(main())

    def test_connecting_can_be_cancelled(self):
        async def main():
            async with aio.Client(HOST, free_port()) as cache:
                call = asyncio.ensure_future(cache.get("a"))
                call.cancel()
                with self.assertRaises(asyncio.CancelledError):
                    await call
                with self.assertRaises(bivrang.ConnectFailed):
                    await cache.get("a")

        asyncio.run(main())

    def test_several_servers_are_asked_at_the_same_time(self):
        meeting = threading.Barrier(2, timeout=PATIENCE)

        def act(fake, link):
            fake.line(link)
            meeting.wait()
            link.sendall(b"OK\n")
            fake.line(link)

        async def main(fakes):
            places = [Server(HOST, fake.port) for fake in fakes]
            async with aio.Servers(places, **PATIENT) as servers:
                await servers.clear()

        asyncio.run(main([Fake(self, act), Fake(self, act)]))


class Forks(FakeCase):
    def test_a_child_makes_a_connection_of_its_own(self):
        """The parent's event loop and connection go on as if nothing was."""
        fake = Fake(self, replies(b"VAL of a\n", b"VAL later\n"), replies(b"VAL of b\n"))

        async def main():
            async with aio.Client(HOST, fake.port, **PATIENT) as cache:
                self.assertEqual(await cache.get("a"), b"of a")
                child = Forked(lambda: asyncio.run(cache.get("b")) == b"of b")
                await asyncio.sleep(SHORT)
                self.assertEqual(await cache.get("c"), b"later")
            return child

        self.assertEqual(asyncio.run(main()).status(), 0)
        self.assertEqual(fake.received, [b"GET a\nGET c\n", b"GET b\n"])

    def test_a_call_of_the_parent_goes_on(self):
        go_on = threading.Event()

        def act(fake, link):
            fake.line(link)
            go_on.wait(PATIENCE)
            link.sendall(b"VAL of a\n")
            fake.line(link)

        fake = Fake(self, act)

        async def main():
            async with aio.Client(HOST, fake.port, **PATIENT) as cache:
                call = asyncio.ensure_future(cache.get("a"))
                await until(lambda: fake.received == [b"GET a\n"])
                child = Forked(lambda: not cache._idle)
                self.assertEqual(child.status(), 0)
                go_on.set()
                self.assertEqual(await call, b"of a")

        asyncio.run(main())


if __name__ == "__main__":
    unittest.main()
