#!/usr/bin/env python3
"""Drives each server of this repository with hostile clients, and ends by itself.

    python3 tools/hostile_clients.py [--server NAME ..] [--seed N] [--busy] [CASE ..]

The servers are those of benches/servers.py: `cached` and `bivrangd` by lines, `memcache` for a namespace of `bivrangd` that speaks that
protocol. Without `--server`, all of them. The cases; without a name, all that the server's protocol has:

    descriptors  80 connections to a server that has 60 descriptors: all are answered, as others end
    rooms        a namespace without connections while the connections of another one have all descriptors: the server continues
    short        20,000 connections one after the other: each leaves at most 4 bytes of memory
    halves       200 clients that send half a request and wait; another one is answered in the meantime, and they are once they continue
    garbage      200 clients that send random bytes and half requests; another one gets only its own replies, and soon
    resets       500 clients that reset their connection, some during their replies, some during a long one; then another is answered
    ends         200 clients that shut down their sending side after their last request, and get every reply before the server closes
    crafted      10,000 keys whose hashes have the same home by std's hasher without a secret cost what random ones do
    many         1,000 connections at once, each answered
    minute       10,000 connections held open for a minute, or as many as the limits allow: memory, and each answered before and after
    soak         five million requests with deadlines over TinyLFU (by lines with `DROPIF` too): memory stays flat

by lines alone:

    keys         one client asks a thousand times for 50,000 keys in one piece; the longest wait of another client, and peak memory
    stalled      nobody reads the notices: each request is answered, one of them after a second; lost notices are counted
    deaf         the reader of notices exits: how many requests fail

by the memcache protocol alone, each with the longest wait of another client, and memory at its height:

    blocks       200 clients with data blocks that are cut, lack their end, are too long or say 2^64: each reply, then another request's
    flood        24 clients that send `noreply` as fast as they can, for five seconds
    large        100 clients that store 1 MiB at once, each in pieces, again and again
    slow         100 clients that ask for 1 MiB a hundred times and read nothing; then they read all
    many_keys    100 clients that ask for 32,000 keys in one request, ten times
    many_values  10 clients that ask for 60 values of 1 MiB in one request and read nothing

The status is 1 if one fails. So does a case in which another client waits for more than 0.3 s, or for a second where requests are as long as
they can be (`keys`, `many_keys`, `many_values`); with --busy, for a machine that does other work too, so long of the server's processor
time. All random numbers come from the seed, by default 1.
"""
import argparse
import multiprocessing
import pathlib
import random
import resource
import selectors
import socket
import statistics
import struct
import subprocess
import sys
import tempfile
import threading
import time

sys.path.insert(0, str(pathlib.Path(__file__).resolve().parent.parent / "benches"))
import connections  # noqa: E402
import crafted_keys  # noqa: E402
import servers  # noqa: E402
from connections import HOST, Server, free_port  # noqa: E402

ANSWER_SECONDS = 60
# How long another client may wait; where requests are as long as they can be.
MOST_SECONDS, LONG_SECONDS = 0.3, 1.0
MIB = 1 << 20


class Failed(Exception):
    """What went wrong in a case."""


class Lines:
    """What a hostile client says by lines."""

    asks = connections.Lines
    words = [b"SET", b"GET", b"LOAD", b"ADD", b"KEYS", b"DROPIF", b"CLEAR", b" ", b"  ", b"a", b"-", b"5", b"\r", b"\n", b"\n", b"\x00", b"\xff", b"k"]
    too_long = b"x" * 9000
    # settings by which all of these have something to do
    settings = 'deadlines = true\nloads = { k = "v" }\n'
    soak_settings = "deadlines = true\n"
    # requests with their replies, and what is no whole request
    ended = [(b"SET e - 5\n", b"OK\n"), (b"LOAD k\n", b"VAL v\n"), (b"LOAD none\n", b"NONE\n"), (b"HAS none\n", b"NO\n"), (b"x\n", b"ERR command\n")]
    unfinished = [b"", b"GET", b"SET e - half"]

    @staticmethod
    def long_reply(client):
        """Stores what is told in a long reply, and returns a request for it."""
        store(client, 20_000)
        return b"KEYS\n"

    @staticmethod
    def soaked(soaker, drawn, key):
        """A request of the soak, and the replies that it may have."""
        if drawn < 0.45:
            value = b"%012d" % soaker.count
            soaker.stored[key] = b"VAL " + value + b"\n"
            return b"SET %s %s %s\n" % (key, b"-" if drawn < 0.3 else b"%d" % (drawn * 100), value), (b"OK\n",)
        if drawn < 0.996:
            return b"GET " + key + b"\n", (soaker.stored.get(key, b"NONE\n"), b"NONE\n")
        if drawn < 0.999:
            return b"DROPIF %s\n" % key[:-2], (b"OK\n",)
        return b"CLEAR\n", (b"OK\n",)


class Texts:
    """What one says by the memcache protocol."""

    asks = connections.Texts
    words = [
        b"set ", b"get ", b"ms ", b"mg ", b"incr ", b"flush_all", b"delete ", b"gat ", b" noreply", b" ", b"a", b"k", b"0 ", b"5 ", b"18446744073709551616",
        b"v", b"q", b"N30", b"\r\n", b"\r\n", b"\n", b"\x00", b"\xff", b"quit",
    ]
    too_long = b"x" * 70_000
    settings, soak_settings = "", 'policy = "tinylfu"\n'
    ended = [
        (b"set e 0 0 1\r\n5\r\n", b"STORED\r\n"),
        (b"get none\r\n", b"END\r\n"),
        (b"delete none noreply\r\n", b""),
        (b"mn\r\n", b"MN\r\n"),
        (b"x\r\n", b"ERROR\r\n"),
    ]
    unfinished = [b"", b"get", b"set e 0 0 9\r\nhalf"]

    @staticmethod
    def long_reply(client):
        client.put(b"longer", b"x" * MIB)
        return b"get longer\r\n"

    @staticmethod
    def soaked(soaker, drawn, key):
        if drawn < 0.45:
            value = b"%012d" % soaker.count
            soaker.stored[key] = b"VALUE %s 0 12\r\n%s\r\nEND\r\n" % (key, value)
            return b"set %s 0 %d 12\r\n%s\r\n" % (key, 0 if drawn < 0.3 else 1 if drawn < 0.4 else 2, value), (b"STORED\r\n",)
        if drawn < 0.95:
            return b"get %s\r\n" % key, (soaker.stored.get(key, b"END\r\n"), b"END\r\n")
        if drawn < 0.97:
            return b"delete %s\r\n" % key, (b"DELETED\r\n", b"NOT_FOUND\r\n")
        if drawn < 0.99:
            return b"touch %s 1\r\n" % key, (b"TOUCHED\r\n", b"NOT_FOUND\r\n")
        return b"gat 2 %s\r\n" % key, (soaker.stored.get(key, b"END\r\n"), b"END\r\n")


class Served(Server):
    """The program, serving one namespace `main` that holds so many values, of `size` bytes each if they are long; `reads` says whether what
    it tells is read and dropped. With `spare` it has a second namespace, at that port."""

    def __init__(self, held, settings="", size=servers.SHORT_ITEM, reads=True, spare=None, **streams):
        self.port = free_port()
        self.folder = tempfile.TemporaryDirectory()
        file = pathlib.Path(self.folder.name, "cached.toml")
        tables = [f'name = "main"\nport = {self.port}\n{settings}', *([f'name = "spare"\nport = {spare}\n'] if spare else [])]
        file.write_text("".join(f"[[namespace]]\n{table}{self.row.keys}{self.row.capacity(held, size)}" for table in tables))
        self.process = subprocess.Popen([self.row.path, "--config", file], stdout=subprocess.PIPE, stdin=subprocess.DEVNULL, **streams)
        if not self.process.stdout.readline().startswith(b"listening main "):
            raise Failed("the server does not listen")
        if reads:
            self.read_on()

    def read_on(self):
        """From now on what it tells is read."""
        threading.Thread(target=self.drop_output, daemon=True).start()

    def threads(self):
        lines = pathlib.Path(f"/proc/{self.process.pid}/status").read_text().splitlines()
        return next(int(line.split()[1]) for line in lines if line.startswith("Threads:"))


class Client:
    """One connection."""

    def __init__(self, server):
        self.asks = server.tongue.asks
        self.socket = socket.create_connection((HOST, server.port), timeout=ANSWER_SECONDS)
        self.socket.setsockopt(socket.IPPROTO_TCP, socket.TCP_NODELAY, 1)
        self.replies = self.socket.makefile("rb")

    def send(self, text):
        self.socket.sendall(text)

    def line(self):
        return self.replies.readline()

    def ask(self, request):
        """The one line that a request of one line is answered with."""
        self.send(request + b"\n")
        return self.line()

    def take(self, replies):
        """Takes a reply, whose lines may be these."""
        for allowed in replies:
            line = self.line()
            if line.removesuffix(b"\n") not in allowed:
                raise Failed(f"answered {line[:100]!r} in place of {allowed!r}")

    def put(self, key, value):
        """Stores a value."""
        request, replies = self.asks.put(key, value)
        self.send(request)
        self.take(replies)

    def get(self, key, value):
        """Looks up a key, which has this value, or none."""
        request, replies = self.asks.get(key, value)
        self.send(request)
        self.take([allowed[:1] for allowed in replies])

    def get_mine(self, key, value):
        """Looks up a key that has this value, unless somebody has removed it; answers whether it is there."""
        there, absent = (b"".join(allowed[0] + b"\n" for allowed in self.asks.get(key, told)[1]) for told in (value, None))
        self.send(self.asks.get(key, value)[0])
        reply = self.line()
        while reply != absent and len(reply) < len(there):
            reply += self.line()
        if reply not in (there, absent):
            raise Failed(f"answered {reply[:100]!r} in place of {there!r}")
        return reply == there

    def close(self):
        self.replies.close()
        self.socket.close()

    def reset(self):
        """Goes without a goodbye."""
        self.socket.setsockopt(socket.SOL_SOCKET, socket.SO_LINGER, struct.pack("ii", 1, 0))
        self.close()


class Bystander:
    """Another client, in a process of its own, which stores and looks up a value again and again until the block ends: it gets its own replies,
    and none later than it may. It begins before those who make noise, so that it has none of their sockets."""

    def __init__(self, server, most=MOST_SECONDS):
        self.most = most
        self.ends = multiprocessing.Event()
        self.longest, self.dearest, self.count = multiprocessing.Value("d", 0.0), multiprocessing.Value("d", 0.0), multiprocessing.Value("q", 0)
        self.process = multiprocessing.Process(target=self.ask_on, args=(server,))

    def ask_on(self, server):
        try:
            client = Client(server)
            while not self.ends.is_set():
                value = b"%d" % self.count.value
                start, used = time.monotonic(), server.processor_seconds()
                client.put(b"mine-too", value)
                client.get_mine(b"mine-too", value)
                self.longest.value = max(self.longest.value, time.monotonic() - start)
                self.dearest.value = max(self.dearest.value, server.processor_seconds() - used)
                self.count.value += 2
                time.sleep(0.002)
        except (Failed, OSError) as error:
            print(f"another client: {type(error).__name__} {error}", flush=True)
            sys.exit(1)

    def __enter__(self):
        self.process.start()
        while self.process.is_alive() and self.count.value == 0:
            time.sleep(0.001)
        return self

    def __exit__(self, kind, _error, _trace):
        self.ends.set()
        self.process.join(ANSWER_SECONDS)
        if self.process.exitcode is None:
            self.process.kill()
        if kind is None and self.process.exitcode != 0:
            raise Failed("another client was not answered")
        if kind is None and (self.dearest if BUSY else self.longest).value > self.most:
            raise Failed(f"another client waited for {self.longest.value:.2f} s, of which the server's processor worked {self.dearest.value:.2f} s")

    def wait(self):
        """Waits until it has two more replies."""
        before, start = self.count.value, time.monotonic()
        while self.count.value == before and self.process.is_alive() and time.monotonic() < start + ANSWER_SECONDS:
            time.sleep(0.0005)

    def told(self):
        return (f"another got {self.count.value} replies, two within {self.longest.value * 1000:.0f} ms at most "
                f"({self.dearest.value * 1000:.0f} of the server's processor)")


class Height:
    """How much more memory a server has at its height, while the block lasts."""

    def __init__(self, server, most):
        self.server, self.most, self.more = server, most, 0
        self.before, self.ends = server.resident_kibibytes(), threading.Event()

    def watch(self):
        while not self.ends.wait(0.02):
            self.more = max(self.more, self.server.resident_kibibytes() - self.before)

    def __enter__(self):
        threading.Thread(target=self.watch, daemon=True).start()
        return self

    def __exit__(self, kind, _error, _trace):
        self.more = max(self.more, self.server.resident_kibibytes() - self.before)
        self.ends.set()
        if kind is None and self.more * 1024 > self.most:
            raise Failed(f"{self.more / 1024:.0f} MiB more memory, of {self.most / MIB:.0f} that it may take")

    def told(self):
        return f"{self.more / 1024:.0f} MiB more at its height"


def want(reply, wanted):
    if reply != wanted:
        raise Failed(f"answered {reply!r} in place of {wanted!r}")


def expect_service(server):
    """A new client is answered."""
    client = Client(server)
    client.put(b"other", b"1")
    client.get(b"other", b"1")
    client.close()


def store(client, count):
    """Stores so many values in pieces of a thousand lines."""
    for start in range(0, count, 1000):
        client.send(b"".join(b"SET key-%07d - value\n" % number for number in range(start, start + 1000)))
        for _ in range(1000):
            want(client.line(), b"OK\n")


def keys(asked=1000, held=50_000):
    server = Server(2 * held)
    try:
        greedy, other = Client(server), Client(server)
        store(greedy, held)
        before, height, longest = server.resident_kibibytes(), 0, 0.0
        received = threading.Event()

        def read():
            left = asked * (held + 1)
            while left > 0:
                left -= greedy.socket.recv(1 << 20).count(b"\n")
            received.set()

        threading.Thread(target=read, daemon=True).start()
        greedy.send(b"KEYS\n" * asked)
        began = time.monotonic()
        while not received.wait(0.002):
            start = time.monotonic()
            want(other.ask(b"GET key-0000001"), b"VAL value\n")
            longest = max(longest, time.monotonic() - start)
            height = max(height, server.resident_kibibytes())
            if time.monotonic() - began > 600:
                raise Failed("the keys are not all told within 600 s")
        print(f"keys: all told in {time.monotonic() - began:.1f} s; another waited {longest * 1000:.0f} ms at most; "
              f"{(height - before) / 1024:.1f} MiB more at its height")
        if longest > LONG_SECONDS:
            raise Failed("another client waited for more than a second")
    finally:
        server.stop()


def pair(client, number):
    """A value and a look-up of it, with their replies."""
    key, value = b"k%d" % number, b"%d" % number
    return client.asks.put(key, value), client.asks.get(key, value)


def send_pair(client, number):
    """Both in one piece."""
    client.send(b"".join(request for request, _ in pair(client, number)))


def want_pair(client, number):
    for _, replies in pair(client, number):
        client.take([allowed[:1] for allowed in replies])


def descriptors(connections=80, limit=60):
    server = Server(1000)
    try:
        resource.prlimit(server.process.pid, resource.RLIMIT_NOFILE, (limit, limit))
        clients = [Client(server) for _ in range(connections)]
        for number, client in enumerate(clients):
            send_pair(client, number)
        for number, client in enumerate(clients):
            want_pair(client, number)
            client.close()
        expect_service(server)
        print(f"descriptors: {connections} connections answered with {limit} descriptors")
    finally:
        server.stop()


def short(connections=20_000):
    server = Server(1000)

    def visit():
        client = Client(server)
        client.get(b"nothing", None)
        client.close()

    try:
        for _ in range(2000):
            visit()
        before, start = server.resident_kibibytes(), time.monotonic()
        for _ in range(connections):
            visit()
        left = (server.resident_kibibytes() - before) * 1024 / connections
        print(f"short: {connections} connections, {left:.1f} bytes left of each, "
              f"{(time.monotonic() - start) / connections * 1e6:.0f} us each")
        if left > 4:
            raise Failed("a connection leaves more than 4 bytes")
    finally:
        server.stop()


def halves(connections=200):
    """Each request is cut at another place."""
    server = Server(1000)
    try:
        with Bystander(server) as other:
            clients = [Client(server) for _ in range(connections)]
            halved = []
            for number, client in enumerate(clients):
                request, replies = client.asks.put(b"half%d" % number, b"value")
                place = 1 + number % (len(request) - 1)
                client.send(request[:place])
                halved.append((request[place:], replies))
            time.sleep(0.5)
            for client, (rest, _) in zip(clients, halved):
                client.send(rest)
            for client, (_, replies) in zip(clients, halved):
                client.take(replies)
                client.close()
        print(f"halves: {connections} half requests; {other.told()}")
    finally:
        server.stop()


def resets(connections=500):
    server = Server(30_000)
    try:
        setter = Client(server)
        setter.put(b"long", b"x" * 8_000)
        for number in range(connections):
            client = Client(server)
            client.send(client.asks.get(b"long", None)[0] * (number % 40))
            client.reset()
        request = server.tongue.long_reply(setter)
        for _ in range(20):
            client = Client(server)
            client.send(request * 3)
            client.socket.recv(1)
            client.reset()
        expect_service(server)
        print(f"resets: {connections} clients gone, and 20 amid a long reply, another answered")
    finally:
        server.stop()


def many(connections=1000):
    server = Server(10_000)
    try:
        clients, start = [], time.monotonic()
        for number in range(connections):
            client = Client(server)
            send_pair(client, number)
            clients.append(client)
        for number, client in enumerate(clients):
            want_pair(client, number)
        height = server.resident_kibibytes()
        for client in clients:
            client.close()
        expect_service(server)
        print(f"many: {connections} connections at once answered in {time.monotonic() - start:.1f} s; {height / 1024:.1f} MiB")
    finally:
        server.stop()


def garbage(connections=200, pieces=40):
    """What a client sends is drawn: bytes of all kinds, words of the protocol cut and mixed, lines that are too long. A client that the
    server closes is followed by another one."""
    draw, sent, closed = random.Random(SEED), 0, 0
    server = Served(1000, Server.tongue.settings)
    try:
        with Bystander(server) as other:
            poll, noise = selectors.DefaultSelector(), []

            def come():
                client = socket.create_connection((HOST, server.port))
                client.setblocking(False)
                poll.register(client, selectors.EVENT_READ)
                return client

            def is_open(client):
                """Drops what came to it; answers whether it may send on."""
                try:
                    return bool(client.recv(1 << 16))
                except OSError as error:
                    return isinstance(error, BlockingIOError)

            noise = [come() for _ in range(connections)]
            for number in range(pieces * connections):
                drawn = draw.random()
                if drawn < 0.3:
                    piece = draw.randbytes(draw.randrange(1, 200))
                elif drawn < 0.98:
                    piece = b"".join(draw.choices(server.tongue.words, k=draw.randrange(1, 30)))
                else:
                    piece = server.tongue.too_long
                place = draw.randrange(connections)
                try:
                    sent += noise[place].send(piece)
                except OSError:
                    pass
                if not is_open(noise[place]):
                    poll.unregister(noise[place])
                    noise[place].close()
                    noise[place], closed = come(), closed + 1
                for key, _ in poll.select(0):
                    is_open(key.fileobj)
                if number % 20 == 0:
                    other.wait()
            for client in noise:
                client.close()
        expect_service(server)
        print(f"garbage: {sent} drawn bytes from {connections} clients, of which the server closed {closed}; {other.told()}")
    finally:
        server.stop()


def ends(connections=200):
    """The last request's end may lack: then it is none."""
    draw, sums = random.Random(SEED), 0
    server = Served(1000, Server.tongue.settings)
    try:
        for number in range(connections):
            rows = draw.choices(server.tongue.ended, k=draw.randrange(1, 400))
            client = Client(server)
            client.send(b"".join(request for request, _ in rows) + draw.choice(server.tongue.unfinished))
            client.socket.shutdown(socket.SHUT_WR)
            replies = client.replies.read()
            if replies != b"".join(reply for _, reply in rows):
                raise Failed(f"{len(rows)} requests were answered {replies[-60:]!r}")
            sums += len(rows)
            client.close()
        print(f"ends: {connections} clients ended their side first, and got the replies to {sums} requests")
    finally:
        server.stop()


def crafted(rounds=5, batch=100):
    """The same requests with random keys and with crafted ones, three times in turn."""
    def seconds(keys):
        server = Server(10 * len(keys))
        try:
            client, draw = Client(server), random.Random(2)
            asked = [client.asks.put(key, b"v" * 32) for key in keys]
            for _ in range(rounds):
                asked += [client.asks.get(key, b"v" * 32) for key in draw.sample(keys, len(keys))]
            used = server.processor_seconds()
            for first in range(0, len(asked), batch):
                client.send(b"".join(request for request, _ in asked[first : first + batch]))
                for _, replies in asked[first : first + batch]:
                    client.take([allowed[:1] for allowed in replies])
            return (server.processor_seconds() - used) / len(asked)
        finally:
            server.stop()

    with tempfile.TemporaryDirectory() as folder:
        kinds = [crafted_keys.drawn(), crafted_keys.crafted(folder, "known")]
    drawn, made = (statistics.median(times) * 1e6 for times in zip(*([seconds(keys) for keys in kinds] for _ in range(3))))
    print(f"crafted: {made:.2f} us of processor a request with crafted keys, {drawn:.2f} with random ones")
    if made > 1.5 * drawn:
        raise Failed("crafted keys cost more")


def stalled(notices=40_000):
    """Nobody reads the notices, of some 220 bytes each, until all requests are answered."""
    server = Served(1000, reads=False, stderr=subprocess.PIPE)
    try:
        writer, longest, told = Client(server), 0.0, []
        want(writer.ask(b"SET full - first"), b"OK\n")
        for number in range(notices):
            start = time.monotonic()
            want(writer.ask(b"SET full - %0200d" % number), b"OK\n")
            longest = max(longest, time.monotonic() - start)
        reader = threading.Thread(target=lambda: told.extend(server.process.stdout), daemon=True)
        reader.start()
        words = server.process.stderr.readline().split()
        if words[:1] != [b"%s:" % server.row.name.encode()] or words[2:] != [b"notices", b"lost"]:
            raise Failed(f"standard error says {words!r}")
        lost, before = int(words[1]), -1
        while len(told) != before:
            before = len(told)
            time.sleep(1)
        want(writer.ask(b"SET full - last"), b"OK\n")
        time.sleep(1)
        if len(told) != notices - lost + 1 or not told[-1].endswith(b" full %0200d\n" % (notices - 1)):
            raise Failed(f"{len(told)} notices told and {lost} lost, of {notices + 1}")
        print(f"stalled: {notices} requests answered, the longest after {longest:.2f} s; {lost} notices lost, {len(told)} told once they were read")
    finally:
        server.stop()


def deaf(requests=2000):
    server = Served(1000, reads=False)
    try:
        client = Client(server)
        for number in range(100):
            want(client.ask(b"SET a - %d" % number), b"OK\n")
        server.process.stdout.close()
        for number in range(requests):
            want(client.ask(b"SET a - %d" % number), b"OK\n")
            want(client.ask(b"GET a"), b"VAL %d\n" % number)
        expect_service(server)
        if server.process.poll() is not None:
            raise Failed(f"the server ended with {server.process.poll()}")
        print(f"deaf: the reader of notices gone, {2 * requests} requests answered")
    finally:
        server.stop()


def rooms(connections=110, limit=60):
    """One namespace's connections have all descriptors, while a client comes to another one."""
    spare = free_port()
    server = Served(1000, spare=spare)
    try:
        resource.prlimit(server.process.pid, resource.RLIMIT_NOFILE, (limit, limit))
        links = [socket.create_connection((HOST, server.port), timeout=ANSWER_SECONDS) for _ in range(connections)]
        main, server.port = server.port, spare
        other = Client(server)
        server.port = main
        request, replies = other.asks.get(b"a", None)
        other.send(request)
        time.sleep(1)
        if server.process.poll() is not None:
            raise Failed(f"the server ended with {server.process.poll()}")
        for link in links:
            link.close()
        other.take(replies)
        other.close()
        expect_service(server)
        print(f"rooms: with {limit} descriptors and {connections} connections to one namespace, a client of another is answered once they have gone")
    finally:
        server.stop()


def minute(connections=10_000, seconds=60):
    soft, _ = resource.getrlimit(resource.RLIMIT_NOFILE)
    server = Served(100_000)
    try:
        resource.prlimit(server.process.pid, resource.RLIMIT_NOFILE, resource.getrlimit(resource.RLIMIT_NOFILE))
        before, start, links = server.resident_kibibytes(), time.monotonic(), []
        for _ in range(min(connections, soft - 100)):
            links.append(socket.create_connection((HOST, server.port), timeout=ANSWER_SECONDS))
        keys = [b"of-%05d" % number for number in range(len(links))]
        ask_each(links, [server.tongue.asks.put(key, b"open") for key in keys])
        opened, height, threads = time.monotonic() - start, server.resident_kibibytes(), server.threads()
        time.sleep(seconds)
        held = server.resident_kibibytes()
        ask_each(links, [server.tongue.asks.get(key, b"open") for key in keys])
        expect_service(server)
        for link in links:
            link.close()
        expect_service(server)
        time.sleep(2)
        print(
            f"minute: {len(links)} connections open after {opened:.1f} s, on {threads} threads, held {seconds} s; {(height - before) / len(links):.1f} KiB each "
            f"({(held - before) / len(links):.1f} at the end), {(server.resident_kibibytes() - before) / 1024:.1f} MiB more when all had gone; each answered"
        )
    finally:
        server.stop()


def ask_each(links, asked):
    """Each asks, and then each is answered."""
    for link, (request, _) in zip(links, asked):
        link.sendall(request)
    for link, (_, replies) in zip(links, asked):
        wanted, came = b"".join(allowed[0] + b"\n" for allowed in replies), b""
        while len(came) < len(wanted):
            piece = link.recv(len(wanted) - len(came))
            if not piece:
                raise Failed("the server closed a connection")
            came += piece
        want(came, wanted)


class Soaker:
    """A connection that sends pieces of so many requests; each reply is one that the request may have."""

    def __init__(self, port, tongue, number, depth):
        self.socket = socket.create_connection((HOST, port), timeout=ANSWER_SECONDS)
        self.socket.setsockopt(socket.IPPROTO_TCP, socket.TCP_NODELAY, 1)
        self.draw, self.tongue, self.number, self.depth = random.Random(1000 * SEED + number), tongue, number, depth
        self.stored, self.allowed, self.count = {}, [], 0

    def send(self):
        requests, self.allowed = [], []
        for _ in range(self.depth):
            self.count += 1
            key = b"c%02d-%05d" % (self.number, int(20_000 * self.draw.random() ** 3))
            request, allowed = self.tongue.soaked(self, self.draw.random(), key)
            requests.append(request)
            self.allowed.append(allowed)
        self.socket.sendall(b"".join(requests))

    def receive(self):
        came, at = b"", 0
        for allowed in self.allowed:
            while not (reply := next((it for it in allowed if came.startswith(it, at)), None)):
                if len(came) - at >= max(map(len, allowed)):
                    raise Failed(f"answered {came[at : at + 60]!r}, not {allowed!r}")
                piece = self.socket.recv(1 << 16)
                if not piece:
                    raise Failed("the server closed a connection")
                came += piece
            at += len(reply)


def soak_some(port, tongue, numbers, depth, batches, done):
    """Some of the soak's connections, each a piece ahead of its replies."""
    soakers = [Soaker(port, tongue, number, depth) for number in numbers]
    try:
        for soaker in soakers:
            soaker.send()
        for batch in range(batches):
            for soaker in soakers:
                soaker.receive()
                done.value += depth
                if batch + 1 < batches:
                    soaker.send()
    except (Failed, OSError) as error:
        print(f"soak: failed: {error}", flush=True)
        sys.exit(1)


def soak(requests=5_000_000, clients=24, depth=128, processes=3):
    server = Served(10_000, Server.tongue.soak_settings)
    try:
        batches = requests // (clients * depth)
        done = [multiprocessing.Value("q", 0, lock=False) for _ in range(processes)]
        drivers = [
            multiprocessing.Process(target=soak_some, args=(server.port, server.tongue, range(first, clients, processes), depth, batches, done[first]))
            for first in range(processes)
        ]
        start, memory = time.monotonic(), []
        for driver in drivers:
            driver.start()
        while any(driver.is_alive() for driver in drivers):
            memory.append((sum(it.value for it in done), server.resident_kibibytes()))
            time.sleep(0.2)
            if any(driver.exitcode for driver in drivers) or time.monotonic() - start > 1800:
                raise Failed("a client has ended early, or it took half an hour")
        asked, quarter = batches * clients * depth, batches * clients * depth // 4
        second = max(size for count, size in memory if count <= 2 * quarter)
        last = max(size for count, size in memory if count >= 3 * quarter)
        print(
            f"soak: {asked} requests over {clients} connections in {time.monotonic() - start:.0f} s, {server.processor_seconds() / asked * 1e6:.2f} us of processor each; "
            f"at most {second} KiB in the first half, {last} KiB in the last quarter"
        )
        if last > second * 1.05 + 512:
            raise Failed("memory grows")
    finally:
        for driver in drivers:
            driver.kill()
        server.stop()


# Pieces that a client sends one after the other, and the replies. Behind those that do not end the connection, or swallow what follows, it
# goes on.
TOO_LARGE, FORMAT = b"SERVER_ERROR object too large for cache\r\n", b"CLIENT_ERROR bad command line format\r\n"
BLOCKS = [
    ([b"set b 0 0 10\r\n", b"0123456789\r\n"], b"STORED\r\n", True),
    ([b"set b 0 0 10\r\n01234", b"56789\r\n"], b"STORED\r\n", True),
    ([b"set b 0 0 10\r\n0123456789", b"\r\n"], b"STORED\r\n", True),
    ([b"set b 0 0 10\r\n0123456789\r", b"\n"], b"STORED\r\n", True),
    ([b"set b 0 0 3\r\nabc", b"de\r\n"], b"CLIENT_ERROR bad data chunk\r\nERROR\r\n", True),
    ([b"ms b 3\r\nabc", b"de\r\n"], b"CLIENT_ERROR bad data chunk\r\nERROR\r\n", True),
    ([b"set b 0 0 1048577\r\n", b"x" * 1048577 + b"\r\n"], TOO_LARGE, True),
    ([b"set b 0 0 2147483645\r\n", b"x" * 100_000], TOO_LARGE, False),
    ([b"set b 0 0 2147483648\r\n", b""], FORMAT, True),
    ([b"set b 0 0 4294967297\r\n", b""], FORMAT, True),
    ([b"set b 0 0 18446744073709551616\r\n", b""], FORMAT, True),
    ([b"set b 0 0 18446744073709551617 noreply\r\n", b""], FORMAT, True),
    ([b"set b 0 0 -1\r\n", b""], FORMAT, True),
    ([b"ms b 18446744073709551616\r\n", b""], FORMAT, True),
    ([b"set " + b"k" * 251 + b" 0 0 1\r\n", b""], FORMAT, True),
    ([b"delete " + b"k" * 40_000, b"k" * 30_000], b"CLIENT_ERROR line too long\r\n", False),
    ([b"get " + b"k" * 2_000_000, b"k" * 100_000], b"CLIENT_ERROR line too long\r\n", False),
]


def blocks(connections=200):
    server = Served(1000)
    try:
        with Bystander(server) as other, Height(server, 100 * MIB) as height:
            rows = [(Client(server), *BLOCKS[number % len(BLOCKS)]) for number in range(connections)]
            for client, (first, _), _, _ in rows:
                client.send(first)
            time.sleep(0.5)
            for client, (_, rest), _, goes_on in rows:
                client.send(rest + (b"mn\r\n" if goes_on else b""))
            for client, _, reply, goes_on in rows:
                want(client.replies.read(len(reply)), reply)
                if goes_on:
                    want(client.line(), b"MN\r\n")
                client.close()
        expect_service(server)
        print(f"blocks: {len(BLOCKS)} kinds by {connections} clients; {other.told()}; {height.told()}")
    finally:
        server.stop()


def flood_some(server, clients, seconds, sent):
    """Some of the flood's clients. Nothing is replied but to the last request."""
    links = [Client(server) for _ in range(clients)]
    requests = [b"set f%07d 0 0 100 noreply\r\n%0100d\r\n" % (number, number) for number in range(400_000)]
    pieces = [b"".join(requests[first : first + 500]) for first in range(0, len(requests), 500)]
    draw, ends = random.Random(SEED), time.monotonic() + seconds
    while time.monotonic() < ends:
        for link in links:
            link.send(draw.choice(pieces))
            sent.value += 500
    for link in links:
        link.send(b"mn\r\n")
    if any(link.line() != b"MN\r\n" for link in links):
        sys.exit(1)


def flood(processes=3, clients=8, seconds=5):
    """Short items that come and go take up to 1.4 times what they count."""
    server = Served(160_000, size=118)
    try:
        with Bystander(server) as other, Height(server, 1.5 * 160_000 * 408) as height:
            sent = [multiprocessing.Value("q", 0, lock=False) for _ in range(processes)]
            drivers = [multiprocessing.Process(target=flood_some, args=(server, clients, seconds, one)) for one in sent]
            for driver in drivers:
                driver.start()
            for driver in drivers:
                driver.join()
            if any(driver.exitcode for driver in drivers):
                raise Failed("a client was not answered, or was told more than it asked for")
        print(f"flood: {sum(one.value for one in sent)} requests by {processes * clients} clients in {seconds} s; {other.told()}; {height.told()}")
    finally:
        server.stop()


def large(connections=100, rounds=3, held=50, piece=1 << 16):
    """Memory has room for the capacity, and for what came of each client's block, which grows, is copied once, and may be told in a reply."""
    server = Served(held, size=MIB)
    try:
        with Bystander(server) as other, Height(server, (1.3 * held + 4 * connections) * MIB) as height:
            clients = [Client(server) for _ in range(connections)]
            for count in range(rounds):
                requests = [client.asks.put(b"large-%d" % number, b"%d" % count * MIB)[0] for number, client in enumerate(clients)]
                for first in range(0, len(requests[0]) + piece, piece):
                    for client, request in zip(clients, requests):
                        client.send(request[first : first + piece])
                for client in clients:
                    want(client.line(), b"STORED\r\n")
            found = sum(client.get_mine(b"large-%d" % number, b"%d" % count * MIB) for number, client in enumerate(clients))
        print(f"large: {rounds * connections} values of 1 MiB by {connections} clients at once, {found} found behind; {other.told()}; {height.told()}")
    finally:
        server.stop()


def slow(connections=100, times=10):
    """A client has at most one reply in hand that was not taken, and the one before."""
    server = Served(10, size=MIB)
    try:
        setter = Client(server)
        setter.put(b"long", b"x" * MIB)
        with Bystander(server) as other, Height(server, 4 * connections * MIB) as height:
            clients = [Client(server) for _ in range(connections)]
            request, replies = setter.asks.get(b"long", b"x" * MIB)
            for client in clients:
                client.send(request * times)
            time.sleep(2)
            wanted = b"".join(allowed[0] + b"\n" for allowed in replies)
            for client in clients:
                for _ in range(times):
                    if client.replies.read(len(wanted)) != wanted:
                        raise Failed("a reply is another one")
        print(f"slow: {connections} clients, each told {times} times 1 MiB once it read; {other.told()}; {height.told()}")
    finally:
        server.stop()


def many_keys(connections=100, times=10, count=32_000):
    """A request of as many keys as a line has room for."""
    server = Served(1000)
    try:
        setter = Client(server)
        setter.put(b"a", b"1")
        reply = b"VALUE a 0 1\r\n1\r\n" * count + b"END\r\n"
        with Bystander(server, LONG_SECONDS) as other, Height(server, 4 * connections * MIB) as height:
            clients = [Client(server) for _ in range(connections)]
            for _ in range(times):
                for client in clients:
                    client.send(b"get" + b" a" * count + b"\r\n")
                for client in clients:
                    if client.replies.read(len(reply)) != reply:
                        raise Failed("a reply is another one")
        print(f"many_keys: {connections} clients, {times} times {count} keys each; {other.told()}; {height.told()}")
    finally:
        server.stop()


def many_values(connections=10, count=60):
    """A reply is of one moment, so it is in memory as a whole: up to 64 MiB."""
    server = Served(count + 10, size=MIB)
    try:
        setter = Client(server)
        for number in range(count):
            setter.put(b"m%d" % number, b"x" * MIB)
        with Bystander(server, LONG_SECONDS) as other, Height(server, 66 * connections * MIB) as height:
            clients = [Client(server) for _ in range(connections)]
            for client in clients:
                client.send(b"get " + b" ".join(b"m%d" % number for number in range(count)) + b"\r\n")
            time.sleep(3)
            for client in clients:
                want(client.line(), b"VALUE m0 0 %d\r\n" % MIB)
                client.close()
        print(f"many_values: {connections} clients that ask for {count} MiB each; {other.told()}; {height.told()}")
    finally:
        server.stop()


SEED, BUSY = 1, False
BOTH, BY_LINES, BY_TEXTS = (Lines, Texts), (Lines,), (Texts,)
# Each case with what it is for.
CASES = {
    keys: BY_LINES,
    descriptors: BOTH,
    rooms: BOTH,
    short: BOTH,
    halves: BOTH,
    garbage: BOTH,
    resets: BOTH,
    ends: BOTH,
    crafted: BOTH,
    stalled: BY_LINES,
    deaf: BY_LINES,
    blocks: BY_TEXTS,
    flood: BY_TEXTS,
    large: BY_TEXTS,
    slow: BY_TEXTS,
    many_keys: BY_TEXTS,
    many_values: BY_TEXTS,
    many: BOTH,
    minute: BOTH,
    soak: BOTH,
}


def main():
    words = argparse.ArgumentParser(description=__doc__, formatter_class=argparse.RawDescriptionHelpFormatter, add_help=False)
    words.add_argument("-h", "--help", action="help", help=argparse.SUPPRESS)
    words.add_argument("--server", action="append", choices=servers.ALL, help=argparse.SUPPRESS)
    words.add_argument("--seed", type=int, default=1, help=argparse.SUPPRESS)
    words.add_argument("--busy", action="store_true", help=argparse.SUPPRESS)
    words.add_argument("cases", nargs="*", choices=[*(case.__name__ for case in CASES), []], help=argparse.SUPPRESS)
    words = words.parse_args()
    global SEED, BUSY
    SEED, BUSY = words.seed, words.busy
    _, hard = resource.getrlimit(resource.RLIMIT_NOFILE)
    resource.setrlimit(resource.RLIMIT_NOFILE, (hard, hard))
    failed = False
    for row in servers.rows_of(words.server, servers.ALL):
        Server.row, Server.tongue = row, Texts if row is servers.MEMCACHE else Lines
        for case, tongues in CASES.items():
            if Server.tongue not in tongues or case.__name__ not in (words.cases or [case.__name__]):
                continue
            print(f"{row.name}: ", end="", flush=True)
            try:
                case()
            except (Failed, OSError) as error:
                print(f"{case.__name__}: failed: {type(error).__name__} {error}")
                failed = True
            sys.stdout.flush()
    sys.exit(1 if failed else 0)


if __name__ == "__main__":
    main()
