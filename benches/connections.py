#!/usr/bin/env python3
"""Drives the proved server `cached --config` over loopback with clients of its own, and ends by itself.

    python3 benches/connections.py          requests per second, and the server's processor time per request, by connections and depth
    python3 benches/connections.py NAME     the same requests to `bivrangd`, to `memcache` (a namespace of it that speaks that protocol), to
                                            `redis` or `memcached`, if they are on the path, or to `plain` (plain_server)
    python3 benches/connections.py beside   all of these that are there, three rounds in turn, medians; fills figures.json
    python3 benches/connections.py hits     look-ups alone, each of which finds its value, by `memcache`, `memcached -t 1` and `redis`: three
                                            rounds in turn, medians; fills figures.json
    python3 benches/connections.py soak     a million requests over 200 connections, with the server's memory on the way
    python3 benches/connections.py memory   what `bivrangd`, by each of its protocols, and memcached and Redis hold for a value beside key and
                                            value: just filled, and steady, by their number and length, without and with times to live
    python3 benches/connections.py idle     what `bivrangd` holds for each of 10,000 idle connections, what is left once they have closed, and
                                            what a request over 16 others costs without and with them
    python3 benches/connections.py waits    how long a request waits that comes at its time, over 64 connections at half the rate that the
                                            slowest of `cached`, `bivrangd` and `redis` reaches: three rounds in turn
    python3 benches/connections.py spaces   requests a second of one namespace of `bivrangd`, and of two, each with one loop: three rounds

Build the servers first (servers.py says where they are). Half of the requests are SET, half GET, with keys of 16 bytes and values of 32. Each connection has keys
of its own, so a GET returns what the same connection stored last, or NONE if that was evicted: each reply is compared, and a stale value
ends the run with an error. With `hits` each has stored all its keys before.
"""
import collections
import contextlib
import itertools
import multiprocessing
import os
import pathlib
import random
import resource
import selectors
import shutil
import socket
import statistics
import subprocess
import sys
import tempfile
import threading
import time

import figures
import progress
import servers

HOST = "127.0.0.1"
KEYS = 10_000
CAPACITY = 1_000
CONNECTIONS = (1, 16, 64, 256)
HITS_CONNECTIONS = (1, 16, 64)
DEPTHS = {1: 60_000, 32: 600_000}
ROUNDS = 3
SOAK_CONNECTIONS, SOAK_REQUESTS, SOAK_DEPTH = 200, 1_000_000, 8
CLIENT_PROCESSES = 3
ANSWER_SECONDS = 30
DAY = 86_400
# how many values are held, of how many bytes each, and whether they have a time to live
HELD = [(count, 32, lives) for lives in (False, True) for count in (300_000, 1_000_000, 1_150_000)]
HELD += [(200_000, 50, False), (200_000, 200, False), (100_000, 1_000, False), (40_000, 4_000, False)]
IDLE, ACTIVE = 10_000, 16
# (each client process that keeps time takes a core)
WAITING, WAIT_SECONDS, WAIT_PROCESSES = 64, 5, 2
SPACES_CONNECTIONS, SPACES_LINES, SPACES_BATCHES = 16, 1_000, 150


class Lines:
    """The service's own lines: a request, and for each line of its reply the texts that it may be."""

    @staticmethod
    def put(key, value, lives=False):
        return b"SET %b %b %b\n" % (key, b"%d" % (1000 * DAY) if lives else b"-", value), [(b"OK",)]

    @staticmethod
    def get(key, value):
        return b"GET " + key + b"\n", [(b"NONE",) if value is None else (b"VAL " + value, b"NONE")]


class Bulks:
    """Those of Redis."""

    @staticmethod
    def put(key, value, lives=False):
        words = [b"SET", key, value, *([b"EX", b"%d" % DAY] if lives else [])]
        return b"*%d\r\n" % len(words) + b"".join(b"$%d\r\n%b\r\n" % (len(word), word) for word in words), [(b"+OK\r",)]

    @staticmethod
    def drop(key):
        return b"*2\r\n$3\r\nDEL\r\n$%d\r\n%b\r\n" % (len(key), key)

    @staticmethod
    def get(key, value):
        request = b"*2\r\n$3\r\nGET\r\n$%d\r\n%b\r\n" % (len(key), key)
        return request, [(b"$-1\r",)] if value is None else [(b"$%d\r" % len(value),), (value + b"\r",)]


class Texts:
    """Those of memcached."""

    @staticmethod
    def put(key, value, lives=False):
        return b"set %b 0 %d %d\r\n%b\r\n" % (key, DAY if lives else 0, len(value), value), [(b"STORED\r",)]

    @staticmethod
    def drop(key):
        return b"delete %b\r\n" % key

    @staticmethod
    def get(key, value):
        wanted = [] if value is None else [(b"VALUE %b 0 %d\r" % (key, len(value)),), (value + b"\r",)]
        return b"get %b\r\n" % key, [*wanted, (b"END\r",)]


def free_ports(count):
    """So many ports that nobody listens on now."""
    with contextlib.ExitStack() as probes:
        bound = [probes.enter_context(socket.socket()) for _ in range(count)]
        for probe in bound:
            probe.bind((HOST, 0))
        return [probe.getsockname()[1] for probe in bound]


def free_port():
    """A port that nobody listens on now."""
    return free_ports(1)[0]


class Server:
    """A server of lines, with one namespace of that capacity until it is stopped; what it prints is read and dropped."""

    dialect, row, keeps_all = Lines, servers.ROWS["cached"], False

    def __init__(self, capacity, more="", **size):
        self.port = free_port()
        self.start([f'name = "main"\nport = {self.port}\n{self.row.capacity(capacity, **size)}policy = "lru"\n{more}'])

    @classmethod
    def holding(cls, count, _length, lives):
        """One that holds so many values, which have times to live or not."""
        return cls(count, more="deadlines = true\n" if lives else "")

    def start(self, namespaces):
        """Starts the program with these tables as its configuration."""
        self.folder = tempfile.TemporaryDirectory()
        file = pathlib.Path(self.folder.name, "cached.toml")
        file.write_text("".join(f"[[namespace]]\n{self.row.keys}{namespace}" for namespace in namespaces))
        self.process = subprocess.Popen([self.row.path, "--config", file], stdout=subprocess.PIPE, stdin=subprocess.DEVNULL)
        for _ in namespaces:
            if not self.process.stdout.readline().startswith(b"listening "):
                sys.exit("the server does not listen")
        threading.Thread(target=self.drop_output, daemon=True).start()

    def drop_output(self):
        while self.process.stdout.read1(65536):
            pass

    def processor_seconds(self):
        """What the server used of the processors until now."""
        fields = pathlib.Path(f"/proc/{self.process.pid}/stat").read_text().rsplit(")", 1)[1].split()
        return (int(fields[11]) + int(fields[12])) / 100

    @classmethod
    def is_there(cls):
        return cls.row.path.exists()

    def resident_kibibytes(self):
        """The memory that it holds now."""
        lines = pathlib.Path(f"/proc/{self.process.pid}/status").read_text().splitlines()
        return next(int(line.split()[1]) for line in lines if line.startswith("VmRSS:"))

    def stop(self):
        self.process.kill()
        self.process.wait()
        self.folder.cleanup()


class Bivrangd(Server):
    """`bivrangd`, with as many loops as it chooses."""

    row = servers.ROWS["bivrangd"]


class Spaces(Bivrangd):
    """The same with so many namespaces, each with one loop, that tell no notices."""

    def __init__(self, count):
        self.ports = free_ports(count)
        self.start([f'name = "space-{port}"\nport = {port}\ncapacity = {KEYS}\nloops = 1\nnotices = "off"\n' for port in self.ports])


class Memcache(Server):
    """A namespace of `bivrangd` that speaks the memcache protocol."""

    dialect, row = Texts, servers.MEMCACHE

    @classmethod
    def holding(cls, count, length, _lives):
        """One that holds so many items with keys of 16 bytes and values of that length."""
        return cls(count, size=length + 16)


class Other(Server):
    """A server that is started by words, and says nothing that is read."""

    keeps_all = True

    def __init__(self, _capacity):
        self.port = free_port()
        self.folder = tempfile.TemporaryDirectory()
        self.process = subprocess.Popen(self.words(), stdout=subprocess.PIPE, stdin=subprocess.DEVNULL)
        threading.Thread(target=self.drop_output, daemon=True).start()
        for _ in range(100):
            try:
                socket.create_connection((HOST, self.port)).close()
                return
            except ConnectionRefusedError:
                time.sleep(0.05)
        sys.exit(f"{self.words()[0]} does not listen")

    @classmethod
    def holding(cls, count, _length, _lives):
        """One that holds so many values."""
        return cls(count)

    @classmethod
    def is_there(cls):
        return shutil.which(cls.program) is not None


class Redis(Other):
    """`redis-server`, which keeps nothing on disk and evicts nothing."""

    dialect, program = Bulks, "redis-server"

    def words(self):
        return [self.program, "--port", str(self.port), "--bind", HOST, "--save", "", "--appendonly", "no", "--dir", self.folder.name]


class Memcached(Other):
    """`memcached` with 64 MB, of which these keys fill little."""

    dialect, program = Texts, "memcached"

    def words(self):
        return [self.program, "-l", HOST, "-p", str(self.port), "-U", "0", "-u", "nobody"]


class MemcachedAlone(Memcached):
    """`memcached` with one thread for all connections."""

    def words(self):
        return [*super().words(), "-t", "1"]


class MemcachedWide(MemcachedAlone):
    """The same with room for all that it is given."""

    def words(self):
        return [*super().words(), "-m", "8192"]


class Plain(Other):
    """`plain_server`, as `cargo build --release` leaves it."""

    program = str(pathlib.Path(__file__).resolve().parent / "plain_server/target/release/plain_server")
    dialect = Lines

    def words(self):
        return [self.program, "--port", str(self.port), str(KEYS)]


class Client:
    """One connection: it sends so many requests at a time, and the next ones when each was answered."""

    def __init__(self, port, dialect, number, keys, depth, batches, hits):
        self.dialect, self.hits = dialect, hits
        self.socket = socket.create_connection((HOST, port), timeout=ANSWER_SECONDS)
        self.socket.setsockopt(socket.IPPROTO_TCP, socket.TCP_NODELAY, 1)
        self.draw = random.Random(number)
        self.number, self.keys, self.depth, self.batches = number, keys, depth, batches
        self.stored, self.wanted, self.received, self.count = {}, [], bytearray(), 0
        if hits:
            self.store_all()

    def key(self, number):
        return b"%04d-%011d" % (self.number, number)

    def put(self, key):
        """A request that stores a value, and its replies."""
        self.stored[key] = b"value-%026d" % self.count
        return self.dialect.put(key, self.stored[key])

    def get(self, key):
        """A look-up, and which replies it may have: where only hits count, that with the value."""
        request, replies = self.dialect.get(key, self.stored.get(key))
        return request, [allowed[:1] for allowed in replies] if self.hits else replies

    def say(self, requests):
        """Sends requests, and notes which replies each may have."""
        for _, replies in requests:
            self.wanted += replies
        self.count += len(requests)
        self.socket.sendall(b"".join(request for request, _ in requests))

    def store_all(self):
        """Stores a value under each key, one after the other."""
        for number in range(self.keys):
            self.say([self.put(self.key(number))])
            while not self.receive():
                pass

    def send(self):
        """Sends the next requests."""
        keys = [self.key(self.draw.randrange(self.keys)) for _ in range(self.depth)]
        self.say([self.put(key) if self.puts(place) else self.get(key) for place, key in enumerate(keys, self.count)])
        self.batches -= 1

    def puts(self, place):
        """Whether the request of this number stores a value: every second one, unless only hits count."""
        return place % 2 == 0 and not self.hits

    def receive(self):
        """Takes what came, and answers whether all that was sent is answered."""
        piece = self.socket.recv(65536)
        if not piece:
            sys.exit("the server closed a connection")
        self.received += piece
        if self.received.count(b"\n") < len(self.wanted):
            return False
        for reply, allowed in zip(self.received.split(b"\n"), self.wanted):
            if reply not in allowed:
                sys.exit(f"a wrong reply: {reply!r}, not {allowed!r}")
        self.received.clear()
        self.wanted.clear()
        return True


def drive(port, dialect, numbers, keys, depth, batches, hits, ready, started):
    """Drives these connections until each has sent its batches."""
    poll = selectors.DefaultSelector()
    clients = [Client(port, dialect, number, keys, depth, batches, hits) for number in numbers]
    ready.wait()
    started.wait()
    for client in clients:
        poll.register(client.socket, selectors.EVENT_READ, client)
        client.send()
    running = len(clients)
    while running:
        ready = poll.select(ANSWER_SECONDS)
        if not ready:
            sys.exit(f"no answer in {ANSWER_SECONDS} seconds")
        for key, _ in ready:
            if key.data.receive():
                if key.data.batches:
                    key.data.send()
                else:
                    poll.unregister(key.fileobj)
                    key.fileobj.close()
                    running -= 1


def run(server, connections, depth, requests, watch=None, hits=False):
    """The seconds that so many requests take, and the server's processor seconds for them."""
    batches = max(1, requests // (connections * depth))
    processes = min(CLIENT_PROCESSES, connections)
    ready, started = multiprocessing.Barrier(processes + 1), multiprocessing.Event()
    keys = max(1, KEYS // connections)
    drivers = [
        multiprocessing.Process(
            target=drive, args=(server.port, server.dialect, range(first, connections, processes), keys, depth, batches, hits, ready, started)
        )
        for first in range(processes)
    ]
    for driver in drivers:
        driver.start()
    ready.wait(ANSWER_SECONDS)
    time.sleep(0.2)
    used, begun = server.processor_seconds(), time.perf_counter()
    started.set()
    while any(driver.is_alive() for driver in drivers):
        if watch:
            watch()
        time.sleep(0.05 if watch else 0.005)
    seconds, used = time.perf_counter() - begun, server.processor_seconds() - used
    if any(driver.exitcode for driver in drivers):
        server.stop()
        sys.exit(1)
    return connections * depth * batches, seconds, used


def round_of(name, make, hits=False):
    """Rows of connections, depth, requests a second and processor microseconds a request, as each is measured."""
    for connections in HITS_CONNECTIONS if hits else CONNECTIONS:
        for depth, requests in DEPTHS.items():
            progress.show(f"{name}: {connections} connections at depth {depth}")
            server = make(KEYS)
            done, seconds, used = run(server, connections, depth, requests, hits=hits)
            server.stop()
            yield connections, depth, done / seconds, used / done * 1e6


def bench(name):
    print("connections  depth  requests a second  processor microseconds a request")
    for connections, depth, rate, micros in round_of(name, SERVERS[name]):
        progress.clear()
        print(f"{connections:11} {depth:6} {rate:18.0f} {micros:33.2f}", flush=True)


def in_turn(kind, servers_by_name, hits=False):
    """All of these servers that are there, in turn."""
    makes = {name: make for name, make in servers_by_name.items() if make.is_there()}
    taken = {}
    for _ in range(ROUNDS):
        for name, make in makes.items():
            for connections, depth, _, micros in round_of(name, make, hits):
                taken.setdefault((connections, depth), {}).setdefault(name, []).append(micros)
    progress.clear()
    print("processor microseconds a request: medians, least and greatest")
    for (connections, depth), row in taken.items():
        medians = {name: round(statistics.median(all_micros), 2) for name, all_micros in row.items()}
        texts = [f"{name} {medians[name]} ({min(row[name]):.1f} to {max(row[name]):.1f})" for name in row]
        print(f"{connections:3} connections, depth {depth:2}: {', '.join(texts)}", flush=True)
        figures.keep(kind, {f"{connections} {depth}": {name: figures.spread(row[name], medians[name]) for name in row}})


def beside():
    in_turn("requests", SERVERS)


def hits():
    in_turn("hits", {"memcache": Memcache, "memcached": MemcachedAlone, "redis": Redis}, hits=True)


def soak():
    """The cache is full after a few thousand requests; from a quarter of the run on memory has to stay as it is."""
    server = Server(CAPACITY)
    memory = []

    def watch():
        memory.append(server.resident_kibibytes())
        progress.show(f"{server.processor_seconds():.0f} s of processor time, {memory[-1]} KiB")

    done, seconds, _ = run(server, SOAK_CONNECTIONS, SOAK_DEPTH, SOAK_REQUESTS, watch)
    server.stop()
    progress.clear()
    quarter, last = max(memory[: len(memory) // 4 + 1]), max(memory[len(memory) * 3 // 4 :])
    figures.keep("soak", {"cached": {"first quarter": round(quarter / 1024, 1), "last quarter": round(last / 1024, 1)}})
    print(f"{done} requests over {SOAK_CONNECTIONS} connections in {seconds:.1f} s; at most {quarter} KiB in the first quarter, {last} KiB in the last")
    sys.exit(last > quarter * 1.1)


def send_all(server, requests):
    """Sends requests of one line of reply each, a thousand at a time, each thousand when the one before was answered."""
    with socket.create_connection((HOST, server.port), timeout=ANSWER_SECONDS) as client:
        while batch := list(itertools.islice(requests, 1000)):
            client.sendall(b"".join(batch))
            left = len(batch)
            while left:
                left -= client.recv(65536).count(b"\n")


def held(make, count, length, lives):
    """What a server holds for each of so many values of that length beside it and its key of 16 bytes: when it has just been filled, and when
    each value has then been written over twice and all were replaced by others twice."""
    server = make.holding(count, length, lives)
    put = server.dialect.put

    def values(first, last):
        for number in range(first, last):
            yield put(b"key-%012d" % number, b"%0*d" % (length, number), lives)[0]

    before, used = server.resident_kibibytes(), []
    for turns in ([0], [0, 0, 1, 2]):
        for turn in turns:
            if turn and server.keeps_all:
                send_all(server, (server.dialect.drop(b"key-%012d" % number) for number in range((turn - 1) * count, turn * count)))
            send_all(server, values(turn * count, (turn + 1) * count))
        used.append(round((server.resident_kibibytes() - before) * 1024 / count - 16 - length))
    server.stop()
    return used


def memory():
    """Fills figures.json with what each server holds for a value. The system's `malloc` has one arena, as in the unit: with one for each thread
    `bivrangd` holds up to twice as much once values come and go."""
    os.environ["MALLOC_ARENA_MAX"] = "1"
    makes = {name: make for name, make in HOLDERS.items() if make.is_there()}
    for count, length, lives in HELD:
        for name, make in makes.items():
            what = f"{count:,} values of {length} bytes{' that live a day' if lives else ''}"
            progress.show(f"{name}: {what}")
            filled, steady = held(make, count, length, lives)
            figures.keep("memory", {f"{name}: {what}": {"filled": filled, "steady": steady}})
            progress.clear()
            print(f"{name}: {what}: {filled} bytes a value beside key and value when just filled, {steady} steady", flush=True)


def idle():
    """Connects so many clients, each of which asks once, and tells what that takes."""
    allowed = resource.getrlimit(resource.RLIMIT_NOFILE)[1]
    resource.setrlimit(resource.RLIMIT_NOFILE, (min(allowed, 2 * IDLE), allowed))
    server = Bivrangd(KEYS)
    done, _, used = run(server, ACTIVE, 1, DEPTHS[1])
    alone = used / done * 1e6
    with socket.create_connection((HOST, server.port), timeout=ANSWER_SECONDS) as client:
        # (the others begin anew)
        client.sendall(b"CLEAR\n")
        client.recv(100)
        client.sendall(b"SYNC\n")
        client.recv(100)
        before = server.resident_kibibytes()
        clients = []
        for number in range(IDLE):
            clients.append(socket.create_connection((HOST, server.port), timeout=ANSWER_SECONDS))
            clients[-1].sendall(b"GET key\n")
            clients[-1].recv(100)
            progress.show(f"{number:,} of {IDLE:,} connections")
        progress.clear()
        held = (server.resident_kibibytes() - before) * 1024
        done, _, used = run(server, ACTIVE, 1, DEPTHS[1])
        beside_idle = used / done * 1e6
        for idle_one in clients:
            idle_one.close()
        time.sleep(1)
        client.sendall(b"SYNC\n")
        client.recv(100)
        left = (server.resident_kibibytes() - before) * 1024
    server.stop()
    row = {"bytes": round(held / IDLE), "left": round(left / IDLE), "alone": round(alone, 1), "beside": round(beside_idle, 1)}
    figures.keep("idle", {"bivrangd": row})
    print(f"{IDLE} idle connections: {held / IDLE:.0f} bytes each, {left / IDLE:.0f} once they have closed;"
          f" over {ACTIVE} others a request costs {alone:.1f} us without them and {beside_idle:.1f} us with them")


class Paced(Client):
    """One that sends a request when its time has come, and notes how long after it the reply was there."""

    due = None

    def ask(self, due):
        self.due = due
        self.send()


def drive_paced(port, dialect, numbers, rate, count, waited):
    """Sends so many requests, this many a second, each over a connection that waits for none; puts how long each waited."""
    poll, waits, late = selectors.DefaultSelector(), [], collections.deque()
    free = [Paced(port, dialect, number, KEYS // WAITING, 1, count, False) for number in numbers]
    for client in free:
        poll.register(client.socket, selectors.EVENT_READ, client)
    sent, start = 0, time.perf_counter()
    while len(waits) < count:
        now = time.perf_counter()
        while sent < count and start + sent / rate <= now:
            late.append(start + sent / rate)
            sent += 1
        while late and free:
            free.pop().ask(late.popleft())
        # (a selector waits for whole milliseconds)
        for key, _ in poll.select(0):
            if key.data.receive():
                waits.append(time.perf_counter() - key.data.due)
                free.insert(0, key.data)
    waited.put(waits)


def waits_at(server, rate):
    """How long each of a few seconds' requests waits, sorted, at so many a second in all."""
    waited, each = multiprocessing.Queue(), rate / WAIT_PROCESSES
    words = [
        (server.port, server.dialect, range(first, WAITING, WAIT_PROCESSES), each, int(each * WAIT_SECONDS), waited)
        for first in range(WAIT_PROCESSES)
    ]
    drivers = [multiprocessing.Process(target=drive_paced, args=of) for of in words]
    for driver in drivers:
        driver.start()
    waits = sorted(wait for _ in drivers for wait in waited.get(timeout=ANSWER_SECONDS + 2 * WAIT_SECONDS))
    for driver in drivers:
        driver.join()
    return waits


def waits():
    """Fills figures.json with the medians over the rounds of the middle wait and of that which one request in a hundred exceeds."""
    makes = {name: make for name, make in SERVERS.items() if name in ("cached", "bivrangd", "redis") and make.is_there()}
    rates = {}
    for name, make in makes.items():
        progress.show(f"{name}: its rate")
        server = make(KEYS)
        done, seconds, _ = run(server, WAITING, 1, DEPTHS[1])
        rates[name] = done / seconds
        server.stop()
    rate, taken = min(rates.values()) / 2, {name: [] for name in makes}
    for _ in range(ROUNDS):
        for name, make in makes.items():
            progress.show(f"{name}: {rate:,.0f} requests a second")
            server = make(KEYS)
            taken[name].append([it * 1e6 for it in waits_at(server, rate)])
            server.stop()
    progress.clear()
    for name, rounds in taken.items():
        row = {}
        for word, part in (("half", 0.5), ("one in a hundred", 0.99)):
            values = [of[int(len(of) * part)] for of in rounds]
            row[word] = figures.spread(values, statistics.median(values), 0)
        figures.keep("waits", {name: {**row, "rate": round(rate)}})
        print(f"{name}: at {rate:,.0f} requests a second half wait at most {row['half'][0]:.0f} us, 99 of 100 at most {row['one in a hundred'][0]:.0f} us")


def drive_spaces(port, number, ready, started):
    """Sends batches of lines over some connections of a namespace, each when the one before was answered; each reply is compared."""
    lines = b"".join(b"SET key-%012d - value-%026d\nGET key-%012d\n" % (place, place, place) for place in range(SPACES_LINES // 2))
    right = b"".join(b"OK\nVAL value-%026d\n" % place for place in range(SPACES_LINES // 2))
    links = [socket.create_connection((HOST, port), timeout=ANSWER_SECONDS) for _ in range(SPACES_CONNECTIONS)]
    ready.wait()
    started.wait()
    for _ in range(SPACES_BATCHES):
        for link in links:
            link.sendall(lines)
        for link in links:
            left = len(right)
            pieces = []
            while left:
                pieces.append(link.recv(left))
                left -= len(pieces[-1])
                if not pieces[-1]:
                    sys.exit("the server closed a connection")
            if b"".join(pieces) != right:
                sys.exit(f"namespace {number} replies something else")


def rate_of_spaces(count):
    """Requests a second of so many namespaces at once, each with a loop and a client process of its own."""
    server = Spaces(count)
    ready, started = multiprocessing.Barrier(count + 1), multiprocessing.Event()
    drivers = [multiprocessing.Process(target=drive_spaces, args=(port, number, ready, started)) for number, port in enumerate(server.ports)]
    for driver in drivers:
        driver.start()
    ready.wait(ANSWER_SECONDS)
    begun = time.perf_counter()
    started.set()
    for driver in drivers:
        driver.join()
    seconds = time.perf_counter() - begun
    server.stop()
    if any(driver.exitcode for driver in drivers):
        sys.exit(1)
    return count * SPACES_CONNECTIONS * SPACES_LINES * SPACES_BATCHES / seconds


def spaces():
    """Fills figures.json with the rates of one namespace and of two."""
    rates = {count: [rate_of_spaces(count) / 1e6 for _ in range(ROUNDS)] for count in (1, 2)}
    for count, of in rates.items():
        figures.keep("spaces", {str(count): {"millions": figures.spread(of, statistics.median(of))}})
    one, two = (statistics.median(of) for of in rates.values())
    print(f"one namespace: {one:.2f} million requests a second; two: {two:.2f}, {two / one:.2f} times as many")


SERVERS = {"cached": Server, "bivrangd": Bivrangd, "memcache": Memcache, "redis": Redis, "memcached": Memcached, "plain": Plain}
HOLDERS = {"bivrangd": Bivrangd, "memcache": Memcache, "memcached": MemcachedWide, "redis": Redis}
KINDS = {"soak": soak, "memory": memory, "idle": idle, "waits": waits, "spaces": spaces, "beside": beside, "hits": hits}


if __name__ == "__main__":
    word = sys.argv[1] if len(sys.argv) > 1 else "cached"
    if len(sys.argv) > 2 or word not in [*SERVERS, *KINDS]:
        sys.exit(__doc__)
    elif word in KINDS:
        KINDS[word]()
    else:
        bench(word)
