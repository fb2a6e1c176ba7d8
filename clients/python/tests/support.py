"""What the tests share: the real server, fake ones that break their replies, child processes."""
import contextlib
import functools
import os
import pathlib
import queue
import signal
import socket
import subprocess
import sys
import tempfile
import threading
import time
import unittest

sys.dont_write_bytecode = True
sys.path.insert(0, str(pathlib.Path(__file__).resolve().parents[1]))
import bivrang  # noqa: E402
from bivrang import Client, Connection, Servers  # noqa: E402

REPOSITORY = pathlib.Path(__file__).resolve().parents[3]
HOST = "127.0.0.1"
START_SECONDS = 60
PATIENCE = 60
SHORT = 0.2

PATIENT = {"connect_seconds": PATIENCE, "reply_seconds": PATIENCE, "wait_seconds": PATIENCE}
"""The time limits of a pool that is to have time enough on a busy machine."""

NAMESPACES = {
    "main": "capacity = 100000",
    "timed": "deadlines = true",
    "zero": "capacity = 0",
    "loads": '[namespace.loads]\nk = "found elsewhere"\nlong = "%s"' % ("x" * 8192),
    "bytes": 'weight = "bytes"',
    "small": 'capacity = 2\npolicy = "lru"',
}


def free_ports(count):
    """Ports that nobody listens on now, all different."""
    with contextlib.ExitStack() as stack:
        probes = [stack.enter_context(socket.create_server((HOST, 0))) for _ in range(count)]
        return [probe.getsockname()[1] for probe in probes]


def free_port():
    return free_ports(1)[0]


def wait_until(holds):
    """Waits until this holds. Fails if it does not for long."""
    ends = time.monotonic() + PATIENCE
    while not holds():
        if time.monotonic() > ends:
            raise AssertionError("it does not come to hold")
        time.sleep(0.001)


class RealServer:
    """`cached --config` with these namespaces, until it is stopped."""

    def __init__(self, namespaces):
        self.folder = tempfile.TemporaryDirectory()
        # Between its choice and the server's start another process may take a port.
        for _ in range(5):
            self.configure(namespaces)
            if self.start():
                return
            self.end()
        raise AssertionError("the server does not listen")

    def configure(self, namespaces):
        self.ports = dict(zip(namespaces, free_ports(len(namespaces))))
        self.file = pathlib.Path(self.folder.name, "cached.toml")
        self.file.write_text(
            "".join(
                f'[[namespace]]\nname = "{name}"\nport = {self.ports[name]}\n{rest}\n'
                for name, rest in namespaces.items()
            )
        )

    def start(self):
        """Whether it listens."""
        words = [os.environ["CACHED"], "--config", str(self.file)]
        self.lines = queue.Queue()
        self.process = subprocess.Popen(words, stdout=subprocess.PIPE, stdin=subprocess.DEVNULL)
        threading.Thread(target=self.read, args=(self.process.stdout,), daemon=True).start()
        next_line = functools.partial(self.lines.get, timeout=START_SECONDS)
        return all(next_line().startswith(b"listening ") for _ in self.ports)

    def read(self, output):
        for line in output:
            self.lines.put(line)
        self.lines.put(b"")

    def end(self):
        self.process.kill()
        self.process.wait()
        self.process.stdout.close()

    def stop(self):
        self.end()
        self.folder.cleanup()

    def notices(self, name, count):
        """The next notices of a namespace."""
        told = []
        while len(told) < count:
            line = self.lines.get(timeout=PATIENCE)
            if line.startswith(name.encode() + b" NOTE "):
                told.append(line)
        return told


class TheServer:
    """The one real server of all tests, from the first use on."""

    started = None

    @classmethod
    def get(cls):
        if cls.started is None:
            cls.started = RealServer(NAMESPACES)
        return cls.started

    @classmethod
    def stop(cls):
        if cls.started is not None:
            cls.started.stop()


class ClientCase(unittest.TestCase):
    """A case of a client, of this kind."""

    make = Client
    from_url = Client.from_url
    make_servers = Servers

    def made(self, port, **options):
        client = self.make(HOST, port, **{**PATIENT, **options})
        self.addCleanup(client.close)
        return client

    def servers_of(self, *servers, **options):
        servers = self.make_servers(servers, **{**PATIENT, **options})
        self.addCleanup(servers.close)
        return servers


class RealCase(ClientCase):
    """A case on the real server, whose namespaces are empty before each test."""

    @property
    def server(self):
        return TheServer.get()

    def client(self, name="main", **options):
        client = self.made(self.server.ports[name], **options)
        client.clear()
        client.sync()
        return client

    def connection(self, name="main", **options):
        port = self.server.ports[name]
        limits = {"connect_seconds": PATIENCE, "reply_seconds": PATIENCE, **options}
        connection = Connection(HOST, port, **limits)
        self.addCleanup(connection.close)
        return connection

    def raw(self, name="main"):
        """A socket, without a client."""
        link = socket.create_connection((HOST, self.server.ports[name]), timeout=PATIENCE)
        self.addCleanup(link.close)
        return link


def read_all(link):
    """All bytes until the other side ends."""
    told = b""
    while True:
        piece = link.recv(65536)
        if not piece:
            return told
        told += piece


def read_all_or_reset(link):
    """All bytes until the other side ends or breaks the connection."""
    told = b""
    while True:
        try:
            piece = link.recv(65536)
        except ConnectionResetError:
            return told
        if not piece:
            return told
        told += piece


class Forked:
    """A child process that makes one call, by `os.fork`."""

    def __init__(self, call):
        self.number = os.fork()
        if self.number == 0:
            # Nothing of the tests is to run in the child, whatever happens, nor is it to stay.
            status = 1
            try:
                signal.alarm(PATIENCE)
                status = 0 if call() else 2
            finally:
                os._exit(status)

    def status(self):
        """0 if the call returned true, 2 if it returned false, 1 if it raised."""
        _, told = os.waitpid(self.number, 0)
        return os.WEXITSTATUS(told) if os.WIFEXITED(told) else -os.WTERMSIG(told)


# Fake servers.


class Fake:
    """A listener that deals with one connection behind the other by the acts it is given."""

    def __init__(self, case, *acts):
        self.listener = self.bound(case)
        self.listener.settimeout(PATIENCE)
        self.received = []
        self.thread = threading.Thread(target=self.serve, args=(acts,), daemon=True)
        self.thread.start()
        case.addCleanup(self.end)

    def bound(self, case):
        """The listener."""
        listener = socket.create_server((HOST, 0))
        self.port = listener.getsockname()[1]
        return listener

    def serve(self, acts):
        for act in acts:
            try:
                link, _ = self.listener.accept()
            except OSError:
                return
            link.settimeout(PATIENCE)
            self.received.append(b"")
            with link:
                try:
                    act(self, link)
                except OSError:
                    pass

    def line(self, link):
        """Reads to the next line end, at least."""
        while True:
            piece = link.recv(65536)
            self.received[-1] += piece
            if not piece or piece.endswith(b"\n"):
                return

    def end(self):
        if self.thread.is_alive():
            # Closing alone does not wake the thread that accepts.
            self.listener.shutdown(socket.SHUT_RDWR)
            self.thread.join(PATIENCE)
        self.listener.close()


class FakeAtPath(Fake):
    """One that listens at the path of a Unix socket."""

    def bound(self, case):
        folder = tempfile.TemporaryDirectory()
        case.addCleanup(folder.cleanup)
        self.path = str(pathlib.Path(folder.name, "socket"))
        listener = socket.socket(socket.AF_UNIX)
        listener.bind(self.path)
        listener.listen()
        return listener


def replies(*texts):
    """An act that answers each line so, and then waits for the client's end."""

    def act(fake, link):
        for text in texts:
            fake.line(link)
            link.sendall(text)
        fake.line(link)

    return act


def replies_and_ends(*texts):
    """An act that answers each line so, and then closes the connection."""

    def act(fake, link):
        for text in texts:
            fake.line(link)
            link.sendall(text)

    return act


def resets(fake, link):
    """An act that goes with a reset once a line has come."""
    fake.line(link)
    link.setsockopt(socket.SOL_SOCKET, socket.SO_LINGER, b"\1\0\0\0\0\0\0\0")


def trickles(fake, link):
    """An act that answers a byte at a time, without an end."""
    fake.line(link)
    for _ in range(100):
        link.sendall(b"V")
        time.sleep(SHORT / 4)


class FakeCase(ClientCase):
    """A case on fake servers."""

    def pool(self, fake, **options):
        return self.made(fake.port, **options)

    def fails(self, kind, call, fake, **options):
        """The error of a call, which is of that very type."""
        cache = self.pool(fake, **options)
        with self.assertRaises(bivrang.BivrangError) as caught:
            call(cache)
        self.assertIs(type(caught.exception), kind, caught.exception)
        self.assertEqual(len(cache._idle), 0)
        return caught.exception
