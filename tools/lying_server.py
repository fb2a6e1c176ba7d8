#!/usr/bin/env python3
"""A wrong server: `cached --config FILE` behind a script that lies in one reply of a thousand.

    LIES=KIND LIE_ONE_IN=1000 LIE_SEED=0 LIE_PROGRAM=PATH python3 tools/lying_server.py --config FILE

It takes the same arguments as the server, listens on the ports of the file, and passes requests, replies and
notices on; each lie is reported on standard error. KIND says what it lies about; by default, everything:

    values     a `VAL` has another value of the namespace, or becomes `NONE`; a `NONE` becomes `VAL`
    presence   a `YES` becomes `NO`, a `NO` `YES`; a `KEYS` lacks a key
    counts     a `SYNC` counts one value more
    writes     a `SET` or a `DEL` is answered, and not done
    notices    a notice has another cause, is left out, or comes twice

`tools/random_use.py --lie` has to detect it.
"""
import collections
import os
import pathlib
import random
import re
import selectors
import signal
import socket
import subprocess
import sys
import tempfile

HOST = "127.0.0.1"
PROGRAM = pathlib.Path(__file__).resolve().parent.parent / "crates/cached/out/cached"
KINDS = ("values", "presence", "counts", "writes", "notices")
CAUSES = (b"Expired", b"Explicit", b"Replaced", b"Size")


def free_ports(count):
    """Ports that nobody listens on now."""
    probes = [socket.socket() for _ in range(count)]
    for probe in probes:
        probe.bind((HOST, 0))
    ports = [probe.getsockname()[1] for probe in probes]
    for probe in probes:
        probe.close()
    return ports


class Liar:
    """Draws when to lie, and what."""

    def __init__(self, kinds, one_in, seed):
        self.kinds, self.one_in, self.draw = kinds, one_in, random.Random(seed)
        self.values = collections.defaultdict(lambda: collections.deque(maxlen=64))

    def lies(self, kind):
        return kind in self.kinds and self.draw.randrange(self.one_in) == 0

    def tell(self, kind, truth, lie):
        said = lie if lie else b"(nothing)"
        sys.stderr.write(f"lie {kind}: {said[:60]!r} in place of {truth[:60]!r}\n")
        sys.stderr.flush()
        return lie

    def another(self, name, value):
        others = [it for it in self.values[name] if it != value]
        return self.draw.choice(others) if others else b"lie"

    def request(self, line):
        """The line that is passed on, and the reply that is given in place of its own."""
        if line[:4] in (b"SET ", b"DEL ") and self.lies("writes"):
            words = line.split(b" ")
            if len(words) > 1 and 1 <= len(words[1]) <= 250:
                self.tell("writes", line, b"OK")
                return b"HAS " + words[1].rstrip(b"\r"), b"OK"
        return line, None

    def reply(self, name, line):
        """A reply's line, or a lie."""
        word = line[:4]
        if word == b"VAL ":
            if self.lies("values"):
                lie = b"NONE" if self.draw.random() < 0.5 else b"VAL " + self.another(name, line[4:])
                return self.tell("values", line, lie)
            self.values[name].append(line[4:])
        elif line == b"NONE" and self.lies("values"):
            return self.tell("values", line, b"VAL " + self.another(name, b""))
        elif line in (b"YES", b"NO") and self.lies("presence"):
            return self.tell("presence", line, b"NO" if line == b"YES" else b"YES")
        elif word == b"SYNC" and self.lies("counts"):
            _, count, weight = line.split(b" ")
            return self.tell("counts", line, b"SYNC %d %s" % (int(count) + 1, weight))
        return line

    def listed(self, lines):
        """A reply `KEYS` with its keys, or one that lacks a key."""
        if len(lines) > 1 and self.lies("presence"):
            lie = [b"KEYS %d" % (len(lines) - 2), *lines[1:-1]]
            self.tell("presence", lines[0], lie[0])
            return lie
        return lines

    def notice(self, line):
        """The lines in a notice's place."""
        words = line.split(b" ", 4)
        if len(words) < 5 or words[1] != b"NOTE" or not self.lies("notices"):
            return [line]
        drawn = self.draw.randrange(3)
        if drawn == 0:
            self.tell("notices", line, b"")
            return []
        if drawn == 1:
            self.tell("notices", line, line + b" twice")
            return [line, line]
        words[2] = self.draw.choice([it for it in CAUSES if it != words[2]])
        return [self.tell("notices", line, b" ".join(words))]


class Pair:
    """A client's connection and its own to the server."""

    def __init__(self, name, client, server):
        self.name, self.client, self.server = name, client, server
        self.asked, self.told = b"", b""
        self.pending = collections.deque()
        self.listing = None
        self.is_shut = False


class Between:
    def __init__(self, liar, program, file):
        self.liar = liar
        self.poll = selectors.DefaultSelector()
        self.folder = tempfile.TemporaryDirectory()
        text = pathlib.Path(file).read_text(encoding="utf-8")
        # (all of the file's ports are taken before others are drawn)
        outer = re.findall(r"(?m)^port = (\d+)$", text)
        listeners = [socket.create_server((HOST, int(port)), backlog=1024) for port in outer]
        ports = free_ports(len(outer))
        self.listeners = dict(zip(ports, listeners))
        given = iter(ports)
        text = re.sub(r"(?m)^port = \d+$", lambda _: f"port = {next(given)}", text)
        inner = pathlib.Path(self.folder.name, "cached.toml")
        inner.write_text(text, encoding="utf-8")
        self.process = subprocess.Popen(
            [program, "--config", inner], stdin=subprocess.DEVNULL, stdout=subprocess.PIPE
        )
        self.output, self.rest = self.process.stdout.fileno(), b""
        os.set_blocking(self.output, False)
        self.poll.register(self.output, selectors.EVENT_READ, None)

    def drain(self):
        """Passes on what the server told; answers whether it goes on."""
        while True:
            try:
                piece = os.read(self.output, 1 << 20)
            except BlockingIOError:
                return True
            if not piece:
                return False
            *lines, self.rest = (self.rest + piece).split(b"\n")
            told = []
            for line in lines:
                if line.startswith(b"listening "):
                    told.append(self.listen(line))
                else:
                    told += self.liar.notice(line)
            # (what is told goes out before the replies behind it)
            text = b"".join(line + b"\n" for line in told)
            while text:
                text = text[os.write(1, text):]

    def listen(self, line):
        _, name, address = line.decode().split(" ")
        inner = int(address.rsplit(":", 1)[1])
        listener = self.listeners[inner]
        self.poll.register(listener, selectors.EVENT_READ, (name, inner))
        return f"listening {name} {HOST}:{listener.getsockname()[1]}".encode()

    def accept(self, listener, name, inner):
        client, _ = listener.accept()
        server = socket.create_connection((HOST, inner))
        for it in (client, server):
            it.setsockopt(socket.IPPROTO_TCP, socket.TCP_NODELAY, 1)
        pair = Pair(name, client, server)
        self.poll.register(client, selectors.EVENT_READ, pair)
        self.poll.register(server, selectors.EVENT_READ, pair)

    def from_client(self, pair):
        try:
            piece = pair.client.recv(65536)
        except OSError:
            piece = b""
        try:
            if not piece:
                self.poll.unregister(pair.client)
                pair.server.sendall(pair.asked)
                pair.server.shutdown(socket.SHUT_WR)
                pair.is_shut = True
                return
            *lines, pair.asked = (pair.asked + piece).split(b"\n")
            passed = []
            for line in lines:
                line, instead = self.liar.request(line)
                pair.pending.append((line, instead))
                passed.append(line + b"\n")
            pair.server.sendall(b"".join(passed))
            if len(pair.asked) > 8192:
                pair.server.sendall(pair.asked)
                pair.asked = b""
        except OSError:
            pass

    def from_server(self, pair):
        try:
            piece = pair.server.recv(65536)
        except OSError:
            piece = b""
        self.drain()
        if not piece:
            for it in (pair.client, pair.server):
                if not (it is pair.client and pair.is_shut):
                    self.poll.unregister(it)
                it.close()
            return
        *lines, pair.told = (pair.told + piece).split(b"\n")
        replies = []
        for line in lines:
            replies += self.replied(pair, line)
        try:
            pair.client.sendall(b"".join(line + b"\n" for line in replies))
        except OSError:
            pass

    def replied(self, pair, line):
        """What a line of a reply becomes; the lines of a `KEYS` are gathered first."""
        if pair.listing is None:
            _, instead = pair.pending.popleft() if pair.pending else (b"", None)
            if instead is not None:
                return [instead]
            if not line.startswith(b"KEYS "):
                return [self.liar.reply(pair.name, line)]
            pair.listing = [line]
        else:
            pair.listing.append(line)
        if len(pair.listing) <= int(pair.listing[0][5:]):
            return []
        lines, pair.listing = pair.listing, None
        return self.liar.listed(lines)

    def run(self):
        while True:
            for key, _ in self.poll.select():
                if key.fileobj == self.output:
                    if not self.drain():
                        return self.process.wait()
                elif isinstance(key.data, tuple):
                    self.accept(key.fileobj, *key.data)
                elif key.fileobj.fileno() < 0:
                    continue
                elif key.fileobj is key.data.client:
                    self.from_client(key.data)
                else:
                    self.from_server(key.data)


def main():
    if len(sys.argv) != 3 or sys.argv[1] != "--config":
        sys.exit(__doc__)
    given = os.environ.get
    kinds = [given("LIES")] if given("LIES") else list(KINDS)
    liar = Liar(kinds, int(given("LIE_ONE_IN", "1000")), int(given("LIE_SEED", "0")))
    signal.signal(signal.SIGTERM, lambda *_: sys.exit(0))
    between = Between(liar, given("LIE_PROGRAM", str(PROGRAM)), sys.argv[2])
    try:
        sys.exit(between.run())
    finally:
        between.process.kill()
        between.folder.cleanup()


if __name__ == "__main__":
    main()
