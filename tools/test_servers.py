#!/usr/bin/env python3
"""Plays the rows of servers against each server of lines: what clients send, what they are answered, and what the server prints.

    python3 tools/test_servers.py [PATH_OF_A_PROGRAM ..]

Without a path, the servers of benches/servers.py. Rows of what `cached` lacks (`stop`, paths, farewells) are played against the others. The status is
1 if a row fails.
"""
import os
import pathlib
import socket
import subprocess
import sys
import tempfile
import threading
import time

sys.path.insert(0, str(pathlib.Path(__file__).resolve().parent.parent / "benches"))
import servers  # noqa: E402
from connections import HOST, free_port  # noqa: E402

SECONDS = 60
MAIN = ('name = "main"\ncapacity = 1000\n', "[namespace.loads]\nk = \"v\"\n")
PLAIN = ('name = "m"\n', "")
B = ('name = "b"\n', "")
OFF = ('name = "a-1"\ncapacity = 0\n', "")


class Row:
    """Namespaces, each as the keys and the tables of its table; what a client of each sends, and is answered; the lines that the server
    prints after those that say where it listens. In turn: each line is sent once the one before is answered."""

    def __init__(self, spaces, talks=(), notes=b"", in_turn=False):
        self.spaces, self.talks, self.notes, self.in_turn = spaces, talks, notes, in_turn


ROWS = {
    "one namespace": Row(
        [MAIN],
        [(b"SET a - 1\nGET a\nSET a - 2\nDEL a\nGET a\nQUIT\n", b"OK\nVAL 1\nOK\nOK\nNONE\nOK\n")],
        b"main NOTE Replaced a 1\nmain NOTE Explicit a 2\n",
    ),
    "its loads, line by line": Row(
        [MAIN], [(b"SET a - 1\nGET a\nLOAD k\nLOAD z\nQUIT\n", b"OK\nVAL 1\nVAL v\nNONE\nOK\n")], in_turn=True
    ),
    "two namespaces": Row(
        [B, OFF],
        [(b"SET a - 1\nDEL a\nSET a - 2\nQUIT\n", b"OK\nOK\nOK\nOK\n"), (b"GET a\nSET a - 1\nQUIT\n", b"NONE\nOFF\nOK\n")],
        b"b NOTE Explicit a 1\n",
    ),
    "a line that cannot be read": Row([PLAIN], [(b"GET half a\nNO\nGET a\nQUIT\n", b"ERR syntax\nERR command\nNONE\nOK\n")]),
    "the end of the input": Row([PLAIN], [(b"SET a - 1\nGET a\nGET", b"OK\nVAL 1\n")]),
}


def name_of(space):
    return space[0].split('"')[1]


class Started:
    """A server of some namespaces, at ports of its own."""

    def __init__(self, path, spaces, ports=None, output=subprocess.PIPE):
        self.ports = ports or [free_port() for _ in spaces]
        self.folder = tempfile.TemporaryDirectory()
        file = pathlib.Path(self.folder.name, "cached.toml")
        tables = [f"[[namespace]]\nport = {port}\n{keys}{rest}" for port, (keys, rest) in zip(self.ports, spaces)]
        file.write_text("".join(tables))
        self.process = subprocess.Popen(
            [path, "--config", file], stdin=subprocess.PIPE, stdout=output, stderr=subprocess.PIPE
        )

    def __enter__(self):
        return self

    def __exit__(self, *_):
        self.process.kill()
        self.process.communicate()
        self.folder.cleanup()

    def status(self):
        return self.process.wait(SECONDS)


def listening(path, spaces):
    """A server of some namespaces that listens. Between their choice and its start another process may take a port."""
    for _ in range(5):
        server = Started(path, spaces)
        lines = [server.process.stdout.readline() for _ in spaces]
        if lines == [f"listening {name_of(space)} {HOST}:{port}\n".encode() for port, space in zip(server.ports, spaces)]:
            return server
        server.__exit__()
        if any(lines):
            break
    raise AssertionError(f"the server does not listen, and prints {lines!r}")


def want(found, wanted):
    if found != wanted:
        raise AssertionError(f"{found!r} in place of {wanted!r}")


def talk(port, sent, in_turn):
    """What a client reads that sends this, up to the end."""
    with socket.create_connection((HOST, port), timeout=SECONDS) as stream, stream.makefile("rb") as replies:
        if not in_turn:
            stream.sendall(sent)
            stream.shutdown(socket.SHUT_WR)
            return replies.read()
        read = b""
        for line in sent.splitlines(keepends=True):
            stream.sendall(line)
            read += replies.readline()
        return read + replies.read()


def plays(path, row):
    with listening(path, row.spaces) as server:
        found = {}
        clients = [
            threading.Thread(target=lambda at=at, port=port, sent=sent: found.update({at: talk(port, sent, row.in_turn)}))
            for at, (port, (sent, _)) in enumerate(zip(server.ports, row.talks))
        ]
        for client in clients:
            client.start()
        for client in clients:
            client.join()
        want([found.get(at) for at in range(len(clients))], [replies for _, replies in row.talks])
        if row.notes:
            want(b"".join(server.process.stdout.readline() for _ in row.notes.splitlines()), row.notes)


def does_not_listen(path):
    """The second port is taken: nothing is printed, and the status is 1."""
    with socket.create_server((HOST, 0)) as taken:
        with Started(path, [B, PLAIN], ports=[free_port(), taken.getsockname()[1]]) as server:
            want(server.status(), 1)
            want(server.process.stdout.read(), b"")


def does_not_print(path):
    """Standard output cannot be written at the start: the status is 1."""
    with open("/dev/full", "wb") as full, Started(path, [PLAIN], output=full) as server:
        want(server.status(), 1)


def serves_unheard(path):
    """Who reads the notices goes: each request is answered, and standard error says so."""
    with listening(path, [PLAIN]) as server:
        server.process.stdout.close()
        server.process.stdout = None
        sent, replies = b"SET a - 1\nDEL a\nSET a - 2\nDEL a\nGET a\nQUIT\n", b"OK\nOK\nOK\nOK\nNONE\nOK\n"
        want(talk(server.ports[0], sent, False), replies)
        says(server, b"notices cannot be written")


def says(server, wanted):
    """Standard error has a line with these words."""
    lines = []
    while not lines or lines[-1]:
        lines.append(server.process.stderr.readline())
        if wanted in lines[-1]:
            return
    raise AssertionError(f"standard error says {lines!r}")


def hears_all(path):
    """Much behind a line that is too long, or behind a `QUIT`: the replies before it come."""
    with listening(path, [PLAIN]) as server:
        for end, last in (b"", b""), (b"QUIT\n", b"OK\n"):
            with socket.create_connection((HOST, server.ports[0]), timeout=SECONDS) as stream, stream.makefile("rb") as replies:
                stream.sendall(b"GET z\n" * 1000 + end)
                try:
                    stream.sendall(b"k" * 300_000)
                except OSError:
                    pass
                want(replies.read(), b"NONE\n" * 1000 + last)


def fill(server):
    """A thousand notices of a thousand bytes, which is more than waits in a pipe."""
    sent = b"".join(b"SET %d - %s\nDEL %d\n" % (key, b"v" * 1000, key) for key in range(1000))
    want(talk(server.ports[0], sent, False), b"OK\n" * 2000)


def stop(server):
    server.process.stdin.write(b"stop\n")
    server.process.stdin.flush()


def stops_slowly(path):
    """Notices are read slowly while the server stops: all come."""
    with listening(path, [PLAIN]) as server:
        fill(server)
        stop(server)
        read, output = [], server.process.stdout.fileno()
        while not read or read[-1]:
            time.sleep(0.02)
            read.append(os.read(output, 20_000))
        want(b"".join(read).count(b"\n"), 1000)
        want(server.status(), 0)


def loses(path):
    """Notices are not read while the server stops: it says how many were lost, and the status is 3."""
    with listening(path, [PLAIN]) as server:
        fill(server)
        stop(server)
        want(server.status(), 3)
        written = server.process.stdout.read().count(b"\n")
        says(server, b"GMT: %d notices lost" % (1000 - written))


def leaves_no_path(path):
    """A path of a start that fails: it is removed."""
    with tempfile.TemporaryDirectory() as folder, socket.create_server((HOST, 0)) as taken:
        at = f'name = "b"\nbind = "{folder}/b"\n'
        with Started(path, [(at, ""), PLAIN], ports=[1, taken.getsockname()[1]]) as server:
            want(server.status(), 1)
            want(os.listdir(folder), [])


def leaves_others_paths(path):
    """Another server listens at a path since: it stays there."""
    with tempfile.TemporaryDirectory() as folder:
        at = [(f'name = "b"\nbind = "{folder}/b"\n', "")]
        with Started(path, at) as first:
            first.process.stdout.readline()
            os.remove(f"{folder}/b")
            with Started(path, at) as second:
                second.process.stdout.readline()
                for server, wanted in (first, ["b"]), (second, []):
                    stop(server)
                    want(server.status(), 0)
                    want(os.listdir(folder), wanted)


def main():
    if any(word.startswith("-") for word in sys.argv[1:]):
        sys.exit(__doc__)
    rows = {name: lambda path, row=row: plays(path, row) for name, row in ROWS.items()}
    rows.update({f.__doc__.split(":")[0]: f for f in (does_not_listen, does_not_print, serves_unheard)})
    others = {f.__doc__.split(":")[0]: f for f in (hears_all, stops_slowly, loses, leaves_no_path, leaves_others_paths)}
    failed = 0
    for path in sys.argv[1:] or [row.path for row in servers.rows_of([])]:
        for name, play in (rows if pathlib.Path(path).name == "cached" else {**rows, **others}).items():
            try:
                play(path)
            except (AssertionError, OSError, subprocess.TimeoutExpired) as error:
                failed += 1
                print(f"{path}: {name}: {error}")
    print(f"Ran {len(rows)} rows against each server, and {len(others)} more against bivrangd, {failed} failed")
    sys.exit(1 if failed else 0)


if __name__ == "__main__":
    main()
