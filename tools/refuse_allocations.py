#!/usr/bin/env python3
"""Runs tests with failing allocations, the programs on their stored runs, and a server. Each has to end as it does with enough memory.

    python3 tools/refuse_allocations.py [--folder FOLDER] [--way alone | following] [--jobs N] [--most N] [CRATE [WORD]]
    python3 tools/refuse_allocations.py --between [--folder FOLDER] [CRATE [WORD]]

Without a CRATE it runs all crates of tests that `rt test` (or the gate) has built under FOLDER, by default this repository, and the
programs that `rt run` left there; a CRATE is one of them, or `bivrangd`. WORD: only tests whose names contain it.

There are two ways. In each, the first allocation of a test fails, in the next run the second, and so on to the last:

    alone        only that one fails
    following    that one fails, and all that follow until code of the tests runs again: a call that is refused gets no memory
                 while it returns, and the second try of the test gets all. In the programs, all to the end

In a test with more allocations than --most (by default 2,000), this many are tried, spread evenly. --jobs tests run side by side, by
default as many as there are processors.

A test has to pass each time: it tries again what was refused. Tests that do not, by their nature, are listed in SECOND_TRY_LACKS
with the reason; they are reported and not run. A program has to end with status 0 and the right texts, or with status 1 and a text on
standard error, and then what it wrote is a prefix of the right replies.

`bivrangd` serves a namespace that speaks the memcache protocol to a client that sends one request after the other. Where memory is refused,
the reply is `SERVER_ERROR out of memory ..`, or the connection ends; the request is sent again, by a new connection if need be, and has to
have the right reply, with the right uniques, as if it had not been sent before. (`following`: of so many allocations in a row.) At the
end the server has to stop with status 0. One that lacks memory while it starts may end with status 1 and a text (`following`: without), or
with 2 where its words find none.

The table has a row for each crate: its tests, the number of failing allocations (after a `+` those that followed), and how many
tests failed. The status is 0 if none did, and in each crate some allocation was refused.

With --between it runs only the tests of modules `without_memory` and `refused_in_turn`, each once, in seconds. A test of the first
says where it needs no memory, by asking for two blocks of certain sizes, and all that is asked for between them is refused. One of the
second says by the size of a block which request behind it is refused. It has to pass, and to ask for such blocks. A row for each
crate: its tests, how many requests were refused beside those, and how many tests failed. The status is 0 if there are tests, and none
failed.
"""
import argparse
import collections
import concurrent.futures
import contextlib
import itertools
import os
import pathlib
import shutil
import socket
import subprocess
import sys
import tempfile
import time

ROOT = pathlib.Path(__file__).resolve().parent.parent
# A replay holds lines back where memory is refused, so it prints other transcripts: tools/random_use.py has these judged.
PROGRAMS = {"cached": "--script", "transcript": "audit"}
WAYS = ("alone", "following")
SECONDS = 600
# The server, and how many allocations are refused in a row by the way `following`.
SERVER, IN_A_ROW = "bivrangd", 12
# The modules of a crate in which tests say themselves which requests are refused.
SAYING = ("without_memory::", "refused_in_turn::")
# Tests that take no second try, by the beginning of their names: why.
SECOND_TRY_LACKS = {"refused_in_turn::": "says itself which request is refused, and makes the call once"}


class Refuser:
    """The library that refuses, and what runs came to."""

    def __init__(self, folder):
        self.folder = folder
        self.library = os.path.join(folder, "refuse_allocation.so")
        subprocess.run(["cc", "-shared", "-fPIC", "-O1", "-o", self.library, ROOT / "tools/refuse_allocation.c"], check=True)

    def environment(self, how):
        """The environment of a program that is run so, and the file that has its counts when it has ended."""
        descriptor, count = tempfile.mkstemp(dir=self.folder)
        os.close(descriptor)
        changed = {f"REFUSE_{word}".upper().rstrip("_"): str(it) for word, it in how.items()}
        return {**os.environ, **changed, "LD_PRELOAD": self.library, "REFUSE_COUNT": count}, pathlib.Path(count)

    def run(self, words, given=b"", **how):
        """Runs a program so; answers how it ended, and how many allocations it asked for, were refused, and followed."""
        environment, count = self.environment(how)
        try:
            ran = subprocess.run(words, input=given, capture_output=True, env=environment, timeout=SECONDS, check=False)
        except subprocess.TimeoutExpired:
            ran = subprocess.CompletedProcess(words, None, b"", b"it does not end")
        return ran, counts_of(count)


def counts_of(file):
    """The counts that a program has left, which go."""
    text = file.read_text(encoding="ascii").split()
    file.unlink()
    return [int(it) for it in text] if len(text) == 3 else [0, 1, 0]


def own_places(program, crate, folder):
    """A file with the places of a crate's own functions in its program; None where the program has no names."""
    listed = subprocess.run(["nm", "--defined-only", "-S", program], capture_output=True, text=True, check=False).stdout
    places = []
    for line in listed.split("\n"):
        words = line.split(" ", 3)
        if len(words) == 4 and words[2] in "tT" and words[3].startswith(crate + "::"):
            places.append((int(words[0], 16), int(words[0], 16) + int(words[1], 16)))
    if not places:
        return None
    file = os.path.join(folder, crate + ".places")
    with open(file, "w", encoding="ascii") as it:
        it.writelines(f"{low:x} {high:x}\n" for low, high in sorted(places))
    return file


def numbers(count, most):
    """Which allocations are refused: all, or so many of them."""
    if count <= most:
        return range(1, count + 1)
    return sorted({1 + number * (count - 1) // (most - 1) for number in range(most)})


def cause_of(ran):
    """Why a run failed, in a line."""
    said = (ran.stderr + ran.stdout).decode(errors="replace").strip().split("\n")
    status = "no end" if ran.returncode is None else f"status {ran.returncode}"
    return f"{status}: {said[-1][:120]}"


class Swept:
    """What refusing each allocation of one test, or one program, came to."""

    def __init__(self):
        self.asked = self.refused = self.following = 0
        self.failed = []

    def take(self, number, counts, passed, ran):
        self.refused += min(counts[1], 1)
        self.following += counts[2]
        if not passed:
            self.failed.append((number, cause_of(ran)))

    def told(self):
        if not self.failed:
            return ""
        places = ", ".join(str(number) for number, _ in self.failed[:10])
        return f"failed at {len(self.failed)} of {self.refused}, at {places}: {self.failed[0][1]}"


def sweep(refuser, words, most, passes, how_of, given=b""):
    """Refuses each allocation in turn."""
    _, (count, _, _) = refuser.run(words, given)
    swept = Swept()
    swept.asked = count
    for number in numbers(count, most):
        ran, counts = refuser.run(words, given, **how_of(number))
        swept.take(number, counts, passes(ran), ran)
    return swept


CONFIG = """[[namespace]]
name = "memcache"
port = {port}
protocol = "memcache"
capacity = 60000
"""
LACKS = b"SERVER_ERROR out of memory"
# Requests, in the pieces in which they are sent. `stats` tells the time, so of that only the end is compared.
REQUESTS = [
    [b"set a 5 0 3\r\nabc\r\n"],
    [b"gets a\r\n"],
    [b"set a 6 100000 200\r\n" + b"a" * 200 + b"\r\n"],
    [b"add b 0 0 1\r\n9\r\n"],
    [b"add b 0 0 1\r\n8\r\n"],
    [b"incr b 1\r\n"],
    [b"decr b 3\r\n"],
    [b"append a 0 0 3\r\n>>>\r\n"],
    [b"prepend a 0 0 3\r\n<<<\r\n"],
    [b"replace b 1 0 2\r\n77\r\n"],
    [b"gets a b none\r\n"],
    [b"cas b 1 0 2 8\r\n78\r\n"],
    [b"cas b 1 0 2 8\r\n79\r\n"],
    [b"touch a 0\r\n"],
    [b"gat 100000 a\r\n"],
    [b"set ", b"c 0 0 10\r\n", b"01234", b"56789\r", b"\n"],
    [b"set large 0 0 20000\r\n", b"x" * 20000 + b"\r\n"],
    [b"get large\r\n"],
    [b"mg leased v c N30\r\n"],
    [b"mg leased v N30\r\n"],
    [b"ms leased 4 F7 c\r\nmade\r\n"],
    [b"md leased I T30\r\n"],
    [b"mg leased k v f s c\r\n"],
    [b"ma counted N0 J5 v c\r\n"],
    [b"ma counted v D7\r\n"],
    [b"ms c 2 MA\r\n!!\r\n"],
    [b"delete c\r\n"],
    [b"delete large\r\n"],
    [b"stats\r\n"],
    [b"x" * 300 + b"\r\n"],
    [b"gets a b c large leased counted\r\n"],
    *([b"set filled-%d 0 0 100\r\n%0100d\r\n" % (number, number)] for number in range(100)),
    [b"flush_all\r\n"],
    [b"gets a b filled-99\r\n"],
    [b"set last 0 0 2\r\nok\r\n"],
    [b"gets last\r\n"],
]
# Behind each so many requests another connection comes.
A_CONNECTION = 9


PORTS = itertools.cycle(range(22000, 32000))


class Wrong(Exception):
    """What a server did that it may not do."""


class Asking:
    """A client of the server, which asks again what lacked memory, and counts how often that was."""

    def __init__(self, port):
        self.port, self.lacked, self.links = port, 0, []

    def connect(self):
        try:
            self.links.append(socket.create_connection(("127.0.0.1", self.port), timeout=30))
        except ConnectionRefusedError as error:
            raise Wrong("nobody listens any more") from error
        except ConnectionResetError:
            # (the server had no memory for it)
            pass

    def reply(self, pieces, right):
        """The reply to a request; None if the connection ended."""
        told = b""
        if not self.links:
            return None
        try:
            for number, piece in enumerate(pieces):
                # (what is sent next has to come alone)
                time.sleep(0.002 if number else 0)
                self.links[-1].sendall(piece)
            while not is_whole(told, right):
                came = self.links[-1].recv(1 << 16)
                if not came:
                    return None
                told += came
        except OSError:
            return None
        return told

    def ask(self, pieces, right):
        """Asks until there is memory."""
        for _ in range(4 * IN_A_ROW):
            told = self.reply(pieces, right)
            if told is not None and is_right(told, right):
                return
            self.lacked += bool(self.links)
            if told is None:
                self.connect()
            elif not told.startswith(LACKS):
                raise Wrong(f"{pieces[0][:40]!r} is replied {told[:60]!r}")
        raise Wrong(f"{pieces[0][:40]!r} is never replied")


def is_right(told, right):
    """Whether that is the reply, or one that is not known but for its end."""
    return told == right if right is not None else told.endswith(b"END\r\n")


def is_whole(told, right):
    """Whether that is the reply, or lines that are not its front."""
    if right is None:
        return told.endswith(b"END\r\n") or told.startswith(LACKS) and told.endswith(b"\r\n")
    return told == right or told.endswith(b"\r\n") and not right.startswith(told)


def right_replies(port):
    """Those of a server that has memory."""
    replies = []
    with socket.create_connection(("127.0.0.1", port), timeout=30) as link:
        for pieces in REQUESTS:
            link.sendall(b"".join(pieces) + b"mn\r\n")
            told = b""
            while not told.endswith(b"MN\r\n"):
                told += link.recv(1 << 16)
            replies.append(None if pieces == [b"stats\r\n"] else told.removesuffix(b"MN\r\n"))
    return replies


def play(port, right):
    """Asks all; returns how many requests lacked memory."""
    asking = Asking(port)
    for number, (pieces, reply) in enumerate(zip(REQUESTS, right)):
        if number % A_CONNECTION == 0:
            asking.connect()
        asking.ask(pieces, reply)
    for link in asking.links:
        link.close()
    return asking.lacked


def next_port():
    """A port that nobody listens at, below those that the system gives to connections; each is chosen once."""
    while True:
        port = next(PORTS)
        with socket.socket() as probe, contextlib.suppress(OSError):
            probe.setsockopt(socket.SOL_SOCKET, socket.SO_REUSEADDR, 1)
            probe.bind(("127.0.0.1", port))
            return port


def serve(refuser, words, folder, use, **how):
    """Starts the server so, uses it by its port, and stops it. Answers how it ended, its counts, and what the use returned; None if it never
    listened, and False if it was used in vain."""
    port = next_port()
    config = pathlib.Path(folder, f"{port}.toml")
    config.write_text(CONFIG.format(port=port), encoding="ascii")
    environment, count = refuser.environment(how)
    server = subprocess.Popen([*words, "--config", config], stdin=subprocess.PIPE, stdout=subprocess.PIPE, stderr=subprocess.PIPE, env=environment)
    used = None
    try:
        if server.stdout.readline():
            used = use(port)
        with contextlib.suppress(OSError):
            server.stdin.write(b"stop\n")
            server.stdin.flush()
        with contextlib.suppress(subprocess.TimeoutExpired):
            server.wait(12)
        ended = subprocess.CompletedProcess(words, server.poll(), b"", server.stderr.read() if server.poll() is not None else b"it does not stop")
    except Wrong as error:
        used = False
        # (while it starts, a client may be served already)
        with contextlib.suppress(subprocess.TimeoutExpired):
            server.wait(1)
        ended = subprocess.CompletedProcess(words, server.poll(), b"", server.stderr.read() if server.poll() is not None else str(error).encode())
    finally:
        server.kill()
        server.communicate()
        config.unlink()
    return ended, counts_of(count), used


def tests_of(program, word):
    listed = subprocess.run([program, "--list"], capture_output=True, text=True, check=True).stdout
    names = [line.removesuffix(": test") for line in listed.split("\n") if line.endswith(": test")]
    return [name for name in names if word in name]


def lacks_second_try(name):
    """Why a test takes no second try, if it does not."""
    return next((why for begin, why in SECOND_TRY_LACKS.items() if name.startswith(begin)), None)


def programs_of_tests(folder, crate):
    """The programs that lie there, by their crates of tests; that of one crate, if there is one."""
    programs = {program.parent.parent.name: program for program in sorted(folder.glob("crates/*_tests/out/*_tests"))}
    return {of: program for of, program in programs.items() if program.name == of + "_tests" and crate in (None, of)}


def run_between(words, scratch):
    """Runs the tests that say which requests are refused; answers whether there are some, and none failed."""
    refuser, ran, failed = Refuser(scratch), 0, 0
    print(f"{'crate':20} {'tests':>5} {'refused':>8} {'failed':>6}", flush=True)
    for crate, program in programs_of_tests(words.folder, words.crate).items():
        below, all_refused = [], 0
        names = [name for name in tests_of(program, words.word) if name.startswith(SAYING)]
        for name in names:
            ended, (_, refused, asked) = refuser.run([program, name], between=1)
            all_refused += refused
            if ended.returncode != 0:
                below.append(f"    {name}: {cause_of(ended)}")
            elif asked == 0:
                below.append(f"    {name}: it does not say which requests are refused")
        if names:
            print("\n".join([f"{crate:20} {len(names):>5} {all_refused:>8} {len(below):>6}", *below]), flush=True)
        ran, failed = ran + len(names), failed + len(below)
    if not ran:
        print(f"under {words.folder} no such test is built", flush=True)
    return ran > 0 and failed == 0


class Table:
    """Rows, one a crate."""

    def __init__(self, words, folder):
        self.words, self.refuser, self.failed, self.ran, self.lacked = words, Refuser(folder), 0, 0, 0
        self.ways = [words.way] if words.way else list(WAYS)
        head = "".join(f"{way:>20} {'failed':>6}" for way in self.ways)
        print(f"{'crate':20} {'tests':>5} {'lack':>4}{head}", flush=True)

    def row(self, crate, tests, lacking, swept):
        """A crate's row, and behind it what failed, and which tests lack a second try."""
        cells, below = "", []
        for way in self.ways:
            of = swept.get(way, {})
            failed = [(name, it) for name, it in of.items() if it.failed]
            refused = sum(it.refused for it in of.values())
            cells += f"{refused:>11} +{sum(it.following for it in of.values()):>7} {len(failed):>6}"
            below += [f"    {way}: {name} {it.told()}" for name, it in failed]
            below += [f"    {way}: no allocation was refused"] if of and not refused else []
            self.failed += len(failed) + (1 if of and not refused else 0)
        self.ran += tests
        print(f"{crate:20} {tests:>5} {len(lacking):>4}{cells}", flush=True)
        for why, names in lacking_by_reason(lacking):
            print(f"    no second try: {', '.join(names)}: {why}")
        print("\n".join(below) + "\n" if below else "", end="", flush=True)

    def tests(self, crate, program):
        # (where it lies it may be built anew meanwhile)
        copy = os.path.join(self.refuser.folder, crate)
        shutil.copy(program, copy)
        names = tests_of(copy, self.words.word)
        lacking = {name: why for name in names if (why := lacks_second_try(name))}
        names = [name for name in names if name not in lacking]
        swept = collections.defaultdict(dict)
        own = own_places(copy, crate, self.refuser.folder)
        if own is None and "following" in self.ways:
            print(f"{crate}: its program has no names, so only one allocation at a time is refused", flush=True)
        hows = {"alone": lambda number: {"": number}, "following": lambda number: {"": number, "own": own}}

        def one(way, name):
            swept[way][name] = sweep(self.refuser, [copy, name], self.words.most, lambda ran: ran.returncode == 0, hows[way])

        with concurrent.futures.ThreadPoolExecutor(self.words.jobs) as pool:
            list(pool.map(lambda it: one(*it), [(way, name) for way in self.ways if way == "alone" or own for name in names]))
        self.row(crate, len(names) + len(lacking), lacking, swept)
        os.remove(copy)

    def program(self, crate, program):
        """A program over its stored run."""
        words = [str(program), PROGRAMS[crate]]
        given = (ROOT / "crates" / crate / "stdin").read_bytes()
        if crate == "transcript":
            given = (ROOT / "crates" / crate / "stdout").read_bytes().split(b"namespace ")[1].split(b"\n", 1)[1]
        right = subprocess.run(words, input=given, capture_output=True, check=True)

        def passes(ran):
            if ran.returncode == 0:
                return (ran.stdout, ran.stderr) == (right.stdout, right.stderr)
            return ran.returncode == 1 and bool(ran.stderr) and right.stdout.startswith(ran.stdout)

        hows = {"alone": lambda number: {"": number}, "following": lambda number: {"from": number, "to": 1 << 60, "one_in": 1}}
        swept = {way: {crate: sweep(self.refuser, words, self.words.most, passes, hows[way], given)} for way in self.ways}
        self.row(crate, 1, {}, swept)

    def server(self, program):
        """The server, whose client asks the same in each run."""
        copy = os.path.join(self.refuser.folder, SERVER)
        shutil.copy(program, copy)
        folder = self.refuser.folder
        ended, _, right = serve(self.refuser, [copy], folder, right_replies)
        if ended.returncode != 0 or right is None:
            sys.exit(f"{SERVER} does not serve: {cause_of(ended)}")
        _, (begun, _, _), _ = serve(self.refuser, [copy], folder, lambda _port: time.sleep(0.5))
        _, (count, _, _), _ = serve(self.refuser, [copy], folder, lambda port: play(port, right))
        hows = {"alone": lambda number: {"": number}, "following": lambda number: {"from": number, "to": number + IN_A_ROW, "one_in": 1}}

        def one(way, number):
            ended, counts, lacked = serve(self.refuser, [copy], folder, lambda port: play(port, right), **hows[way](number))
            may_end = [0]
            # (how many it asks for while it starts depends on its threads, which may start after it says that it listens)
            if number <= begun + IN_A_ROW or lacked is None:
                may_end += [1 if ended.stderr or way == "following" else 2, 2]
            passed = ended.returncode in may_end
            return number, counts, passed, ended, lacked

        swept = {}
        for way in self.ways:
            swept[way] = {SERVER: Swept()}
            with concurrent.futures.ThreadPoolExecutor(self.words.jobs) as pool:
                for number, counts, passed, ended, lacked in pool.map(lambda it: one(way, it), numbers(count, self.words.most)):
                    swept[way][SERVER].take(number, [counts[0], counts[1], max(0, counts[1] - 1)], passed, ended)
                    self.lacked += lacked or 0
        self.row(SERVER, 1, {}, swept)
        print(f"    {len(REQUESTS)} requests a run, of which {self.lacked} in all lacked memory")
        os.remove(copy)

    def run(self):
        found = False
        for crate, program in programs_of_tests(self.words.folder, self.words.crate).items():
            found = True
            self.tests(crate, program)
        for crate in PROGRAMS:
            program = self.words.folder / "crates" / crate / "out" / crate
            if program.is_file() and self.words.crate in (None, crate):
                found = True
                self.program(crate, program)
        program = self.words.folder / "crates" / SERVER / "out" / SERVER
        if program.is_file() and self.words.crate in (None, SERVER):
            found = True
            self.server(program)
        if not found:
            sys.exit(f"under {self.words.folder} nothing is built: `rt test` in a crate of tests leaves its program in the crate's out/")
        if not self.ran:
            sys.exit(f"no test has {self.words.word} in its name")


def lacking_by_reason(lacking):
    by = collections.defaultdict(list)
    for name, why in lacking.items():
        by[why].append(name)
    return by.items()


def main():
    words = argparse.ArgumentParser(description=__doc__, formatter_class=argparse.RawDescriptionHelpFormatter, add_help=False)
    words.add_argument("-h", "--help", action="help", help=argparse.SUPPRESS)
    words.add_argument("--folder", type=pathlib.Path, default=ROOT, help=argparse.SUPPRESS)
    words.add_argument("--way", choices=WAYS, help=argparse.SUPPRESS)
    words.add_argument("--jobs", type=int, default=os.cpu_count(), help=argparse.SUPPRESS)
    words.add_argument("--most", type=int, default=2000, help=argparse.SUPPRESS)
    words.add_argument("--between", action="store_true", help=argparse.SUPPRESS)
    words.add_argument("crate", nargs="?", help=argparse.SUPPRESS)
    words.add_argument("word", nargs="?", default="", help=argparse.SUPPRESS)
    words = words.parse_args()
    with tempfile.TemporaryDirectory(prefix="refusals-") as folder:
        if words.between:
            sys.exit(0 if run_between(words, folder) else 1)
        table = Table(words, folder)
        table.run()
    sys.exit(1 if table.failed else 0)


if __name__ == "__main__":
    main()
