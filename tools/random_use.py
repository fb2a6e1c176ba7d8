#!/usr/bin/env python3
"""Uses the programs at random, and judges everything that they return. It ends by itself; a difference is printed, and the status is 1.

    python3 tools/random_use.py [sockets | turns | plays ..] [--seed N] [--rounds N] [--plays N]
                                [--server NAME ..] [--transcript PATH] [--keep FOLDER] [--lie]

    sockets   random clients, several at once, over each server: every line of docs/PROTOCOL.md, live and
              idle times, own deadlines, capacities, parts. Replies and notices are collected, and each is judged
              within the window of time in which it was requested and answered, or reported
    turns     the same, one request at a time, over several connections; the result is written as a transcript,
              and judged by `transcript audit`
    plays     random inputs with failing allocations through `transcript replay`, each transcript judged by
              `transcript audit`; allocations of the judge fail too, and it may then say only that
    --rounds  how many rounds over a server: by default 40 of `sockets`, 10 for each kind of lie, and 4 of `turns`
    --plays   how many plays: by default 10,000, and 200 with --lie
    --keep    a folder for transcripts that break a rule, and the inputs of such plays
    --lie     the server is `tools/lying_server.py`, and one in a thousand replies of the plays is changed: the
              run fails if no lie of a kind is detected

Without arguments it runs all three. The servers are those of benches/servers.py, or `--server cached` or `--server bivrangd` alone;
`rt run` leaves the other program at crates/transcript/out/transcript. Runs with the same seed send the same requests, but the order of two clients' concurrent requests varies.

All that `sockets` knows of the moment of a reply is that it lies between sending the line and receiving the reply; of a
notice, that the step that reported it belongs to a request that was answered at most 300 ms before. So it reports a difference
only if no order and no moments would make it right: a value that was returned but not live at any moment of its window; a value
that was live throughout and was not returned; a cause that is not true at any moment; more loads of a key than could have been
needed; a value reported twice, or never reported and never held.
"""
import argparse
import bisect
import collections
import math
import os
import pathlib
import random
import re
import selectors
import socket
import subprocess
import sys
import tempfile
import time

sys.path.insert(0, str(pathlib.Path(__file__).resolve().parent))
sys.path.insert(0, str(pathlib.Path(__file__).resolve().parent.parent / "benches"))
import servers  # noqa: E402
from lying_server import HOST, KINDS, free_ports  # noqa: E402
from refuse_allocations import Refuser  # noqa: E402

ROOT = pathlib.Path(__file__).resolve().parent.parent
TRANSCRIPT = ROOT / "crates/transcript/out/transcript"
LIAR = ROOT / "tools/lying_server.py"
PATIENCE = 60
MS = 1_000_000
# An own deadline is rounded down to a multiple of this.
GRAIN = 4096
FOR_EVER = 999_999_999_999
SLACK = 300 * MS
# How long nothing is to be told before a step counts as told whole, and how long a notice that has to come is waited for.
QUIET = 25 * MS
LATEST = 2_000 * MS


# What is asked, and what a namespace is set up with.


class Space:
    """A namespace's settings, and its keys."""

    def __init__(self, name, **settings):
        self.name = name
        self.capacity = self.live_ms = self.idle_ms = None
        self.policy, self.parts, self.weight, self.deadlines = "tinylfu", 1, "one", False
        self.loads = {}
        self.texts, self.numbers, self.loaded, self.mixed = [], [], [], []
        for word, setting in settings.items():
            setattr(self, word, setting)

    def with_keys(self, texts, numbers, loaded, mixed):
        """Keys of four kinds: of texts, of numbers, of values that come by loads alone, of both."""
        self.texts = [b"t%d" % n for n in range(texts)]
        self.numbers = [b"n%d" % n for n in range(numbers)]
        self.loaded = [b"l%d" % n for n in range(loaded)]
        self.mixed = [b"m%d" % n for n in range(mixed)]
        self.loads = {key: b"found " + key for key in self.loaded + self.mixed}
        return self

    def keys(self):
        return self.texts + self.numbers + self.loaded + self.mixed

    def toml(self, port):
        lines = ["[[namespace]]", f'name = "{self.name}"', f"port = {port}"]
        for word in ("capacity", "live_ms", "idle_ms"):
            if getattr(self, word) is not None:
                lines.append(f"{word} = {getattr(self, word)}")
        lines += [f'policy = "{self.policy}"', f"parts = {self.parts}", f'weight = "{self.weight}"']
        lines.append(f"deadlines = {str(self.deadlines).lower()}")
        if self.loads:
            lines.append("[namespace.loads]")
            lines += [f'{key.decode()} = "{text.decode()}"' for key, text in self.loads.items()]
        return "\n".join(lines) + "\n"

    def config(self):
        """The line `config` of a transcript."""
        def one(it):
            return "-" if it is None else it
        return (
            f"config capacity={one(self.capacity)} policy={self.policy} parts={self.parts} weight={self.weight} "
            f"live_ms={one(self.live_ms)} idle_ms={one(self.idle_ms)} deadlines={int(self.deadlines)}"
        )

    def part_count(self):
        return 1 << (self.parts - 1).bit_length()

    def most(self):
        """What all parts may weigh together after a `SYNC`."""
        return math.inf if self.capacity is None else -(-self.capacity // self.part_count()) * self.part_count()

    def share(self):
        return math.inf if self.capacity is None else -(-self.capacity // self.part_count())

    def weigh(self, value):
        return len(value) if self.weight == "bytes" else 1


def spaces_of_a_round(draw):
    """Namespaces with all kinds of settings."""
    tight = draw.choice([1, 2, 5, 8])
    return [
        Space("plain").with_keys(12, 4, 4, 4),
        Space("lru", policy="lru", capacity=tight).with_keys(8, 3, 2, 2),
        Space("lfu", capacity=draw.choice([3, 8])).with_keys(8, 3, 2, 2),
        Space("own", deadlines=True, capacity=draw.choice([None, 6])).with_keys(8, 3, 2, 2),
        Space("live", live_ms=draw.choice([5, 30]), policy="lru").with_keys(8, 3, 2, 2),
        Space("idle", idle_ms=draw.choice([5, 30]), deadlines=draw.random() < 0.5).with_keys(8, 3, 2, 2),
        Space("parts", parts=draw.choice([3, 16]), capacity=draw.choice([None, 12])).with_keys(12, 4, 4, 4),
        Space("bytes", weight="bytes", capacity=draw.choice([40, 300])).with_keys(8, 3, 2, 2),
        Space("off", capacity=0, deadlines=True).with_keys(3, 2, 2, 2),
    ]


class Line:
    """A request: its bytes before the line end, and what it says."""

    __slots__ = ("text", "verb", "key", "value", "ms", "number", "wanted")

    def __init__(self, text, verb, key=None, value=None, ms=None, number=None, wanted=None):
        self.text, self.verb, self.key, self.value = text, verb, key, value
        self.ms, self.number, self.wanted = ms, number, wanted


class Asker:
    """Draws lines. No two values that it draws are the same."""

    def __init__(self, space, draw, tag):
        self.space, self.draw, self.tag, self.count = space, draw, tag, 0
        self.lives = [0, 1, 3, 10, 25, FOR_EVER]

    def value(self):
        self.count += 1
        drawn = self.draw.random()
        fill = b"" if drawn < 0.6 else b" " * self.draw.randrange(4) + b"x" * self.draw.randrange(40)
        if drawn > 0.99:
            fill += b"y" * 6000
        return b"%s.%d%s" % (self.tag, self.count, fill)

    def deadline(self):
        """A deadline's word, and its milliseconds."""
        if not self.space.deadlines or self.draw.random() < 0.4:
            return b"-", None
        ms = self.draw.choice(self.lives)
        return b"%d" % ms, ms

    def set(self, key):
        (word, ms), value = self.deadline(), self.value()
        return Line(b"SET %s %s %s" % (key, word, value), "SET", key, value, ms)

    def add(self, key):
        (word, ms), number = self.deadline(), self.draw.getrandbits(40) + 1
        return Line(b"ADD %s %s %d" % (key, word, number), "ADD", key, None, ms, number)

    def of_key(self, verb, key):
        return Line(verb.encode() + b" " + key, verb, key)

    def faulty(self):
        """A line with a fault, and the error that it owes."""
        rows = [
            (b"", b"command"), (b"get t1", b"command"), (b"PUT t1 - 1", b"command"), (b"\x00", b"command"),
            (b"GET", b"syntax"), (b"GET t1 t2", b"syntax"), (b"GET  t1", b"syntax"), (b"CLEAR ", b"syntax"),
            (b"SET t1 -", b"syntax"), (b"SET t1 - a\rb", b"syntax"), (b"GET " + b"k" * 251, b"syntax"),
            (b"GET \x7f", b"syntax"), (b"QUIT now", b"syntax"), (b"SET t1 x 1", b"deadline"),
            (b"SET t1 1000000000000 1", b"deadline"), (b"ADD n1 - -1", b"number"), (b"ADD n1 - x", b"number"),
            (b"ADD n1 - 18446744073709551616", b"number"), (b"ADD n1 - " + b"0" * 21, b"number"),
        ]
        if not self.space.deadlines:
            rows.append((b"SET t1 5 1", b"deadline"))
        text, word = self.draw.choice(rows)
        return Line(text, "FAULT", wanted=b"ERR " + word)

    def line(self):
        """Some line or other."""
        space, draw = self.space, self.draw
        verb = draw.choices(
            ("SET", "GET", "HAS", "LOAD", "DEL", "ADD", "CLEAR", "DROPIF", "KEYS", "SYNC", "FAULT"),
            (22, 30, 9, 14, 6, 12, 0.6, 1.5, 2, 3, 2),
        )[0]
        if verb == "SET":
            return self.set(draw.choice(space.texts + space.mixed))
        if verb == "ADD":
            # (now and then to a text, which is no number)
            return self.add(draw.choice(space.numbers if draw.random() < 0.95 else space.texts))
        if verb == "LOAD":
            return self.of_key(verb, draw.choice(space.loaded * 3 + space.mixed * 2 + space.texts[:2] + space.numbers[:1]))
        if verb == "DROPIF":
            prefix = draw.choice([b"t", b"t1", b"n", b"l", b"m", b"m1", b"l1", b"other"])
            return Line(b"DROPIF " + prefix, verb, prefix)
        if verb in ("CLEAR", "KEYS", "SYNC"):
            return Line(verb.encode(), verb)
        if verb == "FAULT":
            return self.faulty()
        return self.of_key(verb, draw.choice(space.keys()))


# The server, and what comes of it.


class Asked:
    """A request with the window in which it ran: its line, connection, place there, reply."""

    __slots__ = ("line", "link", "place", "begin", "end", "reply", "keys")

    def __init__(self, line, link, place):
        self.line, self.link, self.place = line, link, place
        self.begin, self.end, self.reply, self.keys = math.inf, math.inf, None, None


class Note:
    """A notice with the window in which its step ran."""

    __slots__ = ("cause", "key", "value", "begin", "end")

    def __init__(self, cause, key, value, begin, end):
        self.cause, self.key, self.value, self.begin, self.end = cause, key, value, begin, end


class Broken(Exception):
    """A difference that ends a round."""


class Server:
    """The program, serving these namespaces. What it tells is gathered by namespace."""

    def __init__(self, words, spaces, lies=None):
        self.spaces, self.folder = spaces, tempfile.TemporaryDirectory()
        self.rest, self.told = b"", {space.name: [] for space in spaces}
        self.last_read = self.read_before = self.slack = 0
        # (another program may take a port meanwhile)
        if not any(self.listens(words, lies) for _ in range(5)):
            raise Broken(f"the server does not listen: {self.said()}")
        os.set_blocking(self.output, False)

    def listens(self, words, lies):
        """Starts it; answers whether it listens."""
        self.ports = dict(zip((space.name for space in self.spaces), free_ports(len(self.spaces))))
        file = pathlib.Path(self.folder.name, "cached.toml")
        file.write_text("".join(space.toml(self.ports[space.name]) for space in self.spaces))
        self.errors = open(pathlib.Path(self.folder.name, "errors"), "w+b")
        self.process = subprocess.Popen(
            [*words, "--config", file], stdin=subprocess.DEVNULL, stdout=subprocess.PIPE, stderr=self.errors,
            env={**os.environ, **(lies or {})},
        )
        self.output = self.process.stdout.fileno()
        return all(self.process.stdout.readline().startswith(b"listening ") for _ in self.spaces)

    def said(self):
        """What stands on its standard error, but for where it listens."""
        self.errors.seek(0)
        return b"".join(line for line in self.errors if b" GMT: listening " not in line)

    def drain(self, oldest):
        """Takes what it told. `oldest` answers when the oldest request began that was not answered by a moment."""
        while True:
            start = time.monotonic_ns()
            try:
                piece = os.read(self.output, 1 << 20)
            except BlockingIOError:
                return
            if not piece:
                raise Broken(f"the server ended: {self.process.wait()} {self.said()}")
            now = time.monotonic_ns()
            *lines, self.rest = (self.rest + piece).split(b"\n")
            for line in lines:
                words = line.split(b" ", 4)
                name = words[0].decode(errors="replace")
                if len(words) != 5 or words[1] != b"NOTE" or name not in self.told:
                    raise Broken(f"the server told {line!r}")
                # What the read before did not find was written since that read began.
                begin = oldest(name, self.read_before - self.slack)
                self.told[name].append(Note(words[2].decode(), words[3], words[4], begin, now))
            self.read_before, self.last_read = self.last_read, start

    def stop(self):
        # (the server that lies has another one to stop)
        self.process.terminate()
        self.process.wait()
        self.process.stdout.close()
        self.errors.close()
        self.folder.cleanup()


class Link:
    """A connection, with what is not answered yet."""

    def __init__(self, server, space, number):
        self.space, self.number, self.count = space, number, 0
        self.socket = socket.create_connection((HOST, server.ports[space.name]), timeout=PATIENCE)
        self.socket.setsockopt(socket.IPPROTO_TCP, socket.TCP_NODELAY, 1)
        self.pending, self.rest, self.listing = collections.deque(), b"", None
        self.rests_until = 0

    def send(self, lines, draw, cuts, log):
        """Sends lines in pieces that are cut anywhere."""
        asked, text, ends = [], b"", []
        for line in lines:
            self.count += 1
            asked.append(Asked(line, self.number, self.count))
            text += line.text + (b"\r\n" if draw.random() < 0.1 else b"\n")
            ends.append(len(text))
        self.pending += asked
        log += asked
        places = sorted(draw.randrange(len(text)) for _ in range(cuts)) + [len(text)]
        start, sent = 0, 0
        for place in places:
            now = time.monotonic_ns()
            while sent < len(ends) and ends[sent] <= place:
                asked[sent].begin = now
                sent += 1
            if place > start:
                self.socket.sendall(text[start:place])
            start = place

    def receive(self):
        """Takes replies that have come. Answers whether the connection goes on."""
        piece = self.socket.recv(1 << 16)
        now = time.monotonic_ns()
        if not piece:
            return False
        *lines, self.rest = (self.rest + piece).split(b"\n")
        for line in lines:
            if not self.pending:
                raise Broken(f"{self.space.name}: {line!r} came unasked")
            asked = self.pending[0]
            if asked.line.verb == "KEYS" and self.listing is None and line.startswith(b"KEYS "):
                self.listing, asked.reply, asked.keys = int(line[5:]), line, []
            elif self.listing:
                asked.keys.append(line)
                self.listing -= 1
            else:
                asked.reply = line
            if not self.listing:
                self.listing, asked.end = None, now
                self.pending.popleft()
        return True


# Judging by windows.


def before(one, other):
    """One has surely run before the other."""
    if one.link == other.link:
        return one.place < other.place
    return one.end < other.begin


class Accept:
    """A value that a request stored, or may have stored: a `LOAD` answered with what the table has may have found that."""

    __slots__ = ("asked", "value", "ms", "is_sure")

    def __init__(self, asked, value, ms, is_sure):
        self.asked, self.value, self.ms, self.is_sure = asked, value, ms, is_sure


class OfKey:
    """All that was asked and told of a key."""

    def __init__(self):
        self.accepts = collections.defaultdict(list)
        self.removers = []
        self.shows = []
        self.touches = []
        self.notes = collections.defaultdict(list)

    def order(self):
        self.removers.sort(key=lambda it: it[0].begin)
        self.shows.sort(key=lambda it: it[0].begin)
        self.begins = [it[0].begin for it in self.shows]


class Judge:
    """Judges a namespace's replies and notices."""

    def __init__(self, space, log, notes):
        self.space, self.log, self.notes = space, log, notes
        self.wrong, self.looks = [], 0
        self.of = collections.defaultdict(OfKey)
        self.covers = [it for it in log if it.line.verb in ("CLEAR", "DROPIF") and it.reply in (b"OK", None)]
        for asked in log:
            self.take(asked)
        for note in notes:
            self.of[note.key].notes[note.value].append(note)
        for key, of in self.of.items():
            of.removers += [(it, None) for it in self.covers if it.line.verb == "CLEAR" or key.startswith(it.line.key)]
            of.order()

    def differs(self, asked, why):
        self.wrong.append(f"{self.space.name}: {asked.line.text[:60]!r} answered {asked.reply!r}: {why}"[:400])

    def take(self, asked):
        """What a reply shows: values stored, values live, keys deleted."""
        line, reply = asked.line, asked.reply
        if line.verb not in ("SET", "GET", "HAS", "LOAD", "DEL", "ADD"):
            return
        of = self.of[line.key]
        if reply is None and line.verb in ("GET", "LOAD", "ADD"):
            # (it may have run, and used the value, after its client had gone)
            of.touches.append(asked)
        if line.verb == "SET" and reply in (b"OK", None) and self.space.capacity != 0:
            self.stores(of, asked, line.value, line.ms, reply is not None)
        elif line.verb == "DEL":
            of.removers.append((asked, None))
        elif line.verb == "ADD" and reply and reply.startswith(b"VAL "):
            total = int(reply[4:])
            if total != line.number:
                of.shows.append((asked, b"%d" % (total - line.number), True))
            self.stores(of, asked, reply[4:], line.ms, True)
        elif line.verb == "ADD" and reply == b"ERR number" and line.number is not None:
            of.touches.append(asked)
        elif line.verb == "LOAD" and line.key in self.space.loads:
            text = self.space.loads[line.key]
            if reply is None or reply == b"VAL " + text:
                if self.space.capacity != 0:
                    self.stores(of, asked, text, None, False)
            elif reply.startswith(b"VAL "):
                of.shows.append((asked, reply[4:], True))
        elif line.verb in ("GET", "LOAD") and reply and reply.startswith(b"VAL "):
            of.shows.append((asked, reply[4:], True))

    def stores(self, of, asked, value, ms, is_sure):
        of.accepts[value].append(Accept(asked, value, ms, is_sure))
        of.removers.append((asked, value))
        if asked.reply is not None:
            of.shows.append((asked, value, True))

    # What is possible.

    def latest_deadline(self, of, accept, asked):
        """The latest moment at which the value's time may be over, as far as requests before this one tell."""
        end, space = accept.asked.end, self.space
        times = [math.inf]
        if accept.ms is not None:
            times.append(end + accept.ms * MS)
        if space.live_ms is not None:
            times.append(end + space.live_ms * MS)
        if space.idle_ms is not None:
            shown = [it for it, value, is_use in of.shows if value == accept.value and is_use]
            uses = [it.end for it in shown + of.touches if it is not asked and not before(asked, it)]
            times.append(max([end, *uses]) + space.idle_ms * MS)
        return min(times)

    def earliest_deadline(self, accept, use):
        """The earliest moment at which the value's time may be over, where it was used by that request."""
        begin, space = accept.asked.begin, self.space
        times = [math.inf]
        if accept.ms is not None:
            times.append(begin + accept.ms * MS - GRAIN)
        if space.live_ms is not None:
            times.append(begin + space.live_ms * MS)
        if space.idle_ms is not None:
            times.append(use.begin + space.idle_ms * MS)
        return min(times)

    def may_live(self, key, value, asked):
        """The value may have been live at some moment of the request's window. Else why not."""
        of = self.of[key]
        why = "nothing stored it"
        for accept in of.accepts.get(value, ()):
            if accept.asked is asked or before(asked, accept.asked):
                continue
            gone = next(
                (it for it, other in of.removers
                 if it is not accept.asked and it is not asked and other != value and before(accept.asked, it) and before(it, asked)
                 and it.reply is not None), None)
            if gone:
                why = f"{gone.line.text[:60]!r} came between"
            elif self.latest_deadline(of, accept, asked) < asked.begin:
                why = "its time was over"
            else:
                why = ""
                break
        if not why:
            told = sum(note.end < asked.begin for note in of.notes.get(value, ()))
            stored = sum(not before(asked, it.asked) for it in of.accepts[value])
            if told >= stored:
                why = "it was told before"
        return why

    def surely_lives(self, key, asked, but=None):
        """A value that was live throughout the request's window, if there is one."""
        of = self.of.get(key)
        if of is None:
            return None
        place = bisect.bisect_left(of.begins, asked.end)
        tried = 0
        while place > 0 and tried < 12:
            place -= 1
            shown, value, is_use = of.shows[place]
            if shown is asked or value == but or not before(shown, asked):
                continue
            tried += 1
            if self.stays(of, value, shown, is_use, asked):
                return value
        return None

    def stays(self, of, value, shown, is_use, asked):
        """What was shown to be live then is so until this request's reply."""
        for it, other in of.removers:
            if it.begin > asked.end:
                break
            # (storing the same text again leaves the key with that text)
            if it is asked or other == value:
                continue
            if not before(it, shown) and not before(asked, it):
                return False
        accepts = of.accepts.get(value, ())
        if len(accepts) != 1:
            if self.space.live_ms is not None or any(it.ms is not None for it in accepts):
                return False
        for accept in accepts:
            use = shown if is_use else accept.asked
            if self.earliest_deadline(accept, use) <= asked.end:
                return False
        return not any(
            note.begin <= asked.end and note.end >= shown.begin and not self.is_told_by(of, value, note, asked) for note in of.notes.get(value, ())
        )

    def is_told_by(self, of, value, note, asked):
        """No other request than this one can have replaced the value: so it was there when the request looked."""
        writes = [it for it, other in of.removers if other not in (None, value) and it.begin <= note.end and it.end >= note.begin]
        return note.cause == "Replaced" and writes == [asked]

    # Each reply.

    def judge(self):
        """All differences."""
        for asked in self.log:
            if asked.reply is not None:
                getattr(self, "judge_" + asked.line.verb.lower())(asked)
        self.judge_sums()
        for key, of in self.of.items():
            for value, notes in of.notes.items():
                for note in notes:
                    self.judge_note(key, of, note)
                self.judge_times_told(key, of, value, notes)
        return self.wrong

    def wants(self, asked, *replies):
        if asked.reply not in replies:
            self.differs(asked, f"not {replies}")

    def judge_fault(self, asked):
        self.wants(asked, asked.line.wanted)

    def judge_set(self, asked):
        self.wants(asked, b"OFF" if self.space.capacity == 0 else b"OK")

    def judge_del(self, asked):
        self.wants(asked, b"OK")

    def judge_clear(self, asked):
        self.wants(asked, b"OK")

    def judge_dropif(self, asked):
        self.wants(asked, b"OK")

    def judge_quit(self, asked):
        self.wants(asked, b"OK")

    def judge_absence(self, asked, key):
        self.looks += 1
        value = self.surely_lives(key, asked)
        if value is not None:
            self.differs(asked, f"{value[:60]!r} of {key!r} was live throughout")

    def judge_value(self, asked, value):
        self.looks += 1
        why = self.may_live(asked.line.key, value, asked)
        if why:
            self.differs(asked, why)
            return
        other = self.surely_lives(asked.line.key, asked, but=value)
        if other is not None:
            self.differs(asked, f"{other[:60]!r} was live throughout")

    def judge_get(self, asked):
        if asked.reply == b"NONE":
            self.judge_absence(asked, asked.line.key)
        elif asked.reply.startswith(b"VAL "):
            self.judge_value(asked, asked.reply[4:])
        else:
            self.differs(asked, "no reply to it")

    def judge_load(self, asked):
        text = self.space.loads.get(asked.line.key)
        if text is not None and asked.reply == b"NONE":
            self.differs(asked, "a load finds it")
        elif text is not None and asked.reply == b"VAL " + text:
            other = self.surely_lives(asked.line.key, asked, but=text)
            if other is not None:
                self.differs(asked, f"{other[:60]!r} was live throughout")
        else:
            self.judge_get(asked)

    def judge_has(self, asked):
        self.wants(asked, b"YES", b"NO")
        if asked.reply == b"NO":
            self.judge_absence(asked, asked.line.key)
        elif asked.reply == b"YES":
            self.judge_presence(asked, asked.line.key)

    def judge_presence(self, asked, key):
        self.looks += 1
        if all(self.may_live(key, value, asked) for value in self.of[key].accepts):
            self.differs(asked, f"no value of {key!r} can be live")

    def judge_add(self, asked):
        key, reply = asked.line.key, asked.reply
        if self.space.capacity == 0:
            self.wants(asked, b"OFF")
        elif reply == b"ERR number":
            self.looks += 1
            if all(value.isdigit() or self.may_live(key, value, asked) for value in self.of[key].accepts):
                self.differs(asked, "no live value can be no number")
        elif not re.fullmatch(rb"VAL [0-9]{1,20}", reply) or int(reply[4:]) < asked.line.number:
            self.differs(asked, "no sum of it")
        elif int(reply[4:]) == asked.line.number:
            self.judge_absence(asked, key)
        else:
            self.judge_value(asked, b"%d" % (int(reply[4:]) - asked.line.number))

    def judge_keys(self, asked):
        keys = asked.keys
        if asked.reply != b"KEYS %d" % len(keys) or sorted(set(keys)) != keys:
            self.differs(asked, "not so many keys, each once, in order")
        for key in self.space.keys():
            if key in keys:
                self.judge_presence(asked, key)
            else:
                self.judge_absence(asked, key)
        if not set(keys) <= set(self.space.keys()):
            self.differs(asked, "keys that nobody stored")

    def judge_sync(self, asked):
        self.looks += 1
        told = re.fullmatch(rb"SYNC (\d+) (\d+)", asked.reply)
        if not told:
            self.differs(asked, "no count and weight")
            return
        count, weight = int(told[1]), int(told[2])
        least, most, lightest, heaviest = 0, 0, 0, 0
        for key, of in self.of.items():
            few, many, light, heavy = self.held(of, asked)
            least, most, lightest, heaviest = least + few, most + many, lightest + light, heaviest + heavy
        if not least <= count <= most:
            self.differs(asked, f"at least {least} and at most {most} are held")
        if not lightest <= weight <= heaviest:
            self.differs(asked, f"they weigh at least {lightest} and at most {heaviest}")
        if weight > self.space.most():
            self.differs(asked, f"more than the capacity {self.space.capacity}")
        if self.space.weight == "one" and count != weight:
            self.differs(asked, "each value weighs one")

    def held(self, of, asked):
        """How many values of a key are held, at least and at most, and what they weigh; a key holds one at most."""
        sure, may = [], []
        for value, accepts in of.accepts.items():
            weight = self.space.weigh(value)
            stored = sum(it.is_sure and before(it.asked, asked) for it in accepts)
            possible = sum(not before(asked, it.asked) for it in accepts)
            notes = of.notes.get(value, ())
            if possible > sum(note.end < asked.begin for note in notes) and not self.was_covered(of, accepts, asked):
                may.append(weight)
            if stored > sum(note.begin <= asked.end for note in notes):
                sure.append(weight)
        return (1, 1, min(may, default=0), max(may, default=0)) if sure and may else (0, len(may[:1]), 0, max(may, default=0))

    def was_covered(self, of, accepts, asked):
        """Each storing was surely covered since, so that a run lets the value go."""
        return all(
            any(it.line.verb in ("CLEAR", "DROPIF") and it.reply == b"OK" and before(accept.asked, it) and before(it, asked) for it, _ in of.removers)
            for accept in accepts
        )

    def judge_sums(self):
        """No two `ADD`s have added to one and the same value."""
        used = set()
        for asked in self.log:
            if asked.line.verb == "ADD" and asked.reply and asked.reply.startswith(b"VAL ") and asked.reply[4:].isdigit():
                base = (asked.line.key, int(asked.reply[4:]) - asked.line.number)
                if base[1] > 0 and base in used:
                    self.differs(asked, "another `ADD` has added to the same value")
                used.add(base)

    # Each notice.

    def judge_note(self, key, of, note):
        """Its cause is true at some moment of its window, of some storing of the value."""
        why = "nothing stored the value"
        for accept in of.accepts.get(note.value, ()):
            why = self.doubts(of, accept, note)
            if not why:
                return
        self.wrong.append(f"{self.space.name}: told {note.cause} {key!r} {note.value[:60]!r}: {why}")

    def doubts(self, of, accept, note):
        if accept.asked.begin > note.end:
            return "it was stored later"
        return getattr(self, "doubts_" + note.cause.lower(), lambda *_: "no cause")(of, accept, note)

    def begins_of(self, accept, note, requests):
        """The requests that can have told it: stored after it, or in the same step, and running within the note's window."""
        return [it for it in requests if it.begin <= note.end and it.end >= note.begin and not (it is not accept.asked and before(it, accept.asked))]

    def doubts_expired(self, of, accept, note):
        use = accept.asked
        if self.space.idle_ms is not None:
            for it, value, is_use in of.shows:
                if value == accept.value and is_use and it.end < note.begin and it.begin > use.begin:
                    use = it
        if accept.ms is None and self.space.live_ms is None and self.space.idle_ms is None:
            return "its time has no end"
        return "" if self.earliest_deadline(accept, use) <= note.end else "its time was not over"

    def doubts_explicit(self, of, accept, note):
        covers = [it for it, value in of.removers if it.line.verb in ("CLEAR", "DROPIF")]
        if any(it.begin <= note.end and not before(it, accept.asked) for it in covers):
            return ""
        deletes = [it for it, _ in of.removers if it.line.verb == "DEL"]
        found = self.begins_of(accept, note, deletes)
        if not found:
            return "no `DEL`, `CLEAR` or `DROPIF` can have told it"
        return self.doubts_of_time(of, accept, found)

    def doubts_replaced(self, of, accept, note):
        writes = [it for it, value in of.removers if it is not accept.asked and value is not None and not (it.line.verb == "LOAD" and value == note.value)]
        found = self.begins_of(accept, note, writes)
        if not found:
            return "no write can have told it"
        covered = [
            it for it, _ in of.removers
            if it.line.verb in ("CLEAR", "DROPIF") and it.reply is not None and before(accept.asked, it) and all(before(it, write) for write in found)
        ]
        if covered:
            return f"{covered[0].line.text!r} came between"
        return self.doubts_of_time(of, accept, found)

    def doubts_of_time(self, of, accept, found):
        begin = min(it.begin for it in found)
        late = max(found, key=lambda it: it.begin)
        return "its time was over before" if self.latest_deadline(of, accept, late) < begin else ""

    def doubts_size(self, of, accept, note):
        if self.space.capacity is None:
            return "there is no capacity"
        # What may have been held together at some moment since it was stored: one value a key.
        heaviest = sum(
            max((self.space.weigh(value) for value, accepts in it.accepts.items() if any(a.asked.begin <= note.end for a in accepts)), default=0)
            for it in self.of.values()
        )
        return "" if heaviest > self.space.share() else "all that was stored has room"

    def judge_times_told(self, key, of, value, notes):
        stored = len(of.accepts.get(value, ()))
        if len(notes) > stored:
            self.wrong.append(f"{self.space.name}: {key!r} {value[:60]!r} is told {len(notes)} times, and was stored {stored} times at most")
        if value == self.space.loads.get(key) and self.space.capacity is None and key in self.space.loaded:
            # It has left as often as something took it away, and was loaded once more at most.
            times = self.space.live_ms is not None or self.space.idle_ms is not None
            removers = sum(other is None for _, other in of.removers)
            if not times and len(notes) > removers:
                self.wrong.append(f"{self.space.name}: {key!r} was loaded {len(notes)} times or more, and taken away {removers} times at most")

    def judge_end(self):
        """After a last `CLEAR` and `SYNC` each value that was stored was told, once."""
        for key, of in self.of.items():
            for value, accepts in of.accepts.items():
                if any(it.is_sure for it in accepts) and not of.notes.get(value):
                    self.wrong.append(f"{self.space.name}: {key!r} {value[:60]!r} was stored, and is not told")
                if not any(it.is_sure for it in accepts) and value == self.space.loads.get(key):
                    if any(it.asked.reply is not None for it in accepts) and not of.notes.get(value):
                        self.wrong.append(f"{self.space.name}: {key!r} {value[:60]!r} was loaded, and is not told")


# Random clients, several at once.


class Round:
    """Some clients of a server, until each has asked so many lines."""

    def __init__(self, words, seed, lies=None, lines=120):
        self.draw = random.Random(seed)
        self.spaces = spaces_of_a_round(self.draw)
        self.depth = self.draw.choice([1, 1, 4, 12])
        self.leaves = self.draw.random() < 0.2
        self.server = Server(words, self.spaces, lies)
        # A notice is written by a thread of its own, maybe after the reply of its step.
        self.server.slack = SLACK
        self.logs = {space.name: [] for space in self.spaces}
        self.windows = {space.name: collections.deque() for space in self.spaces}
        self.numbers = 0
        self.links, self.askers, self.left = [], {}, {}
        self.poll = selectors.DefaultSelector()
        self.poll.register(self.server.output, selectors.EVENT_READ, None)
        for space in self.spaces:
            for _ in range(3):
                self.open(space, lines)

    def open(self, space, lines):
        self.numbers += 1
        link = Link(self.server, space, self.numbers)
        self.askers[link] = Asker(space, self.draw, b"%d" % self.numbers)
        self.left[link] = lines
        self.links.append(link)
        self.poll.register(link.socket, selectors.EVENT_READ, link)
        return link

    def oldest(self, name, moment):
        """When the oldest request began that was not answered by then."""
        window = self.windows[name]
        while window and window[0].end < moment and len(window) > 1:
            window.popleft()
        return min((it.begin for it in window if it.end >= moment), default=moment)

    def send(self, link, lines, cuts=0):
        log, start = self.logs[link.space.name], len(self.logs[link.space.name])
        link.send(lines, self.draw, cuts, log)
        self.windows[link.space.name] += log[start:]

    def close(self, link):
        self.poll.unregister(link.socket)
        link.socket.close()
        self.links.remove(link)
        del self.left[link]

    def step(self, limit=PATIENCE):
        """Takes what has come."""
        came = self.poll.select(limit)
        if not came and limit == PATIENCE:
            raise Broken(f"no reply in {PATIENCE} s")
        for key, _ in came:
            if key.data is None:
                self.server.drain(self.oldest)
            elif key.data in self.left and not key.data.receive():
                raise Broken(f"{key.data.space.name}: the server closed a connection")

    def run(self):
        while any(count > 0 for count in self.left.values()):
            now = time.monotonic_ns()
            for link in list(self.links):
                if not link.pending and self.left[link] > 0 and link.rests_until <= now:
                    self.ask(link, now)
            waits = all(not link.pending for link in self.links)
            self.step(0.003 if waits else PATIENCE)
            if self.draw.random() < 0.02:
                self.look_around()
        self.look_around()
        self.end()

    def ask(self, link, now):
        draw = self.draw
        if draw.random() < 0.03:
            link.rests_until = now + draw.choice([1, 5, 12, 40]) * MS
            return
        if draw.random() < 0.01:
            self.leave(link)
            return
        lines = [self.askers[link].line() for _ in range(draw.randint(1, self.depth))]
        self.left[link] -= len(lines)
        self.send(link, lines, draw.choice([0, 0, 1, 3]))

    def leave(self, link):
        """The connection ends: by a `QUIT`, or abruptly with lines that are not answered; another one comes."""
        lines = self.left[link]
        if self.leaves and self.draw.random() < 0.5:
            # (what an `ADD` stored is known by its reply alone)
            lines_left = [self.askers[link].line() for _ in range(4)]
            self.send(link, [it for it in lines_left if it.verb != "ADD"])
        else:
            self.send(link, [Line(b"QUIT", "QUIT")])
            while link.pending:
                self.step()
        self.close(link)
        self.open(link.space, lines)

    def wait(self):
        """Waits until nothing is asked."""
        while any(link.pending for link in self.links):
            self.step()

    def look_around(self):
        """Asks for all keys of a namespace while nobody else asks anything."""
        self.wait()
        space = self.draw.choice(self.spaces)
        link = next(it for it in self.links if it.space is space)
        verbs = [self.draw.choice(["GET", "HAS"]) for _ in space.keys()]
        lines = [Line(b"SYNC", "SYNC"), Line(b"KEYS", "KEYS")]
        lines += [self.askers[link].of_key(verb, key) for verb, key in zip(verbs, space.keys())]
        self.send(link, lines)
        self.wait()

    def end(self):
        """All that is held is cleared, and told."""
        for space in self.spaces:
            link = next(it for it in self.links if it.space is space)
            self.send(link, [Line(b"CLEAR", "CLEAR"), Line(b"SYNC", "SYNC")])
        self.wait()
        told = -1
        # (a thread of its own writes notices, later than the replies if the machine is busy)
        while told != (told := sum(map(len, self.server.told.values()))):
            time.sleep(0.25)
            self.server.drain(self.oldest)

    def judge(self):
        wrong, looks = [], 0
        for space in self.spaces:
            judge = Judge(space, self.logs[space.name], self.server.told[space.name])
            judge.judge()
            judge.judge_end()
            wrong += judge.wrong
            looks += judge.looks
        said = self.server.said()
        if said and b"lie " not in said:
            wrong.append(f"on standard error: {said[:200]!r}")
        return wrong, looks

    def stop(self):
        self.poll.close()
        for link in self.links:
            link.socket.close()
        self.server.stop()


def play_sockets(words, seed, lies=None, lines=120):
    """One round: its requests, looks, notices, lies told, and differences."""
    one = Round(words, seed, lies, lines)
    try:
        try:
            one.run()
            wrong = []
        except Broken as error:
            wrong = [str(error)]
        found, looks = one.judge() if not wrong else ([], 0)
        lied = one.server.said().count(b"lie ")
        asked = sum(map(len, one.logs.values()))
        told = sum(map(len, one.server.told.values()))
        return asked, looks, told, lied, wrong + found
    finally:
        one.stop()


# One request at a time.


class Held:
    """Which values are held and live, so that it is known whether a `LOAD` finds one."""

    def __init__(self):
        self.values, self.live = collections.defaultdict(list), {}

    def accept(self, key, value, is_live=True):
        self.values[key].append(value)
        self.live.pop(key, None)
        if is_live:
            self.live[key] = value

    def told(self, key, value):
        """The key's first value leaves."""
        held = self.values[key]
        if held:
            gone = held.pop(0)
            if not held and self.live.get(key) == gone:
                del self.live[key]

    def cover(self, prefix):
        for key in [it for it in self.live if it.startswith(prefix)]:
            del self.live[key]


def spaces_of_turns(draw):
    """Namespaces of one part, whose values' times never come, or are over at once."""
    far = draw.choice([None, FOR_EVER])
    return [
        Space("plain").with_keys(12, 4, 4, 4),
        Space("lru", policy="lru", capacity=draw.choice([1, 2, 5, 8]), idle_ms=far).with_keys(8, 3, 2, 2),
        Space("lfu", capacity=draw.choice([3, 8]), live_ms=far).with_keys(8, 3, 2, 2),
        Space("own", deadlines=True, capacity=draw.choice([None, 6])).with_keys(8, 3, 2, 2),
        Space("bytes", weight="bytes", capacity=draw.choice([40, 300]), policy="lru").with_keys(8, 3, 2, 2),
        Space("off", capacity=0).with_keys(3, 2, 2, 2),
    ]


def told_as_hex(text):
    return "x" + text.hex()


class Turns:
    """The transcript of one namespace, as it is seen from outside."""

    def __init__(self, server, space, draw):
        self.server, self.space, self.draw = server, space, draw
        self.lines = [space.config(), "made 0"]
        self.start, self.held, self.links, self.opened, self.loads = time.monotonic_ns(), Held(), [], 0, 0
        self.asker = Asker(space, draw, b"v")
        self.asker.lives = [0, FOR_EVER]
        for _ in range(3):
            self.open()

    def open(self):
        self.opened += 1
        self.links.append(Link(self.server, self.space, self.opened))
        self.lines.append(f"open {self.opened}")

    def moment(self):
        return time.monotonic_ns() - self.start

    def turn(self):
        """One connection comes, goes, or asks."""
        link, drawn = self.draw.choice(self.links), self.draw.random()
        if drawn < 0.01:
            self.links.remove(link)
            self.close(link)
            self.open()
        elif drawn < 0.015:
            self.links.remove(link)
            self.ask(link, Line(b"QUIT", "QUIT"))
            link.socket.close()
            self.open()
        else:
            self.ask(link, self.asker.line())

    def close(self, link):
        link.socket.shutdown(socket.SHUT_WR)
        if link.socket.recv(1):
            raise Broken(f"{self.space.name}: more than was asked")
        link.socket.close()
        self.lines.append(f"close {link.number}")

    def ask(self, link, line):
        """Asks, in pieces, and writes the record, or with a load two records."""
        text = line.text + (b"\r\n" if self.draw.random() < 0.1 else b"\n")
        at = self.draw.randrange(len(text)) if self.draw.random() < 0.2 else 0
        for piece in (text[:at], text[at:]):
            if piece:
                self.lines.append(f"feed {link.number} {self.moment()} {told_as_hex(piece)}")
                link.socket.sendall(piece)
        asked = Asked(line, link.number, 0)
        link.pending.append(asked)
        while link.pending:
            if not link.receive():
                raise Broken(f"{self.space.name}: the server closed a connection")
        self.write(link.number, line, asked, self.notes_of(line, asked))

    def notes_of(self, line, asked):
        """What the server told of the step. A notice is written by a thread of its own, maybe after the reply: one that has to come is
        waited for, and others until none has come for a while."""
        told = self.server.told[self.space.name]
        before, start = len(told), time.monotonic_ns()
        leaves = line.verb in ("SET", "ADD", "DEL") and not asked.reply.startswith((b"ERR", b"OFF")) and self.held.values[line.key]
        last = start
        while True:
            count, now = len(told), time.monotonic_ns()
            self.server.drain(lambda *_: 0)
            if len(told) > count:
                last = now
            waits = leaves and all(it.key != line.key for it in told[before:]) and now - start < LATEST
            if not waits and now - last > QUIET:
                return told[before:]
            time.sleep(0.0005)

    def write(self, conn, line, asked, notes):
        lines = [asked.reply, *(asked.keys or [])]
        reply = told_as_hex(b"".join(it + b"\n" for it in lines))
        run = f"step {conn} run {told_as_hex(line.text)}"
        if line.verb == "LOAD" and line.key not in self.held.live:
            self.loads += 1
            self.lines.append(f"{run} - {self.loads} -")
            text, moment = self.space.loads.get(line.key), self.moment()
            if text is None:
                self.tell("note", notes)
                self.lines.append(f"answer {self.loads} {moment} none")
            else:
                self.lines.append(f"answer {self.loads} {moment} value {told_as_hex(text)} -")
                if self.space.capacity != 0:
                    self.lines.append("own 0")
                    self.held.accept(line.key, text)
                    self.tell("ownnote", notes)
                else:
                    self.tell("note", notes)
            self.lines.append(f"{run} {reply} - -")
            return
        part = self.stored(line, asked.reply)
        self.lines.append(f"{run} {reply} - {part}")
        self.tell("note", notes)

    def stored(self, line, reply):
        """The part that took the line's value; the values that it covers or deletes are not live any more."""
        if line.verb == "DEL":
            self.held.live.pop(line.key, None)
        elif line.verb in ("CLEAR", "DROPIF") and reply == b"OK":
            self.held.cover(line.key or b"")
        elif line.verb == "SET" and reply == b"OK":
            self.held.accept(line.key, line.value, line.ms != 0)
            return "0"
        elif line.verb == "ADD" and reply.startswith(b"VAL "):
            self.held.accept(line.key, reply[4:], line.ms != 0)
            return "0"
        return "-"

    def tell(self, word, notes):
        for note in notes:
            self.lines.append(f"{word} {note.cause} {told_as_hex(note.key)} {told_as_hex(note.value)}")
            self.held.told(note.key, note.value)


KEPT = None


def keep(name, text):
    """Writes a text that shows a difference, where it is to be kept."""
    if KEPT:
        KEPT.mkdir(parents=True, exist_ok=True)
        (KEPT / name).write_text(text)


def audit(program, text):
    """The judge's status and words."""
    ran = subprocess.run([program, "audit"], input=text, capture_output=True, timeout=PATIENCE, check=False)
    return ran.returncode, (ran.stdout + ran.stderr).decode(errors="replace").strip()


def record_at(text, number):
    """The lines of a transcript's record."""
    heads, found = ("open", "close", "feed", "answer", "giveup"), []
    for line in text.split("\n"):
        if line.split(" ")[0] in heads:
            number -= 1
        if number == 0:
            found.append(line[:160])
    return "; ".join(found)


def play_turns(words, transcript, seed, lies=None, turns=250):
    """One round: its requests, records, notices, lies told, and differences."""
    draw = random.Random(seed)
    spaces = spaces_of_turns(draw)
    server, wrong, tables, asked = Server(words, spaces, lies), [], [], 0
    try:
        try:
            tables = [Turns(server, space, draw) for space in spaces]
            for _ in range(turns):
                for table in tables:
                    table.turn()
                    asked += 1
            for table in tables:
                for word in ("CLEAR", "SYNC"):
                    table.ask(table.links[0], Line(word.encode(), word))
                if table.held.values and any(table.held.values.values()):
                    wrong.append(f"{table.space.name}: held behind `CLEAR` and `SYNC`, and not told")
        except Broken as error:
            wrong.append(str(error))
        for table in tables:
            text = "\n".join(table.lines) + "\n"
            status, said = audit(transcript, text.encode())
            if status:
                place = re.search(r"breaks (\d+)", said)
                keep(f"turns-{seed}-{table.space.name}", text)
                wrong.append(f"{table.space.name}: {said}: {record_at(text, int(place[1])) if place else ''}")
        lied = server.said().count(b"lie ")
        if server.said() and not lied:
            wrong.append(f"on standard error: {server.said()[:200]!r}")
        return asked, sum(len(it.lines) for it in tables), sum(map(len, server.told.values())), lied, wrong
    finally:
        for table in tables:
            for link in table.links:
                link.socket.close()
        server.stop()


# Plays with refused memory.


def space_of_a_play(draw, name):
    deadlines = draw.random() < 0.4
    return Space(
        name, capacity=draw.choice([None, None, 0, 1, 2, 4, 30]), policy=draw.choice(["lru", "tinylfu"]),
        parts=draw.choice([1, 1, 2, 3, 8]), weight=draw.choice(["one", "one", "bytes"]), deadlines=deadlines,
        live_ms=None if deadlines else draw.choice([None, None, 1, 10]), idle_ms=draw.choice([None, None, 1, 10]),
    ).with_keys(6, 2, 2, 2)


class Player:
    """Draws the inputs of one namespace."""

    def __init__(self, number, space, draw):
        self.number, self.space, self.draw = number, space, draw
        self.asker, self.now = Asker(space, draw, b"v"), 0
        self.asker.lives = [0, 1, 2, 5, 50, FOR_EVER]
        self.opened, self.rest = 0, {}
        self.loads = 0

    def moment(self):
        draw = self.draw
        drawn = draw.random()
        if drawn < 0.05:
            return draw.randrange(self.now + 1)
        self.now += draw.choice([0, 1, 4096, 100_000, MS, 3 * MS]) if drawn < 0.95 else draw.choice([15 * MS, 1 << 30, 5 << 30])
        return self.now

    def line(self):
        line = self.asker.line()
        if line.verb == "LOAD":
            self.loads += 1
        if len(line.text) > 400:
            return self.line()
        return line.text + self.draw.choice([b"\n", b"\n", b"\n", b"\r\n"])

    def input(self):
        """The next input."""
        draw, drawn = self.draw, self.draw.random()
        if self.opened == 0 or drawn < 0.03:
            self.opened += 1
            return f"input {self.number} open"
        conn = draw.randint(1, self.opened) if drawn > 0.04 else draw.randint(0, self.opened + 2)
        if drawn < 0.05:
            return f"input {self.number} close {conn}"
        if drawn < 0.14 and self.loads:
            return f"input {self.number} {self.settling()}"
        text = self.rest.pop(conn, b"") + b"".join(self.line() for _ in range(draw.choice([0, 1, 1, 2, 5])))
        if draw.random() < 0.005:
            text += draw.choice([b"QUIT\n", b"x" * 8193, b"\xff\x00\n"])
        if text and draw.random() < 0.2:
            at = draw.randrange(len(text))
            text, self.rest[conn] = text[:at], text[at:]
        return f"input {self.number} feed {conn} {self.moment()} {told_as_hex(text)}"

    def settling(self):
        draw = self.draw
        load = draw.randint(max(1, self.loads // 3), self.loads) if draw.random() < 0.3 else draw.randint(1, max(1, self.loads // 3))
        outcome = draw.choice(["value", "value", "none", "fault", "giveup"])
        if outcome == "giveup":
            return f"giveup {load} {self.moment()}"
        if outcome == "value":
            ms = draw.choice(["-", "-", "-", "3"]) if self.space.deadlines else "-"
            return f"answer {load} {self.moment()} value {told_as_hex(self.asker.value()[:300])} {ms}"
        return f"answer {load} {self.moment()} " + (f"fault {told_as_hex(b'down')}" if outcome == "fault" else "none")


def inputs_of(draw, spaces=16, inputs=100):
    """A replay of so many namespaces: its lines `config`, and its inputs, those of all namespaces mixed."""
    settings = [space_of_a_play(draw, f"s{n}") for n in range(spaces)]
    players = [Player(n, space, draw) for n, space in enumerate(settings)]
    heads = [space.config() for space in settings]
    lines = [draw.choice(players).input() for _ in range(spaces * inputs)]
    return "\n".join(heads), "\n".join(lines) + "\n"


def namespaces_in(text):
    """The transcripts that a replay printed."""
    return [part.split("\n", 1)[1] for part in re.split(r"(?m)^namespace ", text)[1:]]


def lie_in(text, draw):
    """The transcript with one of a thousand of its replies or notes changed, and how many were."""
    lines, lied = text.split("\n"), 0
    for place, line in enumerate(lines):
        words = line.split(" ")
        if words[0] not in ("step", "note", "ownnote") or draw.randrange(1000):
            continue
        if words[0] == "step" and words[4] != "-":
            words[4] = told_as_hex(draw.choice([b"NONE\n", b"VAL lie\n", b"YES\n"]))
        elif words[0] != "step":
            words[3] = told_as_hex(b"lie")
        if " ".join(words) != line:
            lines[place], lied = " ".join(words), lied + 1
    return "\n".join(lines), lied


class Plays:
    """What all plays came to."""

    def __init__(self, program, folder):
        self.program, self.refuser = program, Refuser(folder)
        self.plays = self.records = self.steps = self.held = self.refused = self.again = 0
        self.lied = self.found = 0
        self.wrong = []

    def replay(self, heads, made, lines, **how):
        ran, (asked, refused, _) = self.refuser.run([self.program, "replay"], f"{heads}\nmade {made}\n{lines}".encode(), **how)
        return ran, asked, refused

    def play(self, seed, lie=False):
        """Plays some namespaces with memory refused now and then, and judges each."""
        draw = random.Random(seed)
        heads, lines = inputs_of(draw)
        # A moment that is refused ends the program when it has read all. Then the namespaces are made, and from there on allocations
        # are refused; printing takes the last ones.
        refused_moment = 1 << 63
        counts = [self.replay(heads, moment, text)[1] for moment, text in ((refused_moment, lines), (refused_moment, ""), (0, ""))]
        start = counts[0] + counts[2] - counts[1]
        plain, whole, _ = self.replay(heads, 0, lines)
        if plain.returncode or not 0 < start < whole:
            self.wrong.append(f"seed {seed}: the replay ends with {plain.returncode}: {plain.stderr!r}, {counts} {whole}")
            return
        # (where more is refused less is asked for, so the printing comes earlier)
        one_in, share = draw.choice([(1, 0.02), (3, 0.15), (10, 0.4), (40, 0.7), (200, 0.8)])
        begin = start + int((whole - start) * draw.uniform(0, 0.8 - share))
        ran, _, refused = self.replay(heads, 0, lines, **{"from": begin, "to": begin + int((whole - start) * share)}, one_in=one_in, seed=seed)
        if ran.returncode:
            if ran.returncode != 1 or ran.stderr != b"transcript: out of memory\n" or ran.stdout:
                self.wrong.append(f"seed {seed}: status {ran.returncode}, {ran.stderr[:200]!r}")
            self.again += 1
            return
        self.refused += refused
        for number, text in enumerate(namespaces_in(ran.stdout.decode())):
            self.judge(seed, number, text, draw, lie)

    def judge(self, seed, number, text, draw, lie):
        if lie:
            text, lied = lie_in(text, draw)
            if not lied:
                return
            self.lied += 1
            self.found += audit(self.program, text.encode())[0] == 3
            return
        self.plays += 1
        self.steps += text.count("\nstep ")
        self.held += len(re.findall(r"\nstep \d+ held ", text))
        self.records += len(re.findall(r"\n(?:open|close|feed|answer|giveup) ", text))
        status, said = audit(self.program, text.encode())
        if status or said != "verdict yes":
            place = re.search(r"breaks (\d+)", said)
            keep(f"play-{seed}-{number}", text)
            self.wrong.append(f"seed {seed}, namespace {number}: {said}: {record_at(text, int(place[1])) if place else ''}")
        elif draw.randrange(8) == 0:
            self.judge_without_memory(seed, number, text, draw)

    def judge_without_memory(self, seed, number, text, draw):
        """The judge without memory says so, or the same verdict."""
        ran, _ = self.refuser.run([self.program, "audit"], text.encode(), **{"from": draw.randrange(200), "to": 1 << 40}, one_in=draw.choice([1, 30, 300]), seed=seed)
        if (ran.returncode, ran.stdout, ran.stderr) not in ((0, b"verdict yes\n", b""), (1, b"", b"transcript: out of memory\n")):
            self.wrong.append(f"seed {seed}, namespace {number}: without memory the judge says {ran.returncode} {ran.stdout!r} {ran.stderr!r}")


# The runs.


def show(seed, wrong):
    for it in wrong[:8]:
        print(f"  seed {seed}: {it}", flush=True)
    if len(wrong) > 8:
        print(f"  seed {seed}: and {len(wrong) - 8} more", flush=True)


def run_served(name, play, rounds, seed):
    """Rounds over a server."""
    sums, failed, start = collections.Counter(), 0, time.monotonic()
    for number in range(seed, seed + rounds):
        asked, judged, told, _, wrong = play(number)
        sums.update(asked=asked, judged=judged, told=told)
        failed += len(wrong)
        show(number, wrong)
    what = "looks" if name.endswith("sockets") else "lines of transcripts"
    print(
        f"{name}: {rounds} rounds, {sums['asked']} requests, {sums['judged']} {what} judged, {sums['told']} notices: "
        f"{failed} differences; {time.monotonic() - start:.0f} s", flush=True)
    return failed


def run_lies(name, play, rounds, seed):
    """Rounds over a server that lies: how many rounds with lies were found out, by kind."""
    failed = 0
    for kind in KINDS:
        lied = told = found = 0
        for number in range(seed, seed + rounds):
            lies = {"LIES": kind, "LIE_SEED": str(number)}
            *_, lies_told, wrong = play(number, lies)
            lied += lies_told > 0
            told += lies_told
            found += lies_told > 0 and bool(wrong)
            if wrong and not lies_told:
                show(number, wrong)
                failed += 1
        print(f"{name}, lies about {kind}: {told} in {lied} rounds of {rounds}, {found} of which were found out", flush=True)
        failed += found == 0
    return failed


def run_plays(program, wanted, seed, lie):
    start = time.monotonic()
    with tempfile.TemporaryDirectory() as folder:
        plays = Plays(program, folder)
        number = seed
        while (plays.lied if lie else plays.plays) < wanted and number < seed + 100 + wanted:
            plays.play(number, lie)
            number += 1
            if len(plays.wrong) > 20:
                break
        show("", plays.wrong)
        seconds = time.monotonic() - start
        if lie:
            print(f"plays, lies: {plays.lied} transcripts with one of a thousand replies or notes changed, {plays.found} found out; {seconds:.0f} s", flush=True)
            return len(plays.wrong) + (plays.found == 0)
        print(
            f"plays: {plays.plays} ({plays.records} records, {plays.steps} steps) with {plays.refused} allocations refused, {plays.held} lines held back, "
            f"{plays.again} replays out of memory: {len(plays.wrong)} differences; {seconds:.0f} s", flush=True)
        return len(plays.wrong)


def main():
    words = argparse.ArgumentParser(description=__doc__, formatter_class=argparse.RawDescriptionHelpFormatter, add_help=False)
    words.add_argument("-h", "--help", action="help", help=argparse.SUPPRESS)
    words.add_argument("parts", nargs="*", choices=("sockets", "turns", "plays", []), help=argparse.SUPPRESS)
    words.add_argument("--seed", type=int, default=1, help=argparse.SUPPRESS)
    words.add_argument("--rounds", type=int, help=argparse.SUPPRESS)
    words.add_argument("--plays", type=int, help=argparse.SUPPRESS)
    words.add_argument("--server", action="append", choices=servers.ROWS, help=argparse.SUPPRESS)
    words.add_argument("--transcript", type=pathlib.Path, default=TRANSCRIPT, help=argparse.SUPPRESS)
    words.add_argument("--keep", type=pathlib.Path, help=argparse.SUPPRESS)
    words.add_argument("--lie", action="store_true", help=argparse.SUPPRESS)
    words = words.parse_args()
    global KEPT
    KEPT = words.keep
    parts = words.parts or ["sockets", "turns", "plays"]
    if set(parts) & {"turns", "plays"} and not words.transcript.exists():
        sys.exit(f"there is no {words.transcript}: in its crate `rt run` leaves it there")
    run, failed = run_lies if words.lie else run_served, 0
    for row in servers.rows_of(words.server) if set(parts) & {"sockets", "turns"} else []:
        server = [sys.executable, str(LIAR)] if words.lie else [str(row.path)]

        def lying(lies):
            return {**lies, "LIE_PROGRAM": str(row.path)} if lies else None

        if "sockets" in parts:
            failed += run(f"{row.name}: sockets", lambda seed, lies=None: play_sockets(server, seed, lying(lies)), words.rounds or (10 if words.lie else 40), words.seed)
        if "turns" in parts:
            failed += run(f"{row.name}: turns", lambda seed, lies=None: play_turns(server, words.transcript, seed, lying(lies)), words.rounds or 4, words.seed)
    if "plays" in parts:
        failed += run_plays(words.transcript, words.plays or (200 if words.lie else 10_000), words.seed, words.lie)
    sys.exit(1 if failed else 0)


if __name__ == "__main__":
    main()
