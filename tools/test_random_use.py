#!/usr/bin/env python3
"""Tests of what tools/random_use.py detects: `python3 tools/test_random_use.py [PATH_OF_CACHED]`.

Histories that are written by hand, right and wrong ones, take no time. If the server is there, in crates/cached/out
or at the path, lies of each kind have to be detected over sockets, with tools/lying_server.py; that takes seconds.
"""
import pathlib
import random
import sys
import unittest

sys.dont_write_bytecode = True
sys.path.insert(0, str(pathlib.Path(__file__).resolve().parent))
import lying_server  # noqa: E402
import random_use  # noqa: E402
from random_use import MS, Asked, Judge, Line, Note, Space  # noqa: E402

PROGRAM = random_use.servers.ROWS["cached"].path
LAST = 1000


def line_of(text):
    words = text.split(b" ", 3)
    verb = words[0].decode()
    key = words[1] if len(words) > 1 else None
    ms = int(words[2]) if verb in ("SET", "ADD") and words[2] != b"-" else None
    value = words[3] if verb == "SET" else None
    return Line(text, verb, key, value, ms, int(words[3]) if verb == "ADD" else None)


class History:
    """Requests with their windows in milliseconds, and notices."""

    def __init__(self, space, *rows):
        self.space, self.log, self.notes, self.places = space, [], [], {}
        for row in rows:
            (self.tell if row[0] == "told" else self.ask)(*row)

    def ask(self, begin, end, text, reply, link=1):
        self.places[link] = self.places.get(link, 0) + 1
        asked = Asked(line_of(text), link, self.places[link])
        asked.begin, asked.end = begin * MS, end * MS
        lines = reply.split(b"\n")
        asked.reply, asked.keys = lines[0], lines[1:] if asked.line.verb == "KEYS" else None
        self.log.append(asked)

    def tell(self, _, begin, end, cause, key, value):
        self.notes.append(Note(cause, key, value, begin * MS, end * MS))

    def wrong(self):
        return Judge(self.space, self.log, self.notes).judge()


def plain(**settings):
    return Space("s", **settings).with_keys(3, 2, 1, 1)


SET_1, SET_2 = (0, 1, b"SET t0 - 1", b"OK"), (4, 5, b"SET t0 - 2", b"OK")
TOLD_1 = ("told", 4, 5, "Replaced", b"t0", b"1")


class Right(unittest.TestCase):
    def rows(self, space, *rows):
        self.assertEqual(History(space, *rows).wrong(), [])

    def test_one_after_another(self):
        self.rows(
            plain(), SET_1, (2, 3, b"GET t0", b"VAL 1"), SET_2, TOLD_1, (6, 7, b"GET t0", b"VAL 2"), (6, 7, b"HAS t1", b"NO"),
            (8, 9, b"KEYS", b"KEYS 1\nt0"), (8, 9, b"SYNC", b"SYNC 1 1"), (10, 11, b"DEL t0", b"OK"), ("told", 10, 11, "Explicit", b"t0", b"2"),
            (12, 13, b"GET t0", b"NONE"), (14, 15, b"SYNC", b"SYNC 0 0"),
        )

    def test_windows_that_overlap(self):
        for reply in (b"VAL 1", b"VAL 2"):
            self.rows(plain(), SET_1, (4, 6, b"SET t0 - 2", b"OK"), ("told", 4, 6, "Replaced", b"t0", b"1"), (5, 7, b"GET t0", reply, 2))
        for reply in (b"VAL 1", b"NONE"):
            self.rows(plain(), SET_1, (4, 6, b"CLEAR", b"OK"), (5, 7, b"GET t0", reply, 2))
        self.rows(plain(), SET_1, (4, 6, b"LOAD m0", b"VAL found m0"), (3, 7, b"SET m0 - 1", b"OK", 2), ("told", 3, 7, "Replaced", b"m0", b"1"))

    def test_times(self):
        space = plain(deadlines=True)
        self.rows(space, (0, 1, b"SET t0 10 1", b"OK"), (10, 11, b"GET t0", b"VAL 1"), ("told", 12, 13, "Expired", b"t0", b"1"), (12, 13, b"GET t0", b"NONE"))
        self.rows(plain(idle_ms=10), SET_1, (8, 9, b"GET t0", b"VAL 1"), (16, 17, b"GET t0", b"VAL 1"), (40, 41, b"GET t0", b"NONE"))

    def test_sums(self):
        self.rows(plain(), (0, 1, b"ADD n0 - 5", b"VAL 5"), (2, 3, b"ADD n0 - 6", b"VAL 11"), ("told", 2, 3, "Replaced", b"n0", b"5"), (4, 5, b"GET n0", b"VAL 11"))

    def test_evictions(self):
        self.rows(plain(capacity=1), SET_1, (4, 5, b"SET t1 - 2", b"OK"), ("told", 4, 5, "Size", b"t0", b"1"), (6, 7, b"GET t0", b"NONE"))

    def test_loads(self):
        self.rows(plain(), (0, 9, b"LOAD l0", b"VAL found l0"), (0, 9, b"LOAD l0", b"VAL found l0", 2), (10, 11, b"GET l0", b"VAL found l0"), (10, 11, b"LOAD t2", b"NONE"))


class Wrong(unittest.TestCase):
    def rows(self, space, *rows):
        self.assertNotEqual(History(space, *rows).wrong(), [])

    def test_values(self):
        self.rows(plain(), SET_1, SET_2, TOLD_1, (6, 7, b"GET t0", b"VAL 1"))
        self.rows(plain(), SET_1, (2, 3, b"GET t0", b"NONE"))
        self.rows(plain(), SET_1, (2, 3, b"GET t1", b"VAL 1"))
        self.rows(plain(), SET_1, (2, 3, b"GET t0", b"VAL 3"))
        self.rows(plain(), SET_1, (2, 3, b"HAS t0", b"NO"))
        self.rows(plain(), SET_1, (2, 3, b"HAS t1", b"YES"))
        self.rows(plain(), SET_1, (2, 3, b"KEYS", b"KEYS 0"))
        self.rows(plain(), SET_1, (2, 3, b"KEYS", b"KEYS 2\nt0\nt1"))
        self.rows(plain(), SET_1, (2, 3, b"CLEAR", b"OK"), (4, 5, b"GET t0", b"VAL 1"))
        self.rows(plain(), SET_1, (2, 3, b"DROPIF t", b"OK"), (4, 5, b"GET t0", b"VAL 1"))
        self.rows(plain(), SET_1, (2, 3, b"DROPIF n", b"OK"), (4, 5, b"GET t0", b"NONE"))
        self.rows(plain(capacity=1), SET_1, (2, 3, b"SET t1 - 2", b"OK"), ("told", 2, 3, "Size", b"t0", b"1"), (4, 5, b"GET t0", b"VAL 1"))
        self.rows(plain(), (0, 1, b"SET t0 - 1", b"OFF"))
        self.rows(plain(capacity=0), SET_1)

    def test_times(self):
        self.rows(plain(deadlines=True), (0, 1, b"SET t0 10 1", b"OK"), (12, 13, b"GET t0", b"VAL 1"))
        self.rows(plain(deadlines=True), (0, 1, b"SET t0 100 1", b"OK"), (12, 13, b"GET t0", b"NONE"))
        self.rows(plain(idle_ms=10), SET_1, (8, 9, b"GET t0", b"VAL 1"), (20, 21, b"GET t0", b"VAL 1"))
        self.rows(plain(idle_ms=10), SET_1, (8, 9, b"GET t0", b"VAL 1"), (12, 13, b"GET t0", b"NONE"))
        self.rows(plain(live_ms=10), SET_1, (12, 13, b"GET t0", b"VAL 1"))

    def test_sums(self):
        five = (0, 1, b"ADD n0 - 5", b"VAL 5")
        told = ("told", 0, 99, "Replaced", b"n0", b"5")
        self.rows(plain(), five, (2, 3, b"ADD n0 - 6", b"VAL 6"))
        self.rows(plain(), five, (2, 3, b"ADD n0 - 6", b"VAL 12"))
        self.rows(plain(), five, (2, 9, b"ADD n0 - 6", b"VAL 11"), (2, 9, b"ADD n0 - 7", b"VAL 12", 2), told)
        self.rows(plain(), five, (2, 3, b"ADD n0 - 6", b"ERR number"))

    def test_counts(self):
        for reply in (b"SYNC 0 0", b"SYNC 2 2", b"SYNC 1 2"):
            self.rows(plain(), SET_1, (2, 3, b"SYNC", reply))
        self.rows(plain(capacity=1), SET_1, (2, 3, b"SET t1 - 2", b"OK"), (4, 5, b"SYNC", b"SYNC 2 2"))
        self.rows(plain(), SET_1, (2, 3, b"CLEAR", b"OK"), (4, 5, b"SYNC", b"SYNC 1 1"))

    def test_notices(self):
        get = (6, 7, b"GET t0", b"VAL 2")
        for cause in ("Explicit", "Expired", "Size", "Lost"):
            self.rows(plain(), SET_1, SET_2, ("told", 4, 5, cause, b"t0", b"1"), get)
        self.rows(plain(), SET_1, SET_2, TOLD_1, TOLD_1, get)
        self.rows(plain(), SET_1, SET_2, TOLD_1, ("told", 4, 5, "Replaced", b"t0", b"3"), get)
        self.rows(plain(), SET_1, ("told", 2, 3, "Replaced", b"t0", b"1"))
        self.rows(plain(), SET_1, (2, 3, b"CLEAR", b"OK"), SET_2, TOLD_1)
        self.rows(plain(deadlines=True), (0, 1, b"SET t0 1 1", b"OK"), SET_2, TOLD_1)
        self.rows(plain(), SET_1, (2, 3, b"GET t1", b"NONE"), ("told", 2, 3, "Explicit", b"t0", b"1"))

    def test_what_is_never_told(self):
        judge = Judge(plain(), History(plain(), SET_1).log, [])
        judge.judge_end()
        self.assertEqual(len(judge.wrong), 1)

    def test_loads(self):
        found = (0, 1, b"LOAD l0", b"VAL found l0")
        self.rows(plain(), (0, 1, b"LOAD l0", b"NONE"))
        self.rows(plain(), (0, 1, b"SET m0 - 1", b"OK"), (2, 3, b"LOAD m0", b"VAL found m0"), ("told", 2, 3, "Replaced", b"m0", b"1"))
        self.rows(plain(), found, (0, 1, b"LOAD l0", b"VAL found l0", 2), ("told", 0, 1, "Replaced", b"l0", b"found l0"))
        self.rows(plain(), (0, 1, b"LOAD t0", b"VAL 1"))


class Lies(unittest.TestCase):
    """The wrong server of each kind is found out, and no other way than by a lie."""

    def test_lies(self):
        if not PROGRAM.exists():
            self.skipTest(f"there is no {PROGRAM}")
        words = [sys.executable, str(random_use.LIAR)]
        for kind in random_use.KINDS:
            found = 0
            for seed in range(1, 6):
                lies = {"LIES": kind, "LIE_SEED": str(seed), "LIE_ONE_IN": "100", "LIE_PROGRAM": str(PROGRAM)}
                *_, lied, wrong = random_use.play_sockets(words, seed, lies, 30)
                self.assertTrue(lied or not wrong, wrong)
                found += bool(wrong)
                if found:
                    break
            self.assertTrue(found, f"lies about {kind} are not found out")


class Liars(unittest.TestCase):
    def test_each_kind_lies(self):
        for kind in lying_server.KINDS:
            liar = lying_server.Liar([kind], 1, 0)
            liar.tell = lambda _kind, _truth, lie: lie
            said = [
                *[liar.reply("s", line) for line in (b"VAL 1", b"NONE", b"YES", b"SYNC 1 1")],
                liar.request(b"SET a - 1"), liar.listed([b"KEYS 1", b"a"]), liar.notice(b"s NOTE Size a 1"),
            ]
            true = [b"VAL 1", b"NONE", b"YES", b"SYNC 1 1", (b"SET a - 1", None), [b"KEYS 1", b"a"], [b"s NOTE Size a 1"]]
            self.assertNotEqual(said, true, kind)
            self.assertLess(sum(one != other for one, other in zip(said, true)), 4, kind)

    def test_a_transcript_with_lies(self):
        text = "\n".join(["config c", "made 0"] + ["step 1 run x00 x4f4b0a - -"] * 5000)
        changed, lied = random_use.lie_in(text, random.Random(1))
        self.assertEqual(sum(one != other for one, other in zip(text.split("\n"), changed.split("\n"))), lied)
        self.assertGreater(lied, 0)


def main():
    global PROGRAM
    words = sys.argv[1:]
    if words and "/" in words[0]:
        PROGRAM = pathlib.Path(words.pop(0)).resolve()
    unittest.main(argv=[sys.argv[0], *words])


if __name__ == "__main__":
    main()
