#!/usr/bin/env python3
"""Random clients, several at once, of a namespace of `bivrangd` that speaks the memcache protocol; all that they are replied is judged.

    python3 tools/random_items.py [--seed N] [--rounds N] [--lie]

Nothing is known of the moment of a reply but that it lies between sending the request and receiving the reply. So a reply is wrong only if
no order and no moments would make it right: a value that was not stored, or stored later, or replaced, removed or expired before; a miss,
or an `add` that stores, where an item was there throughout; a `delete`, a `replace` or a `cas` that finds what was not there, or does not
find what was; a unique that two values have; a counter that counts a request twice or not at all. Nothing is evicted: there is room for all.

With --lie one reply of a round is changed, again and again; the run fails if a kind of lie is never detected.

It needs the program (`rt run` in crates/bivrangd leaves it there). The status is 1 if there is a difference.
"""
import argparse
import bisect
import pathlib
import random
import socket
import sys
import threading
import time

ROOT = pathlib.Path(__file__).resolve().parent.parent
sys.path.insert(0, str(ROOT / "benches"))

import connections
import servers

CLIENTS, REQUESTS, KEYS, COUNTERS = 8, 1_500, 12, 3
# (more than is ever stored)
CAPACITY = 100_000
# An item with an expiry of E seconds lives between E - SLACK and E + SLACK.
SLACK = 1.2
EXPIRIES = [0, 0, 0, 0, 0, 2, 3]
LIES = 300


class Asked:
    """A request of one key, its reply, and between which moments it was carried out."""

    def __init__(self, verb, key, value=None, expiry=0, unique=None):
        self.verb, self.key, self.value, self.expiry, self.unique = verb, key, value, expiry, unique
        self.sent = self.done = self.reply = None

    def stores(self):
        return self.reply == b"STORED"

    def removes(self):
        return self.verb == b"delete" and self.reply == b"DELETED" or self.verb == b"flush_all"

    def touches(self):
        return self.verb == b"touch" and self.reply == b"TOUCHED"

    def text(self):
        if self.verb in (b"get", b"gets", b"delete"):
            return b"%b %b\r\n" % (self.verb, self.key)
        if self.verb == b"touch":
            return b"touch %b %d\r\n" % (self.key, self.expiry)
        if self.verb == b"incr":
            return b"incr %b 1\r\n" % self.key
        if self.verb == b"flush_all":
            return b"flush_all\r\n"
        last = b" %d" % self.unique if self.verb == b"cas" else b""
        return b"%b %b 0 %d %d%b\r\n%b\r\n" % (self.verb, self.key, self.expiry, len(self.value), last, self.value)

    def said(self):
        return f"{self.text()[:60]!r}: {self.reply!r} ({self.value!r}, {self.unique}), within {self.sent:.4f} and {self.done:.4f}"


class Client(threading.Thread):
    """One connection, which sends one request after the other."""

    def __init__(self, port, number, seed, flushes):
        super().__init__()
        self.flushes = flushes
        self.number, self.draw, self.asked, self.uniques = number, random.Random(f"{seed} {number}"), [], {}
        self.link = socket.create_connection(("127.0.0.1", port), timeout=30)
        self.lines = self.link.makefile("rb")

    def key(self):
        return b"k%d" % self.draw.randrange(KEYS)

    def next(self, place):
        key, drawn = self.key(), self.draw.random()
        value = b"%d-%d-%b" % (self.number, place, b"\r\n" * self.draw.randrange(3))
        expiry = self.draw.choice(EXPIRIES)
        if drawn < 0.45:
            return Asked(self.draw.choice([b"get", b"gets"]), key)
        if drawn < 0.65:
            return Asked(self.draw.choice([b"set", b"add", b"replace"]), key, value, expiry)
        if drawn < 0.75 and key in self.uniques:
            return Asked(b"cas", key, value, expiry, self.uniques[key])
        if drawn < 0.85:
            return Asked(b"delete", key)
        if drawn < 0.9:
            return Asked(b"touch", key, expiry=expiry)
        if not self.flushes:
            return Asked(b"incr", b"n%d" % self.draw.randrange(COUNTERS))
        return Asked(b"flush_all", None) if drawn < 0.901 else Asked(b"gets", key)

    def take_reply(self, it):
        line = self.lines.readline().rstrip(b"\r\n")
        if not line.startswith(b"VALUE "):
            it.reply = b"miss" if line == b"END" else line
            return
        words = line.split()
        it.reply, it.value = b"hit", self.lines.read(int(words[3]) + 2)[:-2]
        if it.verb == b"gets":
            it.unique = self.uniques[it.key] = int(words[4])
        if self.lines.readline() != b"END\r\n":
            it.reply = b"no end"

    def run(self):
        for place in range(REQUESTS):
            it = self.next(place)
            it.sent = time.monotonic()
            self.link.sendall(it.text())
            self.take_reply(it)
            it.done = time.monotonic()
            self.asked.append(it)
        self.link.close()


def lives_until(it, moment):
    """Whether what a store or a touch leaves is there at that moment, if nothing comes after it."""
    return it.expiry == 0 or moment < it.sent + it.expiry - SLACK


class Key:
    """What was asked of a key: what may be, and what must. Effects stand in the order in which they were sent."""

    def __init__(self, asked):
        self.effects = sorted((it for it in asked if it.stores() or it.removes() or it.touches()), key=lambda it: it.sent)
        self.sent = [it.sent for it in self.effects]
        self.longest = max((it.done - it.sent for it in self.effects), default=0)
        self.store_of = {it.value: it for it in self.effects if it.stores()}

    def may_overlap(self, first, last, at):
        """The effects, but for one, that may have come within two moments."""
        low, high = bisect.bisect_left(self.sent, first - self.longest), bisect.bisect_right(self.sent, last)
        return [it for it in self.effects[low:high] if it is not at and it.done >= first]

    def last(self, kind, at):
        """The last effect of a kind that surely came before a request."""
        high = bisect.bisect_left(self.sent, at.sent)
        return next((it for it in reversed(self.effects[:high]) if kind(it) and it.done < at.sent and it is not at), None)

    def is_there(self, at):
        """Whether an item was there throughout a request."""
        # (what may come behind this store may come behind those before it)
        store = self.last(Asked.stores, at)
        return store is not None and all(not it.removes() and lives_until(it, at.done) for it in self.may_overlap(store.sent, at.done, at))

    def is_gone(self, at):
        """Whether no item was there throughout a request."""
        gone = self.last(Asked.removes, at)
        return not any(it.stores() for it in self.may_overlap(gone.sent if gone else 0, at.done, at))

    def may_be(self, value, at):
        """Whether a value may be there at some moment of a request."""
        store = self.store_of.get(value)
        if store is None or store.sent > at.done:
            return False
        after = self.may_overlap(store.sent, at.done, at)
        between = any(not it.touches() and store.done < it.sent and it.done < at.sent for it in after)
        expires = all(it.expiry and it.done + it.expiry + SLACK < at.sent for it in [store, *after] if it is store or it.touches())
        return not between and not expires

    def is_untouched(self, value, at):
        """Whether a value was there throughout a request, and nothing was done to the key since it was stored."""
        store = self.store_of.get(value)
        if store is None or store.done >= at.sent:
            return False
        return lives_until(store, at.done) and self.may_overlap(store.sent, at.done, at) == [store]

    def wrong(self, it, values):
        """What is wrong with a reply, if something is; by the values that have been seen with uniques."""
        finds = {b"hit": True, b"DELETED": True, b"TOUCHED": True, b"EXISTS": True, b"miss": False, b"NOT_FOUND": False}.get(it.reply)
        if it.verb in (b"add", b"replace"):
            finds = (it.reply == b"STORED") == (it.verb == b"replace")
        if it.verb == b"cas" and it.reply == b"STORED":
            finds = True
        if finds is None and not (it.verb == b"set" and it.stores()):
            return "no such reply"
        if finds is True and self.is_gone(it):
            return "it finds what is gone"
        if finds is False and self.is_there(it):
            return "it does not find what is there"
        if it.reply == b"hit" and not self.may_be(it.value, it):
            return "a value that cannot be there"
        if it.verb == b"cas" and it.unique in values:
            if it.stores() and not self.may_be(values[it.unique][1], it):
                return "it compares with what cannot be there"
            if it.reply == b"EXISTS" and self.is_untouched(values[it.unique][1], it):
                return "it takes another unique for this one"
        return None


def uniques_of(asked):
    """By each unique the key and the value with which it was seen; and what is wrong with them."""
    values, found = {}, []
    for it in asked:
        if it.verb == b"gets" and it.reply == b"hit" and values.setdefault(it.unique, (it.key, it.value)) != (it.key, it.value):
            found.append(("a unique of two values", it))
    return values, found


def wrong_counts(asked):
    """What is wrong with a counter."""
    counted = sorted((int(it.reply), it.sent, it.done, it) for it in asked)
    for place, (count, _, done, it) in enumerate(counted):
        if count != place + 1:
            return [("a count that is left out, or comes twice", it)]
        if place and counted[place - 1][1] > done:
            return [("a count that comes before an earlier one", it)]
    return []


def judge(asked):
    """All that is wrong."""
    values, found = uniques_of(asked)
    for key in sorted({it.key for it in asked if it.key}):
        of = [it for it in asked if it.key in (key, None)]
        if key.startswith(b"n"):
            found += wrong_counts([it for it in of if it.key])
            continue
        history = Key(of)
        for it in of:
            if it.key and (why := history.wrong(it, values)):
                found.append((why, it))
    return found


OTHER = {b"hit": b"miss", b"miss": b"hit", b"DELETED": b"NOT_FOUND", b"NOT_FOUND": b"DELETED", b"EXISTS": b"STORED"}


def kinds_of_lies(asked, draw):
    """Tells one lie after the other; by the kind of each how many were told, and how many detected."""
    counts = {}
    for _ in range(LIES):
        it = draw.choice([it for it in asked if it.key and (it.reply in OTHER or it.verb == b"incr")])
        true = it.reply, it.value
        kind = f"{it.verb.decode()} {it.reply.decode() if it.verb != b'incr' else ''}"
        if it.verb == b"incr":
            it.reply = b"%d" % (int(it.reply) + 1)
        elif it.reply == b"hit" and draw.random() < 0.5:
            kind, it.value = f"{kind} of another", draw.choice([of for of in asked if of.stores()]).value
        else:
            it.reply, it.value = OTHER[it.reply], it.value if it.verb == b"cas" else b"none"
        told, detected = counts.get(kind, (0, 0))
        counts[kind] = (told + 1, detected + bool(judge([of for of in asked if of.key in (it.key, None)])))
        it.reply, it.value = true
    return counts


def play(seed, flushes):
    """What a round's clients have asked: with flushes, or else with counters, which a flush would remove."""
    server = connections.Memcache(CAPACITY)
    with socket.create_connection(("127.0.0.1", server.port), timeout=30) as link:
        for number in range(COUNTERS):
            link.sendall(b"set n%d 0 0 1\r\n0\r\n" % number)
            if link.recv(100) != b"STORED\r\n":
                sys.exit("a counter is not stored")
    clients = [Client(server.port, number, seed, flushes) for number in range(CLIENTS)]
    for client in clients:
        client.start()
    for client in clients:
        client.join()
    server.stop()
    return [it for client in clients for it in client.asked]


def main():
    words = argparse.ArgumentParser(description=__doc__, formatter_class=argparse.RawDescriptionHelpFormatter)
    words.add_argument("--seed", type=int, default=1, help=argparse.SUPPRESS)
    words.add_argument("--rounds", type=int, default=10, help=argparse.SUPPRESS)
    words.add_argument("--lie", action="store_true", help=argparse.SUPPRESS)
    words = words.parse_args()
    servers.rows_of(["bivrangd"])
    count, found, lies = 0, [], {}
    for number in range(words.rounds):
        asked = play(f"{words.seed} {number}", number % 2 == 1)
        count += len(asked)
        found += judge(asked)
        if words.lie:
            for kind, (told, detected) in kinds_of_lies(asked, random.Random(number)).items():
                before = lies.get(kind, (0, 0))
                lies[kind] = (before[0] + told, before[1] + detected)
    for why, it in found[:20]:
        print(f"{why}: {it.said()}")
    print(f"{words.rounds} rounds, {count:,} requests: {len(found)} differences")
    for kind, (told, detected) in sorted(lies.items()):
        print(f"    {kind}: {detected} of {told} lies detected")
    return 1 if found or any(not detected for _, detected in lies.values()) else 0


if __name__ == "__main__":
    sys.exit(main())
