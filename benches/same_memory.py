#!/usr/bin/env python3
"""Hit ratios on the traces of traces.py beside memcached's, with the same resident memory. Fills figures.json, in some six minutes.

    python3 benches/same_memory.py [TRACE..]

It needs `memcached` on the path, and `bivrangd` (servers.py). For each kind of values, `memcached -t 1 -m M` is sent the trace `zipf-0.9`.
By as much as its resident memory has grown then, that of `bivrangd` may grow by the same trace: the capacity of its namespace is scaled
until that is so, within 2 % if it can be, once for LRU and once for TinyLFU. Then each trace goes to all three, each of which has just started: each
key is looked up and, if it is not there, stored, 32 requests at a time on one connection. A key that comes again among 32 counts as
found, since it is there by then.

Keys have 16 bytes. Values have 100 bytes, 1,000, or, by key, from 100 to 10,000, with as many up to 1,000 as above.
"""
import random
import socket
import sys

import connections
import figures
import progress
import servers
import traces

AT_ONCE = 32
CALIBRATED, NEAR, TRIES = "zipf-0.9", 0.02, 8
POLICIES = ("lru", "tinylfu")


def mixed(key):
    return int(100 * 100 ** random.Random(key).random())


# By kind how many bytes a key's value has, and how many megabytes memcached gets.
KINDS = {"100": (lambda _key: 100, 2), "1,000": (lambda _key: 1000, 8), "100 to 10,000": (mixed, 32)}


class Memcached(connections.MemcachedAlone):
    """`memcached` with one thread and so many megabytes."""

    def __init__(self, megabytes):
        self.megabytes = megabytes
        super().__init__(None)

    def words(self):
        return [*super().words(), "-m", str(self.megabytes)]


class Items(connections.Memcache):
    """A namespace of `bivrangd` with so many bytes, under a policy."""

    def __init__(self, capacity, policy):
        self.port = connections.free_port()
        self.start([f'name = "main"\nport = {self.port}\ncapacity = {capacity}\npolicy = "{policy}"\n'])


class Asking:
    """A connection to a server that has just started, with what came of it."""

    def __init__(self, server):
        self.server = server
        self.socket = socket.create_connection((connections.HOST, server.port), timeout=connections.ANSWER_SECONDS)
        self.socket.setsockopt(socket.IPPROTO_TCP, socket.TCP_NODELAY, 1)
        self.replies = self.socket.makefile("rb")
        self.items()
        self.empty = server.resident_kibibytes()

    def items(self):
        """How many items it says it has."""
        self.socket.sendall(b"stats\r\n")
        lines = iter(self.replies.readline, b"END\r\n")
        return next(int(words[2]) for words in list(map(bytes.split, lines)) if words[1] == b"curr_items")

    def is_there(self, size):
        """The reply to a look-up."""
        line = self.replies.readline()
        if line == b"END\r\n":
            return False
        if not line.startswith(b"VALUE ") or self.replies.read(size + 7) != b"v" * size + b"\r\nEND\r\n":
            sys.exit(f"a wrong reply: {line!r}")
        return True

    def found(self, keys, size_of):
        """How many keys of a trace are found."""
        count = 0
        for first in range(0, len(keys), AT_ONCE):
            several = keys[first : first + AT_ONCE]
            self.socket.sendall(b"".join(b"get %016d\r\n" % key for key in several))
            stored = {}
            for key in several:
                is_there = self.is_there(size_of(key))
                count += is_there or key in stored
                if not is_there:
                    stored[key] = size_of(key)
            if stored:
                self.socket.sendall(b"".join(b"set %016d 0 0 %d noreply\r\n%b\r\n" % (key, size, b"v" * size) for key, size in stored.items()))
        return count


def run(server, keys, size_of):
    """The hit ratio on a trace in percent, the KiB that it took, and the number of items at the end."""
    try:
        asking = Asking(server)
        found = asking.found(keys, size_of)
        items = asking.items()
        return round(100 * found / len(keys), 1), server.resident_kibibytes() - asking.empty, items
    finally:
        server.stop()


def capacity_of(policy, keys, size_of, grown):
    """The capacity by which a namespace's memory grows by so many KiB, or the largest that was tried by which it grows by less: a table
    that doubles takes a step."""
    capacity, fits, exceeds = grown * 1024, 0, None
    for _ in range(TRIES):
        progress.show(f"{policy}: a capacity of {capacity:,} bytes")
        _, taken, _ = run(Items(capacity, policy), keys, size_of)
        if abs(taken / grown - 1) <= NEAR:
            return capacity
        if taken < grown:
            fits = max(fits, capacity)
        else:
            exceeds = min(capacity, exceeds or capacity)
        capacity = int(capacity * grown / taken)
        if exceeds and not fits < capacity < exceeds:
            capacity = (fits + exceeds) // 2
    return fits or sys.exit(f"{policy}: no capacity is found for {grown} KiB")


def measure(kind, names):
    """Rows of a kind of values, one after the other: first what all hold by the trace that decides the capacity."""
    sizes, megabytes = KINDS[kind]
    keys = traces.trace(CALIBRATED)
    size_by_key = {key: sizes(key) for key in range(2 * traces.ACCESSES)}
    size_of = size_by_key.__getitem__
    progress.show(f"{kind} bytes: memcached of {megabytes} MB")
    _, grown, _ = run(Memcached(megabytes), keys, size_of)
    capacities = {policy: capacity_of(policy, keys, size_of, grown) for policy in POLICIES}
    makes = {"memcached": lambda: Memcached(megabytes), **{policy: lambda policy=policy: Items(capacities[policy], policy) for policy in POLICIES}}
    held, taken = {f"capacity {policy}": capacity for policy, capacity in capacities.items()}, {}
    for maker, make in makes.items():
        _, taken[maker], held[maker] = run(make(), keys, size_of)
    yield f"{kind} held", held
    yield f"{kind} KiB", taken
    for name in names:
        keys, row = traces.trace(name), {}
        for maker, make in makes.items():
            progress.show(f"{kind} bytes: {name}: {maker}")
            row[maker], row[f"KiB {maker}"], _ = run(make(), keys, size_of)
        yield f"{kind} {name}", row


def main():
    names = sys.argv[1:] or list(traces.TRACES)
    if any(name not in traces.TRACES for name in names):
        sys.exit(__doc__)
    servers.rows_of(["memcache"], servers.ALL)
    if not Memcached.is_there():
        sys.exit("memcached is not on the path")
    for kind in KINDS:
        for name, row in measure(kind, names):
            progress.clear()
            print(f"{name}: {row}", flush=True)
            figures.keep("same_memory", {name: row})


if __name__ == "__main__":
    main()
