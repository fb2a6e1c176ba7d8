#!/usr/bin/env python3
"""Hit ratios on the traces of traces.py: each key is looked up and, if it is not found, written.

    python3 benches/hit_ratios.py [TRACE..]                fills figures.json
    python3 benches/hit_ratios.py own FILE CAPACITY..      a trace of your own, one key per line
    python3 benches/hit_ratios.py check [N]                compares model and cache on the first N keys of each trace, by default 10,000
    python3 benches/hit_ratios.py server TRACE             the keys over sockets, one round trip each, to `cached --config`
    python3 benches/hit_ratios.py shards [TRACE..]         by number of shards, by the model alone; fills figures.json

The cache of this repository is driven by the program `transcript`, which replays lines on a service: for each trace, policy and
capacity a model in Python (reference_model.py) predicts which keys are found, the lines are made from that, and each reply has to be what
the model predicted, key by key; otherwise the status is 1. So the ratios are the cache's own, and the same each time. In the same run
there are Caffeine, a plain LRU, and the model with the other rule of aging, which no program here has.

Build the programs first: `rt run` in crates/transcript leaves it at out/transcript, and in crates/cached at out/cached; TRANSCRIPT
and CACHED name others. If `transcript` is not there, the ratios are those of the model, and the script says so. Caffeine is left out if
its package is not installed (caffeine/run.sh).
"""
import os
import pathlib
import socket
import subprocess
import sys

import connections
import figures
import progress
import reference_model
import traces

HERE = pathlib.Path(__file__).resolve().parent
TRANSCRIPT = pathlib.Path(os.environ.get("TRANSCRIPT", HERE.parent / "crates/transcript/out/transcript"))
CAPACITIES = (500, 5_000)
POLICIES = ("tinylfu", "lru")
CHECKED, CHECKED_CAPACITY = 10_000, 200
LINES_A_PIECE = 100
# The last count leaves each shard a share of 79 values.
SHARDS, SHARDED_CAPACITY = (1, 4, 16, 32, 64), 5_000
NO_PACKAGE = 3


def percent(found):
    return round(100 * sum(found) / len(found), 1)


class Hashes:
    """The hashes of keys in the first namespace of a replay."""

    def __init__(self):
        self.secret, self.known = reference_model.seeded_secret(), {}

    def of(self, key):
        if key not in self.known:
            text = b"%016d" % key
            words = (int.from_bytes(text[:8], "little"), int.from_bytes(text[8:], "little"))
            self.known[key] = reference_model.siphash((*self.secret, *words))
        return self.known[key]


def lines_of(keys, predicted):
    """A look-up of each key, and behind it its writing where it is predicted to be missed."""
    for key, is_found in zip(keys, predicted):
        yield b"GET %016d\n" % key
        if not is_found:
            yield b"SET %016d - v\n" % key


def replayed(policy, capacity, keys, predicted):
    """What a replay answers to each look-up. All comes at one moment, so that maintenance comes by what waits."""
    lines = list(lines_of(keys, predicted))
    pieces = (b"".join(lines[first : first + LINES_A_PIECE]) for first in range(0, len(lines), LINES_A_PIECE))
    config = f"config capacity={capacity} policy={policy} parts=1 weight=one live_ms=- idle_ms=- deadlines=0"
    inputs = [config, "made 0", "input 0 open", *(f"input 0 feed 1 0 x{piece.hex()}" for piece in pieces)]
    text = "".join(f"{line}\n" for line in inputs)
    run = subprocess.run([TRANSCRIPT, "replay"], input=text, capture_output=True, text=True, check=True)
    look_up, hit = "x" + b"GET ".hex(), "x" + b"VAL v\n".hex()
    steps = (line.split() for line in run.stdout.splitlines() if line.startswith("step "))
    return [step[4] == hit for step in steps if step[3].startswith(look_up)]


def by_cache(name, policy, capacity, keys, hashes):
    """For each key whether the cache finds it."""
    progress.show(f"{name}: {policy} of {capacity:,}")
    predicted = reference_model.found_in(reference_model.Model(policy, capacity, hashes.of), keys)
    if not TRANSCRIPT.exists():
        return predicted
    answered = replayed(policy, capacity, keys, predicted)
    if answered != predicted:
        place = next((k for k, pair in enumerate(zip(answered, predicted)) if pair[0] != pair[1]), len(answered))
        sys.exit(f"{name}, {policy} {capacity}: the cache and the model part at key {place}")
    return answered


def check(accesses):
    """Compares model and cache, where there is a program to drive."""
    if not TRANSCRIPT.exists():
        sys.exit(f"{TRANSCRIPT} is not there")
    hashes = Hashes()
    for name in traces.TRACES:
        keys = traces.trace(name, accesses)
        ratios = [percent(by_cache(name, policy, CHECKED_CAPACITY, keys, hashes)) for policy in POLICIES]
        progress.clear()
        print(f"{name:9} the same of {len(keys):,} keys, {CHECKED_CAPACITY} held: {dict(zip(POLICIES, ratios))}", flush=True)


def by_caffeine(name, keys, capacities):
    """By capacity the hit ratio of Caffeine, if it is there."""
    progress.show(f"{name}: Caffeine")
    words = [HERE / "caffeine/run.sh", "ratios", *map(str, capacities)]
    run = subprocess.run(words, input="".join(f"{key}\n" for key in keys), capture_output=True, text=True)
    if run.returncode == NO_PACKAGE:
        print(run.stderr, end="", file=sys.stderr)
        return {}
    run.check_returncode()
    rows = [line.split() for line in run.stdout.splitlines()]
    return {f"caffeine {capacity}": round(100 * int(found) / int(asked), 1) for capacity, found, asked in rows}


def row_of(name, keys, capacities, hashes):
    """By cache and capacity the hit ratios on a trace."""
    row = {}
    for capacity in capacities:
        for policy in POLICIES:
            row[f"{policy} {capacity}"] = percent(by_cache(name, policy, capacity, keys, hashes))
        progress.show(f"{name}: other rules, {capacity:,}")
        other = reference_model.Model("tinylfu", capacity, hashes.of, reference_model.Aging.CORRECTED)
        row[f"corrected {capacity}"] = percent(reference_model.found_in(other, keys))
        row[f"plain lru {capacity}"] = percent(reference_model.found_in(reference_model.Lru(capacity), keys))
    return {**row, **by_caffeine(name, keys, capacities)}


class Shards:
    """A cache of 2^bits shards, each a model with its share of the capacity, rounded up. The upper bits of its hash choose a key's shard."""

    def __init__(self, policy, capacity, hash_of, bits):
        self.bits, self.hash_of = bits, hash_of
        share = -(-capacity >> bits)
        self.models = [reference_model.Model(policy, share, hash_of) for _ in range(1 << bits)]

    def model_of(self, key):
        return self.models[self.hash_of(key) >> 64 - self.bits]

    def get(self, key):
        return self.model_of(key).get(key)

    def put(self, key):
        self.model_of(key).put(key)


def ratio_by_shards(name, keys, hashes, policy, count):
    """The hit ratio of so many shards on a trace."""
    progress.show(f"{name}: {policy}, {count} shards")
    return percent(reference_model.found_in(Shards(policy, SHARDED_CAPACITY, hashes.of, count.bit_length() - 1), keys))


def measure_shards(named):
    """The hit ratios by number of shards on traces, one row after the other."""
    hashes = Hashes()
    for name, keys in named:
        row = {f"{policy} {count}": ratio_by_shards(name, keys, hashes, policy, count) for policy in POLICIES for count in SHARDS}
        print_row(name, row)
        yield name, row


class Namespaces(connections.Server):
    """A server of a namespace for each policy and capacity, with a connection to each."""

    def __init__(self):
        self.spaces = [(policy, capacity) for policy in POLICIES for capacity in CAPACITIES]
        ports = connections.free_ports(len(self.spaces))
        self.start(
            [
                f'name = "{policy}-{capacity}"\nport = {port}\ncapacity = {capacity}\npolicy = "{policy}"\n'
                for (policy, capacity), port in zip(self.spaces, ports)
            ]
        )
        self.sockets = [socket.create_connection((connections.HOST, port)) for port in ports]
        for one in self.sockets:
            one.setsockopt(socket.IPPROTO_TCP, socket.TCP_NODELAY, 1)

    def ask(self, key, puts):
        """Whether each namespace has a key. What is to be written goes before."""
        for one, put in zip(self.sockets, puts):
            one.sendall(put + b"GET %016d\n" % key)
        return [is_found(one, bool(put)) for one, put in zip(self.sockets, puts)]

    def found(self, keys):
        """By policy and capacity, for each key whether it was found."""
        answers, puts = [], [b""] * len(self.sockets)
        for place, key in enumerate(keys):
            answers.append(self.ask(key, puts))
            put = b"SET %016d - v\n" % key
            puts = [b"" if hit else put for hit in answers[-1]]
            progress.show(f"server: {place:,} of {len(keys):,} keys")
        return dict(zip(self.spaces, zip(*answers)))


def is_found(one, is_written):
    """Whether a look-up found its key, behind the reply to the writing of the one before."""
    before = b"OK\n" if is_written else b""
    hit, miss, reply = before + b"VAL v\n", before + b"NONE\n", b""
    while reply not in (hit, miss):
        piece = one.recv(64)
        reply += piece
        if not piece or len(reply) > len(hit):
            sys.exit(f"a wrong reply: {reply!r}")
    return reply == hit


def measure_server(name):
    server = Namespaces()
    try:
        rows = server.found(traces.trace(name))
    finally:
        server.stop()
    return {f"{policy} {capacity}": percent(found) for (policy, capacity), found in rows.items()}


def own_trace(file):
    """The keys of a file, each line numbered as it first comes."""
    numbers = {}
    return [numbers.setdefault(line, len(numbers)) for line in pathlib.Path(file).read_bytes().splitlines()]


def print_row(name, row):
    progress.clear()
    print(f"{name:9}", ", ".join(f"{what} {ratio:.1f}" for what, ratio in row.items()), flush=True)


def measure(named, capacities):
    """Measures traces, and answers their rows one after the other."""
    if not TRANSCRIPT.exists():
        print(f"{TRANSCRIPT} is not there: ratios of both policies are those of the model", file=sys.stderr)
    hashes = Hashes()
    for name, keys in named:
        row = row_of(name, keys, capacities, hashes)
        print_row(name, row)
        yield name, row


def main():
    words = sys.argv[1:]
    if len(words) == 2 and words[0] == "server" and words[1] in traces.TRACES:
        print_row(words[1], measure_server(words[1]))
    elif len(words) > 2 and words[0] == "own" and all(word.isdigit() for word in words[2:]):
        list(measure([("own", own_trace(words[1]))], [int(word) for word in words[2:]]))
    elif words[:1] == ["check"] and len(words) <= 2 and all(word.isdigit() for word in words[1:]):
        check(*map(int, words[1:] or [CHECKED]))
    elif words[:1] == ["shards"] and all(word in traces.TRACES for word in words[1:]):
        for name, row in measure_shards((name, traces.trace(name)) for name in words[1:] or traces.TRACES):
            figures.keep("shards", {name: row})
    elif all(word in traces.TRACES for word in words):
        named = ((name, traces.trace(name)) for name in words or traces.TRACES)
        for name, row in measure(named, CAPACITIES):
            figures.keep("hit_ratios", {name: row})
    else:
        sys.exit(__doc__)


if __name__ == "__main__":
    main()
