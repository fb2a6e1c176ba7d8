#!/usr/bin/env python3
"""Traces of keys, as a program would request them from a cache: the same each time.

    python3 benches/traces.py               names the traces, and describes each
    python3 benches/traces.py TRACE [N]     prints N keys of one, one number per line; by default 200,000
"""
import bisect
import itertools
import random
import sys

KEYS = 50_000
ACCESSES = 200_000
SEED = 20261126


def zipf_ranks(draw, exponent, keys=KEYS):
    """Ranks without end: the one of place n, counted from 1, comes 1 / n**exponent as often as the first."""
    sums = list(itertools.accumulate(1 / (rank + 1) ** exponent for rank in range(keys)))
    while True:
        yield bisect.bisect_left(sums, draw.random() * sums[-1])


def zipf(exponent):
    """Keys by Zipf's law, whose popularity never changes."""

    def keys(draw):
        return zipf_ranks(draw, exponent)

    return keys


def scans(draw):
    """Zipf 0.9; behind each 10,000 keys, 5,000 others follow that come only once, as in a backup or a report."""
    ranks, fresh = zipf_ranks(draw, 0.9), itertools.count(KEYS)
    while True:
        yield from itertools.islice(ranks, 10_000)
        yield from itertools.islice(fresh, 5_000)


def loop(_draw):
    """7,500 keys, one after the other, again and again."""
    return itertools.cycle(range(7_500))


def shifting(draw):
    """Zipf 0.9 whose popular keys change: behind each 20,000 keys every rank belongs to another key."""
    ranks = zipf_ranks(draw, 0.9)
    for shift in itertools.count():
        for rank in itertools.islice(ranks, 20_000):
            yield (rank + 7_919 * shift) % KEYS


def recent(draw):
    """New keys come all the time, one in three; the others were new not long ago: 300 keys ago on average."""
    newest = 0
    while True:
        if draw.random() < 1 / 3:
            newest += 1
            yield newest
        else:
            yield max(0, newest - int(draw.expovariate(1 / 300)))


TRACES = {
    "zipf-0.7": zipf(0.7),
    "zipf-0.8": zipf(0.8),
    "zipf-0.9": zipf(0.9),
    "zipf-1.0": zipf(1.0),
    "zipf-1.1": zipf(1.1),
    "scans": scans,
    "loop": loop,
    "shifting": shifting,
    "recent": recent,
}


def trace(name, accesses=ACCESSES):
    """The keys of a trace, in a list."""
    return list(itertools.islice(TRACES[name](random.Random(f"{SEED} {name}")), accesses))


def main():
    words = sys.argv[1:]
    if not words:
        for name, make in TRACES.items():
            about = f"Zipf's law with this exponent over {KEYS:,} keys." if name.startswith("zipf") else make.__doc__
            print(f"{name:9} {about}")
    elif words[0] in TRACES and len(words) <= 2 and all(word.isdigit() for word in words[1:]):
        print(*trace(words[0], *map(int, words[1:])), sep="\n")
    else:
        sys.exit(__doc__)


if __name__ == "__main__":
    main()
