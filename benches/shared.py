#!/usr/bin/env python3
"""Times a cache that threads share, under one lock and in 64 shards, beside the kit's `LruCache` under one lock and in 16 locked pieces, and
beside Caffeine: 1, 2 and 4 threads, 100,000 and 10,000 values, keys by Zipf's law, on a cache that was filled.

    python3 benches/shared.py             fills figures.json
    python3 benches/shared.py SIZE CALLS ROUNDS    the same of one size, printed and not kept

`mix`: nine look-ups and then a write, of as many keys as are held. `load`: look-ups of twice as many keys, and a write after each miss.
Processor time, time and sleeps are those of a run minus those
of one of the same round that draws the same keys, fills the same cache and makes no call; the loop is taken off the processor time. A
factor compares two runs of one round; medians over the rounds are printed, with the minimum and maximum factor. Caffeine, which warms
up first, is left out if its package is not there (caffeine/run.sh). The status is 1 if at 100,000 a mixed call of `Cache` takes more than
4 times as long as one of `LruCache`.
"""
import os
import pathlib
import statistics
import subprocess
import sys
import time

import build
import figures
import progress

CAFFEINE = pathlib.Path(__file__).resolve().parent / "caffeine/run.sh"
NO_PACKAGE = 3
CACHES = ["moka", "shards", "lru", "pieces"]
WORKS = ["mix", "load"]
THREADS = [1, 2, 4]
SIZES = [100_000, 10_000]
DRAWN = 1_000_000
CALLS = 1_000_000
ROUNDS = 3
BOUND = 4.0
# Caffeine's keys are drawn by the same law as those of benches/work.
EXPONENT = "1.0"


def spent_by(cache, work, threads, size, calls):
    """The processor seconds, seconds and sleeps of one run."""
    words = [build.bench(), "sync", cache, work, str(threads), str(size), str(DRAWN), str(calls)]
    progress.show(" ".join(words[1:6]))
    began = time.perf_counter()
    process = subprocess.Popen(words, stdout=subprocess.DEVNULL)
    _, status, usage = os.wait4(process.pid, 0)
    passed = time.perf_counter() - began
    process.returncode = os.waitstatus_to_exitcode(status)
    if process.returncode != 0:
        sys.exit(f"{words} ended with status {process.returncode}")
    return usage.ru_utime + usage.ru_stime, passed, usage.ru_nvcsw


def calls_by(cache, work, threads, size, calls):
    """The processor seconds, seconds and sleeps of the calls alone."""
    with_calls = spent_by(cache, work, threads, size, calls)
    without = spent_by(cache, work, threads, size, 0)
    return [much - little for much, little in zip(with_calls, without)]


def round_of(work, threads, size, calls):
    """By cache the processor nanoseconds a call, the million calls a second and the sleeps a call, of one round."""
    spent = {cache: calls_by(cache, work, threads, size, calls) for cache in ["loops", *CACHES]}
    made = threads * calls
    loop = spent.pop("loops")[0]
    return {
        cache: ((cpu - loop) / made * 1e9, made / max(seconds, 1e-9) / 1e6, sleeps / made)
        for cache, (cpu, seconds, sleeps) in spent.items()
    }


def by_caffeine(work, size, calls):
    """By number of threads what Caffeine takes; nothing if it is not there."""
    progress.show(f"Caffeine: {work} at {size:,}")
    words = [CAFFEINE, "threads", EXPONENT, work, size, calls, *THREADS]
    run = subprocess.run([str(word) for word in words], capture_output=True, text=True)
    if run.returncode == NO_PACKAGE:
        return {}
    run.check_returncode()
    rows = [line.split() for line in run.stdout.splitlines()]
    return {int(threads): {"caffeine": round(float(nanos)), "caffeine millions": round(float(millions), 1)} for threads, nanos, millions in rows}


def row_of(rounds):
    """The medians of rounds, and how many times `LruCache`'s time `Cache` takes."""
    row = {}
    for cache in CACHES:
        nanos, millions, sleeps = (statistics.median(each[cache][at] for each in rounds) for at in range(3))
        row |= {cache: round(nanos), f"{cache} millions": round(millions, 1), f"{cache} sleeps": round(sleeps, 2)}
    factors = sorted(each["moka"][0] / each["lru"][0] for each in rounds)
    return row | {"factor": figures.spread(factors, statistics.median(factors), 1)}


def print_row(name, row):
    progress.clear()
    shown = [f"{cache} {row[cache]} ns a call, {row[f'{cache} millions']} million calls a second" for cache in [*CACHES, "caffeine"] if cache in row]
    print(f"{name} threads: {'; '.join(shown)}; factor {row['factor'][0]}", flush=True)


def rows_of(size, calls, rounds):
    """By work, size and threads the figures, one after the other."""
    for work in WORKS:
        caffeine = by_caffeine(work, size, calls)
        for threads in THREADS:
            row = row_of([round_of(work, threads, size, calls) for _ in range(rounds)]) | caffeine.get(threads, {})
            name = f"{work} {size} {threads}"
            print_row(name, row)
            yield name, row


def main():
    words = sys.argv[1:]
    if len(words) == 3 and all(word.isdigit() for word in words):
        list(rows_of(*map(int, words)))
        return
    if words:
        sys.exit(__doc__)
    kept = {}
    for size in SIZES:
        for name, row in rows_of(size, CALLS, ROUNDS):
            kept[name] = row
            figures.keep("threads", {name: row})
    sys.exit(any(row["factor"][0] > BOUND for name, row in kept.items() if name.startswith(f"mix {SIZES[0]} ")))


if __name__ == "__main__":
    main()
