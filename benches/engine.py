#!/usr/bin/env python3
"""Times the cache of one part compared with the kit's `LruCache`: look-ups, overwrites, inserts above the capacity, and memory per value.

Each time is the difference of two runs of one round, in
processor time; the second run fills the same cache, draws the keys in the same way and goes through them without a call. A factor
compares runs of one round; what is printed are medians over the rounds, and the minimum and maximum factor. Memory is the peak resident
size of a run, minus that of a run of one value.
It needs GNU `time`. If Debian's packages are there (caffeine/run.sh), Caffeine's calls are timed too, with keys by Zipf's law as here.
Figures go into figures.json. CORE in the environment is the number of a core on which all runs are pinned. `engine.py SIZE..` takes
these sizes in place of 1,000, 100,000 and 1,000,000. The status is 1 if at 100,000 a look-up takes more than 4 times as long as that of
`LruCache`, an insert more than 3 times as long as its `put`, or a value more than 260 bytes in addition to key and value, with the space
allocated in advance.

`engine.py longest` prints instead how long the longest of five million calls takes, after the cache is full: of each call the least
processor time of three rounds that make the same calls. The status is 1 if one takes longer than the goals.
"""
import os
import pathlib
import statistics
import subprocess
import sys

import build
import figures
import progress

CACHES = ["tiny_lfu", "lru_cache"]
WORKS = ["gets", "writes", "fetches"]
SIZES = [1_000, 100_000, 1_000_000]
DRAWN = 1_000_000
PASSES = 2
ROUNDS = 5
PAIR_BYTES = 16
CAFFEINE = pathlib.Path(__file__).resolve().parent / "caffeine/run.sh"
NO_PACKAGE = 3
WORKS_OF = {"get": "gets", "put": "writes", "fetch": "fetches"}
GET_BOUND = 4.0
INSERT_BOUND = 3.0
BYTES_BOUND = 260
LEAST_WEIGHED = 100_000
# How long the longest call may take, in milliseconds, by the number of values.
LONGEST = {10_000: 0.3, 900_000: 2.0}
LONGEST_KINDS = [("tiny_lfu", "gets", "zipf"), ("tiny_lfu", "writes", "uniform"), ("lru", "inserts", "uniform"), ("tiny_lfu", "inserts", "uniform")]
LONGEST_CALLS = 5_000_000
LONGEST_ROUNDS = 3


def words_of(cache, work, draws, size, drawn, passes):
    """The words of one run."""
    return [build.bench(), "engine", cache, work, draws, str(size), str(drawn), str(passes)]


def spent_by(*kind):
    """The processor seconds of one run."""
    process = subprocess.Popen(words_of(*kind), stdout=subprocess.DEVNULL)
    _, status, usage = os.wait4(process.pid, 0)
    process.returncode = os.waitstatus_to_exitcode(status)
    if process.returncode != 0:
        sys.exit(f"{kind} ended with status {process.returncode}")
    return usage.ru_utime + usage.ru_stime


def resident_of(*kind):
    """The most bytes that one run had resident. GNU `time` starts it: a child of this script begins with what Python has."""
    words = ["/usr/bin/time", "-f", "%M"] + words_of(*kind)
    return int(subprocess.run(words, capture_output=True, text=True, check=True).stderr.split()[-1]) * 1024


def kinds_of_round():
    """The runs of one round: cache, work and draws."""
    kinds = [(cache, work, draws) for draws in ["uniform", "zipf"] for work in ["loops"] + WORKS for cache in CACHES]
    kinds += [(cache, "inserts", "uniform") for cache in CACHES] + [("lru", work, "uniform") for work in ["loops", "inserts"]]
    return kinds


def timed(kind, size, number):
    """The processor seconds of one run of a round."""
    progress.show(f"{size:,}, round {number + 1} of {ROUNDS}: {' '.join(kind)}")
    return spent_by(*kind, size, DRAWN, PASSES)


def round_of(size, number):
    """By cache, work and draws the nanoseconds of a call, and how many times `LruCache`'s that is, in one round."""
    spent = {kind: timed(kind, size, number) for kind in kinds_of_round()}
    nanos = {(cache, work, draws): (seconds - spent[cache, "loops", draws]) / (DRAWN * PASSES) * 1e9
             for (cache, work, draws), seconds in spent.items() if work != "loops"}
    factors = {(cache, work, draws): once / nanos["lru_cache", work, draws] for (cache, work, draws), once in nanos.items()}
    return nanos, factors


def print_times(size):
    """Prints what the calls take at a size, and answers by work and draws how many times `LruCache`'s the engine's take: medians over the rounds."""
    rounds = [round_of(size, number) for number in range(ROUNDS)]
    progress.clear()
    medians, kept = {}, {}
    for kind in rounds[0][0]:
        once = statistics.median(nanos[kind] for nanos, _ in rounds)
        kept[f"{kind[0]} {kind[1]} {kind[2]}"] = round(once)
        factors = [factors[kind] for _, factors in rounds]
        medians[kind] = statistics.median(factors)
        cache, work, draws = kind
        print(f"{size:,}: {work} {draws}: {cache} {once:.0f} ns, {medians[kind]:.1f} times lru_cache ({min(factors):.1f} to {max(factors):.1f})", flush=True)
    figures.keep("calls", {str(size): kept})
    own = {" ".join(kind): round(factor, 1) for kind, factor in medians.items() if kind[0] in ("tiny_lfu", "lru")}
    figures.keep("factors", {str(size): own})
    return medians


def by_caffeine(*words):
    """The lines that Caffeine's program prints, each as its words; none where it is not there."""
    run = subprocess.run([CAFFEINE, *words], capture_output=True, text=True)
    if run.returncode == NO_PACKAGE:
        return []
    run.check_returncode()
    return [line.split() for line in run.stdout.splitlines()]


def print_caffeine(size):
    """Prints what Caffeine's calls take at a size, and what a value takes of its heap."""
    progress.show(f"{size:,}: Caffeine")
    kept = {}
    for _, work, median, least, greatest in by_caffeine("times", "1", str(size)):
        progress.clear()
        print(f"{size:,}: {work} zipf: caffeine {float(median):.0f} ns ({float(least):.0f} to {float(greatest):.0f})", flush=True)
        kept[f"caffeine {WORKS_OF[work]} zipf"] = round(float(median))
    for _, taken in by_caffeine("memory", str(size)) if size >= LEAST_WEIGHED else []:
        print(f"{size:,}: bytes a value above key and value: caffeine {taken}", flush=True)
        kept["caffeine bytes"] = int(taken)
    if kept:
        figures.keep("calls", {str(size): kept})


def bytes_a_value(cache, work, size):
    """The bytes that a value takes above its key and itself."""
    filled = resident_of(cache, work, "uniform", size, 0, 0)
    empty = resident_of(cache, work, "uniform", 1, 0, 0)
    return (filled - empty) / size - PAIR_BYTES


def print_bytes(size):
    """Prints what a value takes at a size, and answers what it takes of the engine where its space was made at once."""
    for work, making in [("grows", "grown"), ("loops", "made with its space")]:
        taken = {cache: bytes_a_value(cache, work, size) for cache in CACHES}
        words = ", ".join(f"{cache} {taken[cache]:.0f}" for cache in CACHES)
        figures.keep("calls", {str(size): {f"{cache} bytes": round(taken[cache]) for cache in CACHES}})
        print(f"{size:,}: bytes a value above key and value, {making}: {words}", flush=True)
    return taken["tiny_lfu"]


def longest_of(kind, size):
    """The milliseconds of the longest call of a kind at a size."""
    words = [build.bench(), "longest", *kind, str(size), str(LONGEST_CALLS), str(LONGEST_ROUNDS)]
    return int(subprocess.run(words, capture_output=True, text=True, check=True).stdout) / 1e6


def print_longest():
    """Prints the longest calls, and answers whether none takes longer than the goals."""
    are_met = True
    for size, goal in LONGEST.items():
        for kind in LONGEST_KINDS:
            longest = longest_of(kind, size)
            are_met = are_met and longest <= goal
            figures.keep("longest", {str(size): {" ".join(kind[:2]): round(longest, 3)}})
            print(f"{size:,}: {' '.join(kind)}: {longest:.3f} ms (goal {goal})", flush=True)
    return are_met


def main():
    are_met = True
    if "CORE" in os.environ:
        os.sched_setaffinity(0, {int(os.environ["CORE"])})
    if sys.argv[1:] == ["longest"]:
        sys.exit(not print_longest())
    for size in [int(word) for word in sys.argv[1:]] or SIZES:
        factors = print_times(size)
        print_caffeine(size)
        taken = print_bytes(size) if size >= LEAST_WEIGHED else 0
        if size == 100_000:
            looked_up = max(factors["tiny_lfu", "gets", draws] for draws in ["uniform", "zipf"])
            inserted = max(factors[cache, "inserts", "uniform"] for cache in ["tiny_lfu", "lru"])
            are_met = looked_up <= GET_BOUND and inserted <= INSERT_BOUND and taken <= BYTES_BOUND
    sys.exit(not are_met)


if __name__ == "__main__":
    main()
