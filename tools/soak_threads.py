#!/usr/bin/env python3
"""Lets threads mix all calls on small shared caches of short lives, and checks that each value is told once.

    python3 tools/soak_threads.py [--threads N] [--seconds N] [--limit N] [--program PATH]

It runs rounds of `bench sync soak` (benches/work/README.md) until 60 seconds are over, or as many as --seconds says. The rounds
go through SHAPES: capacities, and how many keys there are. A round fails where a value that a cache accepted was told twice or
never, where one that it did not accept was told, where a call was refused, and where it has not ended after --limit seconds, 300
where none are given.

It runs the program that benches/build.py builds, or the one that --program names. A line tells what the rounds came to. The status
is 1 where one failed.
"""
import argparse
import itertools
import pathlib
import re
import subprocess
import sys
import time

ROOT = pathlib.Path(__file__).resolve().parent.parent
sys.path.insert(0, str(ROOT / "benches"))
import build  # noqa: E402
import progress  # noqa: E402

SHAPES = [(100, 1000), (20, 60), (1000, 5000), (3, 10), (1, 1)]
CALLS = 20_000
# A round goes through eight caches: TinyLFU and LRU, of one segment and of four, of one shard and of four.
CACHES = 8
RIGHT = re.compile(r"(\d+) values, each told once\n")


def values_of(words, limit):
    """How many values were accepted in a round, and None; or 0, and why it failed."""
    try:
        ran = subprocess.run(words, capture_output=True, text=True, timeout=limit, check=False)
    except subprocess.TimeoutExpired:
        return 0, f"it has not ended after {limit} s"
    right = RIGHT.fullmatch(ran.stdout)
    if ran.returncode == 0 and right and int(right[1]) > 0:
        return int(right[1]), None
    return 0, f"status {ran.returncode}: {(ran.stdout + ran.stderr).strip()}"


def main():
    words = argparse.ArgumentParser(description=__doc__, formatter_class=argparse.RawDescriptionHelpFormatter, add_help=False)
    words.add_argument("-h", "--help", action="help", help=argparse.SUPPRESS)
    words.add_argument("--threads", type=int, default=8, help=argparse.SUPPRESS)
    words.add_argument("--seconds", type=int, default=60, help=argparse.SUPPRESS)
    words.add_argument("--limit", type=int, default=300, help=argparse.SUPPRESS)
    words.add_argument("--program", type=pathlib.Path, help=argparse.SUPPRESS)
    words = words.parse_args()
    program = words.program or build.bench()
    start = time.monotonic()
    rounds = values = failed = 0
    for size, keys in itertools.cycle(SHAPES):
        order = ["sync", "soak", words.threads, size, keys, CALLS]
        progress.show(f"round {rounds + 1}: {' '.join(map(str, order))}")
        accepted, cause = values_of([program, *map(str, order)], words.limit)
        rounds += 1
        values += accepted
        if cause:
            failed += 1
            progress.clear()
            print(f"{' '.join(map(str, order))}: {cause}", flush=True)
        if time.monotonic() - start >= words.seconds:
            break
    progress.clear()
    told = "each told once" if not failed else f"each told once but for {failed} rounds that failed"
    print(
        f"{words.threads} threads: {rounds} rounds, {rounds * CACHES * words.threads * CALLS} calls, {values} values accepted, {told}; "
        f"{time.monotonic() - start:.0f} s"
    )
    sys.exit(1 if failed else 0)


if __name__ == "__main__":
    main()
