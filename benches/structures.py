#!/usr/bin/env python3
"""Counts what the cache of one part is made of beside the kit's crates of the same use: processor instructions, and bytes in memory.

    python3 benches/structures.py

Keys by their hashes: the engine's table with its slab of cells, and `IndexMap`, both with one hasher, numbers under numbers. Values in
places: the engine's slab of cells, and `slab`. Operations that wait until a run takes all of them, 64 at a time: a `Vec`, as in the
engine, and `circular_buffer`. A call is on an element drawn by a fixed rule; a swap removes it, and inserts it again. Instructions are
those of a run less those of a run that only builds the structure, by valgrind's callgrind, so they do not depend on what else runs; bytes are
the most that are resident less those of a run with one element, over the number of elements. Both of a pair have to come to the same.

valgrind and GNU time have to be on the path.
"""
import re
import subprocess
import sys
import tempfile

import build
import figures
import progress

# What is compared: the engine's, and the kit's.
PAIRS = [("keys", "index_map"), ("cell_slab", "slab"), ("vec", "circular_buffer")]
SIZE, ROUNDS, HELD = 10_000, 50_000, 1_000_000
# How many operations wait, and how often all are taken.
WAITING, TAKEN = 64, 2_000


def words_of(which, work, size, rounds):
    """The words of one run."""
    return [build.bench(), "structures", which, work, str(size), str(rounds)]


def counted(which, work, size, rounds):
    """The instructions of one run, and what it came to."""
    progress.show(f"{which}: {work}, {rounds:,} rounds")
    with tempfile.TemporaryDirectory() as folder:
        tool = ["valgrind", "--tool=callgrind", f"--callgrind-out-file={folder}/profile"]
        ran = subprocess.run(tool + words_of(which, work, size, rounds), capture_output=True, text=True, check=True)
    progress.clear()
    return int(re.findall(r"^==\d+== Collected : (\d+)", ran.stderr, re.MULTILINE)[-1]), ran.stdout


def instructions_of(which, work, size, rounds, calls):
    """The instructions of one call, and what all came to."""
    built, _ = counted(which, work, size, 0)
    made, said = counted(which, work, size, rounds)
    return (made - built) / calls, said


def resident_of(which, size):
    """The most bytes that one run had resident, which only builds the structure."""
    words = ["/usr/bin/time", "-f", "%M"] + words_of(which, "finds", size, 0)
    return int(subprocess.run(words, capture_output=True, text=True, check=True).stderr.split()[-1]) * 1024


def compared(pair, name, work, size, rounds, calls):
    """Keeps the instructions of one call of both; the status is 1 if they come to different sums."""
    said = set()
    for which in pair:
        made, came = instructions_of(which, work, size, rounds, calls)
        said.add(came)
        figures.keep("structures", {which: {name: round(made)}})
        print(f"{which:15} {name}: {made:.0f} instructions", flush=True)
    if len(said) != 1:
        sys.exit(f"{pair} come to different sums")


def main():
    for pair in PAIRS[:2]:
        compared(pair, "find", "finds", SIZE, ROUNDS, ROUNDS)
        compared(pair, "swap", "swaps", SIZE, ROUNDS, ROUNDS)
        for which in pair:
            taken = (resident_of(which, HELD) - resident_of(which, 1)) / HELD
            figures.keep("structures", {which: {"bytes": round(taken)}})
            print(f"{which:15} {taken:.0f} bytes an element, of {HELD:,}", flush=True)
    compared(PAIRS[2], "swap", "swaps", WAITING, TAKEN, WAITING * TAKEN)


if __name__ == "__main__":
    main()
