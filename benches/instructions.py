#!/usr/bin/env python3
"""Counts the processor's instructions per line of `cached --script` and of `plain_server --script`, with valgrind's callgrind.

    python3 benches/instructions.py
    python3 benches/instructions.py calls

With `calls` it counts instead those per call of the cache of one part, loop and hash included, and those of a `get` and of a `get_with` that
finds its value, of the cache that threads share, without the loop: the difference of two runs that make 10 and 30 rounds of 1,000 calls, by
20,000. It builds that program itself (build.py).

120,000 lines, half SET, half GET, of keys drawn from 10,000, keys of 16 bytes, values of 32: the count of these minus that of the first
20,000, divided by 100,000. Both programs have to give the same replies. A count does not depend on what else runs, so one run of each is
enough.

Build both first: in crates/cached, `rt run` leaves the program at out/cached (CACHED names another one); in benches/plain_server,
`cargo build --release` leaves it at target/release/plain_server (PLAIN_SERVER names another one). valgrind has to be on the path.
"""
import os
import pathlib
import random
import re
import subprocess
import sys
import tempfile

import build
import figures
import progress

HERE = pathlib.Path(__file__).resolve().parent
PROGRAMS = {
    "cached": os.environ.get("CACHED", HERE.parent / "crates/cached/out/cached"),
    "plain_server": os.environ.get("PLAIN_SERVER", HERE / "plain_server/target/release/plain_server"),
}
LINES, FIRST, KEYS = 120_000, 20_000, 10_000
# By the name of a call the words of a run, in which {} is how many rounds of a thousand calls it makes.
ENGINE = {
    "look-up": "engine tiny_lfu gets zipf 1000 1000 {}",
    "overwrite": "engine lru writes uniform 1000 1000 {}",
    "insert that evicts": "engine lru inserts uniform 1000 1000 {}",
}
SHARED = {name: "sync " + words + " 1 1000 1000 {}000" for name, words in
          {"get": "moka gets", "get_with": "moka fetches", "the loop": "loops gets"}.items()}
ROUNDS = 10, 30


def make_lines():
    """The lines, the same each time."""
    draw = random.Random(7)
    for number in range(LINES):
        key = b"key-%012d" % draw.randrange(KEYS)
        if number % 2 == 0:
            yield b"SET " + key + b" - value-%026d\n" % number
        else:
            yield b"GET " + key + b"\n"


def count(words, source, folder):
    """The instructions that a program takes, and what it writes, where it reads these bytes."""
    words = ["valgrind", "--tool=callgrind", f"--callgrind-out-file={folder}/profile", *words]
    log = pathlib.Path(folder, "log")
    with open(log, "wb") as errors:
        run = subprocess.run(words, input=source, stdout=subprocess.PIPE, stderr=errors, check=True)
    # The program's own notes stand in the log too: the line of valgrind is the last of its kind.
    found = re.findall(rb"^==\d+== Collected : (\d+)", log.read_bytes(), re.MULTILINE)
    return int(found[-1]), run.stdout


def count_call(words, folder):
    """The instructions of one call of the runs with these words."""
    progress.show(words)
    few, many = (count([build.bench(), *words.format(rounds).split()], b"", folder)[0] for rounds in ROUNDS)
    progress.clear()
    return (many - few) / ((ROUNDS[1] - ROUNDS[0]) * 1000)


def main_of_calls():
    with tempfile.TemporaryDirectory() as folder:
        counts = {name: count_call(words, folder) for name, words in ENGINE.items()}
        shared = {name: count_call(words, folder) for name, words in SHARED.items()}
    counts |= {f"shared {name}": shared[name] - shared["the loop"] for name in ("get", "get_with")}
    for name, counted in counts.items():
        print(f"{name:18} {counted:6.0f} instructions")
    figures.keep("instructions_of_calls", {name: {"instructions": round(counted)} for name, counted in counts.items()})
    print(f"a shared get_with takes {counts['shared get_with'] / counts['shared get']:.2f} times what a get takes")


def main():
    lines, counts, replies = list(make_lines()), {}, {}
    with tempfile.TemporaryDirectory() as folder:
        for name, program in PROGRAMS.items():
            progress.show(f"{name}: the first {FIRST:,} lines")
            before, _ = count([program, "--script"], b"".join(lines[:FIRST]), folder)
            progress.show(f"{name}: all {LINES:,} lines")
            after, replies[name] = count([program, "--script"], b"".join(lines), folder)
            counts[name] = (after - before) / (LINES - FIRST)
            progress.clear()
            print(f"{name:12} {counts[name]:7.0f} instructions a line", flush=True)
    if replies["cached"] != replies["plain_server"]:
        sys.exit("the replies differ")
    figures.keep("instructions", {"a line": {name: round(counted) for name, counted in counts.items()}})
    print(f"{'':12} {counts['cached'] / counts['plain_server']:7.2f} times; the replies are the same")


if __name__ == "__main__":
    main_of_calls() if sys.argv[1:] == ["calls"] else main()
