#!/usr/bin/env python3
"""Times the proved `cached --script` on a million lines: half SET, half GET, keys of 16 bytes, values of 32, and a SYNC after each thousand.

Build it first: in crates/cached, `rt run` leaves the program at out/cached. The script makes its own input, the same each time, compares
each reply with a dictionary, and prints the median of five runs' processor seconds, with minimum and maximum. The status is 1 if the
median is above a second.
"""
import os
import pathlib
import random
import statistics
import subprocess
import sys
import tempfile

import figures
import progress

LINES = 1_000_000
KEYS = 100_000
SYNC_EACH = 1_000
RUNS = 5
LIMIT_SECONDS = 1.0
PROGRAM = pathlib.Path(__file__).resolve().parent.parent / "crates/cached/out/cached"


def make_lines():
    """The input, and the replies to it."""
    draw = random.Random(7)
    held = {}
    lines, replies = [], []
    for number in range(LINES):
        key = b"key-%012d" % draw.randrange(KEYS)
        if number % 2 == 0:
            value = b"value-%026d" % number
            held[key] = value
            lines.append(b"SET " + key + b" - " + value + b"\n")
            replies.append(b"OK\n")
        else:
            lines.append(b"GET " + key + b"\n")
            replies.append(b"VAL " + held[key] + b"\n" if key in held else b"NONE\n")
        if number % SYNC_EACH == SYNC_EACH - 1:
            lines.append(b"SYNC\n")
            replies.append(b"SYNC %d %d\n" % (len(held), len(held)))
    return b"".join(lines), b"".join(replies)


def run_once(number, input_path, output_path):
    """The processor seconds of one run from a file to a file."""
    progress.show(f"run {number + 1} of {RUNS}")
    with open(input_path, "rb") as source, open(output_path, "wb") as sink:
        before = os.times()
        subprocess.run([PROGRAM, "--script"], stdin=source, stdout=sink, stderr=subprocess.DEVNULL, check=True)
        after = os.times()
    return after.children_user + after.children_system - before.children_user - before.children_system


def main():
    progress.show("making the lines")
    text, replies = make_lines()
    with tempfile.TemporaryDirectory() as folder:
        input_path, output_path = pathlib.Path(folder, "input"), pathlib.Path(folder, "output")
        input_path.write_bytes(text)
        spent = [run_once(number, input_path, output_path) for number in range(RUNS)]
        progress.clear()
        if output_path.read_bytes() != replies:
            sys.exit("wrong replies")
    median = statistics.median(spent)
    figures.keep("million_lines", {"a million lines": {"seconds": figures.spread(spent, median)}})
    print(f"{LINES} lines in {median:.2f} s of processor time ({min(spent):.2f} to {max(spent):.2f}; at most {LIMIT_SECONDS} s wanted)")
    sys.exit(median > LIMIT_SECONDS)


if __name__ == "__main__":
    main()
