#!/usr/bin/env python3
"""Times the proved `transcript audit` at reading a journal of a million steps.

Build it first: in crates/transcript, `rt run` leaves the program at out/transcript. The script makes its own journal, the same each time:
half a million records that feed two lines each, followed by two steps. Its first record breaks a rule, so that the judge says so at once,
and what is timed is the reading. Then one line in the middle is corrupted, and the error has to name it. Prints the seconds of the best of
three runs.
"""
import pathlib
import subprocess
import sys
import tempfile
import time

import figures
import progress

RECORDS = 500_000
LIMIT_SECONDS = 10.0
PROGRAM = pathlib.Path(__file__).resolve().parent.parent / "crates/transcript/out/transcript"
HEAD = b"config capacity=1000000 policy=lru parts=4 weight=one live_ms=- idle_ms=- deadlines=0\nmade 0\n"


def make_journal():
    """The lines of the journal."""
    lines = [HEAD, b"close 9\n"]
    for number in range(RECORDS):
        key, value = b"key-%012d" % (number % 1000), b"value-%026d" % number
        write, read = b"SET " + key + b" - " + value, b"GET " + key
        piece = (write + b"\n" + read + b"\n").hex().encode()
        lines.append(b"feed 1 %d x%s\n" % (number, piece))
        lines.append(b"step 1 run x%s x4f4b0a - %d\n" % (write.hex().encode(), number % 4))
        lines.append(b"step 1 run x%s x%s - -\n" % (read.hex().encode(), (b"VAL " + value + b"\n").hex().encode()))
    return lines


def run_once(path, status, shown):
    """The seconds of one run over a file, and what it printed."""
    progress.show(shown)
    with open(path, "rb") as source:
        start = time.perf_counter()
        done = subprocess.run([PROGRAM, "audit"], stdin=source, capture_output=True)
        seconds = time.perf_counter() - start
    if done.returncode != status:
        sys.exit(f"status {done.returncode}: {done.stderr.decode()}")
    return seconds, done.stdout + done.stderr


def main():
    progress.show("making the journal")
    lines = make_journal()
    with tempfile.TemporaryDirectory() as folder:
        path = pathlib.Path(folder, "journal")
        path.write_bytes(b"".join(lines))
        size = path.stat().st_size
        runs = [run_once(path, 3, f"run {number + 1} of 3") for number in range(3)]
        if any(printed != b"verdict breaks 1\n" for _, printed in runs):
            sys.exit(f"printed {runs[0][1]!r}")
        middle = len(lines) // 2
        lines[middle] = lines[middle].replace(b" ", b"  ", 1)
        path.write_bytes(b"".join(lines))
        _, printed = run_once(path, 1, "a spoilt line")
        if printed != b"transcript: bad input, line %d\n" % (middle + 2):
            sys.exit(f"printed {printed!r}")
    progress.clear()
    best = min(seconds for seconds, _ in runs)
    figures.keep("reading", {"a million steps": {"seconds": round(best, 1), "megabytes": round(size / 1e6)}})
    print(f"{2 * RECORDS} steps, {size / 1e6:.0f} MB, read in {best:.2f} s (at most {LIMIT_SECONDS} s wanted)")
    sys.exit(best > LIMIT_SECONDS)


if __name__ == "__main__":
    main()
