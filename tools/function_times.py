"""Runs a check in a crate's folder, and prints which functions' proofs cost most, in processor seconds.

usage: python3 tools/function_times.py [--most N] [COMMAND ..]     in the crate's folder; without a command: rt check --jobs 1

What `rt check` (or `rt test`, `rt lib`) keeps in out/incremental has a file for each part of a function's proof, written as soon as
that part is checked: `Lts` is the table of borrows, `Tie` and `Proof` are what automation found, `Answers` what the crate's own files
say. What was kept before is not checked again, so remove out/incremental first for a whole crate. The command has to work as one
process (`--jobs 1`). Its own output goes to out/times.log.
"""

import argparse
import bisect
import collections
import glob
import os
import re
import subprocess
import sys
import threading
import time

TICKS = os.sysconf("SC_CLK_TCK")
# The last word of a part's name, behind that of its function.
PART = re.compile(r"(?:\.Code)?\.(\w+?)(?:-[\w-]+)?(?:\.decls)?$")


def prover(folder):
    """Processor seconds of the prover that works in this folder; None if there is none."""
    for path in glob.glob("/proc/[0-9]*"):
        try:
            with open(path + "/cmdline", "rb") as file:
                words = file.read().split(b"\0")
            if b"--crate-name" in words and words[0].endswith(b"rattle") and os.readlink(path + "/cwd") == folder:
                with open(path + "/stat", encoding="ascii") as file:
                    fields = file.read().rsplit(")", 1)[1].split()
                return (int(fields[11]) + int(fields[12])) / TICKS
        except OSError:
            continue
    return None


def watch(folder, ended, seen):
    """Notes, from time to time, the time and what the prover has used."""
    before, past = 0.0, 0.0
    while not ended.wait(0.05):
        used = prover(folder)
        if used is not None:
            # (a process that begins anew counts from nothing)
            past, before = (past + before if used < before else past), used
            seen.append((time.time(), past + used))


def used_at(seen, moment):
    """What the prover had used at a moment."""
    place = bisect.bisect(seen, (moment,))
    return seen[min(place, len(seen) - 1)][1]


def parts(folder, begun):
    """The parts that were checked since, in order: when, of which function, and which part."""
    for path in glob.glob(f"{folder}/out/incremental/*/*.oantt"):
        written = os.stat(path).st_mtime
        if written >= begun:
            name = os.path.basename(path).removesuffix(".oantt").split("-", 2)[-1]
            part = PART.search(name)
            yield written, name[: part.start()] if part else name, part[1] if part else name


def main():
    words = argparse.ArgumentParser(description=__doc__, formatter_class=argparse.RawDescriptionHelpFormatter)
    words.add_argument("--most", type=int, default=40, help="how many functions are shown")
    words.add_argument("command", nargs=argparse.REMAINDER)
    words = words.parse_args()
    folder, begun, ended, seen = os.path.realpath("."), time.time(), threading.Event(), [(time.time(), 0.0)]
    os.makedirs("out", exist_ok=True)
    watcher = threading.Thread(target=watch, args=(folder, ended, seen))
    watcher.start()
    with open("out/times.log", "wb") as log:
        status = subprocess.run(words.command or ["rt", "check", "--jobs", "1"], stdout=log, stderr=log, check=False).returncode
    ended.set()
    watcher.join()
    by_function, by_part, before = collections.Counter(), collections.Counter(), 0.0
    for moment, function, part in sorted(parts(folder, begun)):
        used = used_at(seen, moment)
        by_function[function] += used - before
        by_part[part] += used - before
        before = used
    print(f"{seen[-1][1]:8.1f} processor seconds in all; the command ended with status {status}")
    for title, counted, most in ("part", by_part, 12), ("function", by_function, words.most):
        print(f"\n{'seconds':>8} {title}")
        for name, seconds in counted.most_common(most):
            print(f"{seconds:8.2f} {name}")
    sys.exit(status)


if __name__ == "__main__":
    main()
