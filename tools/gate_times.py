"""Runs the gate, and prints what it cost: minutes, processor minutes, what the host took away, processor seconds by crate.

usage: python3 tools/gate_times.py [--then FILE] [COMMAND ..]     without a command: rt ci

The command's output is passed on, except for its last line, which comes last here too. FILE is a program that runs after a command
that passed; if it fails, so does this. For a crate, `build` is its proof, `tests` the proof of its tests, `check` its must-fail
edits. Each process of the prover is sampled every two seconds; what it used after the last sample is not counted.
"""

import collections
import glob
import os
import resource
import subprocess
import sys
import threading
import time

ROOT = os.path.dirname(os.path.dirname(os.path.abspath(__file__)))
TICKS = os.sysconf("SC_CLK_TCK")


def stolen():
    """Processor seconds that the host has taken away since it started."""
    with open("/proc/stat") as file:
        return int(file.readline().split()[8]) / TICKS


def processes():
    """All processes: of each number the words, the parent, when it started, and the processor seconds that it has used."""
    found = {}
    for path in glob.glob("/proc/[0-9]*"):
        try:
            with open(path + "/cmdline", "rb") as file:
                words = file.read().decode(errors="replace").split("\0")
            with open(path + "/stat") as file:
                fields = file.read().rsplit(")", 1)[1].split()
        except OSError:
            continue
        seconds = (int(fields[11]) + int(fields[12])) / TICKS
        found[int(path.rsplit("/", 1)[1])] = (words, int(fields[1]), fields[19], seconds)
    return found


def is_below(found, number, above):
    """Whether a process was started by another, or by one that was."""
    while number in found:
        if number == above:
            return True
        number = found[number][1]
    return False


def seen(gate):
    """The prover's processes of the gate: for each its crate, and the processor seconds that it has used."""
    found = processes()
    for number, (words, _, began, seconds) in found.items():
        if "--crate-name" in words and "rattle" in words[0] and is_below(found, number, gate):
            kind = "tests" if "--test" in words else words[1]
            yield (number, began), (words[words.index("--crate-name") + 1], kind), seconds


def pass_on(output, last):
    """Prints each line but the last, which it leaves in a list."""
    for line in output:
        if last:
            print(last.pop(), end="", flush=True)
        last.append(line)


def main():
    words, then = sys.argv[1:], []
    if words[:1] == ["--then"] and len(words) > 1:
        then, words = words[1:2], words[2:]
    command = words or ["rt", "ci"]
    used, last = {}, []
    start, taken = time.time(), stolen()
    gate = subprocess.Popen(command, cwd=ROOT, stdout=subprocess.PIPE, stderr=subprocess.STDOUT, text=True, errors="replace")
    reader = threading.Thread(target=pass_on, args=(gate.stdout, last))
    reader.start()
    while gate.poll() is None:
        for process, crate, seconds in seen(gate.pid):
            used[process] = (crate, seconds)
        time.sleep(2)
    reader.join()
    children = resource.getrusage(resource.RUSAGE_CHILDREN)
    print(f"{(time.time() - start) / 60:.1f} minutes, {(children.ru_utime + children.ru_stime) / 60:.0f} processor minutes, {(stolen() - taken) / 60:.1f} stolen")
    sums = collections.Counter()
    for crate, seconds in used.values():
        sums[crate] += seconds
    for (crate, kind), seconds in sums.most_common():
        if seconds >= 20:
            print(f"{seconds:6.0f} {kind:6} {crate}")
    status = gate.returncode
    sys.stdout.flush()
    if then and status == 0:
        status = subprocess.run(then, cwd=ROOT, stdin=subprocess.DEVNULL, check=False).returncode
    print(*last, sep="", end="", flush=True)
    sys.exit(status)


if __name__ == "__main__":
    main()
