#!/usr/bin/env python3
"""transcripts.py [STEPS [KEYS [CAPACITY [mixed | dropping | connections | loads | waiting]]]]: how long `transcript audit` takes to judge a transcript of this many steps over this many keys.

It makes the transcript itself, the same each time: one connection that is fed one line per record, first a `SET` for each key and then a
`SET`, a `GET` or, one in a thousand, a `SYNC`, answered as by a service that holds the last value of each key and reports each older one
when it is replaced. A capacity has to be at least as large as the number of keys, so that nothing has to be evicted. With `mixed`, two in
three of the `SYNC` are a `DROPIF` of a prefix drawn from a thousand, and a `KEYS`; what is covered is reported once its key is written
again. With `dropping`, one in ten lines is a `DROPIF` of one key's whole name. The verdict has to be `yes`.

With `connections`, as many connections are open as there are keys, and each line comes over a random one. With `loads`, each of them waits
with a `LOAD` of its own key; one after another, at random, is answered that there is no value, and asks again. With `waiting`, all of them
wait for one load and close, in random order, and as many others come.

Build the program first: in crates/transcript, `rt run` leaves it at out/transcript.
"""
import pathlib
import random
import resource
import subprocess
import sys

import figures
import progress

PROGRAM = pathlib.Path(__file__).resolve().parent.parent / "crates/transcript/out/transcript"
LIMIT_SECONDS = 600


def hexed(text):
    return "x" + text.encode().hex()


def rare_line(turn, draw, keys, held, covered):
    """One of the lines that come once in a thousand, and its reply."""
    if turn % 3 == 1:
        prefix = f"key{draw.randrange(keys):05}"[: draw.randrange(5, 8)]
        covered.update(key for key in held if key.startswith(prefix))
        return f"DROPIF {prefix}", "OK\n"
    if turn % 3 == 2:
        live = sorted(key for key in held if key not in covered)
        return "KEYS", "".join(f"{line}\n" for line in [f"KEYS {len(live)}"] + live)
    return "SYNC", f"SYNC {len(held)} {len(held)}\n"


def asked(conn, key, number, load):
    """A connection asks for a key, and waits."""
    line = f"LOAD key{key:05}"
    yield f"feed {conn} {number} {hexed(line + chr(10))}"
    yield f"step {conn} run {hexed(line)} - {load} -"


def loads_of(steps, keys):
    """Each connection waits for a load of its own."""
    draw = random.Random(1)
    for conn in range(1, keys + 1):
        yield f"open {conn}"
    waits = {}
    for conn in range(1, keys + 1):
        waits[conn] = conn
        yield from asked(conn, conn, conn, conn)
    sent = keys
    for number in range(keys, steps, 2):
        conn = draw.randrange(keys) + 1
        yield f"answer {waits[conn]} {number} none"
        yield f"step {conn} run {hexed(f'LOAD key{conn:05}')} {hexed('NONE' + chr(10))} - -"
        sent += 1
        waits[conn] = sent
        yield from asked(conn, conn, number + 1, sent)
    for conn in range(1, keys + 1):
        yield f"close {conn}"


def waiting_of(steps, keys):
    """All connections wait for one load, and close."""
    draw = random.Random(1)
    for first in range(1, steps + 1, keys):
        conns = list(range(first, first + keys))
        for conn in conns:
            yield f"open {conn}"
        for conn in conns:
            yield from asked(conn, 0, conn, "1" if conn == 1 else "-")
        draw.shuffle(conns)
        for conn in conns:
            yield f"close {conn}"


def lines_of(steps, keys, capacity, kinds):
    """The lines of the transcript."""
    yield f"config capacity={capacity} policy=lru parts=1 weight=one live_ms=- idle_ms=- deadlines=0"
    yield "made 0"
    if kinds == "loads":
        yield from loads_of(steps, keys)
    elif kinds == "waiting":
        yield from waiting_of(steps, keys)
    else:
        yield from values_of(steps, keys, kinds)


def values_of(steps, keys, kinds):
    """Values written and read."""
    draw = random.Random(1)
    held, covered, turn = {}, set(), 0
    conns = keys if kinds == "connections" else 1
    for conn in range(1, conns + 1):
        yield f"open {conn}"
    for number in range(steps):
        conn = draw.randrange(conns) + 1 if conns > 1 else 1
        key = f"key{number if number < keys else draw.randrange(keys):05}"
        kind = 0 if number < keys else draw.randrange(1000)
        note, part = None, "-"
        if kind < 500:
            line, reply, part = f"SET {key} - {number}", "OK\n", "0"
            if key in held:
                cause = "Explicit" if key in covered else "Replaced"
                note = f"note {cause} {hexed(key)} {hexed(held[key])}"
            held[key] = str(number)
            covered.discard(key)
        elif kinds == "dropping" and kind >= 900:
            covered.update({key} & held.keys())
            line, reply = f"DROPIF {key}", "OK\n"
        elif kind < 999:
            line, reply = f"GET {key}", "NONE\n" if key in covered else f"VAL {held[key]}\n"
        else:
            line, reply = rare_line(turn if kinds == "mixed" else 0, draw, keys, held, covered)
            turn += 1
        yield f"feed {conn} {number} {hexed(line + chr(10))}"
        yield f"step {conn} run {hexed(line)} {hexed(reply)} - {part}"
        if note:
            yield note
    for conn in range(1, conns + 1):
        yield f"close {conn}"


def main():
    words = sys.argv[1:] + ["1000000", "10000", "-"][len(sys.argv) - 1 :]
    steps, keys, capacity, kinds = int(words[0]), int(words[1]), words[2], " ".join(words[3:])
    progress.show("making the transcript")
    text = ("\n".join(lines_of(steps, keys, capacity, kinds)) + "\n").encode()
    progress.show("judging it")
    run = subprocess.run([PROGRAM, "audit"], input=text, capture_output=True, timeout=LIMIT_SECONDS)
    progress.clear()
    if run.stdout != b"verdict yes\n" or run.returncode != 0:
        sys.exit(f"wrong verdict: {run.stdout[:100]} {run.stderr[:100]}")
    used = resource.getrusage(resource.RUSAGE_CHILDREN)
    figures.keep("judge", {" ".join(words): {"seconds": round(used.ru_utime + used.ru_stime, 1)}})
    print(
        f"{steps} steps over {keys} keys, capacity {capacity}{', ' + kinds if kinds else ''}, {len(text) / 1e6:.1f} MB: "
        f"processor {used.ru_utime + used.ru_stime:.2f} s, at most {used.ru_maxrss / 1024:.0f} MB"
    )


if __name__ == "__main__":
    main()
